"""What pip makes the wheel of ratchetelm with: the package, and in it the shared library. It needs Python's standard library alone."""

import base64
import hashlib
import os
import pathlib
import re
import sys
import sysconfig
import zipfile

HERE = pathlib.Path(__file__).resolve().parent
PACKAGE = HERE / "ratchetelm"
NAME, FILE = "RATCHETELM_LIB", "libratchetelm.so"
VERSION = re.search(r'^__version__ = "(.*)"$', (PACKAGE / "__init__.py").read_text(encoding="utf-8"), re.M)[1]
INFO = f"ratchetelm-{VERSION}.dist-info"
METADATA = f"""\
Metadata-Version: 2.1
Name: ratchetelm
Version: {VERSION}
Summary: A bench double of a chain of MAX6954 LED drivers and MAX6957 port drivers, and of a bus of MAX6955, proved in Rattle
Requires-Python: >=3.9
"""


def library():
    """The shared library's bytes: from the folder that RATCHETELM_LIB names, else from the package itself or from target/lib."""
    named = os.environ.get(NAME)
    # pip runs this in the package's folder, and doesn't tell in which one RATCHETELM_LIB was set.
    if named and not os.path.isabs(named):
        sys.exit(f'{NAME} is {named}, a relative path: give pip an absolute one, as {NAME}="$PWD/{named}"')
    places = [pathlib.Path(named)] if named else [PACKAGE, HERE.parent / "target" / "lib"]
    for place in places:
        if (place / FILE).is_file():
            return (place / FILE).read_bytes()
    sys.exit(f"{places[-1] / FILE} isn't there: make lib makes it, and {NAME} may name another folder")


def record(path, content):
    """A wheel's line of a file."""
    digest = base64.urlsafe_b64encode(hashlib.sha256(content).digest()).decode().rstrip("=")
    return f"{path},sha256={digest},{len(content)}\n"


def wheel(folder, files):
    """Writes a wheel of these files, and gives its name. The same files give the same bytes."""
    tag = "py3-none-" + re.sub("[-.]", "_", sysconfig.get_platform())
    files = {**files, f"{INFO}/METADATA": METADATA.encode()}
    files[f"{INFO}/WHEEL"] = f"Wheel-Version: 1.0\nGenerator: ratchetelm\nRoot-Is-Purelib: false\nTag: {tag}\n".encode()
    files[f"{INFO}/RECORD"] = ("".join(record(*file) for file in files.items()) + f"{INFO}/RECORD,,\n").encode()
    name = f"ratchetelm-{VERSION}-{tag}.whl"
    with zipfile.ZipFile(pathlib.Path(folder) / name, "w", zipfile.ZIP_DEFLATED) as made:
        for path, content in files.items():
            entry = zipfile.ZipInfo(path)
            entry.compress_type, entry.external_attr = zipfile.ZIP_DEFLATED, 0o644 << 16
            made.writestr(entry, content)
    return name


def build_wheel(folder, config_settings=None, metadata_directory=None):
    """pip install ./python"""
    sources = sorted(PACKAGE.glob("*.py")) + [PACKAGE / "py.typed"]
    files = {f"ratchetelm/{path.name}": path.read_bytes() for path in sources}
    return wheel(folder, {**files, f"ratchetelm/{FILE}": library()})


def build_editable(folder, config_settings=None, metadata_directory=None):
    """pip install -e ./python: the package as it lies here, which finds the library itself."""
    return wheel(folder, {"ratchetelm.pth": f"{HERE}\n".encode()})
