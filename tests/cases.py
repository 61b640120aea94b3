"""What the Python tests share: tools as modules, a comparison, and the count of the tests."""
import importlib.machinery
import importlib.util
import pathlib
import sys
import traceback

ROOT = pathlib.Path(__file__).resolve().parent.parent
SEED = 6954


def load(name):
    """A tool as a module."""
    loader = importlib.machinery.SourceFileLoader(name, str(ROOT / "tools" / name))
    module = importlib.util.module_from_spec(importlib.util.spec_from_loader(name, loader))
    loader.exec_module(module)
    return module


def same(got, want, of=""):
    if got != want:
        raise AssertionError("%s\n  got  %r\n  want %r" % (of, got, want))


def count(named):
    """Runs each test of a module's names; the last line counts them, and the status is 1 where one failed."""
    print("seed %d" % SEED)
    passed = failed = 0
    for name, test in list(named.items()):
        if name.startswith("test_"):
            try:
                test()
                passed += 1
                print("ok: " + name[5:].replace("_", " "))
            except Exception:
                failed += 1
                print("FAILED: " + name[5:].replace("_", " "))
                traceback.print_exc(file=sys.stdout)
    print("%d passed, %d failed" % (passed, failed))
    sys.exit(failed > 0)
