#!/usr/bin/env python3
"""Respells the repository's own definitions, lemmas and fields in .antt files and in the clauses of .rt files: words in snake case.

usage: tools/respell.py [--list]      at the top of the repository, once, after the kit's port.py. --list prints the table and writes nothing

What the files of specs/ and the lemma files of proofs/ declare is respelled wherever it stands whole: a dash becomes an underscore, a capital inside a word that
begins with a small letter an underscore and the small letter. Functions of src/, strings, must-fail edits and pages are left as they are, and so is a name that a
file brings from the kit. Where a definition and a lemma fall together the lemma's name ends in _lem.
"""
import collections
import glob
import os
import re
import sys

WORD = re.compile(r"[^\s(){}.;,@\"«»]+")
MODIFIERS = r"(?:(?:abbrev|unfoldable|pub|data|record)\s+)*"
DECL = re.compile(r"^(\s*)(" + MODIFIERS + r")((?:[^\s(){}.;,@\"«»:=]+\s+)*?[^\s(){}.;,@\"«»:=]+)\s+:\s")
RECORD = re.compile(r"^\s*(?:pub )?record\b")
IMPORT = re.compile(r"\buse\s+([\w.'◌-]+)\.\{([^}]*)\}")


def snake(name):
    name = name.replace("-", "_")
    if re.match(r"[a-z]", name):
        name = re.sub(r"(?<=[a-z0-9'])([A-Z]+)", lambda m: "_" + m.group(1).lower(), name)
    return name


def files(kinds):
    for kind in kinds:
        yield from sorted(glob.glob(f"crates/*/{kind}/**/*.antt", recursive=True))


def is_proof(path):
    return os.path.basename(path) == "Proof.antt"


def read(path):
    with open(path, encoding="utf-8") as f:
        return f.read()


def declared():
    """Each name with the files that declare it, as 'definition', 'field' or 'lemma'."""
    names = collections.defaultdict(set)
    for path in files(("specs", "proofs")):
        if is_proof(path):
            continue
        record = None
        for line in read(path).split("\n"):
            if not line.strip() or line.lstrip().startswith(("--", "use ", "pub use")):
                continue
            m = DECL.match(line)
            indent = len(line) - len(line.lstrip())
            if record is not None and indent <= record:
                record = None
            if m:
                if record is not None:
                    kind = "field"
                elif "/specs/" in path or "abbrev" in m.group(2) or "unfoldable" in m.group(2):
                    kind = "definition"
                else:
                    kind = "lemma"
                for n in m.group(3).split():
                    names[n].add((path, kind))
            if RECORD.match(line):
                record = indent
    return names


def kits():
    """The names that files bring from libraries of the kit."""
    names = set()
    own = {line.split(":")[0].split()[0] for line in read("crates.txt").split("\n") if re.match(r"\w+.*:", line)}
    for path in list(files(("specs", "proofs"))) + glob.glob("crates/*/src/*.rt"):
        for m in IMPORT.finditer(read(path)):
            part = m.group(1).split(".")
            if not (part[0] == "Rattle" and len(part) > 1 and part[1] in own):
                for n in m.group(2).split(","):
                    names.add(n.strip().split(" as ")[0])
    return names


def tables():
    names, brought = declared(), kits()
    kinds = {n: {k for _, k in v} for n, v in names.items()}
    plain = {}
    for n in names:
        if snake(n) != n and n not in brought:
            plain[n] = snake(n)
    back = collections.defaultdict(list)
    for old, new in plain.items():
        back[new].append(old)
    suffixed = {}
    for new, olds in back.items():
        there = list(olds) + ([new] if new in names else [])
        if len(there) < 2:
            continue
        # the definition keeps the name; fields are no items
        for old in there:
            if "lemma" in kinds[old] and any("definition" in kinds[o] for o in there if o != old):
                suffixed[old] = new + "_lem"
                plain.pop(old, None)
    return plain, suffixed, kinds


def turned(text, plain, suffixed, kinds, proof):
    out, at = [], 0
    for m in WORD.finditer(text):
        word, before = m.group(0), text[m.start() - 1 : m.start()]
        new = None
        if before == ".":
            if "field" in kinds.get(word, ()):
                new = plain.get(word) or (snake(word) if word in suffixed else None)
        elif word in suffixed:
            after = text[m.end() : m.end() + 3]
            line = text[text.rfind("\n", 0, m.start()) + 1 : m.start()]
            is_field = "field" in kinds[word] and (
                (after.startswith(" =") and (re.search(r"[{;]\s*$", line) or not line.strip()))
                or (after.startswith(" :") and line.strip() == "pub" and line.startswith(" "))
            )
            new = snake(word) if is_field else suffixed[word]
        else:
            new = plain.get(word)
        if new is not None and new != word:
            out.append(text[at : m.start()] + new)
            at = m.end()
    return "".join(out) + text[at:]


STRING = re.compile(r'b?"(?:\\.|[^"\\])*"')
CLAUSE = re.compile(r"(?:\b(?:requires|ensures)\b\*?(?:\s+\w+)?\s*\{|\bghost\s+use\b|\bghost\b[^{;\n]*\{)")


def clauses(text, turn):
    """Turns the clauses and the ghost use items of Rattle source."""
    out, at = [], 0
    for m in CLAUSE.finditer(text):
        if m.start() < at:
            continue
        if m.group(0).startswith("ghost") and not m.group(0).endswith("{"):
            end = text.index(";", m.end())
        else:
            depth, end = 1, m.end()
            while depth:
                depth += {"{": 1, "}": -1}.get(text[end], 0)
                end += 1
        out.append(text[at : m.end()] + turn(text[m.end() : end]))
        at = end
    return "".join(out) + text[at:]


def code_only(text, turn):
    """Turns each line's code, and of its comment what stands in backquotes."""
    lines = []
    for line in text.split("\n"):
        k = re.search(r"(?:^|(?<=\s))--", line)
        code, comment = (line[: k.start()], line[k.start() :]) if k else (line, "")
        comment = re.sub(r"`[^`]*`", lambda m: turn(m.group(0)) if "::" not in m.group(0) else m.group(0), comment)
        lines.append(turn(code) + comment)
    return "\n".join(lines)


def main():
    plain, suffixed, kinds = tables()
    if "--list" in sys.argv:
        for old, new in sorted({**plain, **suffixed}.items()):
            print(old, new)
        return
    count = 0
    for path in files(("specs", "proofs")):
        text = read(path)
        # a lemma that gives way to a definition of its name does so where the file has that lemma
        here = {w: n for w, n in suffixed.items() if snake(w) != w or has_lemma(path, text, w)}
        new = code_only(text, lambda t: turned(t, plain, here, kinds, is_proof(path)))
        if new != text:
            with open(path, "w", encoding="utf-8") as f:
                f.write(new)
            count += 1
    for path in sorted(glob.glob("crates/*/src/*.rt")):
        text = read(path)
        new = clauses(text, lambda t: turned(t, plain, {}, kinds, False))
        if new != text:
            with open(path, "w", encoding="utf-8") as f:
                f.write(new)
            count += 1
    print(f"respell: {len(plain) + len(suffixed)} names, {count} files")


def has_lemma(path, text, word):
    for m in IMPORT.finditer(text):
        if ".proofs." in m.group(1) and word in [n.strip() for n in m.group(2).split(",")]:
            return True
    return bool(re.search(r"(?m)^\s*(?:pub )?" + re.escape(word) + r" :", text)) and "/specs/" not in path


if __name__ == "__main__":
    main()
