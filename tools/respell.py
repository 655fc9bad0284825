#!/usr/bin/env python3
"""Brings the repository's own definitions and lemmas to the spelling of today's library: words in snake case, types and modules in camel case.

usage: python3 tools/respell.py [FOLDER]     rewrites crates/, README.md and docs/ of the folder in place
       python3 tools/respell.py --list       prints each old name and its new one, and changes nothing

Names that are declared in specs/ and proofs/ of a crate are respelled: definitions, lemmas, fields and constructors. Types, modules, Rust's own names and what the check makes stay.
A name that would fall together with another is reported, and nothing is written.
"""
import pathlib
import re
import sys

TOKEN = re.compile(r"[^\s(){}\[\].,;⌜⌝`\"]+")
DECLARED = re.compile(r"^\s*(?:(?:pub|abbrev|unfoldable|axiom)\s+)*([^\s(){}\[\].,;⌜⌝`\"]+)\s+:(?:\s|$)")
SKIPPED = {"use", "mod", "record", "data", "where", "unfolding", "let", "in", "elim"}
# A definition and a lemma, or a local name, that would fall together: the lemma gets `_lem`, a local name another.
SPECIAL = {"allPass": "each_passes", "byRank": "numbers_by_rank", "loadHere": "load_at_place", "noRoom": "no_room_rows"}
IN_FILE = {"crates/texts/proofs/ThreeFields.antt": {"same_bytes": "same_bytes_lem"}, "crates/texts/proofs/Zeros.antt": {"is_digit": "digit_is"}}


def snake(name):
    """The name in snake case; a part in capitals, as T or LF, keeps them."""
    name = re.sub(r"(?<=[a-z0-9])([A-Z])(?=[a-z])", lambda m: "_" + m.group(1).lower(), name)
    return name.replace("-", "_")


def is_own(name):
    return name[0].islower() and snake(name) != name and name not in SKIPPED


def text_files(root):
    for crate in sorted((root / "crates").iterdir()):
        for pattern in ("specs/**/*.antt", "proofs/**/*.antt", "src/**/*.rt", "must-fail/*.edit"):
            yield from sorted(crate.glob(pattern))


def declared_names(root):
    """What specs/ and the lemma files of proofs/ declare; the files of a function's own folder declare goals, which the check names."""
    names = set()
    for crate in sorted((root / "crates").iterdir()):
        files = list(crate.glob("specs/**/*.antt")) + list(crate.glob("proofs/*.antt"))
        for file in files:
            for line in file.read_text().splitlines():
                code = line.split("-- ")[0]
                found = DECLARED.match(code)
                if found:
                    names.add(found.group(1))
    return names


def respelled(root):
    """The names, and those that would fall together with a definition or a lemma; Rust's names are apart."""
    declared = declared_names(root)
    names = {name: SPECIAL.get(name, snake(name)) for name in declared if is_own(name)}
    definitions = {new for old, new in names.items() if "-" not in old}
    for old in names:
        if "-" in old and names[old] in definitions | declared:
            names[old] += "_lem"
    clashes = []
    into = {}
    for old, new in sorted(names.items()):
        if new in into:
            clashes.append((old, into[new], new))
        elif new in declared and new not in {"same_bytes"}:
            clashes.append((old, "a name that stands already", new))
        into[new] = old
    return names, clashes


def respell(text, names, prose):
    """Respells tokens; of prose and comments only what stands between back quotes."""
    change = lambda m: names.get(m.group(0), m.group(0))
    quoted = lambda part: re.sub(r"`[^`\n]+`", lambda m: TOKEN.sub(change, m.group(0)), part)
    if prose:
        return quoted(text)
    lines = []
    for line in text.split("\n"):
        found = re.search(r"(^|\s)(--|//|#)(\s|$)", line)
        at = found.start() if found else len(line)
        lines.append(TOKEN.sub(change, line[:at]) + quoted(line[at:]))
    return "\n".join(lines)


def main():
    arguments = [a for a in sys.argv[1:] if a != "--list"]
    root = pathlib.Path(arguments[0] if arguments else ".")
    names, clashes = respelled(root)
    if "--list" in sys.argv:
        for old, new in sorted(names.items()):
            print(old, new)
        print(len(names), "names")
    for old, other, new in clashes:
        print(f"falls together: {old} and {other}: {new}")
    if "--list" in sys.argv:
        return
    for file in text_files(root):
        before = file.read_text()
        here = IN_FILE.get(str(file.relative_to(root)), {})
        after = respell(before, {**names, **here}, False)
        if after != before:
            file.write_text(after)
    for file in [root / "README.md", *sorted((root / "docs").glob("**/*.md"))]:
        before = file.read_text()
        after = respell(before, names, True)
        if after != before:
            file.write_text(after)


main()
