#!/usr/bin/env python3
"""Prints the places in src/ that the design pass looks at (docs/DESIGN-PASS.md), a line for each, under the number of the pass's point, with their count.

usage: python3 tools/places.py [FOLDER] [POINT..]

It finds what text shows: declarations, conditions, loops, conversions, clauses, parameters, arrays. What only reading shows is on the page.
"""
import collections
import difflib
import pathlib
import re
import sys

TOKEN = re.compile(r"[A-Za-z_][A-Za-z_0-9]*|\d[\d_]*|[^\sA-Za-z_0-9]")
WORDS = {"fn", "let", "mut", "if", "else", "while", "for", "in", "loop", "match", "return", "break", "as", "pub", "u8", "u32", "u64", "i64", "usize", "bool"}
FUNCTION = re.compile(r"^( *)(?:pub )?(?:final )?(?:extern \"C\" )?fn (\w+)", re.M)


def sources(root):
    return sorted((root / "crates").glob("*/src/**/*.rt"))


def without_comments(text):
    return re.sub(r"//[^\n]*", "", text)


def functions(text):
    """Name, head (with its clauses) and body of each function."""
    text = without_comments(text)
    for found in FUNCTION.finditer(text):
        end = re.compile(r"^%s\{\n(.*?)^%s\}" % (found.group(1), found.group(1)), re.M | re.S).search(text, found.start())
        one_line = re.compile(r"\{\n(.*?)^%s\}" % found.group(1), re.M | re.S).search(text, found.start())
        for match in (end, one_line):
            if match and not FUNCTION.search(text, found.end(), match.start()):
                yield found.group(2), text[found.start():match.start()], match.group(1)
                break


def lines_with(root, pattern):
    for path in sources(root):
        for number, line in enumerate(path.read_text().splitlines(), 1):
            line = line.split("//")[0]
            if re.search(pattern, line) and not line.lstrip().startswith(("ghost", "requires", "ensures")):
                yield "%s:%d: %s" % (path.relative_to(root), number, line.strip())


def one_of_two(root):
    """Point 1: enums; a flag or an answer in a struct; an answer's number taken for a flag; kinds as numbers."""
    yield from lines_with(root, r"^(pub )?enum ")
    yield from lines_with(root, r"^\s+(pub )?(answer|verdict|whole): (Answer|Verdict|bool),$")
    yield from lines_with(root, r"number_of\(.*\) [!=]= 0")
    yield from lines_with(root, r"kind [!=]= \d|bytes\[\w+\] (=|!=) \d|write_kind\(.*, \d, ")


def shape(tokens):
    """A function's words without its names and numbers."""
    return [token if token in WORDS or not token[0].isalnum() and token[0] != "_" else "_" for token in tokens]


def twins(root):
    """Point 2: pairs of functions, from ten lines' worth of words on, whose bodies differ in names and numbers alone, or in little more."""
    bodies = []
    for path in sources(root):
        for name, _, body in functions(path.read_text()):
            words = shape(TOKEN.findall(body))
            if len(words) >= 25:
                bodies.append((path.parts[-3] + "::" + name, words))
    for at, (name, words) in enumerate(bodies):
        for other, theirs in bodies[at + 1:]:
            likeness = difflib.SequenceMatcher(None, words, theirs, autojunk=False)
            if likeness.quick_ratio() >= 0.88 and likeness.ratio() >= 0.88:
                yield "%s ~ %s: %.2f" % (name, other, likeness.ratio())


def loops(root):
    """Point 3: loops that are no `for`; those whose body steps a number by one are told."""
    for path in sources(root):
        text = without_comments(path.read_text())
        for found in re.finditer(r"^( *)(while [^\n]*|loop) \{\n(.*?)^\1\}", text, re.M | re.S):
            counts = re.search(r"^\s*\w+ [+-]= 1;", found.group(3), re.M)
            number = text.count("\n", 0, found.start()) + 1
            yield "%s:%d: %s%s" % (path.relative_to(root), number, found.group(2), " (counts)" if counts else "")


def by_hand(root):
    """Point 4: conversions by `as`; functions that are one conversion, comparison, least or greatest."""
    yield from lines_with(root, r"\bas (u8|u32|u64|i64|usize)\b")
    yield from lines_with(root, r"^(pub )?fn (wide|widened|as_number|as_numbers|is_digit|cap|shorter|smallest|lift|lower_entry|ranks_above|taken_before|preferred|floor_div|within_limits)\b")


def travel_together(root):
    """Point 5: a clause that three functions or more have; parameters that go together in three or more."""
    clauses, groups = collections.defaultdict(set), collections.defaultdict(set)
    for path in sources(root):
        for name, head, _ in functions(path.read_text()):
            who = path.parts[-3] + "::" + name
            for clause in re.findall(r"requires[^{]*\{ (.*) \}", head):
                for part in clause.split(" × "):
                    clauses[part.strip()].add(who)
            names = re.findall(r"(\w+): ", re.split(r"requires|ensures", head)[0])
            for length in range(2, 7):
                for at in range(len(names) - length + 1):
                    groups[tuple(names[at:at + length])].add(who)
    for part, who in sorted(clauses.items()):
        if len(who) >= 3:
            yield "%s: in %d functions" % (part, len(who))
    for names, who in sorted(groups.items()):
        whole = any(len(more) > len(names) and who == theirs and any(more[at:at + len(names)] == names for at in range(len(more)))
                    for more, theirs in groups.items() if len(more) == len(names) + 1)
        if len(who) >= 3 and not whole:
            yield "parameters %s: in %d functions" % (", ".join(names), len(who))


def buffers(root):
    """Point 6: arrays of a fixed length in values, fields and results."""
    yield from lines_with(root, r"\[[^\[\]]*; \d+\]")


def switches(root):
    """Point 7: a value that only says which step to run: a match whose arms are all calls with the same arguments."""
    for path in sources(root):
        text = without_comments(path.read_text())
        for found in re.finditer(r"match (\w+) \{\n((?:\s+\w+::\w+ => \w[\w:]*\((.*)\),\n)+)\s+\}", text):
            if len(set(re.findall(r"=> \w[\w:]*\((.*)\),", found.group(2)))) == 1:
                number = text.count("\n", 0, found.start()) + 1
                yield "%s:%d: match %s" % (path.relative_to(root), number, found.group(1))


def proofs(root):
    """Point 8: answers (goals that the check leaves), lines of answers and invariants, lemmas that stand by themselves; by crate."""
    for crate in sorted((root / "crates").iterdir()):
        answers = [path.read_text() for path in crate.glob("proofs/**/Answers.antt")]
        invariants = [path.read_text() for path in crate.glob("proofs/**/Invariants.antt")]
        goals = sum(len(re.findall(r"^pub \S+ : goal\.", text, re.M)) for text in answers)
        lemmas = sum(len(re.findall(r"^\s*pub \S+ : ", path.read_text(), re.M)) for path in crate.glob("proofs/*.antt"))
        lines = sum(text.count("\n") for text in answers + invariants)
        if goals or lemmas:
            yield "%s: %d answers, %d lines of answers and invariants, %d lemmas" % (crate.name, goals, lines, lemmas)


POINTS = {"1": one_of_two, "2": twins, "3": loops, "4": by_hand, "5": travel_together, "6": buffers, "7": switches, "8": proofs}


def main():
    words = sys.argv[1:]
    root = pathlib.Path(words.pop(0) if words and words[0] not in POINTS else ".")
    for point in words or POINTS:
        places = list(POINTS[point](root))
        print("%s. %s\n   %d places" % (point, POINTS[point].__doc__.split(": ", 1)[1].splitlines()[0], len(places)))
        for place in places:
            print("   " + place)


main()
