#!/usr/bin/env python3
"""Lists places of crates/*/src that docs/DESIGN-PASS.md counts, a heading for each point, or only their number.

    tools/places.py           the numbers
    tools/places.py 1 3       the places of points 1 and 3, as FILE:LINE: text

What a list cannot see (twins, answers that only a reader knows to be alike) the page names by hand.
"""
import collections
import glob
import re
import sys

FILES = sorted(glob.glob("crates/*/src/**/*.rt", recursive=True))


def lines(pattern, skip=None):
    for path in FILES:
        for number, text in enumerate(open(path), 1):
            if text.lstrip().startswith("//"):
                continue
            if re.search(pattern, text) and not (skip and re.search(skip, text)):
                yield f"{path}:{number}: {text.strip()}"


def functions():
    for path in FILES:
        source = open(path).read()
        for found in re.finditer(r"\bfn (\w+)([^;]*?)\n?\{\n", source, re.S):
            yield path, found.group(1), found.group(2)


# 1: an enum of one's own with a case that says nothing; a flag or a code among the fields of a struct; a comparison of a code, a kind, a stage, a class by its number.
def enums():
    for path in FILES:
        source = open(path).read()
        for found in re.finditer(r"^(?:pub )?enum (\w+) \{(.*?)^\}", source, re.S | re.M):
            if re.search(r"\b(Unknown|Malformed|Done|None)\b", found.group(2)):
                yield f"{path}: enum {found.group(1)}"


def flags():
    return lines(r"^    (pub )?(code: (usize|u16|u64)|(there|whole|found|told|typed|last|deepens): bool),$")


def numbers():
    return lines(r"\b(code|family|condition|stage|kind|class|letter|whose|which|test|side|early|bad)\)? (==|!=|<|<=) \d+|\bnumber\(\w+\) (==|!=)|\d+ (<|<=) (class|kind)\b", r"ensures|requires")


# 3: loops that are no `for`.
def loops():
    return lines(r"^\s*(while|loop)\b", r"while let")


# 5: a premise that stands in three functions or more.
def premises():
    where = collections.defaultdict(list)
    for path, name, head in functions():
        for clause in re.findall(r"requires[^{]*\{(.*?)\}\s*(?=requires|ensures|$)", head, re.S):
            for part in clause.split("×"):
                where[re.sub(r"\s+", " ", part).strip(" ()")].append(f"{path}: {name}")
    for premise, places in sorted(where.items()):
        if len(places) >= 3:
            for place in places:
                yield f"{place}: {premise}"


# 6: a length beside a buffer, and an array beside one of the same size.
def lengths():
    return lines(r"^    (pub )?\w+: \[\w+; \d+\],$|\b(n|m): usize\b.*&(mut )?\[|&(mut )?\[.*\b(n|m): usize\b", r"\blet\b")


# 7: a parameter that picks what to do.
def switches():
    for path, name, head in functions():
        for parameter in re.findall(r"(\w+): bool\b", head.split("->")[0]):
            yield f"{path}: {name}: {parameter}"


POINTS = [("1 enums", enums), ("1 flags", flags), ("1 numbers", numbers), ("3 loops", loops), ("5 premises", premises), ("6 lengths", lengths), ("7 switches", switches)]

wanted = sys.argv[1:]
for title, find in POINTS:
    places = list(find())
    if not wanted or title.split()[0] in wanted:
        print(f"{title}: {len(places)}")
    if title.split()[0] in wanted:
        for place in places:
            print("    " + place)
