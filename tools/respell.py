#!/usr/bin/env python3
"""Brings the names that this repository's definitions and lemmas have to the spelling of today's Rattle.

usage: tools/respell.py [--table FILE]     at the top of the repository, once, right after port.py

    allUpTo -> all_up_to      laid-copied -> laid_copied      length-cleared, add-≈ stay

A word is in snake case. A dash stays in a lemma only, between two names, as in length-drop, or beside a sign; types and modules keep their capitals.
Names of src/, of the library, of what Rattle makes and of strings stay, and no two names fall together: the script stops where they would.
It rewrites crates/**/*.antt, the clauses and ghost imports of crates/**/*.rt, and what docs/, README.md and comments name in backticks.
--table writes the pairs.
"""

import glob
import os
import re
import sys

W = r"[^\s(){}.;,@\"«»\[\]\\`]+"
TOKEN = re.compile(r"--[^\n]*|\"(?:[^\"\\]|\\.)*\"|«[^»]*»|" + W)
IN_TEXT = re.compile(W)
DECLARED = re.compile(r"(?m)^ *(?:(?:abbrev|unfoldable|pub) )*(" + W + r")(?: (?=: )|(?: \([^)]*\)| \{[^}]*\})* : )")
BINDERS = re.compile(r"\([^)]*\)|\{[^}]*\}")
NO_HEAD = re.compile(r"[=,;→(){}λ]|\b(let|use|in)\b")
KEYWORDS = {"pub", "abbrev", "unfoldable", "ruleset", "data", "record", "where"}
SIGN = re.compile(r"[^\w'*]")
# Words of the library that a lemma's name may join.
LIBRARY = set(
    "length take drop append map set get_or replicate reverse sum min max cond all any concat not and or eqb leb ltb lookup count fold".split()
)
# Lemmas beside a function that has their name already in the new spelling.
FIXED = {"answer-of": "answer_of_lem", "row-in": "row_in_lem", "second-of": "second_of"}
# Made by Rattle, or a label of a goal: never a name of ours.
FUNCTION_FILES = ("Proof.antt", "Answers.antt", "Invariants.antt")


def read(path):
    with open(path, encoding="utf-8", newline="") as it:
        return it.read()


def write(path, text):
    with open(path, "w", encoding="utf-8", newline="") as it:
        it.write(text)


def antt_files():
    return sorted(glob.glob("crates/*/specs/**/*.antt", recursive=True) + glob.glob("crates/*/proofs/**/*.antt", recursive=True))


def is_lemma_file(path):
    """Whether a file is of definitions or lemmas, and no function's proof: `Answers` is a name of specs/ too."""
    return "/specs/" in path or os.path.basename(path) not in FUNCTION_FILES


def snake(word):
    """Writes a camel-case word in snake case; one that begins with a capital is a type's, and stays."""
    if not re.match(r"[a-z]", word):
        return word
    word = re.sub(r"([a-z0-9])([A-Z])", r"\1_\2", word)
    return re.sub(r"_([A-Z])(?=[a-z_]|\b|$)", lambda it: "_" + it[1].lower(), word)


def respelled(name, words):
    """The new spelling, where words are the names that a dash may stand between: none for what specs/ declares."""
    parts = [snake(it) for it in name.split("-")]
    if len(parts) == 1 or "" in parts:
        return snake(name) if len(parts) == 1 else name
    out, group = parts[0], parts[0]
    for at in range(1, len(parts)):
        ahead = {"_".join(parts[at:end]) for end in range(at + 1, len(parts) + 1)}
        stays = SIGN.search(parts[at]) or SIGN.search(parts[at - 1]) or (group in words and ahead & words)
        out += ("-" if stays else "_") + parts[at]
        group = parts[at] if stays else group + "_" + parts[at]
    return out


def alone(text):
    """The names that stand alone, or before binders, in front of a colon where a line begins."""
    return set(DECLARED.findall(re.sub(r"--[^\n]*", "", text)))


def together(text):
    """The same, with those of which several stand on a line, as constructors do."""
    found = set()
    for line in re.sub(r"--[^\n]*", "", text).split("\n"):
        head, colon, _ = line.partition(" : ")
        head = BINDERS.sub(" ", head)
        if colon and not NO_HEAD.search(head):
            found |= {it for it in head.split() if it not in KEYWORDS and it.strip("_")}
    return found


def declared_names(declared_in):
    """The names that specs/ and the files of lemmas declare, and those of specs/ apart."""
    names, specs = set(), set()
    for path in antt_files():
        if is_lemma_file(path):
            found = declared_in(read(path))
            names |= found
            if "/specs/" in path:
                specs |= found
    return names, specs


def foreign(text, crates):
    """The names that a file imports from outside this repository."""
    found = set()
    for path, group in re.findall(r"(?m)^(?:pub |ghost )?use ([^\s{]+?)\.?(?:\{([^}]*)\})?(?: as \S+?)?;?$", text):
        if not re.match(r"Rattle\.(%s)\." % "|".join(crates), path + "."):
            found.update(it.split(" as ")[0].strip() for it in group.split(",") if group)
    return found


def in_backticks(text, table):
    """Turns the names in the spans of code of a text."""
    return re.sub(r"`[^`\n]*`", lambda span: IN_TEXT.sub(lambda it: table.get(it[0], it[0]), span[0]), text)


def turn_antt(text, table, crates):
    kept = foreign(text, crates)

    def one(found):
        it = found[0]
        if it.startswith("--"):
            return in_backticks(it, table)
        # A field is never the library's name, though a file may import one that is spelled alike.
        is_field = text[found.start() - 1] == "." or text.startswith(" = ", found.end())
        if it.startswith(('"', "«")) or (it in kept and not is_field):
            return it
        return table.get(it, it)

    return TOKEN.sub(one, text)


def turn_rt(text, table, crates):
    """Turns the ghost imports, the clauses and the comments: a clause runs from its keyword to the brace that closes it."""
    kept = foreign(text, crates)
    turn = lambda part: IN_TEXT.sub(lambda it: it[0] if it[0] in kept else table.get(it[0], it[0]), part)
    text = re.sub(r"(?m)^ghost use [^;]*;", lambda it: turn(it[0]), text)
    out, at = [], 0
    for found in re.finditer(r"(?m)^ +(?:requires|ensures|ghost \w+:|decreases)\*?[^{\n]*\{", text):
        depth, end = 1, found.end()
        while depth:
            depth += {"{": 1, "}": -1}.get(text[end], 0)
            end += 1
        if found.start() >= at:
            out += [text[at : found.start()], turn(text[found.start() : end])]
            at = end
    text = "".join(out) + text[at:]
    return re.sub(r"(?m)//[^\n]*", lambda it: in_backticks(it[0], table), text)


def tokens_of(path, text):
    """The names that a file has outside paths of modules and, in a source, outside clauses and ghost imports."""
    text = re.sub(r"--[^\n]*|//[^\n]*", "", text)
    if path.endswith(".rt"):
        text = " ".join(re.findall(r"(?m)^ghost use [^;]*;|^ +(?:requires|ensures|ghost \w+:)[^\n]*", text))
    text = re.sub(r"Rattle\.[^\s{]*", " ", text)
    # A field of a step is named after the source.
    return IN_TEXT.findall(re.sub(r"\.\s*" + W, " ", text))


def turn(declared_in):
    """Turns the names that are found so, and gives the pairs."""
    crates = sorted(it for it in os.listdir("crates") if os.path.isdir(f"crates/{it}/src"))
    names, specs = declared_names(declared_in)
    words = LIBRARY | {snake(it.replace("-", "_")) for it in specs}
    table = {it: respelled(it, set() if it in specs else words) for it in names}
    table.update({old: new for old, new in FIXED.items() if old in names})
    table = {old: new for old, new in table.items() if old != new}
    texts = {it: read(it) for it in antt_files() + sorted(glob.glob("crates/*/src/**/*.rt", recursive=True))}
    used = {}
    for path, text in texts.items():
        for it in set(tokens_of(path, text)):
            used.setdefault(it, set()).add(path)
    by_new = {}
    for it in names:
        by_new.setdefault(table.get(it, it), set()).add(it)
    clash = []
    for new, olds in by_new.items():
        if len(olds) == 1 or new in FIXED.values():
            continue
        # The function keeps the name, and a lemma that would have it gets _lem.
        functions = [it for it in olds if re.search(r"[a-z][A-Z]", it) and "-" not in it] or [it for it in olds if it in specs]
        if len(functions) != 1 or f"{new}_lem" in used or f"{new}_lem" in by_new:
            clash.append((new, *sorted(olds)))
            continue
        table.update({it: f"{new}_lem" for it in olds if it not in functions})
    clash += [(old, new, "is used in", *sorted(used[new])[:4]) for old, new in table.items() if new not in names and any(is_lemma_file(it) for it in used.get(new, ()))]
    for it in sorted(clash):
        print("falls together:", *it)
    if clash:
        sys.exit(1)
    for path, text in texts.items():
        new = (turn_rt if path.endswith(".rt") else turn_antt)(text, table, crates)
        if new != text:
            write(path, new)
    for path in ["README.md", *glob.glob("docs/**/*.md", recursive=True)]:
        text = read(path)
        new = in_backticks(text, table)
        if new != text and "landings" not in path and not path.startswith("docs/PORT"):
            write(path, new)
    return table


def main():
    # The second pass is what the first one did not see; which dashes stay hangs on the names that were seen, so the two are not one.
    table = {**turn(alone), **turn(together)}
    if "--table" in sys.argv:
        write(sys.argv[sys.argv.index("--table") + 1], "".join(f"{old}\t{new}\n" for old, new in sorted(table.items())))
    print(f"names: {len(table)}")


if __name__ == "__main__":
    main()
