#!/usr/bin/env python3
"""After the port to the newer Rattle: brings the repository's own definitions and lemmas to its spelling.

usage: tools/port-names.py [--list], once, at the top of the repository, after the kit's port.py.

Definitions, lemmas and fields are in snake case: `replyOf` becomes `reply_of`, `run-entries` becomes `run_entries`. Types and modules keep their upper camel
case, and so do the facts spelled like types (`Lent`, `Written`). A name is renamed wherever a declaration of specs/ or proofs/ has it, in .antt files and in the
ghost parts of .rt files (`ghost use`, clauses). What a function of src/, a parameter, a string or a file is called stays. Names that the toolchain makes
(`tie.Need-..`, `c.walk-at`) are no names of the repository, and stay too. With --list it prints `file: old new` and writes nothing.
"""
import pathlib
import re
import sys

W = r"[^\s(){}.;,@\"«»\[\]\\]+"
TOKEN = re.compile(r"--[^\n]*|\"(?:[^\"\\]|\\.)*\"|«[^»]*»|" + W)
DECLARED = re.compile(r"(?m)^ *(?:abbrev |unfoldable |opaque )?(?:pub )?(?:abbrev |unfoldable )?(" + W + r"(?: " + W + r")*) :(?= |$)")
ALIAS = re.compile(r"\bas (" + W + r")(?=[\s,};])")
GHOST = re.compile(r"ghost use [^;]*;|\b(?:requires|ensures|ghost)\b\*?(?: \w+)?(?: :)? \{")
# A lemma that would have its function's name gets `_lem`.
LEMMAS = (
    "row-says order-says entry-clauses is-question is-constraint is-row first-letters letter_at bytes-before at-number too_short says-file of_mask to-text"
    " from-text top_in constraint-size room_by in-force count-of"
).split()
PLAIN = re.compile(r"^[a-z][A-Za-z0-9]*(?:[-'][A-Za-z0-9]+)*'*$|^[A-Z][A-Za-z0-9]*(?:-[A-Za-z0-9]+)+$")


def snake(name):
    """The name in snake case, or itself where it is a type's or no plain word."""
    if not PLAIN.match(name) or ("-" not in name and name[0].isupper()):
        return name
    parts = [re.sub(r"(?<=[a-z0-9])([A-Z])", lambda it: "_" + it[1].lower(), part) for part in name.split("-")]
    parts = [part[0].lower() + part[1:] for part in parts]
    return "_".join(parts)


def outside_comments(text):
    return re.sub(r"--[^\n]*", "", text)


def declared(text):
    """The names that the file declares: definitions, lemmas, and the fields of its records. A function's answers and its theorem have the toolchain's names."""
    found = set()
    text = outside_comments(text)
    for it in DECLARED.finditer(text):
        if not re.match(r"\s*(?:tie\.|\{M : Type 1\} → statement)", text[it.end() :]):
            found.update(it[1].split())
    return found - {"pub", "where", "record", "data"}


def parts_of(text):
    """The ghost parts of a .rt file, as pairs of offsets: `ghost use` items, and what stands in the braces of a clause."""
    for it in GHOST.finditer(text):
        if it[0].endswith(";"):
            yield it.start(), it.end()
            continue
        depth, at = 1, it.end()
        while depth:
            depth += {"{": 1, "}": -1}.get(text[at], 0)
            at += 1
        yield it.end(), at - 1


def renamed(text, names, fields):
    def one(it):
        word = it[0]
        if word.startswith(("--", '"', "«")):
            return word
        if text[: it.start()].endswith(".") and word not in fields:
            return word
        return names.get(word, word)

    return TOKEN.sub(one, text)


def main():
    root = pathlib.Path("crates")
    antt = sorted(root.glob("*/specs/**/*.antt")) + sorted(root.glob("*/proofs/**/*.antt"))
    texts = {path: path.read_text(encoding="utf-8") for path in antt}
    rust = {path: path.read_text(encoding="utf-8") for path in sorted(root.glob("*/src/**/*.rt"))}
    ghosts = ["\n".join(text[start:end] for start, end in parts_of(text)) for text in rust.values()]
    names, fields = {}, set()
    for text in ghosts:
        names.update({it: snake(it) for it in ALIAS.findall(text) if snake(it) != it})
    for text in texts.values():
        names.update({it: snake(it) for it in declared(text) if snake(it) != it})
        names.update({it: snake(it) for it in ALIAS.findall(text) if snake(it) != it})
        for record in re.finditer(r"(?ms)^(?:pub )?record .*?(?=^\S|\Z)", outside_comments(text)):
            for field in re.finditer(r"(?m)^ +(?:pub )?(" + W + ") :", record[0]):
                fields.add(field[1])
    names.update({it: snake(it) + "_lem" for it in LEMMAS})
    if "--list" in sys.argv:
        for path, text in texts.items():
            for it in sorted(declared(text)):
                if it in names:
                    print(f"{path}: {it} {names[it]}")
        for path, text in texts.items():
            met = {}
            for word in set(TOKEN.findall(outside_comments(text))):
                met.setdefault(names.get(word, word), set()).add(word)
            for new, olds in met.items():
                if len(olds) > 1:
                    print(f"clash: {path}: {' '.join(sorted(olds))}")
        return
    for path, text in texts.items():
        new = renamed(text, names, fields)
        if new != text:
            path.write_text(new, encoding="utf-8")
    for path, text in rust.items():
        out, last = [], 0
        for start, end in parts_of(text):
            out += [text[last:start], renamed(text[start:end], names, fields)]
            last = end
        new = "".join(out) + text[last:]
        if new != text:
            path.write_text(new, encoding="utf-8")


main()
