#!/usr/bin/env python3
"""Before the port to the newer Rattle: respells the import aliases that its upgrade script would take for names already turned.

usage: tools/port-before.py, once, at the top of the repository, before the kit's port.py.

`use PATH.Reads as word_of` names a module as the function is named. The upgrade script reads a name with an underscore in an .antt file as a sign that
the file fits the newer language, and then leaves out every step for older spellings. So such an alias becomes `wordOf`, in the line that brings it in and
where its file uses it. An alias is local to its file: nothing that a reader believes changes.
"""
import pathlib
import re

ALIAS = re.compile(r"(?m)^(use \S+ as )([a-z0-9]+(?:_[a-z0-9]+)+)$")


def camel(name):
    head, *tail = name.split("_")
    return head + "".join(word.capitalize() for word in tail)


for path in sorted(pathlib.Path("crates").glob("*/proofs/**/*.antt")):
    text = path.read_text(encoding="utf-8")
    for alias in {it[2] for it in ALIAS.finditer(text)}:
        text = re.sub(rf"(?m)^(use \S+ as ){alias}$", rf"\g<1>{camel(alias)}", text)
        text = re.sub(rf"(?<![\w.·-]){alias}(?=\.Post\b)", camel(alias), text)
    if text != path.read_text(encoding="utf-8"):
        path.write_text(text, encoding="utf-8")
