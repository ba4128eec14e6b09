#!/usr/bin/env python3
"""Respells the repository's own definitions and lemmas: words in snake case, types in camel case.

usage: tools/respell.py [--list]      at the top of a checkout, once, right after /opt/rattle/port/port.py

It renames what specs/ and proofs/ declare (definitions, lemmas, fields, constructors, locals), in
.antt files, in the clauses of .rt files and in must-fail edits. Names of src/, names that Rattle
makes (goals, steps) and names of the library stay. With --list it only prints what it would rename.
"""

import os
import re
import sys

WORD = r"[^\s(){}\[\].,;:⌜⌝«»\"]+"
HEAD = re.compile(
    r"^\s*(?:where |let )?(?:abbrev |unfoldable |abstract )?(?:pub )?(?:abbrev |unfoldable )?(?:record |data )?"
    r"(" + WORD + r")(?: \{[^}]*\})*(?: \([^)]*\))*\s*:(?!=)"
)
LET = re.compile(r"\blet (" + WORD + r") [:=]")
BINDER = re.compile(r"\(((?:" + WORD + r" )+): ")
FIELD = re.compile(r"[{;] (" + WORD + r") [:=]")
TOKEN = re.compile(r"(?<![\w'′-])(?:[^\W\d_]|_)[\w'′]*(?:-[\w'′]+)*")

# Names that would fall together with another name, and what they are called instead.
APART = {
    "action-of": "written_action",
    "plan-of": "written_plan",
    "calls-of": "plan_calls",
    "site-of": "order_site",
    "Border-list": "IsBorderList",
    "Link-order": "IsLinkOrder",
    "Goal-misplaced": "IsGoalMisplaced",
    "End-misplaced": "IsEndMisplaced",
    "Left-behind": "IsLeftBehind",
    "Left-standing": "IsLeftStanding",
    # a function that an import calls as a type is called
    "Tried-of": "tried_of",
    # the scripts gave these imports an ending that says nothing
    "step_of_lem": "scene_step",
    "out_of_lem": "scene_out",
}


def files(kinds):
    for folder, dirs, names in os.walk("crates"):
        dirs[:] = sorted(d for d in dirs if d != "out")
        for name in sorted(names):
            if name.endswith(kinds):
                yield os.path.join(folder, name)


def respelled(name):
    if name in APART:
        return APART[name]
    if name[0].isupper():
        return "".join(part[:1].upper() + part[1:] for part in re.split("[-_]", name))
    name = re.sub(r"(?<=[a-z0-9])([A-Z])", lambda m: "_" + m.group(1).lower(), name)
    return name.replace("-", "_")


def declared():
    """Each name that a file of specs/ or proofs/ declares, and where."""
    found = {}
    for path in files((".antt",)):
        for number, line in enumerate(open(path, encoding="utf-8"), 1):
            text = line.strip()
            if text.startswith(("--", "use ", "pub use ", "mod ", "pub mod ")) or re.search(r":\s*goal\.", line):
                continue
            names = set(LET.findall(line)) | set(FIELD.findall(line))
            head = HEAD.match(line)
            if head:
                names.add(head.group(1))
            for binder in BINDER.findall(line):
                names.update(binder.split())
            for name in names:
                found.setdefault(name, []).append((path, number, text))
    return found


def table():
    names = {}
    for name, places in declared().items():
        if not TOKEN.fullmatch(name):
            continue
        new = respelled(name)
        if new != name:
            names[name] = (new, places)
    return names


def from_library(text):
    """The names that a file imports from the library."""
    found = set()
    for line in re.findall(r"use (?:Rattle\.std|native|borrow)\.[\w.]*\.\{([^}]*)\}", text):
        found.update(n.strip().split(" as ")[0] for n in line.split(","))
    return found


def is_own(path):
    """Whether a file names nothing that Rattle makes: a file right in specs/ or proofs/."""
    return re.fullmatch(r"crates/\w+/(specs|proofs)/\w+\.antt", path) is not None


def respell(path, names):
    text = open(path, encoding="utf-8").read()
    keep = from_library(text)

    def one(match):
        word = match.group(0)
        if word in keep:
            return word
        if word in names or word in APART:
            return respelled(word)
        return respelled(word) if is_own(path) and "-" in word else word

    new = "\n".join(
        line if line.lstrip().startswith(("file:", "--", "//")) else TOKEN.sub(one, line) for line in text.split("\n")
    )
    if new != text:
        open(path, "w", encoding="utf-8").write(new)


def main():
    names = table()
    if "--list" in sys.argv[1:]:
        for name, (new, places) in sorted(names.items()):
            print(name, "->", new, places[0][0] + ":" + str(places[0][1]), places[0][2][:90])
        return
    for path in list(files((".antt", ".rt", ".edit"))):
        respell(path, names)


main()
