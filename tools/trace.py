#!/usr/bin/env python3
"""Holds docs/TRACE.md to the repository: exit status 1 if it names a file or a name that is not there, leaves a must-fail
edit out, or does not say of an edit whether a definition is edited or a program. Holds docs/PORT-OTHER.md to it too, in the files
and names.

In a table, a pair of backquotes around `PATH` or `PATH: NAME, NAME` names a file below the repository's root, and
names that stand in it. Other backquoted words are left alone. An edit that changes no file of src/, or there nothing but
clauses, has "(definition)" behind it.
"""
import glob
import os
import re
import sys

ROOT = os.path.dirname(os.path.dirname(os.path.abspath(__file__)))
CLAUSE = ("requires", "ensures")


def in_clause(path, line):
    """Whether a line of code stands in a clause: it begins one, or goes on with one that begins above it."""
    if line.lstrip().startswith(CLAUSE):
        return True
    with open(path, encoding="utf-8") as file:
        lines = file.read().split("\n")
    for above in reversed(lines[:next((k for k, one in enumerate(lines) if line.strip() in one), 0)]):
        if above.lstrip().startswith(CLAUSE):
            return True
        if above.rstrip().endswith((";", "{", "}")):
            return False
    return False


def edits_a_program(path):
    """Whether an edit changes a line of code: one below src/ that is of no contract."""
    file = None
    with open(path, encoding="utf-8") as edit:
        for line in edit:
            if line.startswith("file: "):
                file = line[len("file: "):].strip()
            if line.startswith("old: ") and file.startswith("src/"):
                if not in_clause(os.path.join(os.path.dirname(os.path.dirname(path)), file), line[len("old: "):].rstrip("\n")):
                    return True
    return False


def faults_of_edits(text):
    found = []
    for path in sorted(glob.glob(os.path.join(ROOT, "crates", "*", "must-fail", "*.edit"))):
        quoted = "`%s`" % os.path.relpath(path, ROOT)
        wanted = not edits_a_program(path)
        if quoted not in text:
            found.append("no line names %s" % quoted)
        for place in re.finditer(re.escape(quoted), text):
            if text[place.end():].startswith(" (definition)") != wanted:
                found.append("%s edits %s" % (quoted, "a definition" if wanted else "a program"))
    return found


def faults_of_names(text):
    count = 0
    found = []
    for number, line in enumerate(text.split("\n"), 1):
        if not line.startswith("|"):
            continue
        for quoted in re.findall(r"`([^`]+)`", line):
            path, _, names = quoted.partition(": ")
            if "/" not in path:
                continue
            full = os.path.join(ROOT, path)
            if not os.path.exists(full):
                found.append("line %d: no file %s" % (number, path))
                continue
            count += 1
            if not names:
                continue
            with open(full, encoding="utf-8") as file:
                source = file.read()
            for name in names.split(", "):
                if not re.search(r"(?<![\w'-])%s(?![\w'-])" % re.escape(name), source):
                    found.append("line %d: no %s in %s" % (number, name, path))
    if count == 0:
        found.append("nothing is named")
    return found


def faults():
    found = []
    for page in ["docs/TRACE.md", "docs/PORT-OTHER.md"]:
        with open(os.path.join(ROOT, page), encoding="utf-8") as file:
            text = file.read()
        edits = faults_of_edits(text) if page == "docs/TRACE.md" else []
        found += ["%s: %s" % (page, fault) for fault in edits + faults_of_names(text)]
    return found


if __name__ == "__main__":
    bad = faults()
    for fault in bad:
        print(fault)
    sys.exit(1 if bad else 0)
