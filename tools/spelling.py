#!/usr/bin/env python3
"""Brings the repository's own names to today's spelling, after port.py: words in snake case, types and modules in camel case.

usage: python3 tools/spelling.py           in the repository, once, on what port.py left
       python3 tools/spelling.py --map     prints the table, old name and new, and changes nothing
       python3 tools/spelling.py FILE..    turns these files too (pages, edits) by the tables that are kept in tools/spelling.tsv, and
                                           for what port.py turned in tools/spelling_port.tsv

A definition, field, constructor or binder `camelCase` becomes `camel_case`. A lemma's dashes become `_`, but where both sides are
names, as in `words-append`. Where the new name would fall together with another one, the old dash stays, or the name gets `_lem`.
Functions of src/, exported names, texts, inputs and outputs keep theirs: in a .rt file only clauses have such names.
"""

import glob
import os
import re
import sys

HEAD = re.compile(r"((?:abbrev |unfoldable |pub |ruleset |record |data |mutual )*)([^\s:{}()]+)\s*(?::|\(|\{)")
FIELD = re.compile(r"  (?:pub )?([a-z][^\s:{}()]*)\s*:\s")
TOKEN = re.compile(r"[^\s(){}\[\].,;:→λ∀∃\"`←∙«»]+")
CAMEL = re.compile(r"^[a-z][A-Za-z0-9]*$|^[a-z][^\s]*[A-Z]")
# steps of the old proofs that are called as lemmas are, after the functions end_at, in_body, name_at and next_of
STEPS = {"end-at", "in-body", "name-at", "next-of"}
# cycles of calls, which port.py calls after all their functions
CYCLES = {
    "around_class_expression_function_kept_list_sequence_statement_transform_call_expression_for_super_transform_member_expression_for_super_undressed": "walk_rows",
    "collect_collect_row": "collect_rows",
}
# words of the library that lemmas' names join
LIBRARY = set(
    "append cons nil suc zero drop take set sets length get_or true false refl map mod div add sub mul reverse replicate leb ltb eqb "
    "lt le eq cond and or not some none".split()
)


def antt(root="."):
    return sorted(glob.glob(f"{root}/crates/*/specs/**/*.antt", recursive=True) + glob.glob(f"{root}/crates/*/proofs/**/*.antt", recursive=True))


def sources(root="."):
    return sorted(glob.glob(f"{root}/crates/*/src/**/*.rt", recursive=True))


def snake(name):
    out = re.sub(r"(?<=[a-z0-9?])(?=[A-Z])", "_", name)
    out = re.sub(r"(?<=[A-Z])(?=[A-Z][a-z])", "_", out)
    return out.lower()


def is_camel(t):
    """A word in camel case: a letter in lower case first, and a capital behind a small letter or digit."""
    return bool(re.match(r"^[a-z][A-Za-z0-9?'-]*$", t)) and bool(re.search(r"[a-z0-9?][A-Z]", t))


def code(line, path):
    """A line without its comment."""
    mark = "--" if path.endswith(".antt") else "//"
    at = line.find(mark)
    if mark == "--":
        m = re.search(r"(?:^|\s)--(?:\s|$)", line)
        at = m.start() if m else -1
    return line if at < 0 else line[:at]


def table(root="."):
    every, lemmas, words, fields, routines = set(), set(), set(), set(), set()
    for p in antt(root) + sources(root):
        inside = p.endswith("/Proof.antt")
        for line in open(p, encoding="utf-8"):
            c = code(line, p)
            every.update(TOKEN.findall(c))
            routines.update(re.findall(r"\bfn (\w+)", c))
            if p.endswith(".antt"):
                m = FIELD.match(c)
                if m and "-" in m.group(1) and not inside:
                    fields.add(m.group(1))
                m = HEAD.match(c)
                if m and not c.startswith("use "):
                    words.add(m.group(2))
                    if not inside and "-" in m.group(2):
                        lemmas.add(m.group(2))
    new = {}
    for t in sorted(every):
        if is_camel(t) and "-" not in t:
            new[t] = snake(t)
    names = {new.get(w, w) for w in words if "-" not in w} | LIBRARY
    taken = {t for t in every} | set(new.values())
    # a field keeps its dash where a step of a proof is called the same, after a function
    for l in sorted(lemmas | fields):
        if l in fields and l.replace("-", "_") in routines:
            continue
        parts = [new.get(x, snake(x) if is_camel(x) else x) for x in l.split("-")]
        if not all(re.match(r"^[A-Za-z0-9_?']+$", x) for x in parts):
            continue
        out = parts[0]
        for k in range(1, len(parts)):
            rest = "_".join(parts[k:])
            out += ("-" if out in names and rest in names else "_") + parts[k]
        if out in taken and out != l:
            out = "-".join(parts) if "-".join(parts) not in taken or "-".join(parts) == l else out + "_lem"
        taken.add(out)
        if out != l:
            new[l] = out
    # other words with a dash and a capital, as binders of lemmas
    for t in sorted(every):
        if "-" in t and t not in new and re.match(r"^[a-z]", t) and any(is_camel(x) for x in t.split("-")):
            new[t] = "-".join(snake(x) if is_camel(x) else x for x in t.split("-"))
    return new


def turn(text, path, new):
    out = []
    for line in text.split("\n"):
        if path.endswith(".edit"):
            c = line
            rest = ""
        elif path.endswith((".antt", ".rt")):
            c = code(line, path)
            rest = line[len(c) :]
        else:
            c, rest = "", line
        c = TOKEN.sub(lambda m: new.get(m.group(0), m.group(0)) if not dotted(c, m, new) else m.group(0), c)
        # in prose: names in camel case, and dashed ones between backticks
        rest = re.sub(r"(?<![\w-])[a-z][A-Za-z0-9?]*(?![\w-])", lambda m: new.get(m.group(0), m.group(0)), rest)
        rest = re.sub(r"`([^`\s]+)`", lambda m: "`" + new.get(m.group(1), m.group(1)) + "`", rest)
        out.append(c + rest)
    return "\n".join(out)


def dotted(line, m, new):
    """Behind a dot, in a function's proof, such a word is a step or a goal that Rattle names: these are called after functions."""
    return m.start() > 0 and line[m.start() - 1] == "." and m.group(0) in STEPS


def main(argv):
    kept = os.path.join(os.path.dirname(os.path.abspath(__file__)), "spelling.tsv")
    if argv == ["--map"]:
        for a, b in sorted(table().items()):
            print(f"{a}\t{b}")
        return 0
    if argv:
        # names that port.py turned, and those that this page turns
        new = {}
        for tsv in (kept[: -len(".tsv")] + "_port.tsv", kept):
            new.update(l.rstrip("\n").split("\t") for l in open(tsv, encoding="utf-8"))
        files = argv
    else:
        new = table()
        with open(kept, "w", encoding="utf-8") as f:
            f.writelines(f"{a}\t{b}\n" for a, b in sorted(new.items()))
        files = antt() + sources()
    for p in files:
        text = open(p, encoding="utf-8").read()
        done = turn(text, p, new)
        for old, name in CYCLES.items():
            done = done.replace(f"cycle({old})", f"cycle({name})").replace("+" + old, "+" + name)
        if done != text:
            with open(p, "w", encoding="utf-8") as f:
                f.write(done)
    for old, name in CYCLES.items():
        for folder in glob.glob(f"crates/*/proofs/**/+{old}", recursive=True):
            os.rename(folder, folder[: -len(old)] + name)
    return 0


if __name__ == "__main__":
    raise SystemExit(main(sys.argv[1:]))
