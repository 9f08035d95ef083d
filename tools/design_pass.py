#!/usr/bin/env python3
"""What changed since the commit in the first line of docs/DESIGN-PASS.md: each public signature with its clauses, each
type with its invariants, each definition and theorem of specs/, old (-) and new (+) in one block.

  design_pass.py            print it: the part of docs/DESIGN-PASS.md between the lines BEGIN and END
  design_pass.py --write    put it there
  design_pass.py --check    exit status 1 if something else stands there

An item is looked for by its name in its crate, then in all crates. One whose text is the same, wherever it lies now, is
left out; comments and `use` lines are no part of it.
"""
import difflib
import os
import re
import subprocess
import sys

PAGE = "docs/DESIGN-PASS.md"
BEGIN, END = "<!-- made by tools/design_pass.py -->\n", "<!-- end -->\n"
ROOT = os.path.dirname(os.path.dirname(os.path.abspath(__file__)))


def git(*words):
    return subprocess.run(["git", "-C", ROOT, *words], check=True, capture_output=True, text=True).stdout


def texts_at(commit):
    """The files of src/ and specs/ at a commit."""
    listed = [path for path in git("ls-tree", "-r", "--name-only", commit, "crates").split("\n") if wanted(path)]
    return {path: git("show", "%s:%s" % (commit, path)) for path in listed}


def texts_now():
    found = {}
    for path in filter(wanted, git("ls-files", "-co", "--exclude-standard", "crates").split("\n")):
        if os.path.isfile(os.path.join(ROOT, path)):
            with open(os.path.join(ROOT, path), encoding="utf-8") as file:
                found[path] = file.read()
    return found


def wanted(path):
    return re.fullmatch(r"crates/\w+/(src/.*\.rt|specs/.*\.antt)", path) and not path.endswith("/Lib.antt")


def items_of(texts):
    """By crate and name: the text of each item."""
    found = {}
    for path, text in texts.items():
        crate = path.split("/")[1]
        for name, lines in code_items(text) if path.endswith(".rt") else definitions(text):
            found.setdefault((crate, name), []).append("\n".join(lines))
    return {key: "\n".join(sorted(parts)) for key, parts in found.items()}


def code_items(text):
    """Public functions, with their clauses; structs, enums, traits and constants that are public, whole."""
    owner, lines, at = "", text.split("\n"), 0
    while at < len(lines):
        line = lines[at]
        at += 1
        head = re.match(r"impl(?:<.*?>)? (?:(.+) for )?(\w+)", line)
        if head:
            owner = "".join(part + " for " for part in head.groups()[:1] if part) + head.group(2)
            if head.group(1):
                yield owner, [line.rstrip(" {")]
            continue
        if line == "}":
            owner = ""
        function = re.match(r"( *)pub (?:extern \"C\" )?fn (\w+)", line)
        if function or owner and re.match(r"    fn \w+", line) and " for " in owner:
            name = re.search(r"fn (\w+)", line).group(1)
            part = [line]
            while not re.match(r" *\{$", lines[at]) and not part[-1].endswith("{"):
                part.append(lines[at])
                at += 1
            yield (owner + "::" if owner else "") + name, [one.strip().rstrip(" {") for one in part]
            continue
        other = re.match(r"pub (struct|enum|trait|const) (\w+)", line)
        if other:
            part = [line]
            while not re.search(r"(;|^\}|\{.*\})$", part[-1]):
                part.append(lines[at])
                at += 1
            yield other.group(2), [one for one in part if not one.strip().startswith("//")]


def definitions(text):
    name, part = None, []
    for line in text.split("\n"):
        if not line.strip() or line.strip().startswith("--") or re.match(r"use |(pub )?mod ", line):
            continue
        head = re.match(r"(?:(?:abbrev|unfoldable|pub|data|record) )*(\S+)", line)
        if line[0] not in " }" and head.group(1) != name:
            if name:
                yield name, part
            name, part = head.group(1), []
        part.append(line)
    if name:
        yield name, part


def block(old, new):
    lines = []
    for line in difflib.ndiff(old.split("\n") if old else [], new.split("\n") if new else []):
        if not line.startswith("?"):
            lines.append(line[:2].rstrip() + (" " if line[2:] else "") + line[2:] if line[0] != " " else "  " + line[2:])
    return lines


def made(commit):
    old, new = items_of(texts_at(commit)), items_of(texts_now())
    elsewhere = {}
    for (crate, name), text in new.items():
        elsewhere.setdefault(name, []).append((crate, text))
    crates = list(dict.fromkeys(key[0] for key in list(old) + list(new)))
    out, counts = [], dict.fromkeys(("the same", "changed", "gone", "new"), 0)
    for crate in sorted(crates):
        part = []
        for key in sorted({key for key in list(old) + list(new) if key[0] == crate}, key=lambda key: key[1]):
            before, after = old.get(key), new.get(key)
            if before and not after and any(text == before for _, text in elsewhere.get(key[1], [])):
                after = before
            kind = "the same" if before == after else "gone" if not after else "new" if not before else "changed"
            counts[kind] += 1
            if kind != "the same":
                part += ["`%s`, %s:" % (key[1], kind), "", "```diff", *block(before, after), "```", ""]
        if part:
            out += ["### " + crate, "", *part]
    said = "Of %d items at that commit %d are the same, %d changed, %d gone under their name; %d are new." % (
        len(old), counts["the same"], counts["changed"], counts["gone"], counts["new"])
    return "\n".join([said, "", *out]).rstrip("\n") + "\n"


def main():
    with open(os.path.join(ROOT, PAGE), encoding="utf-8") as file:
        page = file.read()
    commit = re.match(r".*\b([0-9a-f]{40})\b", page).group(1)
    text = made(commit)
    if not sys.argv[1:]:
        sys.stdout.write(text)
        return
    head, _, rest = page.partition(BEGIN)
    inside, _, tail = rest.partition(END)
    if sys.argv[1] == "--check":
        sys.exit(0 if inside == text else PAGE + " does not list what changed; tools/design_pass.py --write does")
    with open(os.path.join(ROOT, PAGE), "w", encoding="utf-8") as file:
        file.write(head + BEGIN + text + END + tail)


main()
