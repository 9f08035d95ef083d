#!/usr/bin/env python3
"""Holds docs/DIFFERENCES.md to its proved list: exit status 1 if the tables of the page are not those of
crates/differences/specs/Differences.antt, in the same order, with the same switches, names and answers.

On the page a table is a block of lines `switches`, `names`, `rows`, then `answer` and `bindings`, or `refusal`.
"""
import os
import re
import sys

ROOT = os.path.dirname(os.path.dirname(os.path.abspath(__file__)))


def numbers(text):
    return [int(word) for word in re.findall(r"\d+", text)]


def text_of(*path):
    with open(os.path.join(ROOT, *path), encoding="utf-8") as file:
        return file.read()


def lists(text):
    """The lists of comma-separated numbers of a page's field."""
    return [] if text == "none" else [numbers(part) for part in text.split(",")]


def of_page():
    found = []
    for block in re.findall(r"^```\n(switches  [01].*?)\n```$", text_of("docs", "DIFFERENCES.md"), re.S | re.M):
        fields = dict(re.findall(r"^(\w+) +((?:.|\n )+)", block, re.M))
        fields = {key: " ".join(value.split()) for key, value in fields.items()}
        rows = lists(fields["rows"])
        names = [] if fields["names"] == "none" else fields["names"].split(", ")
        if "refusal" in fields:
            answer = ("refused", numbers(fields["refusal"]))
        else:
            after = rows if fields["answer"] == "the same rows" else lists(fields["answer"])
            answer = ("converted", after, sum(lists(fields["bindings"]), []))
        found.append((numbers(fields["switches"]), names, rows, answer))
    return found


def of_list():
    found = []
    for entry in re.findall(r"record \{(.*?)\n    \}", text_of("crates", "differences", "specs", "Differences.antt"), re.S):
        fields = dict(re.findall(r"(\w+) = ([^;]*);", entry))
        switches = [int(word == "true") for word in re.findall(r"true|false", fields["chosen"])]
        names = [bytes(numbers(name)).decode() for name in re.findall(r"\(([^)]*)\)", fields["names"])]
        rows = [numbers(row) for row in re.findall(r"row ([\d ]+)", fields["table"])]
        if fields["answer"].startswith("refused"):
            answer = ("refused", numbers(fields["answer"]))
        else:
            after, _, bindings = fields["answer"].partition("[]))")
            answer = ("converted", [numbers(row) for row in re.findall(r"row ([\d ]+)", after)], numbers(bindings))
        if numbers(fields["lent"]) != [2048, 256]:
            sys.exit("Differences.antt: a room that the page does not say")
        found.append((switches, names, rows, answer))
    return found


if __name__ == "__main__":
    page, listed = of_page(), of_list()
    for number, (one, other) in enumerate(zip(page, listed), 1):
        if one != other:
            sys.exit("docs/DIFFERENCES.md: table %d is not entry %d of the list" % (number, number))
    if len(page) != len(listed) or not page:
        sys.exit("docs/DIFFERENCES.md: %d tables, %d entries" % (len(page), len(listed)))
