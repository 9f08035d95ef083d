#!/usr/bin/env python3
"""Holds the tables of docs/FORMAT.md to the model of convert_model.py: exit status 1 where one does not hold.

- In "From syntax to rows" the second column of each table is rows in the page's notation. They must be sound where the table
  says that they stand: as a statement, an expression, a member of a class or a property of an object.
- In "The rows of a result" the tables headed "in the table" give rows, what they become and what declares their bindings, in
  the place that the line above names. The table with row numbers is the result of the rows above it.
"""
import os
import re
import sys

import convert_model as model
from conversions import named
from tables import KINDS, Row, lay

ROOT = os.path.dirname(os.path.dirname(os.path.abspath(__file__)))
NUMBERS = {word: kind for kind, word in KINDS.items()}
BOUND = ("Declarator", "Ident")


# The notation: Kind(attr) name[children]; a word in small letters is an Ident, `@1` an Ident or Declarator of binding 1.

def read(text):
    """The rows of a text: a list of trees."""
    parts = re.findall(r"\w+\(\d+\)|[\w@#$]+|\[|\]|,", text)
    assert "".join(parts) == text.replace(" ", ""), text

    def rows(at):
        found = []
        while at < len(parts) and parts[at] != "]":
            row, at = one(at)
            found.append(row)
            at += at < len(parts) and parts[at] == ","
        return found, at

    def one(at):
        word, attr, name, kids = parts[at], 0, 0, []
        if word in ("this", "super"):
            return Row(NUMBERS[word.capitalize()], []), at + 1
        if word.startswith("@"):
            return Row(NUMBERS["Ident"], [], 1, int(word[1:])), at + 1
        word, _, bits = word.partition("(")
        at += 1
        if word not in NUMBERS:
            return Row(NUMBERS["Ident"], [], 0, word), at
        attr = int(bits[:-1]) if bits else 0
        if at < len(parts) and parts[at] not in ("[", "]", ","):
            name, at = parts[at], at + 1
            if name.startswith("@"):
                attr, name = 1, int(name[1:])
        if at < len(parts) and parts[at] == "[":
            kids, at = rows(at + 1)
            assert parts[at] == "]", text
            at += 1
        return Row(NUMBERS[word], kids, attr, name), at

    found, at = rows(0)
    assert at == len(parts), text
    return found


def shown(node, names):
    """A row of a result in the notation."""
    word = KINDS[node.kind]
    bound = node.attr == 1 and word in BOUND
    if word in ("This", "Super"):
        return word.lower()
    if word == "Ident":
        return "@%d" % node.name if bound else names[node.name - 1]
    if node.attr and not bound:
        word += "(%d)" % node.attr
    if node.name and node.kind not in (model.OTHER, model.OPAQUE):
        word += " @%d" % node.name if bound else " " + names[node.name - 1]
    return word + ("[%s]" % list_of(node.kids, names) if node.kids else "")


def list_of(nodes, names):
    return ", ".join(shown(node, names) for node in nodes)


# The model.

def lent(tree):
    rows, pairs, text = named(lay(tree))
    names = [text[start:start + length].decode() for start, length in pairs]
    return model.bytes_of([w for r in rows for w in r]), model.bytes_of([w for p in pairs for w in p]), text, names


def converted(switches, tree):
    rows, pairs, text, names = lent(tree)
    made, records = model.converted(*switches, rows, pairs, text)
    return model.tree(made)[0], records, names


def within(outline, rows):
    """A tree of an outline in which the word HERE stands for the rows."""
    def filled(tree):
        kids = []
        for kid in tree.kids:
            kids += rows if kid.name == "HERE" else [filled(kid)]
        return Row(tree.kind, kids, tree.attr, tree.name)
    return filled(read(outline)[0])


# Where rows of the first part stand, by the head of their table.
PLACES = {
    "statement": "Program[HERE]",
    "expression": "Program[ExprStmt[Class[Method[Function(4)[Params, Body[ExprStmt[HERE]]]]]]]",
    "member": "Program[Class(8)[HERE]]",
    "property": "Program[ExprStmt[Object[HERE]]]",
}


# The page.

def section(page, title):
    start = page.index("\n## %s\n" % title)
    end = page.find("\n## ", start + 1)
    return page[start:end if end > 0 else len(page)]


def code(cell):
    return [part.replace("\\|", "|").strip() for part in re.findall(r"(?<!`)`([^`]+)`(?!`)", cell)]


def tables(text):
    """The tables of a part of the page: the paragraph above each, its head, and the cells of its lines."""
    found = []
    paragraphs = text.split("\n\n")
    for above, table in zip(paragraphs, paragraphs[1:]):
        lines = table.strip("\n").split("\n")
        if len(lines) > 2 and lines[1].startswith("|---"):
            cells = [[cell.strip() for cell in re.split(r"(?<!\\)\|", line)[1:-1]] for line in lines]
            found.append((" ".join(above.split()), cells[0], cells[2:]))
    return found


def hold_syntax(page):
    count = 0
    for _, head, lines in tables(section(page, "From syntax to rows")):
        if head[0] not in PLACES or head[1] != "rows":
            continue
        for line in lines:
            for rows in code(line[1]):
                try:
                    model.checked(*lent(within(PLACES[head[0]], read(rows)))[:3])
                except model.Refused as refused:
                    sys.exit("docs/FORMAT.md: %s: %d at row %d" % (rows, refused.number, refused.place))
                count += 1
    return count


def behind(tree):
    """How many rows stand behind HERE in its list."""
    for at, kid in enumerate(tree.kids):
        count = len(tree.kids) - at - 1 if kid.name == "HERE" else behind(kid)
        if count is not None:
            return count


def hold_results(page):
    count = 0
    for above, head, lines in tables(section(page, "The rows of a result")):
        place = code(above)
        if head[0] == "in the table":
            switches, outline = [int(word) for word in place[-2].split()], place[-1]
            for line in lines:
                result, _, names = converted(switches, within(outline, read(code(line[0])[-1])))
                frame = next(node for node in model.below(result) if node.kids and node.kids[0].kind == model.VAR)
                last = len(frame.kids) - behind(read(outline)[0])
                made = [list_of(frame.kids[1:last], names), list_of(frame.kids[0].kids, names)]
                if made != [", ".join(code(line[1])), ", ".join(code(line[2]))]:
                    sys.exit("docs/FORMAT.md: %s: %s" % (line[0], made))
                count += 1
        if head[:2] == ["row", "kind"]:
            switches, rows, words, bindings = place[:4]
            result, records, names = converted([int(word) for word in switches.split()], read(rows)[0])
            told = [[int(cell) for cell in line[:5]] for line in lines]
            if told != [[at] + row for at, row in enumerate(model.laid(result))]:
                sys.exit("docs/FORMAT.md: the result with row numbers is not the model's")
            if names != words.split(", ") or records != [[int(w) for w in record.split()] for record in bindings.split(", ")]:
                sys.exit("docs/FORMAT.md: its names or bindings are not the model's: %s, %s" % (names, records))
            count += len(told)
    return count


if __name__ == "__main__":
    with open(os.path.join(ROOT, "docs", "FORMAT.md"), encoding="utf-8") as file:
        text = file.read()
    syntax, results = hold_syntax(text), hold_results(text)
    if syntax < 80 or results < 30:
        sys.exit("docs/FORMAT.md: tables are missing")
    print("%d pieces of syntax and %d of results as the model has them" % (syntax, results))
