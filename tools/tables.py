#!/usr/bin/env python3
"""Stored tables for the checks 1, 4, 21 to 25, 3, 5 of the request, and the answer that the request gives for each.

  tables.py FILE            write the tables to FILE (crates/replay/stdin)
  tables.py --check FILE    exit status 1 if FILE is not what would be written

An answer is written by hand beside its table, as number and place: the number of the refusal (0 for a sound table), and
its place (a row from 0, for number 4 a name from 1). The numbers of a bad row are 21 kind, 22 attr, 23 end, 24 place or
number of children, 25 name; of several the lowest is told. Nothing here tests a table against the rules. That the pairs of
faults, the faults of row 0 and those behind another bad row are all there, `complete` sees to.
"""
import sys
from itertools import combinations, product

HEAD = """\
# Tables for the checks 1, 4, 21 to 25, 3, 5 of the request, with the answers that the request gives. Made by tables.py.
#
# Numbers are decimal, apart by blanks and line ends; '#' starts a comment that ends with its line.
# A table is, in this order:
#   its own number, from 1; the limits: rows, depth
#   the number of runs of rows; for each run: kind attr name end, times, step
#   how many zero bytes stand behind the rows
#   the number of runs of name pairs; for each run: start length, times, step
#   how many zero bytes stand behind the pairs
#   the number of runs of text bytes; for each run: byte, times, step
#   the answer: number place
# A run has `times` items. The row's end, the pair's start or the byte grows by `step` from each item to the next.
# The number of a bad row is that of its lowest fault: 21 kind, 22 attr, 23 end, 24 place or number of children, 25 name.
"""

KINDS = {
    0: "Program", 1: "ExprStmt", 2: "Var", 3: "Declarator", 4: "Return", 5: "Block", 6: "Other", 8: "Opaque",
    9: "This", 10: "Super", 11: "Ident", 12: "Member", 13: "Computed", 14: "Call", 15: "Assign", 16: "Arrow",
    17: "Function", 18: "Params", 19: "Body", 20: "Class", 21: "Method", 22: "Field", 23: "StaticBlock",
    24: "Object", 25: "Property", 26: "Sequence", 27: "Arguments", 28: "Target",
}

BIG = 4294967295          # 2^32 - 1
ROWS, DEPTH = 16384, 128  # the base's limits


# Trees. Each function makes a row with the children given, few or many, right or wrong.

class Row:
    def __init__(self, kind, kids, attr=0, name=0):
        self.kind, self.kids, self.attr, self.name = kind, kids, attr, name


def maker(kind, usual_name=0):
    def make(*kids, attr=0, name=usual_name):
        return Row(kind, kids, attr, name)
    return make


program, expr, var, ret, block = (maker(k) for k in (0, 1, 2, 4, 5))
other, opaque, this, sup = (maker(k) for k in (6, 8, 9, 10))
decl, ident, member = (maker(k, 1) for k in (3, 11, 12))
computed, call, assign, arrow, func = (maker(k) for k in (13, 14, 15, 16, 17))
params, body, klass, method, field = (maker(k) for k in (18, 19, 20, 21, 22))
static_block, obj, prop, seq = (maker(k) for k in (23, 24, 25, 26))
arguments, target = maker(27), maker(28)


def fn(attr=0, name=0):
    """A Function with empty Params and Body: three rows."""
    return func(params(), body(), attr=attr, name=name)


def one(expression):
    """Row 0 Program, row 1 ExprStmt, row 2 the expression."""
    return program(expr(expression))


def in_class(*members, attr=0):
    """Row 0 Program, row 1 ExprStmt, row 2 Class, row 3 its first child."""
    return one(klass(*members, attr=attr))


def lay(tree):
    """The rows of a tree in preorder: [kind, attr, name, end]."""
    rows = []

    def walk(row):
        at = len(rows)
        rows.append([row.kind, row.attr, row.name, 0])
        for kid in row.kids:
            walk(kid)
        rows[at][3] = len(rows)
    walk(tree)
    return rows


def ends(tree, **new):
    """The rows of a tree with other ends: r3=4 gives row 3 the end 4."""
    rows = lay(tree)
    for row, end in new.items():
        rows[int(row[1:])][3] = end
    return rows


def siblings(n):
    """A Program with n - 1 Returns: n rows."""
    return [[0, 0, 0, n]] + [[4, 0, 0, i + 1] for i in range(1, n)]


def nested(n):
    """A Program with a Block in a Block in a Block ..: n rows, row i at depth i."""
    return [[0, 0, 0, n]] + [[5, 0, 0, n] for i in range(1, n)]


def set_row(rows, at, row):
    rows[at] = row
    return rows


def changed(rows, at, **fields):
    """The rows, or those of a tree, with other fields in one row: kind=7 gives row `at` the kind 7."""
    rows = lay(rows) if isinstance(rows, Row) else [list(row) for row in rows]
    for field, value in fields.items():
        rows[at][("kind", "attr", "name", "end").index(field)] = value
    return rows


# The list of tables.

LINES = []
COUNT = 0

ABC = [(0, 1), (1, 1), (2, 1)]    # the usual names: a, b, c


def part(title):
    LINES.append("")
    LINES.append("# == " + title + " ==")


def runs_of(items, grows):
    """Items as runs, (first item, times, step): three or more where only the field `grows` changes, by even steps."""
    runs, i = [], 0
    while i < len(items):
        j = i + 1
        step = items[j][grows] - items[i][grows] if j < len(items) else 0
        while j < len(items) and step >= 0 and items[j][grows] - items[j - 1][grows] == step \
                and all(items[j][f] == items[i][f] for f in range(len(items[i])) if f != grows):
            j += 1
        if j - i < 3:
            j, step = i + 1, 0
        runs.append((items[i], j - i, step))
        i = j
    return runs


def on_one_line(runs):
    text = ["%s %d %d" % (" ".join(map(str, item)), times, step) for item, times, step in runs]
    return "  ".join([str(len(runs))] + text)


def table(what, rows, number, place, names=ABC, text=b"abc", limits=(ROWS, DEPTH), after_rows=0, after_names=0):
    global COUNT
    COUNT += 1
    if isinstance(rows, Row):
        rows = lay(rows)
    runs = runs_of(rows, 3)
    LINES.extend(["", "# " + what, "%d %d %d" % (COUNT, limits[0], limits[1]), str(len(runs))])
    at = 0
    for (kind, attr, name, end), times, step in runs:
        where = str(at) if times == 1 else "%d to %d" % (at, at + times - 1)
        LINES.append("%d %d %d %d %d %d # %s %s" % (kind, attr, name, end, times, step, where, KINDS.get(kind, "none")))
        at += times
    LINES.append(str(after_rows))
    LINES.append(on_one_line(runs_of(names, 0)))
    LINES.append(str(after_names))
    LINES.append(on_one_line(runs_of([(b,) for b in text], 0)))
    LINES.append("%d %d" % (number, place))


def sound(what, rows, **more):
    table(what, rows, 0, 0, **more)


def bad(what, rows, place, number, **more):
    """A bad row and the number of its lowest fault."""
    table(what, rows, number, place, **more)


# The numbers of a bad row.
KIND = 21
ATTR = 22
END = 23
PLACE = 24
NAME = 25
COUNTED = PLACE                   # a wrong number of children has the number of a wrong place
FIVE = (KIND, ATTR, END, PLACE, NAME)


def sizes():
    part("1: sizes")
    table("no rows", [], 1, 0)
    table("no rows, no names and no text", [], 1, 0, names=[], text=b"")
    sound("one row, no names and no text", program(), names=[], text=b"")
    for n in (1, 2, 3, 5, 15):
        table("not whole words: 16 + %d bytes" % n, program(), 1, 0, after_rows=n)
    for n in (1, 2, 3):
        table("row words not a multiple of 4: 4 + %d" % n, program(), 1, 0, after_rows=4 * n)
    table("no row and 15 bytes", [], 1, 0, after_rows=15)
    bad("sixteen zero bytes are a row: a Program with end 0", [], 0, END, after_rows=16)
    sound("16,383 rows side by side: one below the limit", siblings(16383))
    sound("16,384 rows side by side: at the limit", siblings(16384))
    table("16,385 rows: one above the limit", siblings(16385), 1, 0)
    table("16,384 rows and a word", siblings(16384), 1, 0, after_rows=4)
    sound("511 rows under the limit 512", siblings(511), limits=(512, 32))
    sound("512 rows under the limit 512", siblings(512), limits=(512, 32))
    table("513 rows under the limit 512", siblings(513), 1, 0, limits=(512, 32))
    sound("one row under the limit 1", program(), limits=(1, 128))
    table("two rows under the limit 1", program(ret()), 1, 0, limits=(1, 128))
    table("one row under the limit 0", program(), 1, 0, limits=(0, 128))
    sound("a limit above 16,384 counts as 16,384: 16,384 rows", siblings(16384), limits=(BIG, 128))
    table("a limit above 16,384 counts as 16,384: 16,385 rows", siblings(16385), 1, 0, limits=(16385, 128))
    table("the largest limit counts as 16,384: 16,385 rows", siblings(16385), 1, 0, limits=(BIG, 128))
    table("one name word", program(), 1, 0, names=[], after_names=4)
    table("seven name words", program(), 1, 0, after_names=4)
    for n in (1, 2, 3, 5, 7):
        table("not whole name words, or an odd number: 24 + %d bytes" % n, program(), 1, 0, after_names=n)
    table("eight zero bytes are a name of length 0", program(), 4, 1, names=[], after_names=8)
    table("three names and eight zero bytes: the fourth name has length 0", program(), 4, 4, after_names=8)
    sound("4,095 names: one below the limit", program(), names=[(0, 1)] * 4095)
    sound("4,096 names: at the limit", program(), names=[(0, 1)] * 4096)
    table("4,097 names: one above the limit", program(), 1, 0, names=[(0, 1)] * 4097)
    table("4,096 names and a word", program(), 1, 0, names=[(0, 1)] * 4096, after_names=4)
    sound("text of 65,534 bytes, a name at its end", program(), names=[(65533, 1)], text=b"a" * 65534)
    sound("text of 65,535 bytes: at the limit, a name at its end", program(), names=[(65534, 1)], text=b"a" * 65535)
    table("text of 65,536 bytes: one above the limit", program(), 1, 0, names=[(65534, 1)], text=b"a" * 65536)
    table("text of 65,536 bytes and no name", program(), 1, 0, names=[], text=b"a" * 65536)


def names():
    part("4: names, lengths and places in the text")
    text = b"a" * 300

    def name(what, pair, number, place, text=text):
        table(what, program(), number, place, names=[pair], text=text)
    name("length 0", (0, 0), 4, 1)
    name("length 0 at the end of the text", (300, 0), 4, 1)
    name("length 0 in an empty text", (0, 0), 4, 1, text=b"")
    name("length 1", (0, 1), 0, 0)
    name("length 254", (0, 254), 0, 0)
    name("length 255", (0, 255), 0, 0)
    name("length 256", (0, 256), 4, 1)
    name("length 256, the whole text", (0, 256), 4, 1, text=b"a" * 256)
    name("length 255 up to the end of the text", (45, 255), 0, 0)
    name("length 255 one past the end of the text", (46, 255), 4, 1)
    name("the last byte of the text", (299, 1), 0, 0)
    name("a name that starts at the end of the text", (300, 1), 4, 1)
    name("start and length one past the text", (298, 3), 4, 1)
    name("a name in an empty text", (0, 1), 4, 1, text=b"")
    name("start 2^32 - 1", (BIG, 1), 4, 1)
    name("start 2^32 - 1 and length 255", (BIG, 255), 4, 1)
    name("start and length whose sum is 2^32", (4294967041, 255), 4, 1)
    name("length 2^32 - 1", (0, BIG), 4, 1)
    name("start 1 and length 2^32 - 1: the sum is 2^32", (1, BIG), 4, 1)
    five = [(0, 1)] * 5
    table("the first of five names is bad", program(), 4, 1, names=[(0, 0)] + five[:4])
    table("the third of five names is bad", program(), 4, 3, names=five[:2] + [(0, 0)] + five[:2])
    table("the last of five names is bad", program(), 4, 5, names=five[:4] + [(0, 0)])
    table("the second and the fourth of five names are bad, in different ways", program(), 4, 2,
          names=[(0, 1), (3, 1), (0, 1), (0, 0), (0, 1)])
    table("the last of 4,096 names is bad", program(), 4, 4096, names=[(0, 1)] * 4095 + [(3, 1)])
    sound("names may overlap and repeat", program(), names=[(0, 3), (1, 2), (0, 3), (1, 1)])
    sound("no names at all", program(), names=[])

    part("4: names, UTF-8")

    def good(what, text):
        sound("UTF-8: " + what, program(), names=[(0, len(text))], text=text)

    def wrong(what, text):
        table("not UTF-8: " + what, program(), 4, 1, names=[(0, len(text))], text=text)
    good("U+0000", b"\x00")
    good("U+007F", b"\x7f")
    good("U+0080, the first of two bytes", b"\xc2\x80")
    good("U+07FF, the last of two bytes", b"\xdf\xbf")
    good("U+0800, the first of three bytes", b"\xe0\xa0\x80")
    good("U+0FFF", b"\xe0\xbf\xbf")
    good("U+1000", b"\xe1\x80\x80")
    good("U+CFFF", b"\xec\xbf\xbf")
    good("U+D000", b"\xed\x80\x80")
    good("U+D7FF, below the surrogates", b"\xed\x9f\xbf")
    good("U+E000, above the surrogates", b"\xee\x80\x80")
    good("U+FFFF, the last of three bytes", b"\xef\xbf\xbf")
    good("U+10000, the first of four bytes", b"\xf0\x90\x80\x80")
    good("U+3FFFF", b"\xf0\xbf\xbf\xbf")
    good("U+40000", b"\xf1\x80\x80\x80")
    good("U+FFFFF", b"\xf3\xbf\xbf\xbf")
    good("U+100000", b"\xf4\x80\x80\x80")
    good("U+10FFFF, the last", b"\xf4\x8f\xbf\xbf")
    good("one, two, three and four bytes in a row", b"a\xc3\xa9\xe2\x82\xac\xf0\x9f\x98\x80z")
    good("255 bytes, the last character of three", b"a" * 252 + b"\xe2\x82\xac")
    wrong("a continuation byte alone, 80", b"\x80")
    wrong("a continuation byte alone, BF", b"\xbf")
    wrong("C0 80, an overlong U+0000", b"\xc0\x80")
    wrong("C1 BF, an overlong U+007F", b"\xc1\xbf")
    wrong("E0 80 80, an overlong U+0000", b"\xe0\x80\x80")
    wrong("E0 9F BF, an overlong U+07FF", b"\xe0\x9f\xbf")
    wrong("F0 80 80 80, an overlong U+0000", b"\xf0\x80\x80\x80")
    wrong("F0 8F BF BF, an overlong U+FFFF", b"\xf0\x8f\xbf\xbf")
    wrong("ED A0 80, the first surrogate", b"\xed\xa0\x80")
    wrong("ED BF BF, the last surrogate", b"\xed\xbf\xbf")
    wrong("F4 90 80 80, one past U+10FFFF", b"\xf4\x90\x80\x80")
    wrong("F5 80 80 80", b"\xf5\x80\x80\x80")
    wrong("F8 88 80 80 80, five bytes", b"\xf8\x88\x80\x80\x80")
    wrong("FE", b"\xfe")
    wrong("FF", b"\xff")
    wrong("C2 and no more", b"\xc2")
    wrong("E2 82 and no more", b"\xe2\x82")
    wrong("F0 9F 98 and no more", b"\xf0\x9f\x98")
    wrong("F0 and no more, after letters", b"abc\xf0")
    wrong("C2 before a letter", b"\xc2a")
    wrong("E2 before a letter", b"\xe2a\x82")
    wrong("E2 82 before a letter", b"\xe2\x82a")
    wrong("F0 before a letter", b"\xf0a\x98\x80")
    wrong("F0 9F before a letter", b"\xf0\x9fa\x80")
    wrong("F0 9F 98 before a letter", b"\xf0\x9f\x98a")
    wrong("C2 before C2 80", b"\xc2\xc2\x80")
    sizes_by_lead = {"C2": 2, "E0": 3, "E1": 3, "ED": 3, "EE": 3, "F0": 4, "F1": 4, "F4": 4}
    for before in ("C2", "E0", "E0 A0", "E1", "E1 80", "ED", "ED 80", "EE", "EE 80", "F0", "F0 90", "F0 90 80",
                   "F1", "F1 80", "F1 80 80", "F4", "F4 80", "F4 80 80"):
        start = bytes.fromhex(before)
        rest = b"\x80" * (sizes_by_lead[before[:2]] - len(start) - 1)
        wrong("7F after " + before, start + b"\x7f" + rest)
        wrong("C0 after " + before, start + b"\xc0" + rest)
    wrong("a third byte after two", b"\xc3\xa9\xa9")
    wrong("a fourth byte after three", b"\xe2\x82\xac\xac")
    wrong("a fifth byte after four", b"\xf0\x9f\x98\x80\x80")
    wrong("the last of 255 bytes", b"a" * 254 + b"\x80")
    euro = b"\xe2\x82\xac"
    table("a name that ends inside a character of the text", program(), 4, 1, names=[(0, 2)], text=euro)
    table("a name that starts inside a character of the text", program(), 4, 1, names=[(1, 2)], text=euro)
    sound("the same character whole", program(), names=[(0, 3)], text=euro)
    table("two bytes cut at the end of the first of two names", program(), 4, 1, names=[(0, 2), (2, 1)],
          text=b"a\xc3\xa9")
    sound("bytes that are not UTF-8, in no name", program(), names=[(1, 1)], text=b"\xffa\xc0")


def kinds():
    part("21: kinds")
    bad("row 0 of kind 7", [[7, 0, 0, 1]], 0, KIND)
    bad("row 0 of kind 29, whose end is wrong too", [[29, 0, 0, 5]], 0, KIND)
    none, after = maker(7), maker(29)
    bad("kind 7 in the middle", program(ret(), none(), ret()), 2, KIND)
    bad("kind 29 as the last row", program(ret(), ret(), after()), 3, KIND)
    bad("kind 2^32 - 1", program(ret(), maker(BIG)(), ret()), 2, KIND)
    bad("kind 256, whose low byte is a Program's", program(maker(256)()), 1, KIND)
    bad("kind 7 as the one expression of an ExprStmt", one(none()), 2, KIND)
    bad("kind 29 inside a Block", program(block(ret(), after(ret()))), 3, KIND)
    bad("kind 7 with a wrong attr, name and end: the lowest number", ends(program(ret(), none(attr=9, name=9)), r2=0), 2,
        KIND)
    bad("kind 7 twice: the first", program(none(), none()), 1, KIND)


def well_formed():
    part("Each kind well-formed")
    sound("Program with every kind of statement",
          program(expr(this()), var(decl()), ret(), block(), other(), fn(8), klass(attr=8)))
    sound("ExprStmt", one(this()))
    sound("Var without a Declarator", program(var()))
    sound("Var with three Declarators", program(var(decl(name=1), decl(this(), name=2), decl(name=3))))
    sound("Declarator with an initialiser", program(var(decl(this()))))
    sound("Return without and with an expression", program(ret(), ret(this())))
    sound("Block, empty and with statements", program(block(), block(ret(), block(), expr(this()))))
    sound("Other with nothing, and with statements, expressions and Targets",
          program(other(), other(ret(), this(), target(ident()), block(), call(this()), attr=7, name=9)))
    sound("Opaque with nothing, and with expressions and Targets",
          one(opaque(this(), opaque(), target(ident()), fn(), attr=7, name=9)))
    sound("This", program(ret(this())))
    sound("Super as the object of a Member", one(member(sup())))
    sound("Ident", one(ident()))
    sound("Member", one(member(this())))
    sound("Computed", one(computed(this(), ident())))
    sound("Call without and with arguments", program(expr(call(ident())), expr(call(ident(), this(), ident(), this()))))
    sound("Assign", one(assign(target(ident()), this())))
    sound("Arrow with a Body", one(arrow(params(), body())))
    sound("Arrow with an expression, bit 1", one(arrow(params(), this(), attr=2)))
    sound("Arrow with parameters and statements",
          one(arrow(params(decl(), decl(this())), body(ret(this()), ret()), attr=1)))
    sound("Function", one(fn()))
    sound("Function with parameters and statements", one(func(params(decl(), decl(this())), body(ret(), expr(this())))))
    sound("Params with Declarators", one(func(params(decl(name=1), decl(name=2), decl(name=3)), body())))
    sound("Body with a Function and a Class declared in it", one(func(params(), body(fn(8), klass(attr=8)))))
    sound("Class without a member", one(klass()))
    sound("Class with heritage alone", one(klass(this(), attr=1)))
    sound("Class with heritage and every kind of member",
          in_class(this(), method(fn()), field(), static_block(), attr=1))
    sound("Method", in_class(method(fn())))
    sound("Method with a key", in_class(method(this(), fn(), attr=1)))
    sound("Field without a key and a value", in_class(field()))
    sound("Field with a key", in_class(field(this(), attr=1)))
    sound("Field with a value", in_class(field(this(), attr=4)))
    sound("Field with a key and a value", in_class(field(this(), this(), attr=5)))
    sound("StaticBlock, empty and with statements", in_class(static_block(), static_block(ret(), expr(this()))))
    sound("Object without anything", one(obj()))
    sound("Object with Properties and expressions mixed", one(obj(prop(this()), this(), prop(ident()), ident())))
    sound("Property", one(obj(prop(this()))))
    sound("Property with a key", one(obj(prop(this(), ident(), attr=1))))
    sound("Property with a method", one(obj(prop(fn(), attr=2))))
    sound("Property with a key and a method", one(obj(prop(this(), fn(), attr=3))))
    sound("Sequence of two", one(seq(this(), this())))
    sound("Sequence of four", one(seq(this(), ident(), this(), ident())))
    table("Arguments: well-formed, and refused by 5", one(arguments()), 5, 2)
    sound("Target of an Ident", one(assign(target(ident()), this())))
    sound("Target of a Member", one(assign(target(member(this())), this())))
    sound("Target of a Computed", one(assign(target(computed(this(), this())), this())))
    sound("Target of an Opaque", one(assign(target(opaque()), this())))
    sound("two constructors in a Class", in_class(method(fn(4)), method(fn(4))))
    sound("a constructor under a computed key", in_class(method(this(), fn(4), attr=1)))
    sound("an arrow that reads this, in Program", one(arrow(params(), this(), attr=2)))


def attrs():
    part("22: attr, the largest allowed and one above")
    bad("Program, attr 1", program(attr=1), 0, ATTR)
    bad("ExprStmt, attr 1", program(expr(this(), attr=1)), 1, ATTR)
    sound("Var, attr 1", program(var(attr=1)))
    sound("Var, attr 2", program(var(attr=2)))
    bad("Var, attr 3", program(var(attr=3)), 1, ATTR)
    bad("Var, attr 2^32 - 1", program(var(attr=BIG)), 1, ATTR)
    table("Declarator, attr 1: allowed, and refused by 5", program(var(decl(attr=1))), 5, 2)
    bad("Declarator, attr 2", program(var(decl(attr=2))), 2, ATTR)
    bad("Return, attr 1", program(ret(attr=1)), 1, ATTR)
    sound("Block, attr 1", program(block(attr=1)))
    bad("Block, attr 2", program(block(attr=2)), 1, ATTR)
    sound("Other, attr 2^32 - 1", program(other(attr=BIG)))
    sound("Opaque, attr 2^32 - 1", one(opaque(attr=BIG)))
    bad("This, attr 1", one(this(attr=1)), 2, ATTR)
    bad("Super, attr 1", one(member(sup(attr=1))), 3, ATTR)
    table("Ident, attr 1: allowed, and refused by 5", one(ident(attr=1)), 5, 2)
    bad("Ident, attr 2", one(ident(attr=2)), 2, ATTR)
    table("Member, attr 1: allowed, and refused by 5", one(member(this(), attr=1)), 5, 2)
    bad("Member, attr 2", one(member(this(), attr=2)), 2, ATTR)
    bad("Computed, attr 1", one(computed(this(), this(), attr=1)), 2, ATTR)
    bad("Call, attr 1", one(call(this(), attr=1)), 2, ATTR)
    sound("Assign, attr 12", one(assign(target(ident()), this(), attr=12)))
    sound("Assign, attr 15", one(assign(target(ident()), this(), attr=15)))
    bad("Assign, attr 16", one(assign(target(ident()), this(), attr=16)), 2, ATTR)
    sound("Arrow, attr 1", one(arrow(params(), body(), attr=1)))
    sound("Arrow, attr 3", one(arrow(params(), this(), attr=3)))
    bad("Arrow, attr 4", one(arrow(params(), body(), attr=4)), 2, ATTR)
    bad("Arrow, attr 6", one(arrow(params(), this(), attr=6)), 2, ATTR)
    bad("Params, attr 1", one(func(params(attr=1), body())), 3, ATTR)
    bad("Body, attr 1", one(func(params(), body(attr=1))), 4, ATTR)
    bad("Class, attr 2", one(klass(attr=2)), 2, ATTR)
    bad("Class, attr 3", one(klass(this(), attr=3)), 2, ATTR)
    bad("Class, attr 4", one(klass(attr=4)), 2, ATTR)
    bad("Class, attr 16", one(klass(attr=16)), 2, ATTR)
    sound("Class in a statement's place, attr 9", program(klass(this(), attr=9)))
    bad("Class in a statement's place, attr 10", program(klass(attr=10)), 1, ATTR)
    bad("Class in a statement's place, attr 12", program(klass(attr=12)), 1, ATTR)
    bad("Class in a statement's place, attr 24", program(klass(attr=24)), 1, ATTR)
    sound("Method, attr 2: static", in_class(method(fn(), attr=2)))
    sound("Method, attr 3: static, with a key", in_class(method(this(), fn(), attr=3)))
    bad("Method, attr 4", in_class(method(fn(), attr=4)), 3, ATTR)
    sound("Field, attr 2: static", in_class(field(attr=2)))
    sound("Field, attr 7: static, with a key and a value", in_class(field(this(), this(), attr=7)))
    bad("Field, attr 8", in_class(field(attr=8)), 3, ATTR)
    bad("StaticBlock, attr 1", in_class(static_block(attr=1)), 3, ATTR)
    bad("Object, attr 1", one(obj(attr=1)), 2, ATTR)
    bad("Property, attr 4", one(obj(prop(this(), attr=4))), 3, ATTR)
    bad("Sequence, attr 1", one(seq(this(), this(), attr=1)), 2, ATTR)
    table("Arguments, attr 1: allowed, and refused by 5", one(arguments(attr=1)), 5, 2)
    bad("Arguments, attr 2", one(arguments(attr=2)), 2, ATTR)
    bad("Target, attr 1", one(assign(target(ident(), attr=1), this())), 3, ATTR)


def functions():
    part("22: the bits of Function and Class, and their places")
    for a in (1, 2, 3):
        sound("Function as an expression, attr %d" % a, one(fn(a)))
    for a in (4, 5, 6, 7):
        bad("Function as an expression, attr %d: bit 2 outside a Method" % a, one(fn(a)), 2, ATTR)
    bad("Function as an expression, attr 8: bit 3", one(fn(8)), 2, ATTR)
    bad("Function as an expression, attr 16", one(fn(16)), 2, ATTR)
    for a in (8, 9, 10, 11):
        sound("Function as a statement, attr %d" % a, program(fn(a)))
    for a in (0, 3):
        bad("Function as a statement, attr %d: bit 3 is missing" % a, program(fn(a)), 1, ATTR)
    bad("Function as a statement, attr 4: bit 2", program(fn(4)), 1, ATTR)
    bad("Function as a statement, attr 12: bits 2 and 3", program(fn(12)), 1, ATTR)
    bad("Function as a statement, attr 24", program(fn(24)), 1, ATTR)
    bad("Function as a statement, attr 2^32 - 1", program(fn(BIG)), 1, ATTR)
    for what, make in (("Block", lambda x: program(block(x))), ("Body", lambda x: one(func(params(), body(x)))),
                       ("StaticBlock", lambda x: in_class(static_block(x)))):
        row = {"Block": 2, "Body": 5, "StaticBlock": 4}[what]
        sound("Function in a %s, attr 8" % what, make(fn(8)))
        bad("Function in a %s, attr 0: bit 3 is missing" % what, make(fn(0)), row, ATTR)
        sound("Class in a %s, attr 8" % what, make(klass(attr=8)))
        bad("Class in a %s, attr 0: bit 3 is missing" % what, make(klass()), row, ATTR)
    sound("Function under Other, attr 0: an expression", program(other(fn(0))))
    sound("Function under Other, attr 8: a statement", program(other(fn(8))))
    bad("Function under Other, attr 4", program(other(fn(4))), 2, ATTR)
    bad("Function under Other, attr 12", program(other(fn(12))), 2, ATTR)
    sound("Class under Other, attr 0 and attr 8", program(other(klass(), klass(attr=8))))
    sound("Function under Opaque, attr 3", one(opaque(fn(3))))
    bad("Function under Opaque, attr 8", one(opaque(fn(8))), 3, ATTR)
    bad("Class under Opaque, attr 8", one(opaque(klass(attr=8))), 3, ATTR)
    bad("Function returned, attr 8", program(ret(fn(8))), 2, ATTR)
    bad("Function as an initialiser, attr 8", program(var(decl(fn(8)))), 3, ATTR)
    bad("Function as an argument, attr 8", one(call(ident(), fn(8))), 4, ATTR)
    bad("Function as a callee, attr 8", one(call(fn(8))), 3, ATTR)
    bad("Function as an arrow's expression, attr 8", one(arrow(params(), fn(8), attr=2)), 4, ATTR)
    bad("Function in an Object, attr 8", one(obj(fn(8))), 3, ATTR)
    bad("Function in a Sequence, attr 8", one(seq(this(), fn(8))), 4, ATTR)
    bad("Function as an Assign's right side, attr 8", one(assign(target(ident()), fn(8))), 5, ATTR)
    bad("Class as an expression, attr 8", one(klass(attr=8)), 2, ATTR)
    bad("Class as a statement, attr 0: bit 3 is missing", program(klass()), 1, ATTR)
    bad("Class as a statement, attr 1: bit 3 is missing", program(klass(this(), attr=1)), 1, ATTR)
    bad("Class as heritage, attr 8", in_class(klass(attr=8), attr=1), 3, ATTR)
    sound("Class as heritage, attr 0", in_class(klass(), attr=1))
    for a in (1, 2, 3):
        sound("a Method's Function, attr %d" % a, in_class(method(fn(a))))
    sound("a Method's Function, attr 4: a constructor", in_class(method(fn(4))))
    for a in (5, 6, 7):
        bad("a Method's Function, attr %d: bit 2 is not alone" % a, in_class(method(fn(a))), 4, ATTR)
    bad("a Method's Function, attr 8: bit 3", in_class(method(fn(8))), 4, ATTR)
    bad("a Method's Function, attr 12: bits 2 and 3", in_class(method(fn(12))), 4, ATTR)
    bad("a static Method's Function, attr 4", in_class(method(fn(4), attr=2)), 4, ATTR)
    bad("a static Method's Function under a key, attr 4", in_class(method(this(), fn(4), attr=3)), 5, ATTR)
    bad("a static Method's Function, attr 8", in_class(method(fn(8), attr=2)), 4, ATTR)
    bad("a Function as a Method's key, attr 4", in_class(method(fn(4), fn(), attr=1)), 4, ATTR)
    bad("a Function as a Method's key, attr 8", in_class(method(fn(8), fn(), attr=1)), 4, ATTR)
    sound("a Function as a Method's key, attr 0", in_class(method(fn(), fn(4), attr=1)))
    for a in (0, 1, 2, 3):
        sound("a Property method's Function, attr %d" % a, one(obj(prop(fn(a), attr=2))))
    bad("a Property method's Function, attr 4", one(obj(prop(fn(4), attr=2))), 4, ATTR)
    bad("a Property method's Function, attr 8", one(obj(prop(fn(8), attr=2))), 4, ATTR)
    sound("a Property's value, a Function with attr 0", one(obj(prop(fn()))))
    bad("a Property's value, a Function with attr 4", one(obj(prop(fn(4)))), 4, ATTR)
    bad("a Property's value, a Function with attr 8", one(obj(prop(fn(8)))), 4, ATTR)
    bad("a Field's value, a Function with attr 4", in_class(field(fn(4), attr=4)), 4, ATTR)
    bad("a Field's value, a Class with attr 8", in_class(field(klass(attr=8), attr=4)), 4, ATTR)
    # where neither can stand: 22 if bit 3 or bit 2 is wrong for the place, else 24
    bad("row 0 is a Function with attr 8: bit 3 where no statement stands", fn(8), 0, ATTR)
    bad("row 0 is a Function with attr 4: bit 2 outside a Method", fn(4), 0, ATTR)
    bad("row 0 is a Class with attr 8: bit 3 where no statement stands", klass(attr=8), 0, ATTR)
    bad("row 0 is a Class, whose bits would do", klass(), 0, PLACE)
    bad("Class with a Function as a member, attr 8", in_class(fn(8)), 3, ATTR)
    bad("Class with a Function as a member, attr 4", in_class(fn(4)), 3, ATTR)
    bad("Class with a Function as a member, attr 3: its bits would do", in_class(fn(3)), 3, PLACE)
    bad("Function in a Var, attr 0: its bits would do", program(var(fn())), 2, PLACE)
    bad("Function in a Var, attr 8", program(var(fn(8))), 2, ATTR)
    bad("Function in Params, attr 0: its bits would do", one(func(params(fn()), body())), 4, PLACE)
    bad("Function in Params, attr 8", one(func(params(fn(8)), body())), 4, ATTR)
    bad("Function for an Arrow's Body, attr 0: its bits would do", one(arrow(params(), fn())), 4, PLACE)
    bad("Function for an Arrow's Body, attr 8", one(arrow(params(), fn(8))), 4, ATTR)
    bad("Class for a Method's Function, attr 0: its bits would do", in_class(method(klass())), 4, PLACE)
    bad("Class for a Method's Function, attr 8", in_class(method(klass(attr=8))), 4, ATTR)
    bad("Class for a Property method's Function, attr 1: its bits would do", one(obj(prop(klass(this(), attr=1), attr=2))), 4,
        PLACE)
    bad("Class for a Property method's Function, attr 9", one(obj(prop(klass(this(), attr=9), attr=2))), 4, ATTR)
    bad("Target of a Function, attr 8", one(assign(target(fn(8)), this())), 4, ATTR)
    bad("Assign to a Class without a Target, attr 8", one(assign(klass(attr=8), this())), 3, ATTR)


def row_names():
    part("25: names of rows")
    for what, make in (("Ident", lambda n: one(ident(name=n))), ("Member", lambda n: one(member(this(), name=n))),
                       ("Declarator", lambda n: program(var(decl(name=n))))):
        bad("%s with name 0" % what, make(0), 2, NAME)
        sound("%s with the last name" % what, make(3))
        bad("%s with one past the last name" % what, make(4), 2, NAME)
        bad("%s with name 2^32 - 1" % what, make(BIG), 2, NAME)
        bad("%s with name 1, and no names" % what, make(1), 2, NAME, names=[])
    for what, make in (("Function", lambda n: one(fn(name=n))), ("Class", lambda n: one(klass(name=n)))):
        sound("%s with name 0, and no names" % what, make(0), names=[])
        sound("%s with the last name" % what, make(3))
        bad("%s with one past the last name" % what, make(4), 2, NAME)
        bad("%s with name 2^32 - 1" % what, make(BIG), 2, NAME)
    many = [(0, 1)] * 4096
    sound("Ident with the last of 4,096 names", one(ident(name=4096)), names=many)
    bad("Ident with one past 4,096 names", one(ident(name=4097)), 2, NAME, names=many)
    sound("Function with the last of 4,096 names", one(fn(name=4096)), names=many)
    bad("Function with one past 4,096 names", one(fn(name=4097)), 2, NAME, names=many)
    sound("a declared Function and a declared Class with names", program(fn(8, name=1), klass(attr=8, name=2)))
    sound("Other with name 2^32 - 1", program(other(name=BIG)))
    sound("Opaque with name 2^32 - 1", one(opaque(name=BIG)))
    sound("Other and Opaque with one past the last name", program(other(opaque(name=4), name=4)))
    bad("Program with a name", program(name=1), 0, NAME)
    bad("ExprStmt with a name", program(expr(this(), name=1)), 1, NAME)
    bad("Var with a name", program(var(name=1)), 1, NAME)
    bad("Return with a name", program(ret(name=1)), 1, NAME)
    bad("Block with a name", program(block(name=1)), 1, NAME)
    bad("This with a name", one(this(name=1)), 2, NAME)
    bad("Super with a name", one(member(sup(name=1))), 3, NAME)
    bad("Computed with a name", one(computed(this(), this(), name=1)), 2, NAME)
    bad("Call with a name", one(call(this(), name=1)), 2, NAME)
    bad("Assign with a name", one(assign(target(ident()), this(), name=1)), 2, NAME)
    bad("Arrow with a name", one(arrow(params(), body(), name=1)), 2, NAME)
    bad("Params with a name", one(func(params(name=1), body())), 3, NAME)
    bad("Body with a name", one(func(params(), body(name=1))), 4, NAME)
    bad("Method with a name", in_class(method(fn(), name=1)), 3, NAME)
    bad("Field with a name", in_class(field(name=1)), 3, NAME)
    bad("StaticBlock with a name", in_class(static_block(name=1)), 3, NAME)
    bad("Object with a name", one(obj(name=1)), 2, NAME)
    bad("Property with a name", one(obj(prop(this(), name=1))), 3, NAME)
    bad("Sequence with a name", one(seq(this(), this(), name=1)), 2, NAME)
    bad("Target with a name", one(assign(target(ident(), name=1), this())), 3, NAME)
    bad("This with name 2^32 - 1, as the last row", program(ret(), expr(this(name=BIG))), 3, NAME)


def counts():
    part("24: too few and too many children: the parent is told")

    def few(what, rows, place):
        bad("too few: " + what, rows, place, COUNTED)

    def many(what, rows, place):
        bad("too many: " + what, rows, place, COUNTED)
    few("ExprStmt with none", program(expr()), 1)
    many("ExprStmt with two", program(expr(this(), this())), 1)
    many("Declarator with two", program(var(decl(this(), this()))), 2)
    many("Return with two", program(ret(this(), this())), 1)
    many("This with one", one(this(this())), 2)
    many("Super with one", one(member(sup(this()))), 3)
    many("Ident with one", one(ident(this())), 2)
    few("Member with none", one(member()), 2)
    many("Member with two", one(member(this(), this())), 2)
    few("Computed with none", one(computed()), 2)
    few("Computed with one", one(computed(this())), 2)
    many("Computed with three", one(computed(this(), this(), this())), 2)
    few("Call with none", one(call()), 2)
    few("Assign with none", one(assign()), 2)
    few("Assign with a Target alone", one(assign(target(ident()))), 2)
    many("Assign with three", one(assign(target(ident()), this(), this())), 2)
    few("Arrow with none", one(arrow()), 2)
    few("Arrow with Params alone", one(arrow(params())), 2)
    few("Arrow with Params alone, bit 1", one(arrow(params(), attr=2)), 2)
    many("Arrow with two Bodies", one(arrow(params(), body(), body())), 2)
    many("Arrow with two expressions, bit 1", one(arrow(params(), this(), this(), attr=2)), 2)
    few("Function with none", one(func()), 2)
    few("Function with Params alone", one(func(params())), 2)
    many("Function with two Bodies", one(func(params(), body(), body())), 2)
    few("Function as a statement with none", program(func(attr=8)), 1)
    few("Class with bit 0 and none", one(klass(attr=1)), 2)
    few("Class as a statement with bit 0 and none", program(klass(attr=9)), 1)
    few("Method with none", in_class(method()), 3)
    many("Method with two Functions", in_class(method(fn(), fn())), 3)
    few("Method with bit 0 and a Function alone", in_class(method(fn(), attr=1)), 3)
    few("Method with bit 0 and none", in_class(method(attr=1)), 3)
    many("Method with bit 0 and three", in_class(method(this(), fn(), fn(), attr=1)), 3)
    many("Field with one", in_class(field(this())), 3)
    few("Field with bit 0 and none", in_class(field(attr=1)), 3)
    many("Field with bit 0 and two", in_class(field(this(), this(), attr=1)), 3)
    few("Field with bit 2 and none", in_class(field(attr=4)), 3)
    many("Field with bit 2 and two", in_class(field(this(), this(), attr=4)), 3)
    few("Field with bits 0 and 2 and one", in_class(field(this(), attr=5)), 3)
    many("Field with bits 0 and 2 and three", in_class(field(this(), this(), this(), attr=5)), 3)
    many("Field with bit 1 and one", in_class(field(this(), attr=2)), 3)
    few("Property with none", one(obj(prop())), 3)
    many("Property with two", one(obj(prop(this(), this()))), 3)
    few("Property with bit 0 and one", one(obj(prop(this(), attr=1))), 3)
    many("Property with bit 0 and three", one(obj(prop(this(), this(), this(), attr=1))), 3)
    few("Property method with none", one(obj(prop(attr=2))), 3)
    many("Property method with two Functions", one(obj(prop(fn(), fn(), attr=2))), 3)
    few("Property method with bit 0 and one", one(obj(prop(fn(), attr=3))), 3)
    few("Sequence with none", one(seq()), 2)
    few("Sequence with one", one(seq(this())), 2)
    many("Arguments with one: 24 comes before 5", one(arguments(this())), 2)
    few("Target with none", one(assign(target(), this())), 3)
    many("Target with two", one(assign(target(ident(), ident()), this())), 3)
    many("ExprStmt with two, and the second cannot stand there: the parent is lower", program(expr(this(), ret())), 1)


def places():
    part("24: a row where its parent cannot hold it")
    for what, row in (("an ExprStmt", expr(this())), ("a Var", var()), ("a Return", ret()), ("a Block", block()),
                      ("an Other", other()), ("a This", this()), ("a Function", fn()), ("a Body", body())):
        bad("row 0 is %s" % what, row, 0, PLACE)
    bad("a Program in a Program", program(program()), 1, PLACE)
    bad("a Program in the middle", program(ret(), program(), ret()), 2, PLACE)
    bad("a Program as the last row", program(ret(), program()), 2, PLACE)
    bad("a Program as an expression", one(program()), 2, PLACE)
    bad("a Program under Other", program(other(program())), 2, PLACE)
    # expressions where a statement stands
    bad("This as a statement", program(this()), 1, PLACE)
    bad("Ident in a Block", program(block(ident())), 2, PLACE)
    bad("Call in a Body", one(func(params(), body(call(this())))), 5, PLACE)
    bad("Arrow in a StaticBlock", in_class(static_block(arrow(params(), body()))), 4, PLACE)
    bad("Arguments as a statement: 24 comes before 5", program(arguments()), 1, PLACE)
    # statements where an expression stands
    bad("Return in an ExprStmt", one(ret()), 2, PLACE)
    bad("Block as an argument", one(call(this(), block())), 4, PLACE)
    bad("Var as an initialiser", program(var(decl(var()))), 3, PLACE)
    bad("Other returned", program(ret(other())), 2, PLACE)
    bad("Other under Opaque", one(opaque(other())), 3, PLACE)
    bad("ExprStmt in a Sequence", one(seq(this(), expr(this()))), 4, PLACE)
    bad("Return as an arrow's expression", one(arrow(params(), ret(), attr=2)), 4, PLACE)
    # rows that stand in one place only
    bad("Declarator as a statement", program(decl()), 1, PLACE)
    bad("Declarator under Other", program(other(decl())), 2, PLACE)
    bad("This in a Var", program(var(this())), 2, PLACE)
    bad("Var in a Var", program(var(decl(), var())), 3, PLACE)
    bad("Ident in Params", one(func(params(ident()), body())), 4, PLACE)
    bad("Params as a statement", program(params()), 1, PLACE)
    bad("Params under Other", program(other(params())), 2, PLACE)
    bad("Body as a statement", program(body()), 1, PLACE)
    bad("Body under Opaque", one(opaque(body())), 3, PLACE)
    bad("Method as a statement", program(method(fn())), 1, PLACE)
    bad("Field in an Object", one(obj(field())), 3, PLACE)
    bad("StaticBlock as a statement", program(static_block()), 1, PLACE)
    bad("StaticBlock under Other", program(other(static_block())), 2, PLACE)
    bad("Property as an expression", one(prop(this())), 2, PLACE)
    bad("Property in a Class", in_class(prop(this())), 3, PLACE)
    bad("Property under Other", program(other(prop(this()))), 2, PLACE)
    bad("Target as an expression", one(target(ident())), 2, PLACE)
    bad("Target as a statement", program(target(ident())), 1, PLACE)
    bad("Target in a Target", one(assign(target(target(ident())), this())), 4, PLACE)
    bad("Target as an Assign's right side", one(assign(target(ident()), target(ident()))), 5, PLACE)
    bad("Target as an argument", one(call(this(), target(ident()))), 4, PLACE)
    bad("Target in an Object", one(obj(target(ident()))), 3, PLACE)
    # children in a wrong order or of a wrong kind
    bad("Assign to an Ident without a Target", one(assign(ident(), this())), 3, PLACE)
    bad("Assign to a Function without a Target", one(assign(fn(), this())), 3, PLACE)
    bad("Assign with its children the other way round", one(assign(this(), target(ident()))), 3, PLACE)
    bad("Arrow with Body, then Params", one(arrow(body(), params())), 3, PLACE)
    bad("Arrow without bit 1 with an expression", one(arrow(params(), this())), 4, PLACE)
    bad("Arrow with bit 1 with a Body", one(arrow(params(), body(), attr=2)), 4, PLACE)
    bad("Arrow with two Params", one(arrow(params(), params())), 4, PLACE)
    bad("Function with Body, then Params", one(func(body(), params())), 3, PLACE)
    bad("Function with an expression for its Body", one(func(params(), this())), 4, PLACE)
    bad("Function with a Block for its Body", one(func(params(), block())), 4, PLACE)
    bad("Function with a Declarator for its Params", one(func(decl(), body())), 3, PLACE)
    bad("Class without bit 0 with an expression first", in_class(this(), method(fn())), 3, PLACE)
    bad("Class with bit 0 with a member first", in_class(method(fn()), attr=1), 3, PLACE)
    bad("Class with bit 0 with heritage twice", in_class(this(), this(), attr=1), 4, PLACE)
    bad("Class with a Function as a member", in_class(fn()), 3, PLACE)
    bad("Class with a Class as a member", in_class(klass()), 3, PLACE)
    bad("Class with an Object as a member", in_class(obj()), 3, PLACE)
    bad("Class with a statement as a member", in_class(field(), ret()), 4, PLACE)
    bad("Method with an Arrow for its Function", in_class(method(arrow(params(), body()))), 4, PLACE)
    bad("Method with its Function before its key", in_class(method(fn(), this(), attr=1)), 7, PLACE)
    bad("Method with a statement for its key", in_class(method(ret(), fn(), attr=1)), 4, PLACE)
    bad("Field with a statement for its value", in_class(field(ret(), attr=4)), 4, PLACE)
    bad("Field with a Target for its key", in_class(field(target(ident()), attr=1)), 4, PLACE)
    bad("Property method with an Arrow for its Function", one(obj(prop(arrow(params(), body()), attr=2))), 4, PLACE)
    bad("Property method with its Function before its key", one(obj(prop(fn(), this(), attr=3))), 7, PLACE)
    bad("Property with a Property for its value", one(obj(prop(prop(this())))), 4, PLACE)
    bad("Object with a statement", one(obj(prop(this()), ret())), 5, PLACE)
    for what, make in (("a This", this), ("a Call", lambda: call(this())), ("a Function", fn), ("an Object", obj),
                       ("an Arguments", arguments)):
        bad("Target of %s" % what, one(assign(target(make()), this())), 4, PLACE)
    bad("Target of an Assign", one(assign(target(assign(target(ident()), this())), this())), 4, PLACE)
    bad("Target under Other of a statement", program(other(target(ret()))), 3, PLACE)
    bad("two rows misplaced: the first", program(ret(), this(), this()), 2, PLACE)


def supers():
    part("24: where Super stands")
    sound("Super as the object of a Computed", one(computed(sup(), this())))
    sound("Super as a callee", one(call(sup())))
    sound("Super as a callee with arguments", one(call(sup(), this(), ident())))
    sound("Super as the object of a called Member", one(call(member(sup()), this())))
    sound("Super as the object of a Member under a Target", one(assign(target(member(sup())), this())))
    sound("Super as the object of a Computed under a Target", one(assign(target(computed(sup(), this())), this())))
    sound("Super as a callee deep under a Target", one(assign(target(member(call(sup()))), this())))
    sound("Super under a Target under Other", program(other(target(member(sup())))))
    sound("Super under a Target under Opaque", one(opaque(target(computed(sup(), this())))))
    sound("Super in a Field's value, and in a StaticBlock",
          in_class(field(member(sup()), attr=4), static_block(expr(member(sup())))))
    bad("Super as a Computed's key", one(computed(this(), sup())), 4, PLACE)
    bad("Super as object and key: the key", one(computed(sup(), sup())), 4, PLACE)
    bad("Super as a first argument", one(call(this(), sup())), 4, PLACE)
    bad("Super as a second argument", one(call(sup(), this(), sup())), 5, PLACE)
    bad("Super in an ExprStmt", one(sup()), 2, PLACE)
    bad("Super as a statement", program(sup()), 1, PLACE)
    bad("Super returned", program(ret(sup())), 2, PLACE)
    bad("Super as an initialiser", program(var(decl(sup()))), 3, PLACE)
    bad("Super as a Target's child", one(assign(target(sup()), this())), 4, PLACE)
    bad("Super in place of a Target", one(assign(sup(), this())), 3, PLACE)
    bad("Super as an Assign's right side", one(assign(target(ident()), sup())), 5, PLACE)
    bad("Super as an arrow's expression", one(arrow(params(), sup(), attr=2)), 4, PLACE)
    bad("Super as heritage", in_class(sup(), attr=1), 3, PLACE)
    bad("Super as a Method's key", in_class(method(sup(), fn(), attr=1)), 4, PLACE)
    bad("Super as a Field's key", in_class(field(sup(), attr=1)), 4, PLACE)
    bad("Super as a Property's key", one(obj(prop(sup(), this(), attr=1))), 4, PLACE)
    bad("Super as a Field's value", in_class(field(sup(), attr=4)), 4, PLACE)
    bad("Super in an Object", one(obj(sup())), 3, PLACE)
    bad("Super as a Property's value", one(obj(prop(sup()))), 4, PLACE)
    bad("Super first in a Sequence", one(seq(sup(), this())), 3, PLACE)
    bad("Super under Other", program(other(sup())), 2, PLACE)
    bad("Super under Opaque", one(opaque(sup())), 3, PLACE)
    bad("Super as row 0", [[10, 0, 0, 1]], 0, PLACE)
    bad("Super as the last row, after one in its place", program(expr(call(sup())), expr(sup())), 5, PLACE)


def row_ends():
    part("23: ends, and who is told")
    bad("row 0 ends one before the row count", [[0, 0, 0, 2], [4, 0, 0, 2], [4, 0, 0, 3]], 0, END)
    bad("row 0 ends one past the row count", ends(program(ret(), ret()), r0=4), 0, END)
    bad("row 0 has end 0", ends(program(ret()), r0=0), 0, END)
    bad("row 0 has end 2^32 - 1", ends(program(ret()), r0=BIG), 0, END)
    bad("row 0 alone has end 2", ends(program(), r0=2), 0, END)
    bad("row 0 is no Program and ends past the row count: the lower number", [[5, 0, 0, 2]], 0, END)
    wide = program(ret(), block(ret()), ret())            # rows 0, 1, 2 with 3, 4
    bad("the first statement's end is its own row", ends(wide, r1=1), 1, END)
    bad("a middle statement's end is its own row", ends(wide, r2=2), 2, END)
    bad("the last row's end is its own row", ends(wide, r4=4), 4, END)
    bad("the last row's end is one past the row count", ends(wide, r4=6), 4, END)
    bad("the last row's end is 2^32 - 1", ends(wide, r4=BIG), 4, END)
    bad("the last row's end is 0", ends(wide, r4=0), 4, END)
    bad("a middle row's end is below its row", ends(wide, r2=1), 2, END)
    bad("a middle row's end is 2^32 - 1", ends(wide, r2=BIG), 2, END)
    bad("a row's end is past its parent's and within the table", ends(wide, r3=5), 3, END)
    bad("two ends are at fault: the lower row", ends(wide, r3=3, r4=4), 3, END)
    # a child whose end is at fault is its parent's last: a complete parent, the child is told
    bad("ExprStmt whose one child's end is its row", ends(one(this()), r2=2), 2, END)
    bad("ExprStmt whose one child's end is below its row", ends(one(this()), r2=1), 2, END)
    bad("ExprStmt whose one child ends past it", ends(program(expr(this()), ret()), r2=4), 2, END)
    bad("ExprStmt whose one child has end 2^32 - 1", ends(one(this()), r2=BIG), 2, END)
    bad("Computed whose second child's end is its row", ends(one(computed(this(), this())), r4=4), 4, END)
    bad("Computed whose second child ends past it", ends(program(expr(computed(this(), this())), ret()), r4=6), 4, END)
    bad("Call whose callee's end is its row: the rest does not count", ends(one(call(this(), this())), r3=3), 3, END)
    bad("Sequence of three whose second child's end is its row", ends(one(seq(this(), this(), this())), r4=4), 4, END)
    bad("Declarator whose initialiser has end 0", ends(program(var(decl(this()))), r3=0), 3, END)
    bad("Return whose first of two children is at fault: the second does not count",
        ends(program(ret(this(), this())), r2=2), 2, END)
    bad("Assign whose right side ends past it",
        ends(program(expr(assign(target(ident()), this())), ret()), r5=7), 5, END)
    bad("Class with bit 0 whose heritage's end is its row", ends(in_class(this(), method(fn()), attr=1), r3=3), 3, END)
    bad("Method whose Function ends past it", ends(in_class(method(fn()), field()), r4=8), 4, END)
    bad("Target whose Ident's end is its row", ends(one(assign(target(ident()), this())), r4=4), 4, END)
    bad("Var whose first Declarator's end is its row", ends(program(var(decl(), decl())), r2=2), 2, END)
    # the same below a parent that is then short: the parent is told
    bad("Computed whose first child's end is its row: the parent", ends(one(computed(this(), this())), r3=3), 2,
        COUNTED)
    bad("Computed whose first child's end is below its row: the parent", ends(one(computed(this(), this())), r3=2), 2,
        COUNTED)
    bad("Computed whose first child has end 2^32 - 1: the parent", ends(one(computed(this(), this())), r3=BIG), 2,
        COUNTED)
    bad("Computed whose first child ends past it: the parent",
        ends(program(expr(computed(this(), this())), ret()), r3=6), 2, COUNTED)
    bad("Sequence whose first child's end is its row: the parent", ends(one(seq(this(), this(), this())), r3=3), 2,
        COUNTED)
    bad("Assign whose Target's end is its row: the parent", ends(one(assign(target(ident()), this())), r3=3), 2,
        COUNTED)
    bad("Arrow whose Params' end is its row: the parent", ends(one(arrow(params(), body())), r3=3), 2, COUNTED)
    bad("Function whose Params end past it: the parent", ends(program(fn(8), ret()), r2=5), 1, COUNTED)
    bad("Method whose key's end is its row: the parent", ends(in_class(method(this(), fn(), attr=1)), r4=4), 3, COUNTED)
    bad("Field whose key's end is its row: the parent", ends(in_class(field(this(), this(), attr=5)), r4=4), 3, COUNTED)
    bad("Property whose key has end 0: the parent", ends(one(obj(prop(this(), this(), attr=1))), r4=0), 3, COUNTED)
    bad("Computed whose first child has kind 7, its end in order: the child", one(computed(maker(7)(), this())), 3, KIND)
    bad("Computed whose first child has kind 7 and its own row as end: the parent",
        ends(one(computed(maker(7)(), this())), r3=3), 2, COUNTED)
    # ends that are in order and move rows to another parent
    bad("ExprStmt that ends before its child has none", [[0, 0, 0, 3], [1, 0, 0, 2], [9, 0, 0, 3]], 1, COUNTED)
    bad("ExprStmt that ends past the next statement has two", ends(program(expr(this()), ret()), r1=4), 1, COUNTED)
    bad("Return that holds the next Return", ends(program(ret(), ret()), r1=3), 2, PLACE)
    bad("Computed that ends before its second child has one",
        [[0, 0, 0, 5], [1, 0, 0, 5], [13, 0, 0, 4], [9, 0, 0, 4], [9, 0, 0, 5]], 1, COUNTED)
    # several faults in one row: the lowest number
    bad("a misplaced row whose end is at fault", ends(program(ret(), this()), r2=2), 2, END)
    bad("a misplaced row with a wrong attr and end", ends(program(ret(), this(attr=1)), r2=2), 2, ATTR)
    bad("a wrong name and end", ends(one(ident(name=0)), r2=2), 2, END)
    bad("a wrong name and place", program(ident(name=0)), 1, PLACE)
    bad("a wrong name and number of children", program(ret(this(), this(), name=1)), 1, COUNTED)
    bad("a wrong attr and name", program(ret(attr=1, name=1)), 1, ATTR)
    bad("a wrong attr and number of children", program(ret(this(), this(), attr=1)), 1, ATTR)
    bad("row 0 with a wrong attr, name and end", [[0, 1, 1, 0]], 0, ATTR)
    # the lowest row, whatever the numbers
    bad("a wrong name before a wrong kind: the lower row", program(ret(name=1), maker(7)()), 1, NAME)
    bad("a wrong number of children before a wrong attr below it: the lower row",
        program(expr(this(attr=1), this())), 1, COUNTED)


# Request No. 3: one row with two faults, the faults of row 0, and a bad row behind another. What of these was stored, for
# `complete`: the lower and the higher number; the number; the number of the first bad row and that of the later one.
PAIRS, ROW_ZERO, BEHIND = set(), set(), set()

# Changes of a Return without a value, and of row 0 of a table of two rows, by the number of the fault that each is. Kind 9 is
# a This, which is no statement, and kind 5 a Block, which is no Program. With end 3 row 0 keeps row 1 as its child.
RETURN_FAULTS = {KIND: {"kind": 7}, ATTR: {"attr": 1}, END: {"end": 0}, PLACE: {"kind": 9}, NAME: {"name": 1}}
ROW_ZERO_FAULTS = {KIND: {"kind": 7}, ATTR: {"attr": 2}, END: {"end": 3}, PLACE: {"kind": 5}, NAME: {"name": 1}}


def two_faults(what, tree, at, faults):
    """A sound table, and changes of its row `at`, each by the number of the fault that it is. Each is stored alone, and any two
    of different fields together: then the lower number is told, and with that one mended the higher."""
    sound(what, tree)
    for number, change in faults.items():
        bad("%s: %d" % (what, number), changed(tree, at, **change), at, number)
        if at == 0:
            ROW_ZERO.add(number)
    for low, high in combinations(sorted(faults), 2):
        if not faults[low].keys() & faults[high].keys():
            bad("%s: %d and %d" % (what, low, high), changed(tree, at, **faults[low], **faults[high]), at, low)
            PAIRS.add((low, high))


def pairs():
    part("21 to 25: two faults in one row, the lower number is told")
    two_faults("a Return in the middle", program(ret(), ret(), ret()), 2, RETURN_FAULTS)
    two_faults("a Return as the last row, deep inside", in_class(method(func(params(), body(block(ret()))))), 8,
               {KIND: {"kind": BIG}, ATTR: {"attr": BIG}, END: {"end": 10}, PLACE: {"kind": 28}, NAME: {"name": BIG}})
    two_faults("row 0", program(ret()), 0, ROW_ZERO_FAULTS)
    # with end 3 the ExprStmt has no child
    two_faults("an ExprStmt and its number of children", program(ret(), expr(this()), ret()), 2,
               {KIND: {"kind": 29}, ATTR: {"attr": 1}, COUNTED: {"end": 3}, NAME: {"name": 1}})
    # a Return cannot hold two, and with end 6 the row ends past the Block
    two_faults("a statement with two children and its end", program(block(other(this(), this())), ret()), 2,
               {KIND: {"kind": 7}, END: {"end": 6}, COUNTED: {"kind": 4}})
    # bit 3 is missing; with end 3 the Function has Params alone
    two_faults("a Function as a statement and its bit 3", program(fn(8), ret()), 1,
               {KIND: {"kind": 7}, ATTR: {"attr": 0}, END: {"end": 6}, NAME: {"name": 4}})
    two_faults("a Function as a statement, its bit 3 and its number of children", program(fn(8), ret()), 1,
               {ATTR: {"attr": 0}, COUNTED: {"end": 3}, NAME: {"name": BIG}})
    # an Arrow cannot stand for a Method's Function, nor a Class among the members of one, where bit 3 is wrong too
    two_faults("a Method's Function", in_class(method(fn(1))), 4,
               {KIND: {"kind": 7}, ATTR: {"attr": 9}, END: {"end": 4}, PLACE: {"kind": 16}, NAME: {"name": 4}})
    two_faults("a member of a Class", in_class(static_block()), 3,
               {KIND: {"kind": 7}, ATTR: {"attr": 8}, END: {"end": BIG}, PLACE: {"kind": 20}, NAME: {"name": 4}})


def two_rows(what, tree, first, first_faults, later, later_faults):
    """Two rows of a sound table, and changes of both, each by the number of the fault that it is: those of the later row alone,
    and each of the first row with each of the later, where the first row is told."""
    for number in FIVE:
        bad("%s: %d at row %d alone" % (what, number, later), changed(tree, later, **later_faults[number]), later, number)
    for number, behind in product(FIVE, FIVE):
        rows = changed(changed(tree, first, **first_faults[number]), later, **later_faults[behind])
        bad("%s: %d at row %d, behind it %d at row %d" % (what, number, first, behind, later), rows, first, number)
        BEHIND.add((number, behind))


def lowest_rows():
    part("21 to 25: a bad row behind another, the lower row is told")
    # The Block ends before row 3 whatever the end of row 2 is, so that row 3 stays the Program's child.
    two_rows("in a Block and after it", program(block(ret()), ret()), 2, RETURN_FAULTS, 3, RETURN_FAULTS)
    two_rows("row 0 and its child", program(ret()), 0, ROW_ZERO_FAULTS, 1, RETURN_FAULTS)
    bad("too many children, and a kind below that is none: the lower row", program(expr(this(), maker(7)())), 1, COUNTED)

    part("21 to 25: far from row 0")
    for number in FIVE:
        bad("%d: the last of 16,384 rows" % number, changed(siblings(16384), 16383, **RETURN_FAULTS[number]), 16383, number)
    deepest = changed(nested(129), 128, kind=4)
    for number in FIVE:
        bad("%d: a row of depth 128" % number, changed(deepest, 128, **RETURN_FAULTS[number]), 128, number)


def complete():
    """That all ten pairs of faults in one row are stored, all five faults of row 0, and each of the five behind each."""
    assert PAIRS == set(combinations(FIVE, 2)), PAIRS
    assert ROW_ZERO == set(FIVE), ROW_ZERO
    assert BEHIND == set(product(FIVE, FIVE)), BEHIND


def depth():
    part("3: depth")
    sound("depth 127", nested(128))
    sound("depth 128: at the limit", nested(129))
    table("depth 129: one above the limit, as the last row", nested(130), 3, 129)
    table("depth 130: the first row above the limit", nested(131), 3, 129)
    sound("depth 31 under the limit 32", nested(32), limits=(512, 32))
    sound("depth 32 under the limit 32", nested(33), limits=(512, 32))
    table("depth 33 under the limit 32", nested(34), 3, 33, limits=(512, 32))
    sound("row 0 alone under the limit 0", program(), limits=(ROWS, 0))
    table("row 1 under the limit 0", program(ret(), ret()), 3, 1, limits=(ROWS, 0))
    table("a middle row under the limit 1", program(ret(), expr(this()), expr(this())), 3, 3, limits=(ROWS, 1))
    table("the last row under the limit 1", program(ret(), ret(), expr(this())), 3, 4, limits=(ROWS, 1))
    sound("16,384 rows in a row at depth 1, under the limit 1", siblings(16384), limits=(ROWS, 1))
    table("16,384 nested rows", nested(16384), 3, 129)
    sound("16,384 nested rows under the limit 16,384", nested(16384), limits=(ROWS, 16384))
    sound("16,384 nested rows under the limit 16,383", nested(16384), limits=(ROWS, 16383))
    table("16,384 nested rows under the limit 16,382: the last row", nested(16384), 3, 16383, limits=(ROWS, 16382))
    sound("16,384 nested rows under the largest limit", nested(16384), limits=(ROWS, BIG))
    table("16,384 nested rows under the limit 0", nested(16384), 3, 1, limits=(ROWS, 0))

    def chain(n, row):
        """n rows in one another, the innermost `row`."""
        for _ in range(n - 1):
            row = opaque(row)
        return row
    # ExprStmt has depth 1, the first Opaque depth 2, the innermost of n has depth n + 1
    sound("nested expressions, depth 128", one(chain(127, opaque())))
    table("nested expressions, depth 129", one(chain(128, opaque())), 3, 129)
    # the first statement has rows 1 to 128; the second stands at row 129, and its depth 129 at row 129 + 128
    table("the second of two statements is too deep",
          program(expr(chain(127, opaque())), expr(chain(128, opaque()))), 3, 257)
    table("two statements are too deep: the first",
          program(expr(chain(128, opaque())), expr(chain(128, opaque()))), 3, 129)
    table("of two rows too deep side by side the first", one(chain(128, opaque(this(), this()))), 3, 129)
    sound("rows after a deep one are not deep", program(expr(chain(127, opaque())), ret(), block(ret())))


def made():
    part("5: rows that only a result has")
    for n in (0, 1, 3, 4, BIG):
        table("Ident, attr 1, name %d: 25 tests no name" % n, one(ident(attr=1, name=n)), 5, 2)
        table("Member, attr 1, name %d: 25 tests no name" % n, one(member(this(), attr=1, name=n)), 5, 2)
        table("Declarator, attr 1, name %d: 25 tests no name" % n, program(var(decl(attr=1, name=n))), 5, 2)
        table("Arguments, name %d: 25 tests no name" % n, one(arguments(name=n)), 5, 2)
    table("Arguments, attr 1, name 2^32 - 1", one(arguments(attr=1, name=BIG)), 5, 2)
    table("Declarator, attr 1, with an initialiser", program(var(decl(this(), attr=1))), 5, 2)
    table("Declarator, attr 1, in Params", one(func(params(decl(attr=1)), body())), 5, 4)
    table("Ident, attr 1, in a Target", one(assign(target(ident(attr=1)), this())), 5, 4)
    table("Member, attr 1, of Super", one(member(sup(), attr=1)), 5, 2)
    table("Member, attr 1, in a Target", one(assign(target(member(this(), attr=1)), this())), 5, 4)
    table("the last row", program(ret(), ret(), expr(ident(attr=1))), 5, 4)
    table("a middle row", program(ret(), expr(arguments()), ret()), 5, 3)
    table("three of them: the first", program(ret(), var(decl(attr=1), decl(attr=1)), expr(arguments())), 5, 3)
    table("a Member's object before the Member's own row counts: the lower row",
          one(member(ident(attr=1), attr=1)), 5, 2)
    last = set_row(siblings(16384), 16382, [1, 0, 0, 16384])
    table("the last of 16,384 rows", set_row(last, 16383, [27, 0, 0, 16384]), 5, 16383)
    sound("attr 1 on Var, Block, Assign, Arrow, Function, Class, Method, Field and Property",
          program(var(attr=1), block(attr=1), expr(assign(target(ident()), this(), attr=1)),
                  expr(arrow(params(), body(), attr=1)), expr(fn(1)),
                  expr(klass(this(), method(this(), fn(), attr=1), field(this(), attr=1), attr=1)),
                  expr(obj(prop(this(), this(), attr=1)))))
    sound("attr 1 on Other and Opaque", program(other(opaque(attr=1), attr=1)))


def order():
    part("The order 1, 4, 21 to 25, 3, 5")
    no_name = [(0, 1), (0, 0)]       # the second name is bad
    deep = nested(140)
    made_first = program(expr(ident(attr=1)), ret())
    table("1 before 4: a text too long, and a name of length 0", program(), 1, 0, names=no_name, text=b"a" * 65536)
    table("1 before 4: words left over, and a name out of the text", program(), 1, 0, names=[(9, 9)], after_rows=4)
    table("1 before 21: too many rows, and row 0 has kind 7", set_row(siblings(16385), 0, [7, 0, 0, 16385]), 1, 0)
    table("1 before 22: a row word left over, and an attr", program(ret(attr=1)), 1, 0, after_rows=4)
    table("1 before 23: a byte left over behind the names, and an end", ends(program(ret()), r1=1), 1, 0, after_names=1)
    table("1 before 24: a name word left over, and a misplaced row", program(this()), 1, 0, after_names=4)
    table("1 before 25: a text too long, and an Ident without a name", one(ident(name=0)), 1, 0, text=b"a" * 65536)
    table("1 before 3: rows over the limit, and depth too", nested(600), 1, 0, limits=(512, 32))
    table("1 before 5: a byte left over, and an Arguments row", one(arguments()), 1, 0, after_rows=1)
    table("1 before all others", set_row(nested(200), 199, [7, 0, 0, 0]), 1, 0, names=no_name, after_names=1)
    table("4 before 21: the second name, and row 0", [[7, 0, 0, 1]], 4, 2, names=no_name)
    table("4 before 22: the second name, and row 0", program(attr=1), 4, 2, names=no_name)
    table("4 before 23: the second name, and row 0", ends(program(), r0=0), 4, 2, names=no_name)
    table("4 before 24: the second name, and row 0", block(), 4, 2, names=no_name)
    table("4 before 25: a name that no row names, and an Ident without a name", one(ident(name=0)), 4, 2, names=no_name)
    table("4 before 3", deep, 4, 2, names=no_name)
    table("4 before 5", made_first, 4, 2, names=no_name)
    table("4 before 22, 3 and 5", set_row(nested(200), 199, [27, 9, 0, 200]), 4, 2, names=no_name)
    bad("21 before 3: the bad row is the last, after the deep ones", set_row(nested(140), 139, [7, 0, 0, 140]), 139, KIND)
    bad("22 before 3: the bad row is the last, after the deep ones", set_row(nested(140), 139, [5, 2, 0, 140]), 139, ATTR)
    bad("23 before 3: the bad row is the last, after the deep ones", set_row(nested(140), 139, [5, 0, 0, 139]), 139, END)
    bad("24 before 3: the bad row is the last, after the deep ones", set_row(nested(140), 139, [9, 0, 0, 140]), 139, PLACE)
    bad("25 before 3: the bad row is before the deep ones", set_row(nested(140), 5, [5, 0, 1, 140]), 5, NAME)
    bad("25 before 3: the deep row itself is bad", set_row(nested(140), 129, [5, 0, 1, 140]), 129, NAME)
    bad("21 before 5: the made binding is the earlier row", program(expr(ident(attr=1)), maker(7)()), 3, KIND)
    bad("22 before 5: the made binding is the earlier row", program(expr(ident(attr=1)), ret(attr=1)), 3, ATTR)
    bad("25 before 5: the made binding is the later row", program(ret(name=1), expr(ident(attr=1))), 1, NAME)
    bad("24 before 5: attr 1 on an Ident where none stands", program(ident(attr=1)), 1, PLACE)
    bad("24 before 5: attr 1 on a Declarator with two children", program(var(decl(this(), this(), attr=1))), 2, COUNTED)
    bad("23 before 5: an Ident with attr 1 whose end is at fault", ends(one(ident(attr=1)), r2=2), 2, END)
    bad("23 before 3 and 5", [[0, 0, 0, 3], [1, 0, 0, 3], [27, 1, 0, 2]], 2, END, limits=(ROWS, 1))
    table("3 before 5: the made binding is the earlier row", program(expr(ident(attr=1)), block(block(ret()))), 3, 5,
          limits=(ROWS, 2))
    table("3 before 5: the deep row is the made binding", one(ident(attr=1)), 3, 2, limits=(ROWS, 1))
    table("3 before 5: the made binding at row 2, a row of depth 129",
          [[0, 0, 0, 132], [1, 0, 0, 3], [27, 0, 0, 3]] + [[5, 0, 0, 132]] * 129, 3, 131)
    table("5 where nothing else is at fault", made_first, 5, 2)
    sound("what 6 refuses is sound here: Super in Program", program(expr(call(sup())), expr(member(sup()))))
    sound("what 7 refuses is sound here: Super and an Arrow in a Field's value",
          in_class(field(arrow(params(), member(sup()), attr=3), attr=4)))
    sound("what 8 refuses is sound here: rows named `arguments`",
          program(var(decl()), fn(8, name=1), klass(attr=8, name=1), expr(ident())), names=[(0, 9)], text=b"arguments")


def sheet():
    part("Worked tables")
    sound("the request's sheet: () => this in Program",
          [[0, 0, 0, 5], [1, 0, 0, 5], [16, 2, 0, 5], [18, 0, 0, 4], [9, 0, 0, 5]], names=[], text=b"")
    table("the sheet's result is no input: row 2 is a made binding",
          [[0, 0, 0, 10], [2, 0, 0, 4], [3, 1, 1, 4], [9, 0, 0, 4], [1, 0, 0, 10], [17, 0, 0, 10], [18, 0, 0, 7],
           [19, 0, 0, 10], [4, 0, 0, 10], [11, 1, 1, 10]], 5, 2, names=[], text=b"")
    sound("a class with a constructor, an async method and an arrow",
          program(klass(ident(),
                        method(func(params(), body(expr(call(sup())), expr(arrow(params(), this(), attr=2))), attr=4)),
                        method(func(params(decl(name=2)), body(ret(call(member(sup(), name=3), ident(name=2)))),
                                    attr=1)),
                        attr=9, name=1)))


def whole():
    sizes()
    names()
    kinds()
    well_formed()
    attrs()
    functions()
    row_names()
    counts()
    places()
    supers()
    row_ends()
    pairs()
    lowest_rows()
    depth()
    made()
    order()
    sheet()
    complete()
    return HEAD + "\n".join(LINES) + "\n"


def write_or_check(usage, tool, text, count):
    """Writes the text to the file that is named on the command line, or with --check compares the two."""
    words = sys.argv[1:]
    check = words[:1] == ["--check"]
    if check:
        words = words[1:]
    if len(words) != 1:
        sys.exit(usage)
    if check:
        with open(words[0], "rb") as f:
            if f.read() != text.encode():
                sys.exit("%s: %s is not what would be written" % (tool, words[0]))
    else:
        with open(words[0], "wb") as f:
            f.write(text.encode())
    print(count)


if __name__ == "__main__":
    stored = whole()
    write_or_check(__doc__, "tables.py", stored, "%d tables" % COUNT)
