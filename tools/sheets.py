#!/usr/bin/env python3
"""Stored sheets, damaged ones among them, through the program.

  sheets.py PROGRAM     run PROGRAM (target/bin/convert) over each; exit status 1 if an output differs
  sheets.py --count     how many there are, by refusal

Beside each sheet stand by hand the refusal and the place that the request gives. The text that is wanted comes from the
rendering of the form below, which shares nothing with the crates, and from convert_model.py. The program calls as the
print room, and so does the model here.
"""
import re
import subprocess
import sys
from collections import Counter

import convert_model
from conversions import (ASYNC, arguments, arrow, assign, call, computed, constructor, dot, expr, field, ident, in_class,
                         in_method, lam, named, one, opaque, other, program, reads_this,
                         static_block, sup, super_call, this)
from tables import ATTR, END, KIND, NAME, PLACE, changed, lay, siblings

SWITCHES, NAMES, ROWS = b"arrow async asyncgen", b"name", b"kind attr name end"
ROOM = 131073                       # a longer text is read in pieces of so many bytes
FIELD = re.compile(rb"0|[1-9][0-9]{0,9}")


# The form, read and printed.

class Fault(Exception):
    def __init__(self, line):
        super().__init__(line)
        self.line = line


def fields(line, count):
    """So many decimal u32 without leading zeros, one space apart, or None."""
    words = line.split(b" ")
    if len(words) != count or not all(FIELD.fullmatch(word) for word in words):
        return None
    numbers = [int(word) for word in words]
    return numbers if max(numbers) < 2 ** 32 else None


def read(text):
    """The switches, the names and the words of the rows."""
    lines = text.split(b"\n")
    if lines[-1] == b"":
        lines.pop()
    lines = dict(enumerate(lines, 1))
    if lines.get(1) != SWITCHES:
        raise Fault(1)
    switches = fields(lines.get(2, b""), 3)
    if switches is None or max(switches) > 1:
        raise Fault(2)
    if lines.get(3) != NAMES:
        raise Fault(3)
    at, names, words = 4, [], []
    while at in lines and lines[at] != ROWS:
        names.append(lines[at])
        at += 1
    if at not in lines:
        raise Fault(at)
    for line in range(at + 1, len(lines) + 1):
        row = fields(lines[line], 4)
        if row is None or line - at > 1024:
            raise Fault(line)
        words += row
    return switches, names, words


def answer(text):
    try:
        switches, names, words = read(text)
    except Fault as fault:
        return 12, fault.line, 0, 0, [], []
    pairs, start = [], 0
    for name in names:
        pairs.append((start, len(name)))
        start += len(name)
    return convert_model.convert(*switches, words, pairs, b"".join(names), 2048, 256, tablet=False)


def printed(number, place, rows, records, row_words, record_words):
    def listed(words, width):
        return [" ".join(map(str, words[i:i + width])) for i in range(0, len(words), width)]

    lines = ["refusal place rows bindings", "%d %d %d %d" % (number, place, rows, records), "kind attr name end",
             *listed(row_words, 4), "use property owner", *listed(record_words, 3)]
    return "".join(line + "\n" for line in lines).encode()


# The sheets.

STORED = []


def store(what, text, number, place=0):
    STORED.append((what, text, number, place))


def text_of(rows, names=(), switches=b"1 0 0", head=SWITCHES, third=NAMES, header=ROWS):
    return b"".join(line + b"\n" for line in [head, switches, third, *names, header, *rows])


def row_lines(rows):
    return [b"%d %d %d %d" % tuple(row) for row in rows]


def tree_text(tree, switches=b"1 0 0"):
    """A tree's sheet, a name for each word."""
    rows, pairs, text = named(lay(tree))
    return text_of(row_lines(rows), [text[start:start + length] for start, length in pairs], switches)


SHEET = row_lines(lay(one(reads_this())))


def accepted():
    async_on, generators_on, off = b"0 1 0", b"0 0 1", b"0 0 0"
    store("the request's sheet", text_of(SHEET), 0)
    store("the last line has no newline", text_of(SHEET)[:-1], 0)
    store("all off", text_of(SHEET, switches=off), 0)
    store("async on only", text_of(SHEET, switches=async_on), 0)
    store("all on", text_of(SHEET, switches=b"1 1 1"), 0)
    store("async () => this", tree_text(one(lam(this(), attr=ASYNC)), async_on), 0)
    store("async () => this, generators on only", tree_text(one(lam(this(), attr=ASYNC)), generators_on), 0)
    store("super.foo twice", tree_text(in_method(expr(dot("foo")), expr(dot("foo")), attr=ASYNC), async_on), 0)
    store("super.foo by two names alike", tree_text(in_method(expr(dot("foo")), expr(dot("foo'")), attr=ASYNC), async_on), 0)
    store("super.f(1)", tree_text(in_method(expr(call(dot("f"), opaque())), attr=ASYNC), async_on), 0)
    store("super[k] and super[k] = this", tree_text(in_method(
        expr(computed(sup(), ident("k"))), expr(assign(computed(sup(), ident("k")), this())), attr=ASYNC), async_on), 0)
    store("super(); () => this", tree_text(in_class(constructor(expr(super_call()), expr(reads_this())))), 0)
    store("async () => arguments", tree_text(one(lam(arguments(), attr=ASYNC)), async_on), 0)
    store("an arrow with a body, in a static block", tree_text(in_class(static_block(expr(arrow(expr(this())))))), 0)
    store("a name with a carriage return", text_of(row_lines([[0, 0, 0, 3], [1, 0, 0, 3], [11, 0, 1, 3]]), [b"a\r"]), 0)
    store("a name beyond ASCII", text_of(row_lines([[0, 0, 0, 3], [1, 0, 0, 3], [11, 0, 1, 3]]), ["\u00e9\u20ac".encode()]), 0)
    store("names that look like lines of the form", text_of(SHEET, [b"name", b"1 0 0", SWITCHES, ROWS + b" "]), 0)
    store("513 rows, one more than a tablet takes", text_of(row_lines(siblings(513))), 0)
    store("depth 33, one more than a tablet takes", tree_text(deep(34)), 0)
    store("1,024 rows", text_of(row_lines(siblings(1024))), 0)
    store("a name of 255 bytes", text_of(SHEET, [b"a" * 255]), 0)
    store("4,096 names", text_of(SHEET, [b"a"] * 4096), 0)
    store("65,535 bytes of text", text_of(SHEET, [b"a" * 255] * 257), 0)
    store("numbers with all of 32 bits on an Opaque row",
          text_of(row_lines([[0, 0, 0, 3], [1, 0, 0, 3], [8, 2 ** 32 - 1, 2 ** 32 - 1, 3]])), 0)


def refused():
    async_on = b"0 1 0"
    store("no rows", text_of([]), 1)
    store("no rows, and the last header has no newline", text_of([])[:-1], 1)
    store("4,097 names", text_of(SHEET, [b"a"] * 4097), 1)
    store("65,536 bytes of text", text_of(SHEET, [b"a" * 255] * 257 + [b"a"]), 1)
    store("an empty name", text_of(SHEET, [b""]), 4, 1)
    store("an empty name after two", text_of(SHEET, [b"a", b"b", b""]), 4, 3)
    store("a name of 256 bytes", text_of(SHEET, [b"a" * 256]), 4, 1)
    store("a name that is not UTF-8", text_of(SHEET, [b"a", b"\xff"]), 4, 2)
    for setting in (b"0 0 0", async_on, b"1 0 0"):
        store("a row with no kind", text_of([b"0 0 0 2", b"7 0 0 2"], switches=setting), KIND, 1)
        store("a Function as a statement without bit 3",
              text_of([b"0 0 0 4", b"17 0 0 4", b"18 0 0 3", b"19 0 0 4"], switches=setting), ATTR, 1)
        store("a row that ends at itself", text_of([b"0 0 0 2", b"4 0 0 1"], switches=setting), END, 1)
        store("an ExprStmt without an expression", text_of([b"0 0 0 2", b"1 0 0 2"], switches=setting), PLACE, 1)
        store("an Ident with a name past the names",
              text_of([b"0 0 0 3", b"1 0 0 3", b"11 0 2 3"], [b"a"], switches=setting), NAME, 2)
    store("row 0 with the largest kind", text_of([b"4294967295 0 0 1"]), KIND, 0)
    store("row 0 with the largest attr", text_of([b"0 4294967295 0 1"]), ATTR, 0)
    store("the largest end", text_of([b"0 0 0 4294967295"]), END, 0)
    store("row 0 is a Block", text_of([b"5 0 0 1"]), PLACE, 0)
    store("row 0 with the largest name", text_of([b"0 0 4294967295 1"]), NAME, 0)
    store("a row with the largest numbers", text_of([b"0 0 0 2", b" ".join([b"4294967295"] * 4)]), KIND, 1)
    store("all but the kind of a row at fault", text_of([b"0 0 0 2", b"9 1 1 1"]), ATTR, 1)
    store("place, end and name of a row at fault", text_of([b"0 0 0 2", b"9 0 1 1"]), END, 1)
    store("place and name of a row at fault", text_of([b"0 0 0 2", b"9 0 1 2"]), PLACE, 1)
    store("two bad rows", text_of([b"0 0 0 3", b"4 0 1 2", b"7 0 0 3"]), NAME, 1)
    store("an empty name, and a row with no kind", text_of([b"0 0 0 2", b"7 0 0 2"], [b""]), 4, 1)
    store("too deep, and a Return there with a name", text_of(row_lines(changed(deep(130), 129, kind=4, name=1))), NAME, 129)
    store("a made binding, and behind it a row with no kind", text_of([b"0 0 0 4", b"1 0 0 3", b"11 1 1 3", b"7 0 0 4"]), KIND, 3)
    store("too deep", tree_text(deep(130)), 3, 129)
    store("a made binding", text_of([b"0 0 0 3", b"1 0 0 3", b"11 1 1 3"]), 5, 2)
    store("super outside of a method", tree_text(one(dot("p"))), 6, 3)
    store("a field with an arrow", tree_text(in_class(field(reads_this())), async_on), 7, 3)
    store("a binding named arguments", text_of([b"0 0 0 3", b"2 0 0 3", b"3 0 1 3"], [b"arguments"], async_on), 8, 2)
    store("257 accessors", tree_text(in_method(*[expr(dot("p%d" % i)) for i in range(257)], attr=ASYNC), async_on), 9)


def deep(depth):
    tree = other()
    for _ in range(depth - 2):
        tree = other(tree)
    return program(tree)


def faulty():
    good = text_of(SHEET)
    store("nothing", b"", 12, 1)
    store("an empty line", b"\n", 12, 1)
    store("another first line", text_of(SHEET, head=b"arrow async"), 12, 1)
    store("a first line in capitals", text_of(SHEET, head=SWITCHES.upper()), 12, 1)
    store("a first line with a carriage return", text_of(SHEET, head=SWITCHES + b"\r"), 12, 1)
    store("a byte order mark", b"\xef\xbb\xbf" + good, 12, 1)
    store("the first line only", SWITCHES, 12, 2)
    store("the first line and its newline", SWITCHES + b"\n", 12, 2)
    for what, line in [("a switch 2", b"1 2 0"), ("the last switch 2", b"1 0 2"), ("a leading zero", b"01 0 0"), ("two", b"1 0"),
                       ("four", b"1 0 0 0"), ("two spaces", b"1  0 0"), ("a space behind", b"1 0 0 "), ("a space before", b" 1 0 0"),
                       ("a tab", b"1\t0 0"), ("a carriage return", b"1 0 0\r"), ("none", b""), ("words", b"a b c"),
                       ("no spaces", b"10000")]:
        store("switches: " + what, text_of(SHEET, switches=line), 12, 2)
    store("two lines", SWITCHES + b"\n1 0 0\n", 12, 3)
    store("another third line", text_of(SHEET, third=b"names"), 12, 3)
    store("an empty third line", text_of(SHEET, third=b""), 12, 3)
    store("three lines", SWITCHES + b"\n1 0 0\nname\n", 12, 4)
    store("two names and no more", SWITCHES + b"\n1 0 0\nname\na\nb\n", 12, 6)
    store("two names and no newline", SWITCHES + b"\n1 0 0\nname\na\nb", 12, 6)
    store("the rows' header with a space behind", text_of(SHEET, header=ROWS + b" "), 12, 10)
    for what, line in [("a leading zero", b"1 0 00 5"), ("a leading zero before digits", b"01 0 0 5"), ("three fields", b"1 0 0"),
                       ("five fields", b"1 0 0 5 0"), ("two spaces", b"1 0  0 5"), ("a space before", b" 1 0 0 5"),
                       ("a space behind", b"1 0 0 5 "), ("a tab", b"1 0\t0 5"), ("a minus", b"1 -1 0 5"), ("a plus", b"1 +1 0 5"),
                       ("letters", b"one 0 0 5"), ("hexadecimal", b"1 0x1 0 5"), ("2 to the 32nd", b"1 0 4294967296 5"),
                       ("twenty digits", b"1 0 0 99999999999999999999"), ("a carriage return", b"1 0 0 5\r"), ("a zero byte", b"1 0 0 \x00"),
                       ("an empty line", b""), ("one space", b" "), ("the header again", ROWS), ("a byte over 127", b"1 0 0 \xb2")]:
        store("second row: " + what, text_of([SHEET[0], line, *SHEET[2:]]), 12, 6)
    store("second row, behind two names: a leading zero", text_of([SHEET[0], b"01 0 0 5"], [b"a", b"b"]), 12, 8)
    store("the last row: a leading zero, no newline", text_of([*SHEET[:-1], b"09 0 0 5"])[:-1], 12, 9)
    store("an empty line at the end", good + b"\n", 12, 10)
    store("carriage returns at every line", good.replace(b"\n", b"\r\n"), 12, 1)
    store("1,025 rows", text_of(row_lines(siblings(1025))), 12, 1029)
    store("1,025 rows behind a name", text_of(row_lines(siblings(1025)), [b"a"]), 12, 1030)
    store("1,025 rows, the third faulty", text_of([*row_lines(siblings(1025))[:2], b"04 0 0 3", *row_lines(siblings(1025))[3:]]), 12, 7)
    store("1,026 rows, the last faulty", text_of([*row_lines(siblings(1025)), b"04 0 0 3"]), 12, 1029)
    store("12 before 1", text_of([b"x"], [b"a"] * 4097), 12, 4102)


def long_ones():
    """Texts that are longer than the program's room, or nearly: none is accepted."""
    head = SWITCHES + b"\n1 0 0\nname\n"
    rows = b"".join(row + b"\n" for row in SHEET)
    header = ROWS + b"\n"
    tail = header + rows
    for size in [ROOM - 2, ROOM - 1, ROOM, ROOM + 1, 2 * ROOM, 1000000, 50000000]:
        told = "%d bytes: " % size
        name = b"a" * (size - len(head) - len(tail) - 1) + b"\n"
        store(told + "one name", head + name + tail, 1)
        store(told + "one name, no newline at the end", head + b"a" + name + tail[:-1], 1)
        store(told + "the first line", b"A" + (head + name + tail)[1:], 12, 1)
        store(told + "the switches", (head + name + tail).replace(b"1 0 0", b"1 2 0", 1), 12, 2)
        store(told + "the header of the names", (head + name + tail).replace(b"name", b"Name", 1), 12, 3)
        store(told + "no header of the rows", head + name + rows + b"a" * len(header), 12, 11)
        store(told + "the last row", head + name + tail[:-2] + b"x\n", 12, 10)
        store(told + "a blank line at the end", head + name[1:] + tail + b"\n", 12, 11)
        store(told + "a row that goes on", head + header + rows[:-1] + b" " * len(name) + b"\n", 12, 9)
        store(told + "junk behind a faulty row", head + header + b"0 0 0\n" + rows + name, 12, 5)
        lines = size // 100
        names = (b"b" * 99 + b"\n") * lines
        store(told + "many names", head + names + tail, 1)
        store(told + "many names, the last row", head + names + tail[:-2] + b"x\n", 12, 9 + lines)
        store(told + "many names, no header of the rows", head + names, 12, 4 + lines)
    # The end of the sheet on both sides of a piece's end, byte by byte.
    for shift in range(-3, len(tail) + 3):
        name = b"a" * (ROOM - len(head) - 1 - shift) + b"\n"
        told = "%d bytes before the edge: " % shift
        store(told + "one name", head + name + tail, 1)
        store(told + "the last row", head + name + tail[:-2] + b"x\n", 12, 10)
        store(told + "no header of the rows", head + name + rows, 12, 10)
    wide = b"4294967295 " * 3 + b"4294967295"
    for row, number, place in [(wide, 1, 0), (wide + b"0", 12, 6), (wide + b" ", 12, 6), (wide + b"x" * 20, 12, 6)]:
        store("a row of %d bytes" % len(row), head + b"a" * 140000 + b"\n" + header + row, number, place)
    store("100,000 names and no header of the rows", head + b"a\n" * 100000, 12, 100004)
    store("names of one byte", head + b"a\n" * 200000 + tail, 1)
    store("one line of a million bytes", b"a" * 1000000, 12, 1)
    store("a million newlines", b"\n" * 1000000, 12, 1)
    store("a million newlines behind the header of the names", head + b"\n" * 1000000, 12, 1000004)
    store("a million rows", text_of([]) + b"1 0 0 1\n" * 1000000, 12, 1029)
    store("1,025 rows behind a long name", text_of(row_lines(siblings(1025)), [b"a" * 140000]), 12, 1030)
    store("a million zero bytes", bytes(1000000), 12, 1)


def whole():
    accepted()
    refused()
    faulty()
    long_ones()


def run(program):
    differ = 0
    for number, (what, text, refusal, place) in enumerate(STORED, 1):
        made = answer(text)
        if made[:2] != (refusal, place):
            sys.exit("sheet %d, %s: the model says %d at %d, not %d at %d" % (number, what, *made[:2], refusal, place))
        got = subprocess.run([program], input=text, capture_output=True, check=True).stdout
        if got != printed(*made):
            differ += 1
            print("sheet %d differs: %s" % (number, what))
    print("%d sheets, %d differ" % (len(STORED), differ))
    return differ == 0


if __name__ == "__main__":
    if len(sys.argv) != 2:
        sys.exit(__doc__)
    whole()
    if sys.argv[1] == "--count":
        for number, count in sorted(Counter(refusal for _, _, refusal, _ in STORED).items()):
            print("refusal %d: %d" % (number, count))
        print("%d sheets" % len(STORED))
    else:
        sys.exit(0 if run(sys.argv[1]) else 1)
