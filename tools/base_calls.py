#!/usr/bin/env python3
"""Stored calls of base text (module 2 of the request), and the answer that the request and Unicode give for each.

  base_calls.py FILE            write the calls to FILE (crates/replay_base/stdin)
  base_calls.py --check FILE    exit status 1 if FILE is not what would be written

An answer is written by hand beside its call: the text, or the number and place of a refusal. Nothing here tests a call
against the rules. Capitals beyond ASCII are those of Python's str.upper(), which is Unicode's full uppercase.
"""

from tables import on_one_line, runs_of, write_or_check

HEAD = """\
# Calls of base text, with the answers that the request and Unicode give. Made by base_calls.py.
#
# Numbers are decimal, apart by blanks and line ends; '#' starts a comment that ends with its line.
# A call is, in this order:
#   its own number, from 1; the binding asked for; how many bytes are lent, at most 512
#   the number of runs of records; for each run: use property frame, times, step
#   how many zero bytes stand behind the records
#   the number of runs of name pairs; for each run: start length, times, step
#   how many zero bytes stand behind the pairs
#   the number of runs of text bytes; for each run: byte, times, step
#   the answer: number place count, and the bytes written, as many as counted
# A run has `times` items. The record's frame, the pair's start or the byte grows by `step` from each item to the next.
# Every byte lent that is not written must keep what it held.
"""

BIG = 4294967295          # 2^32 - 1
THIS, ARGUMENTS, GET, SET, PROP, VALUE = 1, 2, 3, 4, 5, 6
BASES = {THIS: "this", ARGUMENTS: "arguments", GET: "superprop_get", SET: "superprop_set", PROP: "prop",
         VALUE: "value"}

LINES = []
COUNT = 0


def part(title):
    LINES.append("")
    LINES.append("# == " + title + " ==")


def call(what, records, names, text, number, place, written=b"", asked=1, room=300, after_records=0, after_names=0):
    global COUNT
    COUNT += 1
    LINES.extend([
        "", "# " + what, "%d %d %d" % (COUNT, asked, room),
        on_one_line(runs_of(records, 2)), str(after_records),
        on_one_line(runs_of(names, 0)), str(after_names),
        on_one_line(runs_of([(b,) for b in text], 0)),
        " ".join(map(str, [number, place, len(written)] + list(written))),
    ])


ABC = dict(names=[(0, 1), (1, 1), (2, 1)], text=b"abc")    # the usual names: a, b, c


def accepted(what, records, written, **more):
    call(what, records, number=0, place=0, written=written.encode(), **{**ABC, **more})


def refused(what, records, number, place, **more):
    call(what, records, number=number, place=place, **{**ABC, **more})


def one_name(name):
    """A text that is one name."""
    return dict(names=[(0, len(name))], text=name)


def uses():
    part("Each use")
    for use, base in BASES.items():
        accepted("use %d without a property: `%s`" % (use, base), [(use, 0, 0)], base)
        accepted("use %d with all of the room taken" % use, [(use, 0, 0)], base, room=len(base))
        refused("use %d with one byte too little" % use, [(use, 0, 0)], 9, 0, room=len(base) - 1)
        refused("use %d with no bytes lent" % use, [(use, 0, 0)], 9, 0, room=0)
    for use in (GET, SET):
        accepted("use %d with the first name" % use, [(use, 1, 0)], BASES[use] + "A")
        accepted("use %d with the last name" % use, [(use, 3, 0)], BASES[use] + "C")
        accepted("use %d with all of the room taken" % use, [(use, 1, 0)], BASES[use] + "A", room=14)
        refused("use %d with one byte too little" % use, [(use, 1, 0)], 9, 0, room=13)
        refused("use %d with no bytes lent" % use, [(use, 1, 0)], 9, 0, room=0)
    records = [(THIS, 0, 0), (ARGUMENTS, 0, 0), (GET, 2, 0), (SET, 0, 7), (PROP, 0, 7), (VALUE, 0, 7)]
    for asked, written in enumerate(["this", "arguments", "superprop_getB", "superprop_set", "prop", "value"], 1):
        accepted("binding %d of six" % asked, records, written, asked=asked)
    accepted("no names and no text", [(THIS, 0, 0)], "this", names=[], text=b"")
    accepted("an accessor without a property, no names and no text", [(SET, 0, 0)], "superprop_set", names=[], text=b"")
    accepted("512 bytes lent", [(GET, 1, 0)], "superprop_getA", room=512)


def names():
    part("The rest of the name")
    for name, capital in (("foo", "Foo"), ("fooBar", "FooBar"), ("Foo", "Foo"), ("x1", "X1"), ("_x", "_x"), ("$x", "$x"),
                          ("éa", "Éa"), ("aé", "Aé"), ("ßx", "SSx"), ("ÿÿ", "Ÿÿ"), ("яя", "Яя"), ("aя世𝒳", "Aя世𝒳"),
                          ("a" * 255, "A" + "a" * 254), ("é" * 127, "É" + "é" * 126), ("z{z", "Z{z")):
        for use in (GET, SET):
            spelled = BASES[use] + capital
            accepted("use %d, a name of %d bytes" % (use, len(name.encode())), [(use, 1, 0)], spelled,
                     **one_name(name.encode()))
    text = "xsuperÀé".encode()
    accepted("a name in the middle of the text", [(GET, 2, 0)], "superprop_getPer", names=[(0, 1), (3, 3)], text=text)
    accepted("names that overlap", [(GET, 2, 0)], "superprop_getUper", names=[(0, 6), (2, 4)], text=text)
    accepted("a name at the end of the text", [(SET, 1, 0)], "superprop_setÀé", names=[(6, 4)], text=text)
    accepted("two names with the same bytes", [(SET, 2, 0)], "superprop_setA", names=[(0, 1), (2, 1)], text=b"aba")
    accepted("the text after the name is not UTF-8", [(GET, 1, 0)], "superprop_getA", names=[(0, 1)], text=b"a\xff\xfe")
    accepted("ß with all of the room taken", [(GET, 1, 0)], "superprop_getSS", room=15, **one_name("ß".encode()))
    refused("ß with one byte too little", [(GET, 1, 0)], 9, 0, room=14, **one_name("ß".encode()))
    accepted("268 bytes: the longest", [(GET, 1, 0)], "superprop_getSS" + "a" * 253, room=268,
             **one_name("ß".encode() + b"a" * 253))


def ascii():
    part("ASCII: a first byte at or above `a` has 0x20 flipped")
    for b in range(0x80):
        capital = chr(b ^ 0x20) if b >= 0x61 else chr(b)
        accepted("0x%02X" % b, [(GET, 1, 0)], "superprop_get" + capital + "x", **one_name(bytes([b, 0x78])))


def letters():
    part("U+0080 to U+00FF and U+0400 to U+045F: Unicode's full uppercase")
    for code in list(range(0x80, 0x100)) + list(range(0x400, 0x460)):
        capital = chr(code).upper()
        accepted("U+%04X: %s" % (code, " ".join("U+%04X" % ord(c) for c in capital)), [(SET, 1, 0)],
                 "superprop_set" + capital + "x", **one_name((chr(code) + "x").encode()))


def unknown():
    part("10: first characters that are not known")
    for code in (0x100, 0x17F, 0x250, 0x370, 0x3B1, 0x3FF, 0x460, 0x461, 0x4FF, 0x500, 0x7FF, 0x800, 0x1E9E, 0x2C61,
                 0xD7FF, 0xE000, 0xFB00, 0xFFFF, 0x10000, 0x10428, 0x1D4B3, 0x10FFFF):
        name = one_name((chr(code) + "x").encode())
        refused("U+%04X" % code, [(GET, 1, 0)], 10, 1, **name)
    name = one_name("Āx".encode())
    refused("the place is the binding asked for", [(THIS, 0, 0), (GET, 0, 0), (SET, 1, 0)], 10, 3, asked=3, **name)
    accepted("a name that another binding uses", [(THIS, 0, 0), (SET, 1, 0)], "this", asked=1, **name)
    accepted("an accessor without a property", [(GET, 0, 0)], "superprop_get", asked=1, **name)
    accepted("not the first character", [(GET, 1, 0)], "superprop_getXĀ", **one_name("xĀ".encode()))


def bindings():
    part("11: the binding number and its record")
    this = [(THIS, 0, 0)]
    refused("number 0", this, 11, 0, asked=0)
    refused("number 2 of 1", this, 11, 2, asked=2)
    refused("number 2^32 - 1", this, 11, BIG, asked=BIG)
    refused("number 1 of none", [], 11, 1)
    refused("number 0 of none", [], 11, 0, asked=0)
    for use in (0, 7, 8, 255, 256, 65536, BIG):
        refused("use %d" % use, [(use, 0, 0)], 11, 1)
    for use in (THIS, ARGUMENTS, PROP, VALUE):
        refused("use %d with a property" % use, [(use, 1, 0)], 11, 1)
    for use in (GET, SET):
        for name in (4, 5, 260, BIG):
            refused("use %d with property %d of 3" % (use, name), [(use, name, 0)], 11, 1)
    refused("a property, and no names", [(GET, 1, 0)], 11, 1, names=[], text=b"")
    for frame in (16384, 16385, 65536, BIG):
        refused("frame %d" % frame, [(GET, 1, frame)], 11, 1)
    for frame in (0, 1, 16382, 16383):
        accepted("frame %d" % frame, [(GET, 1, frame)], "superprop_getA")
    refused("the place is the binding asked for", [(THIS, 0, 0), (THIS, 0, 0), (7, 0, 0)], 11, 3, asked=3)
    accepted("only the record asked for is looked at", [(7, 9, BIG), (THIS, 0, 0), (0, 0, 0)], "this", asked=2)
    accepted("the last of 65,535", [(THIS, 0, 0)] * 65534 + [(VALUE, 0, 0)], "value", asked=65535)
    refused("past 65,535 records", [(THIS, 0, 0)] * 65535, 11, 65536, asked=65536)


def bad_names():
    part("4: the first bad name")
    this = [(THIS, 0, 0)]
    refused("a name past the text", this, 4, 1, names=[(3, 1)])
    refused("a name that ends one past the text", this, 4, 2, names=[(0, 1), (2, 2)])
    refused("start and length at 2^32 - 1", this, 4, 1, names=[(BIG, BIG)])
    refused("length 0", this, 4, 3, names=[(0, 1), (1, 1), (2, 0)])
    refused("length 256", this, 4, 1, names=[(0, 256)], text=b"a" * 256)
    accepted("length 255", this, "this", names=[(0, 255)], text=b"a" * 256)
    for what, text in (("a byte that continues nothing", b"\x80"), ("a sequence cut short", b"\xc3"), ("an overlong form", b"\xc0\x80"),
                       ("a surrogate", b"\xed\xa0\x80"), ("above U+10FFFF", b"\xf4\x90\x80\x80"), ("0xFF", b"\xff"),
                       ("a cut after the first byte", b"\xc3\xa9")):
        refused("not UTF-8: " + what, this, 4, 1, names=[(0, 1 if text == b"\xc3\xa9" else len(text))], text=text)
    refused("a bad name that the binding does not use", [(GET, 1, 0)], 4, 3, names=[(0, 1), (1, 1), (9, 1)])
    refused("two bad names: the first", this, 4, 2, names=[(0, 1), (9, 1), (0, 0)])
    refused("the last of 4,096", this, 4, 4096, names=[(0, 1)] * 4095 + [(0, 0)])


def sizes():
    part("1: sizes")
    this = [(THIS, 0, 0)]
    for n in (1, 2, 3, 4, 8, 11):
        refused("12 + %d bytes of records" % n, this, 1, 0, after_records=n)
    refused("no record and 11 bytes", [], 1, 0, after_records=11)
    refused("no record and 12 zero bytes: use 0", [], 11, 1, after_records=12)
    accepted("65,535 records", this * 65535, "this")
    refused("65,536 records", this * 65536, 1, 0)
    for n in (1, 3, 4, 7):
        refused("24 + %d bytes of name pairs" % n, this, 1, 0, after_names=n)
    accepted("4,096 names", this, "this", names=[(0, 1)] * 4096)
    refused("4,097 names", this, 1, 0, names=[(0, 1)] * 4097)
    accepted("65,535 bytes of text", this, "this", text=b"a" * 65535)
    refused("65,536 bytes of text", this, 1, 0, text=b"a" * 65536)


def order():
    part("The order 1, 4, 11, 10, 9")
    unknown_name = dict(names=[(0, 2)], text="Ā".encode())
    bad_name = dict(names=[(0, 2), (0, 0)], text="Ā".encode())
    refused("1 before 4, 11 and 9", [(7, 0, 0)], 1, 0, room=0, after_names=1, **bad_name)
    refused("1 before 10", [(GET, 1, 0)], 1, 0, after_records=4, **unknown_name)
    refused("4 before 11", [(7, 0, 0)], 4, 2, **bad_name)
    refused("4 before 11: number 0", [(GET, 1, 0)], 4, 2, asked=0, **bad_name)
    refused("4 before 10", [(GET, 1, 0)], 4, 2, **bad_name)
    refused("4 before 9", [(THIS, 0, 0)], 4, 2, room=0, **bad_name)
    refused("11 before 10: frame 16,384", [(GET, 1, 16384)], 11, 1, **unknown_name)
    refused("11 before 10: use 1 with that property", [(THIS, 1, 0)], 11, 1, **unknown_name)
    refused("11 before 9", [(THIS, 0, 16384)], 11, 1, room=0)
    refused("10 before 9", [(SET, 1, 0)], 10, 1, room=0, **unknown_name)
    refused("9 where nothing else is at fault", [(SET, 1, 0)], 9, 0, room=0)


def whole():
    uses()
    names()
    ascii()
    letters()
    unknown()
    bindings()
    bad_names()
    sizes()
    order()
    return HEAD + "\n".join(LINES) + "\n"


if __name__ == "__main__":
    stored = whole()
    write_or_check(__doc__, "base_calls.py", stored, "%d calls" % COUNT)
