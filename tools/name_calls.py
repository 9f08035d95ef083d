#!/usr/bin/env python3
"""Stored calls of the maker of names and of the spelling lookup (change request No. 2), and the answer of each.

  name_calls.py FILE            write the calls to FILE (crates/replay_names/stdin)
  name_calls.py --check FILE    exit status 1 if FILE is not what would be written

The answers are the model's, `make` and `spell` below: the rules of the request over byte strings, with a set of what is taken. For
all calls but the drawn ones the answer also stands by hand beside the call, and the two must be equal. Capitals beyond ASCII are
those of Python's str.upper(), which is Unicode's full uppercase.
"""
from struct import iter_unpack, pack, unpack_from

from base_calls import ARGUMENTS, BASES, BIG, GET, PROP, SET, THIS, VALUE
from conversions import Chance
from tables import on_one_line, runs_of, write_or_check

HEAD = """\
# Calls of the maker of names and of the spelling lookup, with the answers that the request gives. Made by name_calls.py.
#
# Numbers are decimal, apart by blanks and line ends; '#' starts a comment that ends with its line.
# A call is, in this order:
#   its own number, from 1
#   the entry, and two numbers of its own:
#     1, the maker: how many bytes are lent for pairs, and how many for text, each at most 524,288
#     2, the lookup: attr, number
#   the number of runs of records; for each run: use property frame, times, step
#   how many zero bytes stand behind the records
#   the number of runs of name pairs; for each run: start length, times, step
#   how many zero bytes stand behind the pairs
#   the number of runs of text bytes; for each run: byte, times, step
#   the answer's four numbers: for the maker refusal place pairs bytes, for the lookup refusal start bytes 0
#   the made names: pairs, zero bytes behind them and text bytes, in the form of the names above
# A run has `times` items. The record's frame, the pair's start or the byte grows by `step` from each item to the next.
# The made names are what the maker is to write, and what the lookup is lent; the lookup has no records.
# Every byte lent to the maker that is not written must keep what it held.
"""


# The model.

def words_of(lent, count):
    """The records of `count` little-endian words each."""
    return list(iter_unpack("<%dI" % count, lent))


def malformed(bindings, names, text):
    return (len(bindings) % 12 != 0 or len(bindings) // 12 > 65535 or len(names) % 8 != 0 or len(names) // 8 > 4096
            or len(text) > 65535)


def is_name(start, length, text):
    """Whether a pair names a part of the text, of 1 to 255 bytes, in UTF-8."""
    if length == 0 or length > 255 or start + length > len(text):
        return False
    try:
        text[start:start + length].decode("utf-8")
    except UnicodeDecodeError:
        return False
    return True


def is_record(use, name, frame, count):
    """Whether a record is one of a table with `count` names."""
    return 1 <= use <= 6 and name <= count and (name == 0 or use in (GET, SET)) and frame <= 16383


def capital(first):
    """The capital of a first character, None for one that is not known."""
    code = ord(first)
    if code < 0x80:
        return chr(code ^ 0x20) if code >= 0x61 else first
    if code <= 0xFF or 0x400 <= code <= 0x45F:
        return first.upper()
    return None


def base_text(use, name):
    """The base text of a use and the property's name, which is empty for none; None where its first character is not known."""
    if not name:
        return BASES[use].encode()
    spelled = name.decode()
    first = capital(spelled[0])
    return None if first is None else (BASES[use] + first + spelled[1:]).encode()


def free(base, taken):
    """An underscore and the base, or the first number from 2 up behind it that frees it."""
    bare = b"_" + base
    if bare not in taken:
        return bare
    number = 2
    while bare + str(number).encode() in taken:
        number += 1
    return bare + str(number).encode()


def make(bindings, names, text, pair_room, text_room):
    """What the maker answers: refusal and place, and the made names, none for a refusal."""
    if malformed(bindings, names, text):
        return 1, 0, []
    pairs = words_of(names, 2)
    for number, (start, length) in enumerate(pairs, 1):
        if not is_name(start, length, text):
            return 4, number, []
    spelled = [text[start:start + length] for start, length in pairs]
    bases = []
    for number, (use, name, frame) in enumerate(words_of(bindings, 3), 1):
        if not is_record(use, name, frame, len(spelled)):
            return 11, number, []
        base = base_text(use, spelled[name - 1] if name else b"")
        if base is None:
            return 10, number, []
        bases.append(base)
    if 8 * len(bases) > pair_room:
        return 9, 0, []
    taken, made, size = set(spelled), [], 0
    for base in bases:
        name = free(base, taken)
        taken.add(name)
        made.append(name)
        size += len(name)
        if size > text_room:
            return 9, 0, []
    return 0, 0, made


def spell(attr, number, names, text, made_pairs, made_text):
    """What the lookup answers: refusal, start and bytes."""
    if attr > 1:
        return 18, 0, 0
    pairs, whole_text = (names, text) if attr == 0 else (made_pairs, made_text)
    if number == 0 or number > len(pairs) // 8:
        return 18, 0, 0
    start, length = unpack_from("<2I", pairs, 8 * (number - 1))
    if start + length > len(whole_text):
        return 18, 0, 0
    return 0, start, length


# Calls.

LINES = []
COUNT = 0


def part(title):
    LINES.append("")
    LINES.append("# == " + title + " ==")


def packed(items, after):
    """Records or pairs as they are lent, with zero bytes behind them."""
    return b"".join(pack("<%dI" % len(item), *item) for item in items) + bytes(after)


def laid(spellings):
    """Names end to end: their pairs, and the text."""
    pairs, text = [], b""
    for name in spellings:
        pairs.append((len(text), len(name)))
        text += name
    return pairs, text


def bytes_of(spellings):
    return [s.encode() if isinstance(s, str) else s for s in spellings]


def table(*spellings):
    """The names of a table, end to end in its text."""
    pairs, text = laid(bytes_of(spellings))
    return dict(names=pairs, text=text)


def names_lines(pairs, after, text):
    return [on_one_line(runs_of(pairs, 0)), str(after), on_one_line(runs_of([(b,) for b in text], 0))]


def call(what, entry, asked, records, after_records, names, answer, made):
    """A stored call. `names` and `made` are pairs, zero bytes behind them, and text."""
    global COUNT
    COUNT += 1
    LINES.extend(["", "# " + what, "%d %d %d %d" % (COUNT, entry, *asked), on_one_line(runs_of(records, 2)), str(after_records)])
    LINES.extend(names_lines(*names) + ["%d %d %d %d" % answer] + names_lines(*made))


def making(what, records, expected=None, names=(), text=b"", pair_room=None, text_room=None, after_records=0, after_names=0):
    """A call of the maker. The room is enough with some bytes over, unless it is given. `expected` is refusal, place and the
    made names, by hand, or None for a drawn call."""
    lent = packed(records, after_records), packed(names, after_names), text
    if text_room is None:
        fits = make(*lent, 8 * len(records), 524288)
        text_room = len(b"".join(fits[2])) + 5
    if pair_room is None:
        pair_room = min(8 * len(records) + 11, 524288)
    refusal, place, made = make(*lent, pair_room, text_room)
    assert expected is None or expected == (refusal, place, made), (what, expected, refusal, place, made)
    pairs, spelled = laid(made)
    call(what, 1, (pair_room, text_room), records, after_records, (names, after_names, text),
         (refusal, place, len(pairs), len(spelled)), (pairs, 0, spelled))


def accepted(what, records, made, **more):
    making(what, records, (0, 0, bytes_of(made)), **more)


def refused(what, records, number, place, **more):
    making(what, records, (number, place, []), **more)


def looking(what, attr, number, expected, names=((0, 1), (1, 1), (2, 1)), text=b"abc", made=((0, 5), (5, 6)),
            made_text=b"_this_this2", after_names=0, after_made=0):
    """A call of the lookup. `expected` is refusal, start and bytes, by hand."""
    answer = spell(attr, number, packed(names, after_names), text, packed(made, after_made), made_text)
    assert expected == answer, (what, expected, answer)
    call(what, 2, (attr, number), [], 0, (list(names), after_names, text), answer + (0,), (list(made), after_made, made_text))


def found(what, attr, number, start, length, **more):
    looking(what, attr, number, (0, start, length), **more)


def nothing(what, attr, number, **more):
    looking(what, attr, number, (18, 0, 0), **more)


CAPTURE = (THIS, 0, 0)


def numbered(base, first, last):
    """A base with each number of a range behind it."""
    return ["%s%d" % (base, n) for n in range(first, last + 1)]


def uses():
    part("Each use")
    for use, base in BASES.items():
        accepted("use %d: `_%s`" % (use, base), [(use, 0, 0)], ["_" + base])
        accepted("use %d twice, in two frames" % use, [(use, 0, 0), (use, 0, 7)], ["_" + base, "_" + base + "2"])
        accepted("use %d three times, the bare name taken" % use, [(use, 0, 1)] * 3, numbered("_" + base, 2, 4), **table("_" + base))
    for use in (GET, SET):
        accepted("use %d with the first, the last and no property" % use, [(use, 1, 0), (use, 3, 0), (use, 0, 0)],
                 ["_" + BASES[use] + "A", "_" + BASES[use] + "C", "_" + BASES[use]], **table("a", "b", "c"))
    accepted("all six", [(use, 0, 0) for use in BASES],
             ["_this", "_arguments", "_superprop_get", "_superprop_set", "_prop", "_value"])
    accepted("all six in the other order, twice", [(use, 0, use) for use in reversed(BASES)] * 2,
             ["_value", "_prop", "_superprop_set", "_superprop_get", "_arguments", "_this",
              "_value2", "_prop2", "_superprop_set2", "_superprop_get2", "_arguments2", "_this2"])
    accepted("get and set of one property", [(GET, 1, 0), (SET, 1, 0), (GET, 1, 9), (SET, 1, 9)],
             ["_superprop_getFoo", "_superprop_setFoo", "_superprop_getFoo2", "_superprop_setFoo2"], **table("foo"))


def taken():
    part("Names of the table")
    for names, made in (
            (["_this"], ["_this2"]),
            (["_this2"], ["_this"]),
            (["_this", "_this2"], ["_this3"]),
            (["_this2", "_this"], ["_this3"]),
            (["_this", "_this3"], ["_this2"]),
            (["_this", "_this3"], ["_this2", "_this4"]),
            (["_this", "_this3"], ["_this2", "_this4", "_this5"]),
            (["_this2"], ["_this", "_this3"]),
            (["_this3"], ["_this", "_this2", "_this4"]),
            (["_this02"], ["_this"]),
            (["_this", "_this02"], ["_this2"]),
            (["_this", "_this2", "_this02"], ["_this3"]),
            (["_this", "_this0", "_this1", "_this20", "_this 2", "_this+2"], ["_this2"]),
            (["_this", "_this4294967298", "_this258", "_this65538"], ["_this2"]),
            (["this", "this2", "__this", "_This", "_thi", "_thiss", "_this_", "_"], ["_this"]),
            (["_this", "_this"], ["_this2"]),
            (["_this", "_this", "_this2", "_this2"], ["_this3"]),
            (["_arguments", "_prop2"], ["_this", "_this2"]),
            (["a", "b", "_this"], ["_this2"]),
            (["_this"] + numbered("_this", 2, 9), ["_this10", "_this11"]),
            (["_this"] + numbered("_this", 2, 10), ["_this11"]),
            (["_this"] + numbered("_this", 10, 12), numbered("_this", 2, 9) + ["_this13"]),
            (["_this"] + numbered("_this", 2, 30), ["_this31", "_this32", "_this33"]),
            (numbered("_this", 2, 30), ["_this", "_this31"]),
            (["_this"] + numbered("_this", 3, 30), ["_this2", "_this31"])):
        accepted("%s: %s" % (", ".join(names[:6]) + (" .." if len(names) > 6 else ""), ", ".join(made)),
                 [CAPTURE] * len(made), made, **table(*names))
    accepted("names that overlap", [CAPTURE], ["_this3"], names=[(1, 5), (1, 6)], text=b"x_this2x")
    accepted("the same part twice", [CAPTURE], ["_this2"], names=[(1, 5), (1, 5)], text=b"x_this2x")
    accepted("a name at the end of the text", [CAPTURE], ["_this2"], names=[(0, 1), (3, 5)], text=b"a  _this")
    accepted("the text has `_this`, and no pair names it", [CAPTURE], ["_this"], names=[(1, 4), (0, 4)], text=b"_this")
    accepted("each use has its own names", [(use, 0, 0) for use in BASES],
             ["_this3", "_arguments2", "_superprop_get2", "_superprop_set", "_prop3", "_value2"],
             **table("_value", "_prop", "_this", "_arguments", "_superprop_get", "_prop2", "_this2", "_superprop_set2"))
    accepted("a property whose made name is a name", [(GET, 1, 0), (GET, 1, 1)], ["_superprop_getP2", "_superprop_getP4"],
             **table("p", "_superprop_getP", "_superprop_getP3"))
    accepted("properties that look like made names", [(GET, 1, 0), (GET, 2, 0), (GET, 0, 0), CAPTURE],
             ["_superprop_get_this", "_superprop_get_superprop_get", "_superprop_get2", "_this2"], **table("_this", "_superprop_get"))


def bases():
    part("Bases that run into one another")
    p = "_superprop_getP"
    get = "_superprop_get"
    names = table("p", "p2", "P", "2", "P2", "22")
    small, small2, large, two, large2, two2 = [(GET, n, 0) for n in range(1, 7)]
    bare = (GET, 0, 0)
    accepted("p, p2: two bases", [small, small2], [p, p + "2"], **names)
    accepted("p2, p, p", [small2, small, small], [p + "2", p, p + "3"], **names)
    accepted("p, p, p2", [small, small, small2], [p, p + "2", p + "22"], **names)
    accepted("p, p2, p, p2", [small, small2] * 2, [p, p + "2", p + "3", p + "22"], **names)
    accepted("p, P", [small, large], [p, p + "2"], **names)
    accepted("P, p, p2, P2", [large, small, small2, large2], [p, p + "2", p + "22", p + "23"], **names)
    accepted("p 21 times, p2, p2", [small] * 21 + [small2] * 2, [p] + numbered(p, 2, 21) + [p + "22", p + "23"], **names)
    accepted("p 22 times, p2, p2", [small] * 22 + [small2] * 2, [p] + numbered(p, 2, 22) + [p + "23", p + "24"], **names)
    accepted("p2, p2, p 23 times", [small2] * 2 + [small] * 23, [p + "2", p + "22", p] + numbered(p, 3, 21) + numbered(p, 23, 25),
             **names)
    accepted("none, none, 2", [bare, bare, two], [get, get + "2", get + "22"], **names)
    accepted("2, none, none", [two, bare, bare], [get + "2", get, get + "3"], **names)
    accepted("2, 2, 22, none", [two, two, two2, bare], [get + "2", get + "22", get + "222", get], **names)
    accepted("22, 2, 2, none, none", [two2, two, two, bare, bare], [get + "22", get + "2", get + "23", get, get + "3"], **names)
    accepted("a get and a set do not meet", [small, (SET, 1, 0), small2, (SET, 2, 0)],
             [p, "_superprop_setP", p + "2", "_superprop_setP2"], **names)
    accepted("`_superprop_getP2` is a name, and a base", [small, small, small2], [p, p + "3", p + "22"],
             **table("p", "p2", "_superprop_getP2"))
    accepted("`_superprop_getP22` is a name", [small2, small2, small2], [p + "2", p + "23", p + "24"],
             **table("p", "p2", "_superprop_getP22"))


def letters():
    part("First characters")
    get = "_superprop_get"
    accepted("ß, SS, sS, ss", [(GET, n, 0) for n in range(1, 5)],
             [get + "SS", get + "SS2", get + "SS3", get + "Ss"], **table("ß", "SS", "sS", "ss"))
    accepted("`_superprop_getSS` is a name", [(GET, 1, 0), (GET, 1, 0)], [get + "SS2", get + "SS3"], **table("ß", "_superprop_getSS"))
    accepted("ßx, SSx", [(SET, 1, 0), (SET, 2, 0)], ["_superprop_setSSx", "_superprop_setSSx2"], **table("ßx", "SSx"))
    accepted("я, Я, яя, Яя", [(GET, n, 0) for n in range(1, 5)], [get + "Я", get + "Я2", get + "Яя", get + "Яя2"],
             **table("я", "Я", "яя", "Яя"))
    accepted("U+0450, U+0400, U+045F, U+040F", [(GET, n, 0) for n in range(1, 5)],
             [get + "\u0400", get + "\u04002", get + "\u040f", get + "\u040f2"], **table("\u0450", "\u0400", "\u045f", "\u040f"))
    accepted("{, [, {2, [2", [(GET, n, 0) for n in range(1, 5)], [get + "[", get + "[2", get + "[22", get + "[23"],
             **table("{", "[", "{2", "[2"))
    accepted("`, a, z, |, }, ~, U+007F", [(GET, n, 0) for n in range(1, 8)],
             [get + c for c in ("`", "A", "Z", "\\", "]", "^", "_")], **table("`", "a", "z", "|", "}", "~", "\x7f"))
    accepted("µ, ÿ, ÷, é, à, U+0080", [(SET, n, 0) for n in range(1, 7)],
             ["_superprop_set" + c for c in ("\u039c", "\u0178", "÷", "É", "À", "\u0080")],
             **table("µ", "ÿ", "÷", "é", "à", "\u0080"))
    accepted("é, É and the name `_superprop_getÉ`", [(GET, 1, 0), (GET, 2, 0)], [get + "É2", get + "É3"],
             **table("é", "É", "_superprop_getÉ"))
    accepted("not the first character: Ā and a letter above U+FFFF", [(GET, 1, 0), (GET, 2, 0)], [get + "XĀ", get + "X𝒳"],
             **table("xĀ", "x𝒳"))
    accepted("names that no binding uses may begin with Ā", [CAPTURE, (GET, 2, 0)], ["_this", get + "A"], **table("Ā", "a"))
    long = "ß" + "a" * 253
    accepted("the longest property, twice", [(GET, 1, 0)] * 2, [get + "SS" + "a" * 253, get + "SS" + "a" * 253 + "2"], **table(long))
    accepted("a made name of 255 bytes is a name", [(GET, 1, 0)] * 2, [get + "A" + "a" * 240 + "2", get + "A" + "a" * 240 + "3"],
             **table("a" * 241, get + "A" + "a" * 240))
    accepted("a made name of 256 bytes, and a name of its first 255", [(GET, 1, 0)], [get + "A" + "a" * 241],
             **table("a" * 242, get + "A" + "a" * 240))


def many():
    part("Many bindings")
    accepted("11 captures", [CAPTURE] * 11, ["_this"] + numbered("_this", 2, 11))
    accepted("120 captures", [(THIS, 0, n) for n in range(120)], ["_this"] + numbered("_this", 2, 120))
    accepted("105 times prop, the numbers 10 and 100 taken", [(PROP, 0, n) for n in range(105)],
             ["_prop"] + numbered("_prop", 2, 9) + numbered("_prop", 11, 99) + numbered("_prop", 101, 107),
             **table("_prop10", "_prop100"))
    made = []
    for n in range(1, 13):
        made += ["_prop" + (str(n) if n > 1 else ""), "_value" + (str(n) if n > 1 else "")]
    accepted("12 of prop and of value, by turns", [(PROP, 0, 3), (VALUE, 0, 3)] * 12, made)
    part("Many names")
    for count in (126, 127, 128, 254, 255, 256, 257, 1022, 1023, 1024, 1025, 4094, 4095, 4096):
        accepted("%d names, the last of them `_this`" % count, [CAPTURE, CAPTURE, (GET, 1, 0)], ["_this2", "_this3", "_superprop_getA"],
                 names=[(0, 1)] * (count - 1) + [(1, 5)], text=b"a_this")
    for count in (255, 1023, 4095, 4096):
        accepted("%d times the name `_this`" % count, [CAPTURE] * 3, ["_this2", "_this3", "_this4"], names=[(0, 5)] * count,
                 text=b"_this")
        accepted("%d names in a row, `_this` the first" % count, [CAPTURE] * 2, ["_this2", "_this3"],
                 names=[(0, 5)] + [(n, 5) for n in range(5, count + 4)], text=b"_this" + b"a" * (count + 4))
    accepted("4,096 names and a text of 65,535 bytes", [(ARGUMENTS, 0, 0), (ARGUMENTS, 0, 1)], ["_arguments2", "_arguments3"],
             names=[(0, 10)] + [(n, 255) for n in range(10, 4105)], text=b"_arguments" + b"x" * 65525)


def none():
    part("No binding")
    accepted("nothing at all", [], [])
    accepted("no room", [], [], pair_room=0, text_room=0)
    accepted("names, and no room", [], [], pair_room=0, text_room=0, **table("_this", "a"))
    accepted("names and room", [], [], pair_room=40, text_room=40, **table("_this", "a"))
    accepted("a name that no property may be", [], [], **table("Ā"))
    for n in (1, 4, 11, 13):
        refused("%d bytes of records" % n, [], 1, 0, after_records=n)
    refused("12 zero bytes of records: use 0", [], 11, 1, after_records=12)
    for n in (1, 4, 7):
        refused("%d bytes of name pairs" % n, [], 1, 0, after_names=n)
    refused("8 zero bytes of name pairs: length 0", [], 4, 1, after_names=8)
    refused("4,097 names", [], 1, 0, names=[(0, 1)] * 4097, text=b"a")
    refused("65,536 bytes of text", [], 1, 0, text=b"a" * 65536)
    accepted("65,535 bytes of text", [], [], text=b"a" * 65535)
    refused("a name out of the text", [], 4, 2, names=[(0, 1), (1, 1)], text=b"a")
    refused("a name that is not UTF-8, and no room", [], 4, 1, names=[(0, 1)], text=b"\x80", pair_room=0, text_room=0)


def sizes():
    part("1: sizes")
    for n in (1, 2, 3, 4, 8, 11):
        refused("12 + %d bytes of records" % n, [CAPTURE], 1, 0, after_records=n)
    refused("12 + 12 bytes of records: the second has use 0", [CAPTURE], 11, 2, after_records=12)
    for n in (1, 3, 4, 7):
        refused("8 + %d bytes of name pairs" % n, [CAPTURE], 1, 0, after_names=n, **table("a"))
    accepted("4,096 names", [CAPTURE], ["_this"], names=[(0, 1)] * 4096, text=b"a")
    refused("4,097 names", [CAPTURE], 1, 0, names=[(0, 1)] * 4097, text=b"a")
    refused("4,096 names and a byte", [CAPTURE], 1, 0, names=[(0, 1)] * 4096, text=b"a", after_names=1)
    accepted("65,535 bytes of text", [CAPTURE], ["_this"], text=b"a" * 65535)
    refused("65,536 bytes of text", [CAPTURE], 1, 0, text=b"a" * 65536)
    most = [CAPTURE] * 65535
    refused("65,535 records, and no room", most, 9, 0, pair_room=0, text_room=0)
    refused("65,535 records, room for one pair too few", most, 9, 0, pair_room=524279, text_room=524288)
    refused("65,535 records, room for the pairs and for 1,000 bytes", most, 9, 0, pair_room=524280, text_room=1000)
    refused("65,535 records, the last with a frame over the limit", [CAPTURE] * 65534 + [(THIS, 0, 16384)], 11, 65535,
            pair_room=0, text_room=0)
    refused("65,535 records, the last with a letter that is not known", [CAPTURE] * 65534 + [(GET, 1, 0)], 10, 65535,
            pair_room=100, text_room=100, **table("Ā"))
    refused("65,535 records, the first of use 0", [(0, 0, 0)] + [CAPTURE] * 65534, 11, 1, pair_room=0, text_room=0)
    refused("65,536 records", [CAPTURE] * 65536, 1, 0, pair_room=100, text_room=100)
    refused("65,536 records of use 0", [(0, 0, 0)] * 65536, 1, 0, pair_room=0, text_room=0)
    refused("65,535 records and 11 bytes", most, 1, 0, after_records=11, pair_room=0, text_room=0)


def bad_names():
    part("4: the first bad name")
    for what, text, length in (("a byte that continues nothing", b"\x80", 1), ("a sequence cut short", b"\xc3", 1),
                               ("an overlong form", b"\xc0\x80", 2), ("a surrogate", b"\xed\xa0\x80", 3),
                               ("above U+10FFFF", b"\xf4\x90\x80\x80", 4), ("0xFF", b"\xff", 1),
                               ("a cut after the first byte", b"\xc3\xa9", 1)):
        refused("not UTF-8: " + what, [CAPTURE], 4, 1, names=[(0, length)], text=text)
    refused("a name past the text", [CAPTURE], 4, 1, names=[(3, 1)], text=b"abc")
    refused("a name that ends one past the text", [CAPTURE], 4, 2, names=[(0, 1), (2, 2)], text=b"abc")
    refused("start and length at 2^32 - 1", [CAPTURE], 4, 1, names=[(BIG, BIG)], text=b"abc")
    refused("start 2^32 - 1, length 1", [CAPTURE], 4, 1, names=[(BIG, 1)], text=b"abc")
    refused("length 0", [CAPTURE], 4, 3, names=[(0, 1), (1, 1), (2, 0)], text=b"abc")
    refused("length 256", [CAPTURE], 4, 1, names=[(0, 256)], text=b"a" * 256)
    accepted("length 255", [CAPTURE], ["_this"], names=[(1, 255)], text=b"a" * 256)
    refused("two bad names: the first", [CAPTURE], 4, 2, names=[(0, 1), (9, 1), (0, 0)], text=b"abc")
    refused("the last of 4,096", [CAPTURE], 4, 4096, names=[(0, 1)] * 4095 + [(0, 0)], text=b"a")
    refused("a bad name that no binding uses", [(GET, 1, 0)], 4, 2, names=[(0, 1), (9, 1)], text=b"abc")
    accepted("text outside the names need not be UTF-8", [(GET, 1, 0)], ["_superprop_getA"], names=[(1, 1)], text=b"\xffa\xfe")


def bad_records():
    part("11: the first bad record")
    abc = table("a", "b", "c")
    for use in (0, 7, 8, 255, 256, 257, 65536, BIG):
        refused("use %d" % use, [(use, 0, 0)], 11, 1, **abc)
    for use in (THIS, ARGUMENTS, PROP, VALUE):
        refused("use %d with a property" % use, [(use, 1, 0)], 11, 1, **abc)
    for use in (GET, SET):
        accepted("use %d with property 3 of 3" % use, [(use, 3, 0)], ["_" + BASES[use] + "C"], **abc)
        for name in (4, 5, 256, 257, BIG):
            refused("use %d with property %d of 3" % (use, name), [(use, name, 0)], 11, 1, **abc)
    refused("a property, and no names", [(GET, 1, 0)], 11, 1)
    for frame in (0, 1, 255, 256, 16382, 16383):
        accepted("frame %d" % frame, [(SET, 1, frame)], ["_superprop_setA"], **abc)
    for frame in (16384, 16385, 32768, 65535, 65536, BIG):
        refused("frame %d" % frame, [(SET, 1, frame)], 11, 1, **abc)
    refused("the third of four", [CAPTURE, CAPTURE, (7, 0, 0), CAPTURE], 11, 3, **abc)
    refused("the last of four", [CAPTURE] * 3 + [(THIS, 0, 16384)], 11, 4, **abc)
    refused("two bad records: the first", [CAPTURE, (GET, 4, 0), (0, 0, 0)], 11, 2, **abc)
    accepted("the last property of 4,096", [(GET, 4096, 0)], ["_superprop_getB"], names=[(0, 1)] * 4095 + [(1, 1)], text=b"ab")
    refused("property 4,097 of 4,096", [(GET, 4097, 0)], 11, 1, names=[(0, 1)] * 4096, text=b"a")


def unknown():
    part("10: the first property whose first character is not known")
    for code in (0x100, 0x17F, 0x370, 0x3B1, 0x3FF, 0x460, 0x4FF, 0x7FF, 0x800, 0x1E9E, 0xD7FF, 0xE000, 0xFFFF, 0x10000, 0x10FFFF):
        refused("U+%04X" % code, [(GET, 1, 0)], 10, 1, **table(chr(code) + "x"))
    names = table("a", "Ā", "ā")
    refused("the second of three", [CAPTURE, (GET, 2, 0), CAPTURE], 10, 2, **names)
    refused("the last of three", [CAPTURE, (GET, 1, 0), (SET, 3, 0)], 10, 3, **names)
    refused("two of them: the first", [(GET, 1, 0), (SET, 3, 0), (GET, 2, 0)], 10, 2, **names)
    accepted("an accessor without a property", [(GET, 0, 0), (SET, 1, 0)], ["_superprop_get", "_superprop_setA"], **names)


def order():
    part("The order: 1, 4, then 11 or 10 by binding, 9 last")
    names = table("a", "Ā")
    bad = dict(names=[(0, 1), (1, 2), (0, 0)], text="aĀ".encode())
    no_room = dict(pair_room=0, text_room=0)
    record, letter = (7, 0, 0), (GET, 2, 0)
    refused("1 before 4: a byte of name pairs left over", [CAPTURE], 1, 0, after_names=1, **bad)
    refused("1 before 4: too many bytes of text", [CAPTURE], 1, 0, names=[(0, 0)], text=b"a" * 65536)
    refused("1 before 11", [record], 1, 0, after_records=4, **names)
    refused("1 before 10", [letter], 1, 0, after_records=4, **names)
    refused("1 before 9", [CAPTURE], 1, 0, after_records=1, **names, **no_room)
    refused("1 before all others", [record, letter], 1, 0, after_records=1, **bad, **no_room)
    refused("4 before 11", [record], 4, 3, **bad)
    refused("4 before 10", [letter], 4, 3, **bad)
    refused("4 before 9", [CAPTURE], 4, 3, **bad, **no_room)
    refused("11 at binding 1, 10 at binding 2", [record, letter], 11, 1, **names)
    refused("10 at binding 1, 11 at binding 2", [letter, record], 10, 1, **names)
    refused("10 at binding 2, 11 at bindings 3 and 4", [CAPTURE, letter, record, (THIS, 0, 16384)], 10, 2, **names)
    refused("11 at binding 3, 10 at bindings 4 and 5", [CAPTURE, (GET, 1, 0), (SET, 3, 0), letter, letter], 11, 3, **names)
    refused("11 and 10 at one binding: frame 16,384", [(GET, 2, 16384)], 11, 1, **names)
    refused("11 and 10 at one binding: use 1 with that property", [(THIS, 2, 0)], 11, 1, **names)
    refused("11 before 9", [record], 11, 1, **names, **no_room)
    refused("10 before 9", [letter], 10, 1, **names, **no_room)
    refused("11 at the last binding before 9 at the first", [CAPTURE] * 4 + [record], 11, 5, pair_room=8, text_room=3, **names)
    refused("10 at the last binding before 9 at the first", [CAPTURE] * 4 + [letter], 10, 5, pair_room=7, text_room=5, **names)
    refused("9 where nothing else is at fault", [CAPTURE] * 4 + [(GET, 1, 0)], 9, 0, **names, **no_room)


def rooms():
    part("9: room for bytes and for whole pairs")
    two, made = [CAPTURE] * 2, ["_this", "_this2"]     # 16 bytes of pairs, 11 of text
    for pair_room, text_room in ((16, 11), (16, 12), (17, 11), (23, 11), (24, 11), (16, 300), (300, 11), (300, 300)):
        accepted("16 and 11 bytes, %d and %d lent" % (pair_room, text_room), two, made, pair_room=pair_room, text_room=text_room)
    for pair_room, text_room in ((15, 11), (16, 10), (15, 10), (8, 11), (16, 5), (8, 5), (0, 11), (16, 0), (0, 0), (15, 300),
                                 (300, 10), (0, 300), (300, 0), (7, 300), (1, 1)):
        refused("16 and 11 bytes, %d and %d lent" % (pair_room, text_room), two, 9, 0, pair_room=pair_room, text_room=text_room)
    refused("three pairs, 23 bytes lent for them", [CAPTURE] * 3, 9, 0, pair_room=23, text_room=300)
    accepted("three pairs, 24 bytes lent for them", [CAPTURE] * 3, made + ["_this3"], pair_room=24, text_room=300)
    ten = ["_this"] + numbered("_this", 2, 10)         # 5 + 8 * 6 + 7 bytes
    accepted("ten captures, all of the room taken", [CAPTURE] * 10, ten, pair_room=80, text_room=60)
    refused("ten captures, one byte of text too few", [CAPTURE] * 10, 9, 0, pair_room=80, text_room=59)
    refused("ten captures, one byte of pairs too few", [CAPTURE] * 10, 9, 0, pair_room=79, text_room=60)
    accepted("a number behind counts: `_this2` in 6 bytes", [CAPTURE], ["_this2"], pair_room=8, text_room=6, **table("_this"))
    refused("a number behind counts: `_this2` in 5 bytes", [CAPTURE], 9, 0, pair_room=8, text_room=5, **table("_this"))
    accepted("ß in 16 bytes", [(GET, 1, 0)], ["_superprop_getSS"], pair_room=8, text_room=16, **table("ß"))
    refused("ß in 15 bytes", [(GET, 1, 0)], 9, 0, pair_room=8, text_room=15, **table("ß"))
    accepted("much room", two, made, pair_room=524288, text_room=524288)


def drawn():
    part("Drawn calls")
    spellings = bytes_of(["_this", "_this2", "_this3", "_arguments", "_prop", "_value2", "_superprop_getA", "_superprop_getA2",
                          "_superprop_setSS", "_superprop_get2", "a", "A", "a2", "A2", "2", "ß", "SS", "я", "Я", "{", "["])
    for seed in range(1, 61):
        chance = Chance(seed)
        lent = [chance.choice(spellings) for _ in range(chance.randint(1, 8))]
        if chance.random() < 0.1:
            lent.append("Āx".encode())
        names = table(*lent)
        records = []
        for _ in range(chance.randint(1, 9)):
            use = chance.choice((THIS, THIS, GET, GET, GET, SET, SET, ARGUMENTS, PROP, VALUE))
            name = chance.randrange(len(lent) + 1) if use in (GET, SET) else 0
            records.append((use, name, chance.randrange(16384)))
            if chance.random() < 0.01:
                records.append((chance.randrange(9), chance.randrange(len(lent) + 3), chance.choice((0, 16384))))
        room = {}
        if chance.random() < 0.3:
            bindings, pairs = packed(records, 0), packed(names["names"], 0)
            size = len(b"".join(make(bindings, pairs, names["text"], 4096, 4096)[2]))
            room = dict(pair_room=max(0, 8 * len(records) + chance.randint(-1, 1)), text_room=max(0, size + chance.randint(-1, 1)))
        making("drawn by %d" % seed, records, **names, **room)


def spellings():
    part("The lookup: attr, number and pair")
    for number in (1, 2, 3):
        found("name %d of 3" % number, 0, number, number - 1, 1)
    found("made name 1 of 2", 1, 1, 0, 5)
    found("made name 2 of 2", 1, 2, 5, 6)
    for attr, count in ((0, 3), (1, 2)):
        for number in (0, count + 1, count + 2, 256 + 1, 65536 + 1, 1 << 29, (1 << 29) + 1, 1 << 31, BIG):
            nothing("attr %d, number %d of %d" % (attr, number, count), attr, number)
    for attr in (2, 3, 255, 256, 257, 65536, 65537, BIG):
        nothing("attr %d" % attr, attr, 1)
    nothing("attr 2, number 0", 2, 0)
    nothing("attr 0, and no names", 0, 1, names=[], text=b"")
    nothing("attr 1, and no made names", 1, 1, made=[], made_text=b"")
    found("attr 0, and no made names", 0, 1, 0, 1, made=[], made_text=b"")
    found("attr 1, and no names", 1, 1, 0, 5, names=[], text=b"")
    for attr, names, text in ((0, "names", "text"), (1, "made", "made_text")):
        said = "attr %d: " % attr

        def over(*pairs, lent=b"abcdef", after=0):
            return {names: list(pairs), text: lent, "after_" + names: after}
        found(said + "a part that ends with the text", attr, 2, 4, 2, **over((0, 1), (4, 2)))
        nothing(said + "a part that ends one past the text", attr, 2, **over((0, 1), (4, 3)))
        nothing(said + "a part that starts at the end", attr, 2, **over((0, 1), (6, 1)))
        found(said + "the whole text", attr, 1, 0, 6, **over((0, 6)))
        nothing(said + "one byte more than the text", attr, 1, **over((0, 7)))
        found(said + "length 0", attr, 1, 3, 0, **over((3, 0)))
        found(said + "length 0 at the front", attr, 1, 0, 0, **over((0, 0)))
        found(said + "length 0 at the end", attr, 1, 6, 0, **over((6, 0)))
        nothing(said + "length 0 past the end", attr, 1, **over((7, 0)))
        nothing(said + "length 0, start 2^32 - 1", attr, 1, **over((BIG, 0)))
        found(said + "length 0, and no text", attr, 1, 0, 0, **over((0, 0), lent=b""))
        nothing(said + "length 1, and no text", attr, 1, **over((0, 1), lent=b""))
        nothing(said + "start and length 2^32 - 1", attr, 1, **over((BIG, BIG)))
        nothing(said + "start 2^32 - 1, length 1: the sum is 2^32", attr, 1, **over((BIG, 1)))
        nothing(said + "start 2^32 - 2, length 5: the sum is past 2^32", attr, 1, **over((BIG - 1, 5)))
        nothing(said + "start 2, length 2^32 - 1", attr, 1, **over((2, BIG)))
        nothing(said + "start and length 2^31", attr, 1, **over((1 << 31, 1 << 31)))
        found(said + "only the pair asked for counts", attr, 2, 2, 3, **over((9, 9), (2, 3), (BIG, BIG)))
        for after in (1, 4, 7):
            found(said + "the last pair, and %d bytes behind it" % after, attr, 2, 1, 1, **over((0, 1), (1, 1), after=after))
            nothing(said + "past the last pair, and %d bytes behind it" % after, attr, 3, **over((0, 1), (1, 1), after=after))
        nothing(said + "7 bytes are no pair", attr, 1, **over(after=7))
        found(said + "8 zero bytes are a pair", attr, 1, 0, 0, **over(after=8))
        found(said + "a part that is not UTF-8", attr, 1, 1, 2, **over((1, 2), lent=b"a\xff\x80"))
        found(said + "a part of 256 bytes", attr, 1, 1, 256, **over((1, 256), lent=b"a" * 257))
        found(said + "the last byte of 65,536", attr, 1, 65535, 1, **over((65535, 1), lent=b"a" * 65536))
        found(said + "pair 4,097 of 4,097", attr, 4097, 4096, 1, **over(*[(n, 1) for n in range(4097)], lent=b"a" * 4097))
        nothing(said + "pair 4,098 of 4,097", attr, 4098, **over(*[(n, 1) for n in range(4097)], lent=b"a" * 4097))
    found("attr 0 is looked up in the names", 0, 1, 0, 3, names=[(0, 3)], text=b"abc", made=[(1, 1)], made_text=b"xy")
    found("attr 1 is looked up in the made names", 1, 1, 1, 1, names=[(0, 3)], text=b"abc", made=[(1, 1)], made_text=b"xy")
    nothing("attr 0: the pair lies in the made text only", 0, 1, names=[(0, 4)], text=b"abc", made=[(0, 4)], made_text=b"wxyz")
    nothing("attr 1: the pair lies in the script's text only", 1, 1, names=[(0, 3)], text=b"abc", made=[(0, 3)], made_text=b"xy")
    nothing("attr 0: the number is one of a made name only", 0, 2, names=[(0, 1)], text=b"abc", made=[(0, 1), (1, 1)], made_text=b"xy")
    nothing("attr 1: the number is one of a name only", 1, 2, names=[(0, 1), (1, 1)], text=b"abc", made=[(0, 1)], made_text=b"xy")


def over_made():
    part("The lookup over what the maker wrote")
    names = table("p", "p2", "_this", "ß")
    records = [(GET, 1, 0), (GET, 2, 0), CAPTURE, (GET, 1, 5), (SET, 4, 5), CAPTURE]
    made = bytes_of(["_superprop_getP", "_superprop_getP2", "_this2", "_superprop_getP3", "_superprop_setSS", "_this3"])
    accepted("the maker", records, made, **names)
    pairs, text = laid(made)
    wrote = dict(made=pairs, made_text=text, **names)
    at = 0
    for number, name in enumerate(made, 1):
        found("binding %d: `%s`" % (number, name.decode()), 1, number, at, len(name), **wrote)
        at += len(name)
    nothing("binding 7", 1, 7, **wrote)
    for number, (start, length) in enumerate(((0, 1), (1, 2), (3, 5), (8, 2)), 1):
        found("name %d" % number, 0, number, start, length, **wrote)
    nothing("name 5", 0, 5, **wrote)


def whole():
    uses()
    taken()
    bases()
    letters()
    many()
    none()
    sizes()
    bad_names()
    bad_records()
    unknown()
    order()
    rooms()
    drawn()
    spellings()
    over_made()
    return HEAD + "\n".join(LINES) + "\n"


if __name__ == "__main__":
    stored = whole()
    write_or_check(__doc__, "name_calls.py", stored, "%d calls" % COUNT)
