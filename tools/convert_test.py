#!/usr/bin/env python3
"""What ./convert writes to the standard error, its status, its options and its first build. Exit status 1 at a failure.

The program of target/bin is run beside it: the standard output must be that program's, byte for byte. The sentences stand
here by hand, one for each refusal and for each sort of faulty line, and in tools/row_sentences for each sort of bad row;
tools/sentence.awk writes them.
"""
import os
import re
import shutil
import signal
import socket
import subprocess
import sys
import tempfile
import time

import sheets
from conversions import ASYNC, call, dot, expr, field, in_class, in_method, one, reads_this, sup, super_call
from sheets import NAMES, ROWS, SHEET, SWITCHES, deep, row_lines, text_of, tree_text
from tables import siblings

ROOT = os.path.dirname(os.path.dirname(os.path.abspath(__file__)))
PROGRAM = os.path.join(ROOT, "target", "bin", "convert")
GOOD = text_of(SHEET)
ASYNC_ON = b"0 1 0"
WRONG_USE = "./convert: usage: ./convert [FILE], or ./convert --help\n"

failures = []
checks = 0


def check(what, got, wanted):
    global checks
    checks += 1
    if got != wanted:
        failures.append(what)
        print("%s:\n  got    %r\n  wanted %r" % (what, got, wanted))


# The sentences.

ROW = "kind, attr, name and end are expected, decimal numbers up to 4294967295 without leading zeros, one space apart"
THREE = "three switches are expected, each 0 or 1, one space apart"
FIRST = "`arrow async asyncgen` is expected"
HEADER = "`kind attr name end` is expected behind the names"
MADE = "is only found in a converted table"
NAME = "1 to 255 bytes of UTF-8 are expected"
OUTSIDE = "`super` may not stand here: a method, a static block or a class field is expected around it, and no function but arrows in between"
UNCALLED = "a call of `super` may not stand here: a constructor is expected around it, and no function but arrows in between"
ARGUMENTS = "it is named `arguments`, which is not converted while the arrow switch is 0; give it another name"
BEYOND = "is faulty or missing, in a sheet that is longer than any that is accepted (at most 114738 bytes)"


def second_row(line):
    """The request's sheet with another second row, which is line 6."""
    return text_of([SHEET[0], line, *SHEET[2:]])


def with_super_in_field(switches):
    return tree_text(in_class(field(dot("p"))), switches)


def bad_rows():
    """The tables of tools/row_sentences: the rows, the number of names, and the answer's number, row and words."""
    with open(os.path.join(ROOT, "tools", "row_sentences"), encoding="ascii") as file:
        lines = [line for line in file.read().split("\n") if line and not line.startswith("#")]
    for table, answer in zip(lines[::2], lines[1::2]):
        names, rows = re.fullmatch(r"names ([0-9]+) rows (.+)", table).groups()
        number, row, words = re.fullmatch(r"(2[1-5]) row ([0-9]+): (.+)", answer).groups()
        yield rows.split(", "), int(names), int(number), int(row), words


SENTENCES = [
    # 1: which size.
    ("no rows", text_of([]), "1: the sheet has no rows (1 to 1024 are converted)"),
    ("4,097 names", text_of(SHEET, [b"a"] * 4097), "1: the sheet has 4097 names (up to 4096 are converted)"),
    ("65,536 bytes of text", text_of(SHEET, [b"a" * 256] * 256), "1: the sheet has 65536 bytes in its names (up to 65535 are converted)"),
    ("all three", text_of([], [b"a" * 20] * 4100),
     "1: the sheet has no rows (1 to 1024 are converted) and 4100 names (up to 4096 are converted)"
     " and 82000 bytes in its names (up to 65535 are converted)"),
    # 3, 4, 5.
    ("too deep", tree_text(deep(130)), "3: row 129, an Other (line 134): it is nested deeper than 128"),
    ("an empty name", text_of(SHEET, [b"a", b""]), "4: name 2 (line 5) is empty: " + NAME),
    ("a name of 256 bytes", text_of(SHEET, [b"a" * 256]), "4: name 1 (line 4) has 256 bytes: " + NAME),
    ("a name that is not UTF-8", text_of(SHEET, [b"a", b"b", b"\xff"]), "4: name 3 (line 6) is not UTF-8: " + NAME),
    ("a name with zero bytes that is not UTF-8", text_of(SHEET, [b"\0\0\xff"]), "4: name 1 (line 4) is not UTF-8: " + NAME),
    ("a made Ident", text_of([b"0 0 0 3", b"1 0 0 3", b"11 1 1 3"]), "5: row 2, an Ident (line 7): this sort of row, with attr 1, " + MADE),
    ("Arguments", text_of([b"0 0 0 3", b"1 0 0 3", b"27 0 0 3"]), "5: row 2, an Arguments (line 7): this sort of row " + MADE),
    # 6: which owner.
    ("super outside of a method", tree_text(one(dot("p"))), "6: row 3, a Super (line 9): " + OUTSIDE),
    ("super() outside of a constructor", tree_text(in_method(expr(super_call()))), "6: row 9, a Super (line 14): " + UNCALLED),
    ("super() in a program", tree_text(one(call(sup()))), "6: row 3, a Super (line 8): " + UNCALLED),
    # 7: by the arrow switch.
    ("a field with an arrow", tree_text(in_class(field(reads_this())), ASYNC_ON),
     "7: row 3, a Field (line 8): its value holds a `super` or, while the arrow switch is 0, an arrow, which is not converted"),
    ("a field with a super", with_super_in_field(b"1 1 0"), "7: row 3, a Field (line 9): its value holds a `super`, which is not converted"),
    # 8.
    ("a Declarator named arguments", text_of([b"0 0 0 3", b"2 0 0 3", b"3 0 1 3"], [b"arguments"], ASYNC_ON),
     "8: row 2, a Declarator (line 8): " + ARGUMENTS),
    ("a Function named arguments", text_of([b"0 0 0 4", b"17 8 1 4", b"18 0 0 3", b"19 0 0 4"], [b"arguments"], ASYNC_ON),
     "8: row 1, a Function (line 7): " + ARGUMENTS),
    # 9.
    ("257 accessors", tree_text(in_method(*[expr(dot("p%d" % i)) for i in range(257)], attr=ASYNC), ASYNC_ON),
     "9: the result has too many rows or bindings: there is room for 2048 rows and 256 bindings"),
    # 12, the first three lines.
    ("nothing", b"", "12: line 1 is missing, as the sheet is empty: " + FIRST),
    ("an empty line", b"\n", "12: line 1 is blank: " + FIRST),
    ("another first line", text_of(SHEET, head=b"arrow async"), "12: line 1 is `arrow async`: " + FIRST),
    ("a first line with a space behind", text_of(SHEET, head=SWITCHES + b" "), "12: line 1 is `arrow async asyncgen `: " + FIRST),
    ("a first line with tabs", text_of(SHEET, head=SWITCHES.replace(b" ", b"\t")), "12: line 1 has a tab: " + FIRST),
    ("a first line with a tab and other words", text_of(SHEET, head=b"a\tb"), "12: line 1 is `a b` and has a tab: " + FIRST),
    ("Windows line ends", GOOD.replace(b"\n", b"\r\n"), "12: line 1 ends in a carriage return: %s, then a newline alone" % FIRST),
    ("line ends of an old Mac", GOOD.replace(b"\n", b"\r"),
     "12: line 1 is `arrow async asyncgen 1 0 0 name kind att..` and has a carriage return inside and ends in a carriage return: "
     "%s, then a newline alone" % FIRST),
    ("a blank line of Windows", b"\r\n" + GOOD, "12: line 1 is blank and ends in a carriage return: %s, then a newline alone" % FIRST),
    ("a byte order mark", b"\xef\xbb\xbf" + GOOD, "12: line 1 starts with a byte order mark: %s, with nothing before it" % FIRST),
    ("a byte order mark and Windows line ends", b"\xef\xbb\xbf" + GOOD.replace(b"\n", b"\r\n"),
     "12: line 1 starts with a byte order mark and ends in a carriage return: %s, with nothing before it, then a newline alone" % FIRST),
    ("UTF-16", "\ufeff".encode("utf-16-le") + GOOD.decode().encode("utf-16-le"),
     "12: line 1 starts with a byte order mark of UTF-16: %s, with nothing before it" % FIRST),
    ("UTF-16, the other order", "\ufeff".encode("utf-16-be") + GOOD.decode().encode("utf-16-be"),
     "12: line 1 starts with a byte order mark of UTF-16: %s, with nothing before it" % FIRST),
    ("bytes of no text", b"\x89PNG\x1b[31m\0\x01 \xc3\xa9\n", "12: line 1 is `?PNG?[31m?? ??`: " + FIRST),
    ("a long line", b"a" * 1000, "12: line 1 is `%s..`: %s" % ("a" * 40, FIRST)),
    ("no switches", SWITCHES + b"\n", "12: line 2 is missing: " + THREE),
    ("a switch 2", text_of(SHEET, switches=b"1 2 0"), "12: line 2 is `1 2 0`: " + THREE),
    ("two switches", text_of(SHEET, switches=b"1 0"), "12: line 2 is `1 0`: " + THREE),
    ("switches with a tab", text_of(SHEET, switches=b"1\t0 0"), "12: line 2 has a tab: " + THREE),
    ("switches with a carriage return", text_of(SHEET, switches=b"1 0 0\r"), "12: line 2 ends in a carriage return: %s, then a newline alone" % THREE),
    ("blank switches", text_of(SHEET, switches=b" "), "12: line 2 is blank: " + THREE),
    ("no header of names", SWITCHES + b"\n1 0 0\n", "12: line 3 is missing: `name` is expected"),
    ("another header of names", text_of(SHEET, third=b"names"), "12: line 3 is `names`: `name` is expected"),
    # 12, the header of the rows.
    ("no header of rows", SWITCHES + b"\n1 0 0\nname\na\nb\n", "12: line 6 is missing: " + HEADER),
    ("a header of rows with a space behind", text_of(SHEET, header=ROWS + b" "),
     "12: line 10 is missing: %s (line 4 is like it, but is `kind attr name end `)" % HEADER),
    ("a header of rows with a carriage return", text_of(SHEET, [b"a"], header=ROWS + b"\r"),
     "12: line 11 is missing: %s (line 5 is like it, but ends in a carriage return)" % HEADER),
    ("a header of rows with tabs", text_of(SHEET, header=ROWS.replace(b" ", b"\t")),
     "12: line 10 is missing: %s (line 4 is like it, but has a tab)" % HEADER),
    # 12, a row.
    ("three fields", second_row(b"1 0 0"), "12: line 6 (row 1) has 3 fields instead of 4: " + ROW),
    ("one field", second_row(b"1"), "12: line 6 (row 1) has 1 field instead of 4: " + ROW),
    ("five fields", second_row(b"1 0 0 5 0"), "12: line 6 (row 1) has 5 fields instead of 4: " + ROW),
    ("a leading zero", second_row(b"1 0 00 5"), "12: line 6 (row 1) has `00` as its name, with a leading zero: " + ROW),
    ("a leading zero before digits", text_of([b"00 0 0 5"], [b"a"]), "12: line 6 (row 0) has `00` as its kind, with a leading zero: " + ROW),
    ("2 to the 32nd", second_row(b"1 4294967296 0 5"), "12: line 6 (row 1) has `4294967296` as its attr, which is over 4294967295: " + ROW),
    ("twenty digits", second_row(b"1 0 0 " + b"9" * 20), "12: line 6 (row 1) has `%s` as its end, which is over 4294967295: %s" % ("9" * 20, ROW)),
    ("2 to the 32nd but one is no fault", second_row(b"1 4294967295 0 05"), "12: line 6 (row 1) has `05` as its end, with a leading zero: " + ROW),
    ("a minus", second_row(b"1 -1 0 5"), "12: line 6 (row 1) has `-1` as its attr: " + ROW),
    ("a zero byte", second_row(b"1 0 0 \0"), "12: line 6 (row 1) has `?` as its end: " + ROW),
    ("a tab", second_row(b"1 0\t0 5"), "12: line 6 (row 1) has a tab: " + ROW),
    ("a carriage return", second_row(b"1 0 0 5\r"), "12: line 6 (row 1) ends in a carriage return: %s, then a newline alone" % ROW),
    ("a carriage return behind three fields", second_row(b"1 0 0\r"),
     "12: line 6 (row 1) has 3 fields instead of 4 and ends in a carriage return: %s, then a newline alone" % ROW),
    ("a space before", second_row(b" 1 0 0 5"), "12: line 6 (row 1) starts with a space: " + ROW),
    ("a space behind", second_row(b"1 0 0 5 "), "12: line 6 (row 1) ends in a space: " + ROW),
    ("two spaces", second_row(b"1 0  0 5"), "12: line 6 (row 1) has two spaces side by side: " + ROW),
    ("a blank line", second_row(b""), "12: line 6 (row 1) is blank: kind, attr, name and end are expected, or the end of the sheet"),
    ("a blank line at the end", GOOD + b"\n", "12: line 10 (row 5) is blank: kind, attr, name and end are expected, or the end of the sheet"),
    ("1,025 rows", text_of(row_lines(siblings(1025)), [b"a"]), "12: line 1030 (row 1024) is one row too many: up to 1024 are converted"),
]
# 21 to 25.
SENTENCES += [(", ".join(rows), text_of([row.encode() for row in rows], [b"a"] * names), "%d: row %d (line %d): %s" % (number, at, 5 + names + at, words))
              for rows, names, number, at, words in bad_rows()]


def run(args, text=None, **options):
    if text is not None:
        options["input"] = text
    done = subprocess.run(args, stdout=subprocess.PIPE, stderr=subprocess.PIPE, check=False, **options)
    return done.returncode, done.stdout, done.stderr.decode()


def sentences():
    told = set()
    for what, text, sentence in SENTENCES:
        number = sentence.split(":")[0]
        told.add(int(number))
        wanted = run([PROGRAM], text)[1]
        check(what, run(["./convert"], text), (1, wanted, "./convert: standard input: refusal %s\n" % sentence))
        check(what + ": its number", wanted.split(b"\n")[1].split()[0].decode(), number)
    check("the numbers that have a sentence", told, {1, 3, 4, 5, 6, 7, 8, 9, 12, 21, 22, 23, 24, 25})


def said_of(text, number, place, cut=0):
    words = ["awk", "-v", "number=%d" % number, "-v", "place=%d" % place, "-v", "cut=%d" % cut, "-f", "tools/sentence.awk"]
    return run(words, text)[1].decode()


def kinds():
    """The kinds are called as in docs/FORMAT.md."""
    with open("docs/FORMAT.md", encoding="utf-8") as page:
        table = page.read().split("There is no kind 7.")[0]
    called = {int(kind): name for kind, name in re.findall(r"(?:\| |, )([0-9]+) ([A-Z][A-Za-z]+)", table)}
    check("the kinds of docs/FORMAT.md", sorted(called), [kind for kind in range(29) if kind != 7])
    for kind, name in called.items():
        sort = ("an " if name[0] in "AEIOU" else "a ") + name
        check("kind %d" % kind, said_of(text_of([b"%d 0 0 1" % kind]), 3, 0), "refusal 3: row 0, %s (line 5): it is nested deeper than 128\n" % sort)
    told = [(number, at, int(rows[at].split()[0])) for rows, _, number, at, _ in bad_rows()]
    check("a bad row of each kind", {kind for number, _, kind in told if number > 21}, set(called))
    check("a bad row 0 by each number", {number for number, at, _ in told if at == 0}, {21, 22, 23, 24, 25})


def no_fault():
    """What is said where the row does not show what the number says, which no answer of the program has, and of 2, which is retired."""
    for number in [2, 21, 22, 23, 25]:
        check("%d of a sound row" % number, said_of(GOOD, number, 2), "refusal %d: place 2\n" % number)
    check("24 of a Program", said_of(GOOD, 24, 0), "refusal 24: place 0\n")
    for number in range(21, 26):
        check("%d of no row" % number, said_of(GOOD, number, 5), "refusal %d: place 5\n" % number)


def long_sheets():
    """What is said of a line that has no fault of its own, and of a sheet of which only the front is there."""
    front = b"\n".join([SWITCHES, b"1 0 0", NAMES]) + b"\n" + b"a\n" * 70000
    check("a row without a fault", said_of(GOOD, 12, 9), "refusal 12: line 9 %s\n" % BEYOND)
    check("a name's line", said_of(front, 12, 5), "refusal 12: line 5 %s\n" % BEYOND)
    check("the header of the rows", said_of(GOOD, 12, 4), "refusal 12: line 4 %s\n" % BEYOND)
    check("a line behind the front", said_of(front, 12, 80000, 1), "refusal 12: line 80000 %s\n" % BEYOND)
    check("a line behind a front that has rows", said_of(GOOD, 12, 80000, 1), "refusal 12: line 80000 %s\n" % BEYOND)
    check("the sizes of a front", said_of(front, 1, 0, 1), "refusal 1: the sheet has over 70000 names (up to 4096 are converted)"
          " and over 70000 bytes in its names (up to 65535 are converted)\n")


def other_awks():
    """Each further awk that is here says the same."""
    usual = os.path.realpath(shutil.which("awk"))
    for awk in ["mawk", "gawk", "original-awk"]:
        path = shutil.which(awk)
        if path is None or os.path.realpath(path) == usual:
            continue
        with tempfile.TemporaryDirectory() as folder:
            os.symlink(path, os.path.join(folder, "awk"))
            paths = dict(os.environ, PATH=folder + os.pathsep + os.environ["PATH"])
            for what, text, sentence in SENTENCES:
                check("%s: %s" % (awk, what), run(["./convert"], text, env=paths)[2], "./convert: standard input: refusal %s\n" % sentence)


def stored_sheets():
    """Every stored sheet of up to 120,000 bytes, and every 40th longer one: nothing is said of one that is accepted, and
    one line with number and place of one that is refused."""
    sheets.whole()
    longer = [sheet for sheet in sheets.STORED if len(sheet[1]) > 120000]
    for what, text, number, place in [sheet for sheet in sheets.STORED if len(sheet[1]) <= 120000] + longer[::40]:
        status, out, said = run(["./convert"], text)
        check(what + ": what is printed", out, run([PROGRAM], text)[1])
        check(what + ": the status", status, 1 if number else 0)
        if number == 0:
            check(what + ": nothing is said", said, "")
            continue
        at = {4: "name %d " % place, 12: "line %d " % place}.get(number, "row %d" % place if number not in (1, 9) else "")
        wanted = r"\./convert: standard input: refusal %d: %s[ -~]+\n" % (number, re.escape(at))
        check(what + ": one sentence", bool(re.fullmatch(wanted, said)), True)
    head = b"\n".join([SWITCHES, b"1 0 0", NAMES]) + b"\n"
    status, out, said = run(["./convert"], head + b"a\n" * 3000000)
    check("a sheet of 6 MB: the status", (status, said.count("\n")), (1, 1))
    for what, lines, last in [("first line", b"", 1), ("switches", SWITCHES + b"\n", 2), ("first row", head + b"kind attr name end\n", 5)]:
        status, out, said = run(["bash", "-c", "{ printf %s \"$1\"; cat /dev/zero; } | ./convert", "bash", lines])
        check("a %s without end" % what, (status, out.split(b"\n")[1], said.count("line %d " % last)), (1, b"12 %d 0 0" % last, 1))
    status, out, said = run(["bash", "-c", "yes | ./convert"])
    check("a sheet without end", (status, out[:36], said), (
        1, b"refusal place rows bindings\n12 1 0 0", "./convert: standard input: refusal 12: line 1 is `y`: %s\n" % FIRST))


# Use.

def write(path, content, mode=0o644):
    os.makedirs(os.path.dirname(path), exist_ok=True)
    with open(path, "wb") as file:
        file.write(content)
    os.chmod(path, mode)
    return path


def shell(command, **options):
    return run(["bash", "-c", command], b"", **options)


def without_reader(sheet):
    """The status and what is said, where the standard output is a pipe that nobody reads."""
    reader, writer = os.pipe()
    os.close(reader)
    try:
        done = subprocess.run(["./convert", sheet], stdout=writer, stderr=subprocess.PIPE, check=False)
    finally:
        os.close(writer)
    return done.returncode, done.stderr.decode()


def use(folder):
    good, refused = write(folder + "/good", GOOD), write(folder + "/refused", b"x\n")
    printed, turned = run([PROGRAM], GOOD)[1], run([PROGRAM], b"x\n")[1]
    sentence = "refusal 12: line 1 is `x`: %s\n" % FIRST
    full = "./convert: the standard output cannot be written: No space left on device\n"

    check("standard input", run(["./convert"], GOOD), (0, printed, ""))
    check("a file", run(["./convert", good], b""), (0, printed, ""))
    check("a file that is refused", run(["./convert", refused], b""), (1, turned, "./convert: %s: %s" % (refused, sentence)))
    check("a pipe as the file", shell("./convert <(cat %s)" % good), (0, printed, ""))
    odd = write(folder + "/a b\n\x1b[31m", b"x\n")
    status, out, said = run(["./convert", odd], b"")
    check("a file with an odd name", (status, out, said.count("\n"), "\x1b" in said), (1, turned, 1, False))
    check("from another folder", run([os.path.join(ROOT, "convert"), "good"], b"", cwd=folder), (0, printed, ""))
    os.symlink(os.path.join(ROOT, "convert"), folder + "/link")
    check("through a link", run([folder + "/link", "good"], b"", cwd=folder), (0, printed, ""))

    for option in ["-h", "--help"]:
        status, out, said = run(["./convert", option], b"")
        check(option, (status, out[:24], said), (0, b"usage: ./convert [FILE]\n", ""))
        check(option + ": the statuses are told", [word in out for word in [b"Status 0:", b" 1:", b" 2:"]], [True] * 3)
        check(option + " to a full device", shell("./convert %s >/dev/full" % option), (2, b"", full))
        check(option + " to a closed output", shell("./convert %s >&-" % option), (2, b"", "./convert: the standard output is closed\n"))
    for words in [["-x"], ["-"], ["--"], [good, good], ["-x", good]]:
        check("wrong use: " + " ".join(words), run(["./convert", *words], GOOD), (2, b"", WRONG_USE))
    check("a directory", run(["./convert", folder], b""), (2, b"", "./convert: %s is a directory, and a sheet is a file\n" % folder))
    check("a missing file", run(["./convert", folder + "/none"], b""), (2, b"", "./convert: %s/none: there is no such file\n" % folder))
    check("no name", run(["./convert", ""], b""), (2, b"", "./convert: '': there is no such file\n"))
    with socket.socket(socket.AF_UNIX) as made:
        made.bind(folder + "/socket")
        check("a file that cannot be opened", run(["./convert", folder + "/socket"], b""), (2, b"", "./convert: %s/socket cannot be read\n" % folder))
    check("a directory as the standard input", shell("./convert <" + folder),
          (2, b"", "./convert: standard input cannot be copied to a temporary file: Is a directory\n"))
    check("a closed standard input", shell("./convert <&-"), (2, b"", "./convert: standard input is closed\n"))
    check("no temporary folder", run(["./convert", good], env=dict(os.environ, TMPDIR=folder + "/none")),
          (2, b"", "./convert: no temporary folder can be made\n"))

    check("a full device", shell("./convert %s >/dev/full" % good), (2, b"", full))
    check("a full device, and a refusal", shell("./convert %s >/dev/full" % refused), (2, b"", full + "./convert: %s: %s" % (refused, sentence)))
    check("a closed output", shell("./convert %s >&-" % good), (2, b"", "./convert: the standard output is closed\n"))
    check("a closed output, and a refusal", shell("./convert %s >&-" % refused), (2, b"", "./convert: the standard output is closed\n"))
    check("a closed standard error", shell("./convert %s 2>&-" % refused), (1, turned, ""))
    check("a reader that is gone", without_reader(good), (141, ""))
    check("a reader that is gone, and a refusal", without_reader(refused), (1, "./convert: %s: %s" % (refused, sentence)))


def signals(folder):
    """The temporary folder is removed when a signal ends the wait for a sheet."""
    for name in ["INT", "TERM", "HUP"]:
        with subprocess.Popen(["./convert"], stdin=subprocess.PIPE, stdout=subprocess.PIPE, stderr=subprocess.PIPE, start_new_session=True) as ran:
            wait_for(lambda: any(os.path.exists(os.path.join(folder, room, "sheet")) for room in os.listdir(folder)))
            os.killpg(ran.pid, getattr(signal, "SIG" + name))
            check("signal " + name, ran.wait(10), -getattr(signal, "SIG" + name))
        check("signal %s: what is left" % name, os.listdir(folder), [])


def wait_for(condition):
    until = time.monotonic() + 10
    while not condition() and time.monotonic() < until:
        time.sleep(0.01)


# The first build, and programs that give no answer: in a folder like the repository's, with a stub for rt.

def crates_below(name):
    with open("crates.txt", encoding="ascii") as file:
        lines = dict(line.rstrip("\n").split(":") for line in file)
    below, todo = set(), [name]
    while todo:
        crate = todo.pop()
        if crate in lines and crate not in below:
            below.add(crate)
            todo += lines[crate].split()
    return len(below)


STUB = """#!/usr/bin/env bash
[[ $* == run && $PWD == */crates/convert && -e ../../crates.txt ]] || exit 9
[[ $(cat) == stored ]] || exit 8
echo 'only=0 proved=0' >&2
echo 'rt: chose --jobs 2 for names' >&2
echo 'logic=proved functions=14' >&2
sleep 0.4
echo 'rt: chose --jobs 2 for grammar' >&2
echo 'logic=proved functions=9' >&2
sleep 0.4
"""
BUILT = STUB + """echo 'rt: chose --jobs 2 for convert' >&2
echo 'logic=proved functions=30' >&2
mkdir -p out && cp '%s' out/convert
echo 'rt: running out/convert; to give it other input, run that file yourself' >&2
echo 'what the program writes'
""" % PROGRAM
BROKEN = STUB + """echo 'rt: chose --jobs 2 for rows' >&2
echo 'src/lib.rt:1:1: error' >&2
echo 'logic=not-proved' >&2
echo 'rt: the library rows did not build, so nothing above it was checked' >&2
exit 1
"""


def own_root(folder, stub):
    """A folder with ./convert and what it needs, and the path with that stub before all else."""
    for file in ["convert", "crates.txt", "tools/build.sh", "tools/sentence.awk"]:
        os.makedirs(os.path.dirname(os.path.join(folder, file)), exist_ok=True)
        shutil.copy(file, os.path.join(folder, file))
    write(folder + "/crates/convert/src/main.rt", b"")
    write(folder + "/crates/convert/stdin", b"stored\n")
    if stub is not None:
        write(folder + "/bin/rt", stub.encode(), 0o755)
    return dict(os.environ, PATH=folder + "/bin" + os.pathsep + os.environ["PATH"])


def builds(folder):
    printed = run([PROGRAM], GOOD)[1]
    count = crates_below("convert")
    start = "./convert: the program is not built yet: %d crates are proved first, which takes a while\n" % count
    told = ["./convert: 1 of %d: names proved\n" % count, "./convert: 2 of %d: grammar proved\n" % count]

    root = folder + "/built"
    paths = own_root(root, BUILT)
    with subprocess.Popen([root + "/convert"], stdin=subprocess.PIPE, stdout=subprocess.PIPE, stderr=subprocess.PIPE, env=paths) as ran:
        ran.stdin.write(GOOD)
        ran.stdin.close()
        lines, times = [], []
        for line in ran.stderr:
            lines.append(line.decode())
            times.append(time.monotonic())
        check("a first build", (ran.stdout.read(), ran.wait()), (printed, 0))
    check("a first build: what is told", lines, [start, *told, "./convert: 3 of %d: convert proved\n" % count])
    check("a first build: it is told as it goes", len(times) == 4 and [times[2] - times[1] > 0.1, times[3] - times[2] > 0.1], [True, True])
    check("the second run", run([root + "/convert"], GOOD, env=paths), (0, printed, ""))

    root = folder + "/broken"
    paths = own_root(root, BROKEN)
    log = "only=0 proved=0\nrt: chose --jobs 2 for names\nlogic=proved functions=14\nrt: chose --jobs 2 for grammar\nlogic=proved functions=9\n" \
        "rt: chose --jobs 2 for rows\nsrc/lib.rt:1:1: error\nlogic=not-proved\n" \
        "rt: the library rows did not build, so nothing above it was checked\n"
    check("a build that fails", run([root + "/convert"], GOOD, env=paths), (
        2, b"", start + "".join(told) + "./convert: 3 of %d: rows NOT PROVED\n" % count + log
        + "./convert: the program was not built: tools/build.sh ended with status 1\n"))

    root = folder + "/nothing"
    paths = own_root(root, "#!/usr/bin/env bash\n")
    check("a build that writes no program", run([root + "/convert"], GOOD, env=paths),
          (2, b"", start + "build.sh: rt run made no crates/convert/out/convert\n"
           "./convert: the program was not built: tools/build.sh ended with status 1\n"))

    root = folder + "/none"
    own_root(root, None)
    os.makedirs(root + "/bin")
    for tool in ["bash", "cat", "mktemp", "rm", "readlink", "dirname"]:
        os.symlink(shutil.which(tool), root + "/bin/" + tool)
    check("no rt on the path", run([root + "/convert"], GOOD, env=dict(os.environ, PATH=root + "/bin")),
          (2, b"", "./convert: the program is not built yet, and the Rattle toolchain (rt) is not on the path\n"))
    check("a missing file is told before the build", run([root + "/convert", root + "/sheet"], env=dict(os.environ, PATH=root + "/bin")),
          (2, b"", "./convert: %s/sheet: there is no such file\n" % root))

    for what, script, status in [("half an answer", "head -c 60 '%s/answer'" % root, 0), ("no answer", "true", 0), ("other words", "echo a; echo b", 0),
                                 ("an answer, but a status", "cat '%s/answer'; exit 7" % root, 7),
                                 ("an answer without its last line", "head -n -1 '%s/answer'" % root, 0)]:
        write(root + "/answer", printed)
        write(root + "/target/bin/convert", ("#!/usr/bin/env bash\n%s\n" % script).encode(), 0o755)
        check("a program that gives " + what, run([root + "/convert"], GOOD),
              (2, b"", "./convert: the program gave no whole answer (its status is %d)\n" % status))
    count_bytes = "#!/usr/bin/env bash\nprintf 'refusal place rows bindings\\n12 %d 0 0\\nkind attr name end\\nuse property owner\\n' $(wc -c)\n"
    write(root + "/target/bin/convert", count_bytes.encode(), 0o755)
    for size in [0, 1, 4194303, 4194304, 4194305, 6000000]:
        check("all of %d bytes reach the program" % size, run([root + "/convert"], b"a" * size)[1].split(b"\n")[1], b"12 %d 0 0" % size)
    write(root + "/target/bin/convert", b"#!/usr/bin/env bash\nprintf 'refusal place rows bindings\\n13 5 0 0\\nkind attr name end\\nuse property owner\\n'\n", 0o755)
    check("a number that has no words", run([root + "/convert"], GOOD)[::2], (1, "./convert: standard input: refusal 13: place 5\n"))
    os.remove(root + "/tools/sentence.awk")
    check("no words at all", run([root + "/convert"], GOOD)[::2], (1, "./convert: standard input: refusal 13, place 5\n"))


if __name__ == "__main__":
    os.chdir(ROOT)
    os.environ["LC_ALL"] = "C"
    with tempfile.TemporaryDirectory() as place:
        os.environ["TMPDIR"] = os.path.join(place, "tmp")
        os.mkdir(os.environ["TMPDIR"])
        sentences()
        kinds()
        no_fault()
        long_sheets()
        other_awks()
        stored_sheets()
        use(place + "/use")
        signals(os.environ["TMPDIR"])
        builds(place + "/builds")
        check("what is left of temporary files", os.listdir(os.environ["TMPDIR"]), [])
    print("%d checks of ./convert, %d fail" % (checks, len(failures)))
    sys.exit(1 if failures else 0)
