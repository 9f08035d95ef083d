#!/usr/bin/env python3
"""Holds the mappings of crates/letters/specs/Letters.antt to Unicode's own files: exit status 1 if one of them is not the
full uppercase, without conditional rules or language tags, that UnicodeData.txt and SpecialCasing.txt give.

  python3 tools/uppers.py DIRECTORY

The directory has the two files of a version, as https://www.unicode.org/Public/17.0.0/ucd/ has those of 17.0.0. They are
not kept here, so the gate does not run this; it compares the same mappings with the Rust library's (tests/letters.rs).
"""
import os
import re
import sys

ROOT = os.path.dirname(os.path.dirname(os.path.abspath(__file__)))
CODES = list(range(0x80, 0x100)) + list(range(0x400, 0x460))


def codes(text):
    return [int(word, 16) for word in text.split()]


def told(characters):
    return " ".join("U+%04X" % code for code in characters) or "nothing"


def text_of(*path):
    try:
        with open(os.path.join(*path), encoding="utf-8") as file:
            return file.read()
    except OSError as error:
        sys.exit("%s: %s" % (error.filename, error.strerror))


def listed():
    """The lines `up 0x00DF (0x0053 ∷ 0x0053 ∷ []) ∷` of the definition, and no others."""
    text = text_of(ROOT, "crates", "letters", "specs", "Letters.antt")
    found = []
    for line in re.search(r"^uppers =\n(.*?)^    \[\]$", text, re.S | re.M).group(1).splitlines():
        entry = re.fullmatch(r"    up (0x[0-9A-F]{4}) \(((?:0x[0-9A-F]{4} ∷ )*)\[\]\) ∷", line)
        if not entry:
            sys.exit("Letters.antt has an entry of another form: " + line.strip())
        found.append((int(entry[1], 16), codes(entry[2].replace("∷", ""))))
    if [code for code, _ in found] != CODES:
        sys.exit("Letters.antt does not list U+0080 to U+00FF and U+0400 to U+045F, each once and in order")
    return found


def simple(directory):
    """The simple uppercase of each character of UnicodeData.txt, itself where the file has none."""
    rows = [line.split(";") for line in text_of(directory, "UnicodeData.txt").splitlines()]
    if any(len(row) != 15 for row in rows) or not set(CODES) <= {int(row[0], 16) for row in rows}:
        sys.exit("UnicodeData.txt is not Unicode's, or a part of it")
    return {int(row[0], 16): codes(row[12] or row[0]) for row in rows}


def special(directory):
    """The version of SpecialCasing.txt, and its uppercases that have no fifth field, of conditions and language tags."""
    text = text_of(directory, "SpecialCasing.txt")
    version = re.match(r"# SpecialCasing-(\S+)\.txt\n", text)
    rows = [line.split("#")[0].split(";") for line in text.splitlines() if line.split("#")[0].strip()]
    if not version or any(len(row) not in (5, 6) for row in rows):
        sys.exit("SpecialCasing.txt is not Unicode's")
    return version[1], {int(row[0], 16): codes(row[3]) for row in rows if len(row) == 5}


def main():
    if len(sys.argv) != 2:
        sys.exit(__doc__.strip())
    found = listed()
    upper = simple(sys.argv[1])
    version, full = special(sys.argv[1])
    upper.update(full)
    wrong = [(code, capitals) for code, capitals in found if capitals != upper[code]]
    for code, capitals in wrong:
        print("%s is listed with %s, Unicode has %s" % (told([code]), told(capitals), told(upper[code])))
    if wrong:
        sys.exit(1)
    print("%d mappings as in UnicodeData.txt and, for %d of them, SpecialCasing.txt (%s)"
          % (len(found), sum(code in full for code in CODES), version))


main()
