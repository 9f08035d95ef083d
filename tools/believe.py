#!/usr/bin/env python3
"""What a reader must believe for an entry's promise: the definitions that it cites and those that these cite, with how
many lines they take in each file, and the structs and enums of the code that they speak of.

  believe.py            print it: the part of docs/TRACE.md between the lines BEGIN and END
  believe.py ENTRY      print all that one entry cites
  believe.py --write    put it there
  believe.py --check    exit status 1 if something else stands there

A word stands for what its file or the `use` lines of its file say, unless it is bound where it stands: by a pattern, a
λ, a `let` or a binder (x : T), before → or ×. Where that leaves two meanings both are taken. A constructor brings its
type. A name of ours that is not found, a field that no cited type has, and a line that is not understood end the program
with exit status 1, so that nothing is left out in silence. The lines of a definition are its own: no comment, no blank,
no `use`.
"""
import os
import re
import sys

# The first is printed with all that it cites, each later one with what those before it do not cite.
ENTRIES = [
    ("crates/thawcopper_c/src/lib.rt", "thawcopper_convert"),
    ("crates/thawcopper_c/src/lib.rt", "thawcopper_convert_with"),
    ("crates/converter/src/lib.rt", "convert"),
    ("crates/thawcopper_c/src/lib.rt", "thawcopper_base_text"),
    ("crates/base_text/src/lib.rt", "base_text"),
    ("crates/thawcopper_c/src/lib.rt", "thawcopper_make_names"),
    ("crates/made_names/src/lib.rt", "make_names"),
    ("crates/thawcopper_c/src/lib.rt", "thawcopper_spelling"),
    ("crates/lookup/src/lib.rt", "spelling"),
    ("crates/rows/src/lib.rt", "check"),
    ("crates/convert/src/main.rt", "answer_text"),
]
PAGE = "docs/TRACE.md"
BEGIN, END = "<!-- made by tools/believe.py -->\n", "<!-- end -->\n"

ROOT = os.path.dirname(os.path.dirname(os.path.abspath(__file__)))
SIGNS = {":", "=", "→", "λ", "_", "let", "in", "record", "where", "Type"}
LANGUAGE = {"Unit", "tt", "⊥", "×", "IsProp"}       # names of the kit that need no `use`
LENT = {"now", "old", "new", "entry"}               # fields of the kit, of a parameter that is a reference
KIT_TYPES = {"Option", "Result"}                    # types of the kit that need no `use`
GHOST = re.compile(r"^    (?:pub )?ghost (\w+): \{(.*?)\}(?: by \{.*\})?,\n", re.M)
OPEN, CLOSE = {"(", "{", "⌜"}, {")", "}", "⌝"}
WORD = re.compile(r"\.?«[^»]*»|[(){}⌜⌝;]|[^\s(){}⌜⌝;«»]+")
NUMBER = re.compile(r"0x[0-9A-Fa-f]+|\d+")
HEAD = re.compile(r"(?:(?:abbrev|unfoldable|pub) )*(?:(data|record) )?(\S+)")
USE = re.compile(r"use ([^\s{}]+?)(?:\.\{([^{}]*)\})?(?: as (\S+))?")
SPECS, CODE = {}, {}                                # the files and the types that were read


def stop(where, what):
    sys.exit("believe.py: %s: %s" % (where, what))


def text_of(path):
    if not os.path.isfile(os.path.join(ROOT, path)):
        stop(path, "there is no such file")
    with open(os.path.join(ROOT, path), encoding="utf-8") as file:
        return file.read()


def words_of(text):
    text = re.sub('"[^"]*"', " ", text)             # a text cites nothing
    words = [word.replace("«", "").replace("»", "") for word in WORD.findall(text)]
    return [word for word in (word.rstrip(",") for word in words) if word]     # `(x, y)` is a pair


def indent(line):
    return len(line) - len(line.lstrip())


class Item:
    """A definition of a specs file, a struct or enum of the code, or an entry."""

    def __init__(self, path, name, kind=None):
        self.path, self.name, self.kind = path, name, kind
        self.lines, self.parts = {}, []             # its lines by number; the words of its head and of what follows it
        self.block = []                             # the words of the block's head that it stands in
        self.members = []                           # the names of its constructors, variants or fields
        self.cites, self.fields = [], set()         # meanings, and names of fields

    def before(self, words, sign):
        """The place of a sign among the words of a part."""
        if sign not in words:
            self.stop("not understood: " + " ".join(words))
        return words.index(sign)

    def stop(self, what):
        stop(self.path + ": " + self.name, what)


class Scope:
    """What the words of a file stand for. A meaning is an item, or a module of the kit, and the name in it."""

    def __init__(self, path):
        self.path, self.names, self.modules = path, {}, {}

    def add(self, word, meaning):
        for written in {word, word.strip("◌")}:     # `◌+◌` is written `+` between its arguments
            self.names.setdefault(written, []).append(meaning)

    def use(self, line):
        found = USE.fullmatch(line)
        if not found:
            stop(self.path, "not understood: " + line)
        module, listed, other = found.groups()
        if listed is None:
            self.modules[other or module.split(".")[-1]] = module
            return
        for one in listed.split(","):
            name, _, other = one.strip().partition(" as ")
            self.add(other or name.split(".")[-1], meaning_of(module, name, self.path))

    def find(self, word):
        first, _, rest = word.partition(".")
        if word in self.names:
            return self.names[word]
        if rest and first in self.modules:
            return [meaning_of(self.modules[first], rest, self.path)]
        if rest and first in self.names:
            return [(item, rest) for item, _ in self.names[first] if isinstance(item, Item) and rest in item.members]
        return [("", word)] if word in LANGUAGE else []


def meaning_of(module, name, user):
    crate = (module.split(".") + [""])[1]
    if not module.startswith("Rattle.") or not os.path.isdir(os.path.join(ROOT, "crates", crate)):
        return module, name
    ours = re.fullmatch(r"Rattle\.([^.]+)\.specs\.(.+)", module)
    if not ours:
        stop(user, module + " is no module of specs/")
    crate, path = ours.group(1), ours.group(2).split(".")
    if path[0] == "declared":                       # made of a struct or enum of the code
        variant = path[-1] == "TheVariants"
        item = code_type(crate, path[1:-1] if variant else path[1:], user)
        if name in item.members if variant else name == item.name:
            return item, name
    else:
        table = specs("crates/%s/specs/%s.antt" % (crate, "/".join(path)))
        first, _, rest = name.partition(".")
        if first in table and (not rest or rest in table[first].members):
            return table[first], rest or first
    stop(user, "no %s in %s" % (name, module))


def specs(path):
    """The definitions of a specs file, by name."""
    if path in SPECS:
        return SPECS[path]
    scope, table, uses, item, block = Scope(path), {}, [], None, []
    for number, line in enumerate(text_of(path).split("\n"), 1):
        text = line.strip()
        if not text or text.startswith("--"):
            continue
        if indent(line) == 0:
            block = []                              # of `module _ (x : T) where`: its line's number, and its words
        edge = 2 if block else 0
        if indent(line) == edge:
            kind, name = HEAD.match(text).groups()
            if text.startswith("use "):
                uses.append(text)
                continue
            if re.fullmatch(r"(pub )?mod \w+", text):
                continue
            if text.startswith("module _ "):
                item, block = None, [number, words_of(text)[2:]]
                continue
            if not text.startswith(name) or text.startswith(name + " : "):
                if name in table:
                    stop(path, name + " is defined twice")
                item = table[name] = Item(path, name, kind)
                item.block = block[1:]
                item.lines.update({block[0]: ""} if block else {})
            elif not item or item.kind or name not in (item.name, "unfolding", "}"):
                stop(path, "line %d is not understood" % number)
        if not item:
            stop(path, "line %d is not understood" % number)
        item.lines[number] = line
        if indent(line) == edge and text != "}" or item.kind and indent(line) == edge + 2:
            item.parts.append([])
        item.parts[-1] += words_of(line)
    SPECS[path] = table
    for item in table.values():
        scope.add(item.name, (item, item.name))
        for words in item.parts[1:] if item.kind else []:
            item.members += [word for word in words[:item.before(words, ":")] if word != "pub"]
        for name in item.members if item.kind == "data" else []:
            scope.add(name, (item, name))
    for line in uses:
        scope.use(line)
    for item in table.values():
        read(item, scope)
    return table


def read(item, scope):
    """Finds what a definition cites: in its signature and its clauses, or in its head and its members."""
    outer, head = set(), item.parts[0]
    for words in item.block:
        cite(item, scope, words, outer)
    cite(item, scope, head[head.index(item.name) + 1:], outer if item.kind else set(outer))
    for words in item.parts[1:]:
        if item.kind:
            cite(item, scope, words[item.before(words, ":"):], set(outer))
        elif words[0] == "unfolding":
            cite(item, scope, words[1:], set())
        else:
            at, bound = item.before(words, "="), set(outer)
            for word in words[1:at]:                # of a pattern: a constructor or a name of the kit, else it is bound
                meant = [(one, name) for one, name in scope.find(word) if isinstance(one, str) or name in one.members]
                item.cites += meant
                if not meant and word not in OPEN | CLOSE:
                    bound.add(word)
            cite(item, scope, words[at + 1:], bound)


def closing(words, at):
    depth = 0
    for k in range(at, len(words)):
        depth += (words[k] in OPEN) - (words[k] in CLOSE)
        if depth == 0:
            return k
    return len(words)


def cite(item, scope, words, bound):
    """Adds what some words cite. A name is bound up to the end of the brackets around it, and one that is bound outside
    of all brackets is added to `bound`."""
    levels = [(bound, set(), "")]                   # by bracket: what is bound now and at its start, the word before
    for at, word in enumerate(words):
        now, before, opener = levels[-1]
        after = words[at + 1:]
        if word in OPEN:
            count = next((k for k, one in enumerate(after) if one in OPEN | CLOSE | SIGNS), 0)
            if count and after[count] == ":":
                now.update(after[:count])
                if (words[closing(words, at) + 1:] + ["→"])[0] not in OPEN | {"→", "×", ":", "where"}:
                    item.stop("not understood: (%s : .." % " ".join(after[:count]))
            levels.append((set(now), set(now), words[at - 1] if at else ""))
        elif word in CLOSE:
            levels.pop()
        elif word == ";":
            levels[-1] = set(before), before, opener
        elif word == "λ":
            names = after[:next((k + 1 for k, one in enumerate(after) if one.endswith(".")), 0)]
            if not names or set(names) & (OPEN | CLOSE | SIGNS):
                item.stop("not understood: λ " + " ".join(after[:4]))
            now.update(name.rstrip(".") for name in names)
        elif word == "let":
            now.add(after[0])
        elif opener == "record" and after[:1] == ["="] and words[at - 1] in ("{", ";"):
            item.fields.add(word)
        elif word.startswith("."):
            item.fields.update(word[1:].split("."))
        elif word.partition(".")[0] in now and word.rstrip(".").count("."):
            item.fields.update(word.split(".")[1:])     # `x.f` of a name that is bound
        elif word.rstrip(".") not in now | SIGNS and not NUMBER.fullmatch(word):
            meant = scope.find(word)
            if not meant and "." in word.rstrip("."):   # `x.f` of a definition
                meant = scope.find(word.partition(".")[0])
                item.fields.update(word.split(".")[1:] if meant else [])
            if not meant and word not in item.members:
                item.stop("cannot tell what %s is" % word)
            item.cites += meant


def code_type(crate, path, user):
    """The struct or enum of the code at a path in its crate."""
    name = path[-1]
    for stem in ["/".join(path[:-1])] if path[:-1] else ["lib", "main"]:
        file = "crates/%s/src/%s.rt" % (crate, stem)
        if (file, name) in CODE:
            return CODE[file, name]
        text = text_of(file) if os.path.isfile(os.path.join(ROOT, file)) else ""
        found = re.search(r"^(?:pub )?(?:struct|enum) %s\b(?:;|[^{;]*\{\n(.*?)^\})$" % name, text, re.M | re.S)
        if found:
            item = CODE[file, name] = Item(file, name, "code")
            first = text.count("\n", 0, found.start()) + 1
            for number, line in enumerate(found.group().split("\n"), first):
                if line.strip() and not line.strip().startswith("//"):
                    item.lines[number] = line
            inner = re.sub(r"^ *//.*\n", "", found.group(1) or "", flags=re.M)
            ghosts, inner = GHOST.findall(inner), GHOST.sub("", inner)
            item.members = re.findall(r"^    (?:pub )?(\w+)", inner, re.M)
            item.cites = code_types(re.sub(r"^    (?:pub )?\w+", "", inner, flags=re.M), file)
            scope = ghost_scope(file, text) if ghosts else None
            for _, fact in ghosts:                  # what each value of the type is known to meet
                cite(item, scope, words_of(fact), set(item.members))
            item.members += [ghost for ghost, _ in ghosts]
            return item
    stop(user, "no struct or enum %s in crates/%s/src" % ("::".join(path), crate))


def ghost_scope(path, text):
    """What the words of the contracts of a file of code stand for."""
    scope = Scope(path)
    for line in re.findall(r"^ghost (use [^;]*);", text, re.M):
        if not re.match(r"use Rattle\.\w+\.proofs\b", line):
            scope.use(line)
    return scope


def used_paths(text):
    """The paths of `a::{b, c::{d, e}}`, without blanks."""
    head, brace, rest = text.partition("{")
    if not brace:
        return [text] if text else []
    depth, parts = 0, [""]
    for sign in rest[:rest.rindex("}")]:
        depth += (sign == "{") - (sign == "}")
        if sign == "," and depth == 0:
            parts.append("")
        else:
            parts[-1] += sign
    return [head + path for part in parts for path in used_paths(part)]


def code_types(text, file):
    """The structs and enums that a signature, or the inside of one of them, names."""
    crate, stem = file.split("/", 3)[1::2]
    uses = {}
    for used in re.findall(r"^(?:pub )?use ([^;]+);", text_of(file), re.M):
        for one in used_paths("".join(re.sub(r" as ", "@", used).split())):
            path, _, other = one.partition("@")
            uses[other or path.split("::")[-1]] = path.split("::")
    found = []
    for name in re.findall(r"(?<![\w:])(?:\w+::)*[A-Z]\w*", text):
        if name in KIT_TYPES - set(uses) or name == name.upper():     # in capitals: a constant, or a parameter
            continue
        path = name.split("::")
        path = uses.get(path[0], path[:1]) + path[1:]
        if len(path) == 1:
            item = code_type(crate, ([] if stem in ("lib.rt", "main.rt") else stem[:-3].split("/")) + path, file)
        elif os.path.isdir(os.path.join(ROOT, "crates", path[0])):
            item = code_type(path[0], path[1:], file)
        else:
            item = code_type(crate, path[1:] if path[0] == "crate" else path, file)
        found.append((item, item.name))
    return found


def entry(path, name):
    """An entry as an item: its clauses, and what they and its signature cite."""
    text = re.sub(r"^ *//.*\n", "", text_of(path), flags=re.M)
    item, scope = Item(path, name), ghost_scope(path, text)
    head = r"^(?:pub )?(?:extern \"C\" )?fn %s(?:<[^<>]*>)?\(([^()]*)\)(?: -> (.*))?\n((?:.+\n)*?)\{\n" % name
    found = re.findall(head, text, re.M)
    if len(found) != 1 or not found[0][2]:
        item.stop("%d functions with a promise are so called" % len(found))
    params, answer, promise = found[0]
    item.cites += code_types(params + " " + answer, path)
    bound = set(re.findall(r"(\w+)\s*:(?!:)", params))
    words = words_of(promise)
    while words:                                    # `ensures { .. }`, or with a name `ensures NAME { .. }`
        start = 1 if words[1:2] == ["{"] else 2
        end = closing(words, start)
        if words[0] not in ("requires", "ensures") or words[start:start + 1] != ["{"]:
            item.stop("not understood: " + " ".join(words[:4]))
        cite(item, scope, words[start + 1:end], bound | ({"result"} if words[0] == "ensures" else set()))
        words = words[end + 1:]
    item.lines = dict(enumerate(promise.split("\n")[:-1]))
    return item


def cited_by(start):
    """All that an entry cites, directly or not: items, and names of the kit by their module."""
    items, kit, left = {start}, {}, [start]
    while left:
        for one, name in left.pop().cites:
            if not isinstance(one, Item):
                kit.setdefault(one, set()).add(name)
            elif one not in items:
                items.add(one)
                left.append(one)
    known = LENT.union(*(item.members for item in items))
    for item in items:
        if item.fields - known:
            item.stop("no type that is cited has " + ", ".join(sorted(item.fields - known)))
        kit.setdefault("", set()).update("." + field for field in item.fields & LENT)
    return items - {start}, kit


def crate_names():
    return re.findall(r"^(\w+)[^:\n]*:", text_of("crates.txt"), re.M)


def by_file(items):
    """The files of some items, each crate's in the order of its Lib.antt, with the lines and the names in each."""
    crates = crate_names()

    def place(path):
        _, crate, folder, name = path.split("/", 3)
        if crate not in crates:
            stop(path, "crates.txt does not list its crate")
        listed = text_of("crates/%s/specs/Lib.antt" % crate).split() if folder == "specs" else []
        return crates.index(crate), folder, listed.index(name[:-5]) if name[:-5] in listed else len(listed), name

    found = []
    for path in sorted({item.path for item in items}, key=place):
        here = sorted((item for item in items if item.path == path), key=lambda item: max(item.lines))
        found.append((path, len(set().union(*(item.lines for item in here))), [item.name for item in here]))
    return found


def some(count, what):
    return "{:,} {}{}".format(count, what, "" if count == 1 else "s")


def lines_in(items):
    return some(sum(count for _, count, _ in by_file(items)), "line")


def quoted(path, names):
    return ("types " if path.endswith(".rt") else "") + "`%s`" % ", ".join(names)


def made(entries):
    """The part of the page, for some entries."""
    whole = []
    for crate in crate_names():
        for folder, _, names in os.walk(os.path.join(ROOT, "crates", crate, "specs")):
            for name in filter(lambda name: name.endswith(".antt"), names):
                whole += specs(os.path.relpath(os.path.join(folder, name), ROOT).replace(os.sep, "/")).values()
    out, before, kit = [], set(), {}
    for path, name in entries:
        start = entry(path, name)
        items, used = cited_by(start)
        ours = {item for item in items if item.kind != "code"}
        crates = dict.fromkeys(file.split("/")[1] for file, _, _ in by_file(ours))     # in their order, each once
        out.append("`%s` (%s of `%s`): %s of definitions in %s%s, and %s of types of the code. Crates: %s." % (
            name, lines_in([start]), path, lines_in(ours), some(len(by_file(ours)), "file"),
            "" if before else ", of %s in all specs/" % lines_in(whole), lines_in(items - ours), ", ".join(crates)))
        rows = by_file(items - before)
        if before and len(rows) < 2:
            more = ["%s of `%s`, %s" % (some(count, "line"), file, quoted(file, names)) for file, count, names in rows]
            out[-1] += " Not above: %s." % (more + ["nothing"])[0]
        else:
            out[-1] += " Not above:" if before else ""
            out += ["", "| file | lines | definitions |", "|---|---|---|"]
            out += ["| `%s` | %d | %s |" % (file, count, quoted(file, names)) for file, count, names in rows]
        out.append("")
        before |= items
        for module, names in used.items():
            kit.setdefault(module, set()).update(names)
    language = ", ".join(sorted(kit.pop("", set())))
    modules = ["%s `%s`" % (module, ", ".join(sorted(kit[module]))) for module in sorted(kit)]
    out.append("Of the kit's library: %s; without a `use`: `%s`." % ("; ".join(modules), language))
    return "\n".join(out) + "\n"


def main(mode):
    one = [pair for pair in ENTRIES if pair[1] == mode]
    part = made(one or ENTRIES)
    if one or not mode:
        print(part, end="")
        return
    if mode not in ("--check", "--write"):
        sys.exit(__doc__)
    text = text_of(PAGE)
    if text.count(BEGIN) != 1 or text.count(END, text.find(BEGIN)) != 1:
        stop(PAGE, "it wants one line %s, and one line %s behind it" % (BEGIN.strip(), END.strip()))
    page = text[:text.index(BEGIN)] + BEGIN + part + text[text.index(END, text.index(BEGIN)):]
    if mode == "--write":
        with open(os.path.join(ROOT, PAGE), "w", encoding="utf-8") as file:
            file.write(page)
    elif page != text:
        stop(PAGE, "the part made by tools/believe.py is not what it prints now; --write puts that there")


if __name__ == "__main__":
    main(" ".join(sys.argv[1:]))
