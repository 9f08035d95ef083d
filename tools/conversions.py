#!/usr/bin/env python3
"""Stored conversions: tables, what is lent, and what the request says of the answer and of every byte lent.

  conversions.py FILE            write the conversions to FILE (crates/replay_convert/stdin)
  conversions.py --check FILE    exit status 1 if FILE is not what would be written
  conversions.py --count         how many there are, by mode, caller, options, refusal and part

The tables are written by hand, or made by the generator below from fixed seeds. The answers are those of the model,
convert_model.py; where a refusal is meant, its number and place stand by hand beside the table and must be the model's.
"""
import sys
from collections import Counter

import convert_model
from tables import (ATTR, END, FIVE, KIND, KINDS, NAME, PLACE, RETURN_FAULTS, Row, changed, lay, nested, on_one_line, runs_of,
                    set_row, siblings, write_or_check)

HEAD = """\
# Conversions, with the answers that the request gives. Made by conversions.py.
#
# Numbers are decimal, apart by blanks and line ends; '#' starts a comment that ends with its line.
# A conversion is, in this order:
#   its own number, from 1; the options: 1 arrow, 2 async, 4 asyncgen, 8 tablet
#   how many bytes are lent for rows, at most 270336, and for bindings, at most 65536
#   the number of runs of rows; for each run: kind attr name end, times, step
#   how many zero bytes stand behind the rows
#   the number of runs of name pairs; for each run: start length, times, step
#   how many zero bytes stand behind the pairs
#   the number of runs of text bytes; for each run: byte, times, step
#   the answer: number place rows bindings
#   the rows of the result: the number of runs, and each as above
#   the bindings: the number of runs; for each run: use property frame, times, step
# A run has `times` items. The row's end, the record's frame, the pair's start or the byte grows by `step` from each item
# to the next. All bytes lent hold 165 before the call; those behind the counted rows and bindings must hold it afterwards.
# A bit of the options that has no name is not looked at.
"""

ASYNC, GENERATOR, CONSTRUCTOR, DECLARATION = 1, 2, 4, 8

OFF = (0, 0, 0)
ARROWS = (1, 0, 0)
ONLY_ASYNC, ONLY_GENERATORS, BOTH = (0, 1, 0), (0, 0, 1), (0, 1, 1)
ALL = (1, 1, 1)
EIGHT = [(a, b, c) for a in (0, 1) for b in (0, 1) for c in (0, 1)]

BIG = 4294967295

# What the program that reads the file has room for.
MOST_BYTES, MOST_NUMBERS = 1048575, 327680


# Trees. A name is a word; `foo'` is another name with the same bytes as `foo`. A number stands as it is.

def row(kind, *kids, attr=0, name=0):
    return Row(kind, kids, attr, name)


def program(*statements):
    return row(0, *statements)


def expr(expression):
    return row(1, expression)


def var(*declarators, attr=0):
    return row(2, *declarators, attr=attr)


def decl(name, *value, attr=0):
    return row(3, *value, name=name, attr=attr)


def ret(*value):
    return row(4, *value)


def block(*statements, attr=0):
    return row(5, *statements, attr=attr)


def other(*kids, attr=0, name=0):
    return row(6, *kids, attr=attr, name=name)


def opaque(*kids, attr=0, name=0):
    return row(8, *kids, attr=attr, name=name)


def this():
    return row(9)


def sup():
    return row(10)


def ident(name, attr=0):
    return row(11, name=name, attr=attr)


def arguments():
    return ident("arguments")


def member(object, name, attr=0):
    return row(12, object, name=name, attr=attr)


def dot(name):
    """super.name"""
    return member(sup(), name)


def computed(object, key):
    return row(13, object, key)


def at(key):
    """super[key]"""
    return computed(sup(), key)


def call(callee, *given):
    return row(14, callee, *given)


def super_call(*given):
    return call(sup(), *given)


def target(expression):
    return row(28, expression)


def assign(left, right, attr=0):
    return row(15, target(left), right, attr=attr)


def params(*declarators):
    return row(18, *declarators)


def body(*statements):
    return row(19, *statements)


def lam(expression, *given, attr=0):
    """An arrow with an expression."""
    return row(16, params(*given), expression, attr=attr | 2)


def arrow(*statements, given=(), attr=0):
    """An arrow with a body."""
    return row(16, params(*given), body(*statements), attr=attr)


def func(*statements, given=(), attr=0, name=0):
    return row(17, params(*given), body(*statements), attr=attr, name=name)


def declared(name, *statements, given=(), attr=0):
    return func(*statements, given=given, attr=attr | DECLARATION, name=name)


def method(*statements, given=(), attr=0, key=None, static=0):
    function = func(*statements, given=given, attr=attr)
    return row(21, *([key] if key else []), function, attr=(1 if key else 0) | 2 * static)


def constructor(*statements, given=(), key=None):
    return method(*statements, given=given, attr=CONSTRUCTOR, key=key)


def field(value=None, key=None, static=0):
    kids = [kid for kid in (key, value) if kid]
    return row(22, *kids, attr=(1 if key else 0) | 2 * static | (4 if value else 0))


def static_block(*statements):
    return row(23, *statements)


def klass(*members, heritage=None, attr=0, name=0):
    kids = ([heritage] if heritage else []) + list(members)
    return row(20, *kids, attr=attr | (1 if heritage else 0), name=name)


def obj(*properties):
    return row(24, *properties)


def prop(value, key=None):
    return row(25, *([key] if key else []), value, attr=1 if key else 0)


def obj_method(*statements, given=(), attr=0, key=None):
    function = func(*statements, given=given, attr=attr)
    return row(25, *([key] if key else []), function, attr=2 | (1 if key else 0))


def seq(*expressions):
    return row(26, *expressions)


def one(expression):
    return program(expr(expression))


def in_class(*members, heritage=None):
    """Row 0 Program, row 1 ExprStmt, row 2 Class, row 3 its first child."""
    return one(klass(*members, heritage=heritage))


def in_method(*statements, attr=0, given=()):
    """A class with one method, whose Function is row 4 and whose Body is row 6 if there are no parameters."""
    return in_class(method(*statements, attr=attr, given=given))


def in_constructor(*statements, given=()):
    """The same with a constructor, and something extended."""
    return in_class(constructor(*statements, given=given), heritage=ident("a"))


def in_object(*statements, attr=0):
    return one(obj(obj_method(*statements, attr=attr)))


def reads_this():
    """() => this"""
    return lam(this())


# Names.

def named(rows):
    """The rows with numbers for names, the pairs and the text: a name for each word, in the order of the rows."""
    numbers, pairs, text = {}, [], b""

    def number(word):
        nonlocal text
        if word not in numbers:
            spelled = word.rstrip("'").encode()
            pairs.append((len(text), len(spelled)))
            text += spelled
            numbers[word] = len(pairs)
        return numbers[word]

    done = [[kind, attr, number(name) if isinstance(name, str) else name, end] for kind, attr, name, end in rows]
    return done, pairs, text


# The list of conversions.

LINES = []
COUNT = 0
TALLY = Counter()
PART = ""


def part(title):
    global PART
    PART = title
    LINES.extend(["", "# == " + title + " =="])


def run_lines(rows, comments):
    """The runs of some rows, one a line."""
    runs = runs_of(rows, 3)
    lines, start = [str(len(runs))], 0
    for (kind, attr, name, end), times, step in runs:
        where = str(start) if times == 1 else "%d to %d" % (start, start + times - 1)
        comment = " # %s %s" % (where, KINDS.get(kind, "none")) if comments else ""
        lines.append("%d %d %d %d %d %d%s" % (kind, attr, name, end, times, step, comment))
        start += times
    return lines


def options_of(arrow, asyn, asyncgen, tablet):
    return 1 * arrow + 2 * asyn + 4 * asyncgen + 8 * tablet


def convert(what, switches, table, want=None, names=None, text=None, room=None, spare=(37, 19), after_rows=0, after_names=0,
            comments=True, tablet=False, unnamed=0):
    """One conversion. `want` is (number, place) where it is given. Room is in bytes; without it, what the print room's result
    needs and the spare bytes, which hold two whole rows and a whole record more. `unnamed` are bits of the options that have
    no name."""
    global COUNT
    COUNT += 1
    rows = lay(table) if isinstance(table, Row) else table
    rows, pairs, spelled = named(rows)
    pairs = pairs if names is None else names
    spelled = spelled if text is None else text
    lent = convert_model.bytes_of([w for r in rows for w in r]) + bytes(after_rows)
    lent_names = convert_model.bytes_of([w for p in pairs for w in p]) + bytes(after_names)
    if room is None:
        free = convert_model.convert_bytes(*switches, lent, lent_names, spelled, 1 << 30, 1 << 30)
        room = (16 * free[2] + spare[0], 12 * free[3] + spare[1])
    assert room[0] <= 270336 and room[1] <= 65536, what
    options = options_of(*switches, tablet) | unnamed
    answer = convert_model.convert_with(options, lent, lent_names, spelled, *room)
    number, place, count, bound, made, records = answer
    assert want is None or want == (number, place), (what, want, (number, place))
    if tablet and number not in (1, 3):     # what these let through has the print room's answer, whatever it is
        assert answer == convert_model.convert_bytes(*switches, lent, lent_names, spelled, *room), what
    LINES.extend(["", "# " + what, "%d %d" % (COUNT, options), "%d %d" % room])
    LINES.extend(run_lines(rows, comments))
    LINES.append(str(after_rows))
    LINES.append(on_one_line(runs_of(pairs, 0)))
    LINES.append(str(after_names))
    LINES.append(on_one_line(runs_of([(b,) for b in spelled], 0)))
    LINES.append("%d %d %d %d" % (number, place, count, bound))
    LINES.extend(run_lines(made, comments))
    LINES.append(on_one_line(runs_of([tuple(r) for r in records], 2)))
    TALLY["mode " + convert_model.mode_of(*switches)] += 1
    TALLY["caller " + ("tablet" if tablet else "print room")] += 1
    TALLY["options %d" % options] += 1
    TALLY["number %d" % number] += 1
    TALLY["part " + PART] += 1
    for use, _, _ in records:
        TALLY["bindings of use %d" % use] += 1
    return number, place, count, bound


def good(what, switches, table, **more):
    """A table that is accepted, once for each of the switch settings."""
    for one_of in switches if isinstance(switches, list) else [switches]:
        convert(what, one_of, table, want=(0, 0), **more)


def plots(**more):
    table = one(reads_this())
    good("1 the sheet: () => this", ARROWS, table, room=(2048 * 16, 256 * 12), **more)
    good("2 with 10 rows lent", ARROWS, table, room=(160, 12), **more)
    convert("2 with 9 rows lent", ARROWS, table, want=(9, 0), room=(144, 12), **more)
    good("3 all off", OFF, table, **more)
    good("4 async on only", ONLY_ASYNC, table, **more)
    moved = one(lam(this(), attr=ASYNC))
    good("5 async () => this, async on only", ONLY_ASYNC, moved, **more)
    good("6 async generators on only", ONLY_GENERATORS, moved, **more)
    good("7 super.foo twice in a moved method", ONLY_ASYNC, in_method(expr(dot("foo")), expr(dot("foo")), attr=ASYNC), **more)
    good("8 super.f(1) in a moved method", ONLY_ASYNC, in_method(expr(call(dot("f"), opaque())), attr=ASYNC), **more)
    good("9 super(); () => this in a constructor", ARROWS, in_class(constructor(expr(super_call()), expr(reads_this()))),
         **more)
    good("10 async () => arguments", ONLY_ASYNC, one(lam(arguments(), attr=ASYNC)), **more)


def sheet():
    part("The sheet and the plots")
    plots()


def four_sorts(**more):
    table = program(
        expr(reads_this()), expr(lam(this(), attr=ASYNC)),
        expr(klass(method(expr(this()), expr(dot("p")), attr=ASYNC),
                   method(expr(this()), expr(dot("p")), attr=ASYNC | GENERATOR))))
    good("a plain arrow, an async arrow, an async method and an async generator method", EIGHT, table, **more)


def modes():
    part("Module 1: the eight settings")
    four_sorts()
    good("an empty Program", EIGHT, program())
    table = program(expr(call(ident("a"), arguments(), opaque(attr=7, name=9))), other(this(), attr=BIG, name=BIG),
                    var(decl("b", this()), attr=2), block(ret(), attr=1))
    good("nothing to do: rows with attrs and names that are kept", EIGHT, table)


def this_rule():
    part("Module 3: this")
    some = [ARROWS, BOTH]
    good("this at Program", some, program(expr(this()), ret(this()), block(expr(this()))))
    good("() => () => this: one capture", some, one(lam(reads_this())))
    good("async () => () => this", some, one(lam(reads_this(), attr=ASYNC)))
    good("() => async () => this", some, one(lam(lam(this(), attr=ASYNC))))
    good("async () => async () => [this, this]", some, one(lam(lam(opaque(this(), this()), attr=ASYNC), attr=ASYNC)))
    good("(a = this) => a, and async (a = this) => a", some,
         program(expr(lam(ident("a"), decl("a", this()))), expr(lam(ident("a"), decl("a", this()), attr=ASYNC))))
    good("() => { this; return this }", some, one(arrow(expr(this()), ret(this()))))
    good("function () { this; () => this }", some, one(func(expr(this()), expr(reads_this()))))
    good("a moved function that is no method: this stays", [ALL, BOTH], one(func(expr(this()), attr=ASYNC)))
    good("function (a = this, b = () => this) {}: the frame is the function", some,
         one(func(given=[decl("a", this()), decl("b", reads_this())])))
    good("two functions, each with its own capture", some,
         program(declared("a", expr(reads_this())), declared("b", expr(reads_this())), expr(reads_this())))
    good("a method", some, in_method(expr(this()), ret(reads_this())))
    for attr, what in ((ASYNC, "async"), (ASYNC | GENERATOR, "async generator"), (GENERATOR, "generator")):
        good("an %s method: this, and an arrow that reads it" % what, [ALL, ONLY_ASYNC, ONLY_GENERATORS],
             in_method(expr(this()), ret(reads_this()), attr=attr))
        good("an %s object method" % what, [ALL, ONLY_ASYNC, ONLY_GENERATORS], in_object(expr(this()), attr=attr))
    good("a moved method's parameters: this stays", [ALL, BOTH],
         in_method(ret(this()), attr=ASYNC, given=[decl("a", this())]))
    good("a property whose value is an async function is no method", [ALL, BOTH],
         one(obj(prop(func(expr(this()), attr=ASYNC)), prop(func(expr(this()), attr=ASYNC), key=this()))))
    good("a moved function as a key is not method-like", [ALL, BOTH],
         program(expr(klass(method(key=func(expr(this()), expr(arguments()), attr=ASYNC)))),
                 expr(obj(obj_method(key=func(expr(this()), expr(arguments()), attr=ASYNC))))))
    good("an async method with a computed key that reads this", [ALL, BOTH],
         in_class(method(ret(this()), attr=ASYNC, key=this())))
    good("a key and a heritage inside an arrow: captured outside", some,
         one(lam(klass(method(key=this()), field(key=this()), heritage=this()), attr=ASYNC)))
    good("a Field's value: this stays", [ALL, BOTH], in_class(field(this()), field(opaque(this()), static=1)))
    good("a Field's value holds an arrow: the outer this is captured", [ARROWS, ALL],
         one(func(expr(klass(field(reads_this()), field(lam(this(), attr=ASYNC)))))))
    good("a Field's value at Program", ARROWS, in_class(field(reads_this(), static=1)))
    good("a StaticBlock: this stays, an arrow's is captured there", [ARROWS, BOTH],
         in_class(static_block(expr(this()), expr(lam(this(), attr=ASYNC)), expr(reads_this()))))
    good("a class inside a moved method: keys go on outward, a StaticBlock stops", [ALL, BOTH],
         in_method(expr(klass(field(this(), key=this()), static_block(expr(this())), heritage=this())), attr=ASYNC))
    good("a function inside a moved method: this stays", [ALL, BOTH],
         in_method(expr(func(expr(this()), expr(reads_this()))), expr(this()), attr=ASYNC))
    good("a captured this in every place of an expression", ARROWS,
         one(lam(opaque(member(this(), "a"), computed(this(), this()), call(this(), this()),
                        assign(member(this(), "a"), this(), attr=3), seq(this(), this()),
                        obj(prop(this(), key=this()), this()), opaque(target(computed(this(), this())))))))


def super_rule():
    part("Module 4: super")
    both = [ONLY_ASYNC, ALL]

    def moved(what, *statements, given=(), switches=both):
        good(what, switches, in_method(*statements, attr=ASYNC, given=given))
    moved("super.p", expr(dot("p")))
    moved("super[k]", expr(at(ident("k"))))
    moved("super.p = v", expr(assign(dot("p"), ident("v"))))
    moved("super[k] = v", expr(assign(at(ident("k")), ident("v"))))
    moved("super.p += v, super.p &&= v: the operator ignored", expr(assign(dot("p"), ident("v"), attr=1)),
          expr(assign(dot("p"), ident("v"), attr=15)))
    moved("super.m()", expr(call(dot("m"))))
    moved("super.m(this, a)", expr(call(dot("m"), this(), ident("a"))))
    moved("super[this](this)", expr(call(at(this()), this())))
    moved("super[super.a](super.b, super[super.c])", expr(call(at(dot("a")), dot("b"), at(dot("c")))))
    moved("super.a.b, super.a.b(), super.a()()", expr(member(dot("a"), "b")), expr(call(member(dot("a"), "b"))),
          expr(call(call(dot("a")))))
    moved("super.a = super.b = super.a", expr(assign(dot("a"), assign(dot("b"), dot("a")))))
    moved("super[super.x = 1] = super[2] = 3", expr(assign(at(assign(dot("x"), opaque())), assign(at(opaque()), opaque()))))
    moved("get and set of one property are two accessors", expr(assign(dot("p"), dot("p"))), expr(dot("p")))
    moved("computed ones share, get and set apart", expr(at(ident("a"))), expr(at(ident("b"))),
          expr(assign(at(ident("a")), ident("b"))), expr(assign(at(ident("b")), ident("a"))), expr(call(at(ident("c")))))
    moved("one property by two name numbers with equal bytes", expr(dot("foo")), expr(dot("foo'")),
          expr(assign(dot("foo'"), this())), expr(assign(dot("foo"), this())))
    moved("the second number first", expr(ident("bar")), expr(dot("foo''")), expr(call(dot("foo"))), expr(dot("foo'")))
    moved("names of which one begins the other", expr(dot("foo")), expr(dot("fo")), expr(dot("fooo")), expr(dot("f")))
    moved("a property of two bytes a character", expr(dot("é")), expr(dot("é'")))
    moved("a Target that is no assignment's: super stays there, what is below is treated",
          other(target(dot("p")), target(at(dot("q")))), expr(opaque(target(dot("p")))))
    moved("assignments to a member of super.p", expr(assign(member(dot("p"), "q"), dot("r"))))
    moved("in the parameters", ret(dot("a")), given=[decl("a", dot("a")), decl("b", call(dot("b")))])
    moved("in an arrow, and in arrows in arrows", expr(lam(dot("a"))), expr(lam(lam(call(dot("b"), this())))),
          expr(lam(assign(dot("c"), this()), attr=ASYNC)))
    moved("keys and heritage of an inner class", expr(klass(method(key=dot("a")), field(key=at(dot("b"))), heritage=dot("c"))))
    moved("an inner method has a frame of its own",
          expr(klass(method(expr(dot("p")), attr=ASYNC), method(expr(dot("p"))))), expr(dot("p")))
    moved("an inner object method", expr(obj(obj_method(expr(dot("p")), expr(call(dot("q"))), attr=ASYNC),
                                             obj_method(expr(dot("p"))))), expr(dot("p")))
    moved("a StaticBlock inside: it is the frame, and the method decides",
          expr(klass(static_block(expr(dot("p")), expr(call(dot("m"))), expr(assign(at(this()), this()))))), expr(dot("p")))
    moved("a StaticBlock in a plain function inside: the function is passed by",
          expr(func(expr(klass(static_block(expr(dot("p"))))))),
          expr(func(expr(klass(static_block(expr(at(this()))))), attr=ASYNC)))
    moved("k before the value", expr(assign(at(dot("a")), dot("b"))), expr(assign(at(this()), at(call(dot("c"))))))
    moved("this before the arguments", expr(call(dot("m"), dot("a"), this())), expr(call(at(dot("b")), dot("c"))))
    moved("this first, then super.m()", expr(this()), expr(call(dot("m"))), expr(this()))
    moved("in statements: var, return, block, other", var(decl("a", dot("a"))), block(ret(dot("b"))), other(dot("c")))
    good("a StaticBlock in a moved function in a plain method: the method decides", both,
         in_method(expr(func(expr(klass(static_block(expr(dot("p"))))), attr=ASYNC))))
    good("super[this] = arguments in an async arrow", ONLY_ASYNC,
         in_method(expr(lam(assign(at(this()), arguments()), attr=ASYNC)),
                   expr(lam(call(at(arguments()), this()), attr=ASYNC))))
    good("a generator method: each switch its own", EIGHT[1:],
         in_method(expr(dot("p")), expr(call(dot("m"))), attr=ASYNC | GENERATOR))
    good("a method that is not moved: super stays", [ARROWS, ALL, BOTH],
         in_method(expr(dot("p")), expr(lam(dot("p"))), expr(assign(dot("p"), lam(this())))))
    good("an async arrow in a plain method", EIGHT[1:],
         in_method(expr(lam(dot("p"), attr=ASYNC)), expr(lam(call(dot("m"), this()), attr=ASYNC)), expr(dot("p"))))
    good("an async arrow in a StaticBlock", both, in_class(static_block(expr(lam(call(dot("m"), this()), attr=ASYNC)))))
    good("a plain arrow in an async arrow in a constructor", both,
         in_constructor(expr(super_call()), expr(lam(lam(call(dot("m"), this())), attr=ASYNC))))
    good("an async object method", both, in_object(expr(call(dot("m"), this())), expr(at(this())), attr=ASYNC))
    good("an async arrow's parameters", both, in_method(expr(lam(ident("a"), decl("a", dot("p")), attr=ASYNC))))
    good("static and with a key", both,
         in_class(method(expr(dot("p")), attr=ASYNC, static=1), method(expr(dot("p")), attr=ASYNC, key=this())))


def arguments_rule():
    part("Module 5: arguments")
    both = [ONLY_ASYNC, BOTH]
    good("at Program, alone and in a plain arrow: stays", both, program(expr(arguments()), expr(lam(arguments()))))
    good("async () => arguments twice: one binding", [ONLY_ASYNC, ONLY_GENERATORS, ARROWS, ALL],
         one(lam(opaque(arguments(), arguments()), attr=ASYNC)))
    good("async () => () => arguments", both, one(lam(lam(arguments()), attr=ASYNC)))
    good("() => async () => arguments", both, one(lam(lam(arguments(), attr=ASYNC))))
    good("async (a = arguments) => {}", both, one(arrow(given=[decl("a", arguments())], attr=ASYNC)))
    good("in a function: the frame, not guarded", both, one(func(expr(lam(arguments(), attr=ASYNC)), expr(arguments()))))
    good("in a function in an async arrow: stays", both, one(lam(func(expr(arguments()), expr(lam(arguments()))), attr=ASYNC)))
    good("a function's parameters in an async arrow go on outward, and the function is the frame", both,
         one(lam(func(given=[decl("a", arguments())]), attr=ASYNC)))
    good("a moved method", [ONLY_ASYNC, ONLY_GENERATORS, ARROWS, ALL],
         in_class(method(expr(arguments()), ret(lam(arguments())), attr=ASYNC),
                  method(expr(arguments()), attr=ASYNC | GENERATOR), method(expr(arguments()))))
    good("a moved method's parameters: stays at Program", both, in_method(attr=ASYNC, given=[decl("a", arguments())]))
    good("a moved method's parameters inside an async arrow", both,
         one(lam(klass(method(attr=ASYNC, given=[decl("a", arguments())])), attr=ASYNC)))
    good("an object method, and a property that is no method", both,
         one(obj(obj_method(expr(arguments()), attr=ASYNC), prop(func(expr(arguments()), attr=ASYNC)))))
    good("arguments = 1: a Target's Ident", both, one(lam(assign(arguments(), opaque()), attr=ASYNC)))
    good("a StaticBlock and a Field are no frames", both,
         one(func(expr(lam(klass(static_block(expr(arguments())), field(arguments()), field(key=arguments())), attr=ASYNC)))))
    good("other names that look alike", ONLY_ASYNC,
         one(lam(opaque(ident("argument"), ident("arguments1"), ident("Arguments"), ident("arguments'"), ident("arguments")),
                 attr=ASYNC)))
    good("a Member named arguments stays", ONLY_ASYNC, one(lam(member(this(), "arguments"), attr=ASYNC)))


def arrow_rule():
    part("Module 6: arrow to function")
    some = [ARROWS, ALL]
    good("() => a", some, one(lam(ident("a"))))
    good("(a, b = 1) => { a; return b }", some,
         one(arrow(expr(ident("a")), ret(ident("b")), given=[decl("a"), decl("b", opaque())])))
    good("() => {}", some, one(arrow()))
    good("async arrows stay", some, program(expr(lam(ident("a"), attr=ASYNC)), expr(arrow(ret(ident("a")), attr=ASYNC))))
    good("(a = () => b) => () => { () => c }", some, one(lam(arrow(expr(lam(ident("c")))), decl("a", lam(ident("b"))))))
    good("async () => () => a, () => async () => a", some,
         program(expr(lam(lam(ident("a")), attr=ASYNC)), expr(lam(lam(ident("a"), attr=ASYNC)))))
    good("an arrow in each place of an expression", ARROWS,
         one(opaque(member(lam(ident("a")), "p"), computed(lam(ident("a")), lam(ident("a"))), call(lam(ident("a")), arrow()),
                    assign(member(lam(ident("a")), "p"), lam(ident("a"))), seq(arrow(), arrow()),
                    obj(prop(arrow(), key=arrow()), arrow()), klass(method(key=arrow()), field(arrow()), heritage=arrow()))))
    good("a Sequence as body", ARROWS, one(lam(seq(this(), ident("a"), lam(this())))))


def constructors():
    part("Module 7: constructors")

    def late(what, *statements, switches=ARROWS, **more):
        good(what, switches, in_constructor(*statements, **more))
    late("super(); this; () => this", expr(super_call()), expr(this()), expr(reads_this()))
    late("() => this; super()", expr(reads_this()), expr(super_call()))
    late("super() without a capture: nothing to do", expr(super_call()), expr(this()))
    late("a capture without super: initialised", expr(reads_this()))
    late("super(); super(); the scan stops at the first", expr(super_call()), expr(super_call()), expr(reads_this()))
    late("super() nested before and after the direct one", expr(opaque(super_call())), expr(super_call()),
         expr(opaque(super_call())), expr(reads_this()))
    late("super(super(), () => this, super(super()))",
         expr(super_call(super_call(), reads_this(), super_call(super_call()))))
    late("(super(super()), () => this): arguments not visited", expr(seq(super_call(super_call()), reads_this())))
    late("a = super(() => this)", expr(assign(ident("a"), super_call(reads_this()))))
    late("super()[super()] = super(); () => this", expr(assign(computed(super_call(), super_call()), super_call())),
         expr(reads_this()))
    late("var a = super(); return super()", var(decl("a", super_call()), decl("b", reads_this())), ret(super_call()))
    late("in blocks: each list has its own first", block(expr(super_call()), expr(super_call())),
         block(expr(opaque()), expr(super_call()), attr=1), expr(reads_this()), block(block(expr(super_call()))))
    late("a block after the direct super() is not scanned", expr(super_call()), block(expr(super_call())), expr(reads_this()))
    late("under Other: a Sequence", other(expr(super_call()), block(expr(super_call()))), other(super_call()),
         expr(reads_this()))
    late("in a plain arrow: a function in Enabled, not entered", expr(lam(super_call())), expr(reads_this()))
    late("in an async arrow, expression and body", expr(lam(super_call(), attr=ASYNC)),
         expr(arrow(expr(super_call()), expr(super_call()), attr=ASYNC)), expr(reads_this()))
    late("in arrows in AsyncOnly, with a moved arrow that reads this", expr(lam(super_call())),
         expr(arrow(expr(super_call()), expr(lam(super_call())))), expr(lam(this(), attr=ASYNC)), switches=ONLY_ASYNC)
    late("in an arrow's parameters", expr(arrow(given=[decl("a", super_call())], attr=ASYNC)), expr(reads_this()),
         switches=[ARROWS, ONLY_ASYNC, ALL])
    late("in the constructor's parameters: not scanned, no initialiser", expr(reads_this()), given=[decl("a", super_call())])
    late("a capture in the parameters", expr(super_call()), given=[decl("a", reads_this())])
    late("heritage and keys of an inner class are visited, the rest is not",
         expr(klass(method(expr(this()), key=super_call()), field(this(), key=super_call()), method(), field(),
                    static_block(expr(this())), heritage=super_call())), expr(reads_this()))
    late("an inner class declared, with its own constructor",
         klass(constructor(expr(super_call()), expr(reads_this())), heritage=super_call(), attr=DECLARATION, name="b"),
         expr(reads_this()))
    late("the inner constructor captures, the outer does not",
         expr(klass(constructor(expr(super_call()), expr(reads_this())), heritage=ident("a"))), expr(super_call()))
    late("super.x alone: left in place, so no initialiser", expr(dot("x")), expr(reads_this()))
    late("super.x in an arrow in the constructor", expr(lam(dot("x"))), expr(reads_this()))
    late("super.x in a Target", expr(assign(dot("x"), reads_this())))
    late("super.x in a moved arrow is taken away: initialised", expr(lam(dot("x"), attr=ASYNC)), expr(lam(this(), attr=ASYNC)),
         switches=ONLY_ASYNC)
    late("super.x in a moved arrow, and one left in a Target there",
         expr(lam(opaque(dot("x"), target(dot("x")), this()), attr=ASYNC)), switches=ONLY_ASYNC)
    late("super.m() in a moved arrow makes a this, after super()", expr(super_call()), expr(lam(call(dot("m")), attr=ASYNC)),
         switches=ONLY_ASYNC)
    late("super() in the key of super[k] in a moved arrow", expr(lam(at(super_call()), attr=ASYNC)),
         expr(lam(this(), attr=ASYNC)), switches=ONLY_ASYNC)
    late("super() as the value of a set in a moved arrow",
         expr(lam(assign(at(super_call()), super_call(), attr=2), attr=ASYNC)), expr(lam(this(), attr=ASYNC)),
         switches=ONLY_ASYNC)
    late("super.x in an inner StaticBlock has the constructor as nearest Function",
         expr(klass(static_block(expr(dot("x")), expr(reads_this())))), expr(reads_this()))
    late("super.x in an inner method has not", expr(klass(method(expr(dot("x"))))), expr(reads_this()))
    late("functions are not entered", expr(func(expr(reads_this()))), expr(obj(obj_method(expr(this())), prop(func()))),
         expr(super_call()), expr(reads_this()))
    late("object keys and values are",
         expr(obj(prop(super_call(), key=super_call()), super_call(), obj_method(key=super_call()))), expr(reads_this()))
    good("two constructors in a class, one under a key", ARROWS,
         in_class(constructor(expr(super_call()), expr(reads_this())), constructor(expr(reads_this()), key=ident("k"))))
    good("a base class's constructor with super.x", ARROWS, in_class(constructor(expr(dot("x")), expr(reads_this()))))


def top():
    part("Module 8: top insertion")
    statements = (expr(lam(opaque(this(), arguments(), dot("a"), assign(dot("b"), this()), at(this()),
                                  assign(at(arguments()), call(dot("c")))), attr=ASYNC)),)
    good("all kinds together in a method", [ONLY_ASYNC, BOTH], in_method(*statements))
    good("the same in a moved method", [ONLY_ASYNC, BOTH, ALL], in_method(*statements, attr=ASYNC))
    good("the same in a constructor after super()", ONLY_ASYNC, in_constructor(expr(super_call()), *statements))
    good("the same in a StaticBlock: arguments go to the outer frame", ONLY_ASYNC, in_class(static_block(*statements)))
    good("the same in an object method", [ONLY_ASYNC, ALL], in_object(*statements, attr=ASYNC))
    good("Program: arguments and this", ONLY_ASYNC, one(lam(opaque(this(), arguments()), attr=ASYNC)))
    good("accessors by first use, prop and value as the frame closes", BOTH,
         in_class(method(expr(assign(at(ident("a")), dot("z"))), expr(at(ident("b"))), expr(assign(dot("z"), dot("y"))),
                         expr(klass(method(expr(at(this())), attr=ASYNC))), expr(this()), attr=ASYNC),
                  method(expr(assign(at(ident("a")), this())), attr=ASYNC)))
    good("frames in frames close from the inside", ARROWS,
         program(expr(lam(func(expr(lam(func(expr(reads_this())))), expr(reads_this())))), expr(reads_this())))
    good("a method in a method in a method, all moved", ONLY_ASYNC,
         in_method(expr(klass(method(expr(klass(method(expr(dot("p")), attr=ASYNC))), expr(dot("p")), attr=ASYNC))),
                   expr(dot("p")), attr=ASYNC))
    good("the Var goes before what is first", ARROWS,
         program(var(decl("a", reads_this()), attr=2), declared("b", var(decl("c")), ret(reads_this()))))


def refusals():
    part("The refusals 1, 4, 21 to 25, 3, 5")
    table = one(reads_this())
    lent = (320, 60)

    def bad(what, number, place, table=table, switches=(ARROWS,), **more):
        for one_of in switches:
            convert("%d: %s" % (number, what), one_of, table, want=(number, place), **{"room": lent, **more})
    bad("no rows", 1, 0, [], [OFF, ARROWS])
    bad("80 + 4 bytes of rows", 1, 0, switches=[OFF, ARROWS, BOTH], after_rows=4)
    bad("80 + 1 bytes of rows", 1, 0, after_rows=1)
    bad("4 bytes of names", 1, 0, after_names=4)
    bad("3 bytes of names", 1, 0, switches=[OFF, ONLY_ASYNC], after_names=3)
    bad("16,385 rows", 1, 0, [[0, 0, 0, 16385]] + [[4, 0, 0, i + 1] for i in range(1, 16385)], [OFF, ARROWS])
    bad("4,097 names", 1, 0, names=[(0, 1)] * 4097, text=b"a")
    bad("65,536 bytes of text", 1, 0, text=b"a" * 65536)
    bad("a name of length 0", 4, 2, switches=[OFF, ARROWS, BOTH], names=[(0, 1), (0, 0)], text=b"ab")
    bad("a name past the text", 4, 1, names=[(1, 2)], text=b"ab")
    bad("a name that is not UTF-8", 4, 3, switches=[OFF, ONLY_ASYNC], names=[(0, 1), (1, 1), (2, 1)], text=b"ab\xff")
    three = [OFF, ARROWS, BOTH]
    bad("an Arrow with the kind 7 instead", KIND, 2, changed(table, 2, kind=7), three)
    bad("row 0 with the kind 29", KIND, 0, changed(table, 0, kind=29))
    bad("a Function as a statement without bit 3", ATTR, 1, program(func()), three)
    bad("an Arrow with bit 2", ATTR, 2, changed(table, 2, attr=6))
    bad("row 0 with attr 1", ATTR, 0, changed(table, 0, attr=1))
    bad("row 0 ends too early", END, 0, [[0, 0, 0, 1], [4, 0, 0, 2]], three)
    bad("an Arrow that ends at its own row", END, 2, changed(table, 2, end=2))
    bad("an Arrow that ends past the ExprStmt", END, 2, changed(table, 2, end=6))
    bad("Super as a statement's expression", PLACE, 2, one(sup()), three)
    bad("an Arrow without a body", PLACE, 2, one(row(16, params())))
    bad("row 0 is a Block", PLACE, 0, changed(table, 0, kind=5))
    bad("an Ident without a name", NAME, 2, one(ident(0)), three)
    bad("an Arrow with a name", NAME, 2, changed(table, 2, name=1))
    bad("row 0 with a name", NAME, 0, changed(table, 0, name=1))
    bad("depth 129", 3, 129, [[0, 0, 0, 140]] + [[5, 0, 0, 140]] * 139, three)
    bad("an Ident with attr 1", 5, 2, one(ident(7, attr=1)), three)
    bad("an Arguments row", 5, 2, one(row(27)), [OFF, ONLY_GENERATORS])
    bad("a Declarator with attr 1", 5, 2, program(var(decl(0, attr=1))))
    bad("a Member with attr 1", 5, 2, one(member(this(), 0, attr=1)))
    bad("the sheet's result is no input", 5, 2, [convert_model.read_rows(convert_model.SHEET_RESULT)[i:i + 4]
                                               for i in range(0, 40, 4)])

    part("The order of 21 to 25")
    bad_name = {"names": [(0, 1), (0, 0)], "text": b"a"}
    x = {"names": [(0, 1)], "text": b"x"}
    short, deep = program(ret()), changed(nested(140), 139, kind=4)
    made, owned = program(expr(ident(7, attr=1)), ret()), program(expr(member(sup(), 1)), ret())
    for number in FIVE:
        fault = RETURN_FAULTS[number]
        bad("before %d" % number, 1, 0, changed(short, 1, **fault), after_rows=4)
        bad("before %d" % number, 4, 2, changed(short, 1, **fault), three, **bad_name)
        bad("before 3, after the deep rows", number, 139, changed(deep, 139, **fault), three)
        bad("before 5, after an Ident with attr 1", number, 3, changed(made, 3, **fault), three)
        bad("before 6, after super.x at Program", number, 4, changed(owned, 4, **fault), **x)
        bad("before 9, nothing lent", number, 1, changed(short, 1, **fault), room=(0, 0))
    bad("before 7 and 8, after an arrow in a Field's value and var arguments", KIND, 9,
        program(expr(klass(field(reads_this()))), var(decl("arguments")), row(7)), [BOTH])
    two = [("kind and attr", KIND, {"kind": 7, "attr": 1}), ("attr and end", ATTR, {"attr": 1, "end": 1}),
           ("end and place", END, {"end": 1, "kind": 9}), ("place and name", PLACE, {"kind": 9, "name": 1})]
    for what, number, fields in two:
        bad("two faults in one row, " + what, number, 1, changed(short, 1, **fields), three)

    part("6: Super's owner")
    on = [ARROWS, ONLY_ASYNC]

    def owner(what, place, table, switches=on):
        bad(what, 6, place, table, switches)
    owner("super.x at Program", 3, one(dot("x")))
    owner("super[x] at Program", 3, one(at(ident("x"))))
    owner("super() at Program", 3, one(super_call()))
    owner("super.x in an arrow at Program", 5, one(lam(dot("x"))))
    owner("super.x in a function", 7, one(func(expr(dot("x")))), [ARROWS, BOTH, ALL])
    owner("super() in a method", 9, in_method(expr(super_call())))
    owner("super() in a StaticBlock", 6, in_class(static_block(expr(super_call()))))
    owner("super() in a Field's value: 6 and not 7", 5, in_class(field(super_call())))
    owner("super() in an object method", 9, in_object(expr(super_call())))
    owner("super.x in a property's function", 9, one(obj(prop(func(expr(dot("x")))))), [ARROWS, ALL])
    owner("super.x in a function that is a method's key", 9, in_class(method(key=func(expr(dot("x"))))))
    owner("super.x in a method's key", 5, in_class(method(key=dot("x"))))
    owner("super.x in a Field's key", 5, in_class(field(key=dot("x"))))
    owner("super.x in a heritage", 4, in_class(heritage=dot("x")))
    owner("super() in a function in a constructor", 14, in_constructor(expr(func(expr(super_call())))))
    owner("super() in a method's key in a method", 11, in_method(expr(klass(method(key=super_call())))))
    owner("the second Super is the first bad one", 12, program(expr(klass(method(expr(dot("x"))))), expr(dot("x"))), [ARROWS])
    owner("a called Super in a Target's member", 12, in_method(expr(assign(member(super_call(), "x"), this()))))
    good("all off: no 6, 7, 8", OFF, program(expr(dot("x")), expr(klass(field(lam(dot("x"))))), var(decl("arguments"))))

    part("7: a Field's value")
    bad("super.x", 7, 3, in_class(field(dot("x"))), on)
    bad("super.x in an object method inside", 7, 3, in_class(field(obj(obj_method(expr(dot("x")))))), [ARROWS, ALL, BOTH])
    bad("super() in a constructor inside", 7, 3, in_class(field(klass(constructor(expr(super_call()))))), on)
    bad("an arrow, in AsyncOnly", 7, 3, in_class(field(reads_this())), [ONLY_ASYNC, ONLY_GENERATORS, BOTH])
    bad("an arrow in a function inside, in AsyncOnly", 7, 3, in_class(field(func(expr(arrow())))), [BOTH])
    bad("the second Field", 7, 5, in_class(field(this()), field(opaque(dot("x")))), on)
    bad("a Field in a Field's value: the outer", 7, 3, in_class(field(klass(field(dot("x"))))), on)
    good("an arrow in a Field's key", [ONLY_ASYNC, ALL], in_class(field(key=lam(this(), attr=ASYNC))))
    bad("the Field stands first: 6 before 7", 6, 8, program(expr(klass(field(dot("y")))), expr(dot("x"))), on)

    part("8: bindings called arguments")
    only = [ONLY_ASYNC, ONLY_GENERATORS, BOTH]
    bad("var arguments", 8, 2, program(var(decl("arguments"))), only)
    bad("a parameter", 8, 4, one(func(given=[decl("arguments")])), only)
    bad("an arrow's parameter", 8, 4, one(lam(this(), decl("arguments"))), [ONLY_ASYNC])
    bad("a function", 8, 1, program(declared("arguments")), [BOTH])
    bad("a function expression", 8, 2, one(func(name="arguments")), [BOTH])
    bad("a class", 8, 2, one(klass(name="arguments")), [ONLY_GENERATORS])
    bad("the second name with these bytes", 8, 4, program(expr(ident("arguments")), var(decl("arguments'"))), [BOTH])
    bad("7 before 8", 7, 5, program(var(decl("arguments")), expr(klass(field(lam(this()))))), [BOTH])
    good("in Enabled they are as others", [ARROWS, ALL],
         program(var(decl("arguments")), declared("arguments", given=[decl("arguments")]), expr(lam(arguments()))))
    good("Idents, Members, Other and Opaque may be called so", BOTH,
         program(expr(arguments()), expr(member(this(), "arguments")), other(opaque(name=1), name=1)))


def room():
    part("9: room")
    tables = [
        ("() => this", ARROWS, one(reads_this())),
        ("nothing to do", ARROWS, one(ident("a"))),
        ("all off", OFF, one(reads_this())),
        ("a moved method with three accessors",
         ONLY_ASYNC, in_method(expr(call(dot("m"), at(this()))), expr(assign(at(this()), this())), attr=ASYNC)),
        ("a constructor", ALL, in_constructor(expr(super_call()), expr(opaque(super_call())), expr(reads_this()))),
        ("an empty Program", BOTH, program()),
    ]
    for what, switches, table in tables:
        rows, pairs, text = named(lay(table))
        words = [w for r in rows for w in r]
        _, _, count, bound, _, _ = convert_model.convert(*switches, words, pairs, text, 1 << 20, 1 << 20)
        exact = (16 * count, 12 * bound)
        good(what + ": exact", switches, table, room=exact)
        good(what + ": exact, and bytes that are no whole row or record", switches, table, room=(exact[0] + 15, exact[1] + 11))
        convert(what + ": one row short", switches, table, want=(9, 0), room=(exact[0] - 16, exact[1]))
        convert(what + ": one byte short", switches, table, want=(9, 0), room=(exact[0] - 1, exact[1] + 12))
        convert(what + ": nothing lent", switches, table, want=(9, 0), room=(0, 0))
        if bound:
            convert(what + ": one record short", switches, table, want=(9, 0), room=(exact[0], exact[1] - 12))
            convert(what + ": one byte of the records short", switches, table, want=(9, 0), room=(exact[0] + 64, exact[1] - 1))
            convert(what + ": no records lent", switches, table, want=(9, 0), room=(exact[0] + 160, 0))
        else:
            good(what + ": no records lent", switches, table, room=(exact[0], 0))
    convert("8 before 9", BOTH, program(var(decl("arguments"))), want=(8, 2), room=(0, 0))
    convert("6 before 9", ARROWS, one(dot("x")), want=(6, 3), room=(0, 0))
    convert("1 before 9", OFF, [], want=(1, 0), room=(0, 0))


def captures(n, attr=0):
    """() => (this, this, ..) in n rows. Its result has 5 rows more; that of an async arrow, which stays one, has 3 more."""
    rows = [[0, 0, 0, n], [1, 0, 0, n], [16, attr | 2, 0, n], [18, 0, 0, 4], [26, 0, 0, n]]
    return rows + [[9, 0, 0, i + 1] for i in range(5, n)]


def arrows_in_arrows(depth):
    """The k-th arrow is row 2 k, at depth k + 1. Its Params and what it returns have the next depth."""
    deep = this()
    for _ in range(depth - 2):
        deep = lam(deep)
    return one(deep)


def large():
    part("Large tables")
    good("16,384 rows, nothing to do", [OFF, ALL], siblings(16384))
    good("16,384 rows, each this captured", ARROWS, captures(16384))
    made = convert_model.convert(*ARROWS, [w for r in captures(16384) for w in r], [], b"", 1 << 20, 1)
    convert("the same with one row too little", ARROWS, captures(16384), want=(9, 0), room=(16 * made[2] - 16, 12))
    good("arrows in arrows, depth 128", [ARROWS], arrows_in_arrows(128), comments=False)
    deep = expr(reads_this())
    for _ in range(41):
        deep = expr(func(deep, expr(reads_this())))
    good("functions in functions, each a frame", ARROWS, program(deep), comments=False)
    deep = expr(this())
    for _ in range(24):
        deep = expr(klass(method(deep, expr(dot("p")), attr=ASYNC)))
    good("moved methods in moved methods, each a frame", ONLY_ASYNC, program(deep), comments=False)
    letters = "abcdefghij"
    words = [x + y for x in letters for y in letters]
    good("100 accessors in one frame, then all of them again", ONLY_ASYNC,
         in_method(*[expr(dot(w)) for w in words + words], attr=ASYNC), comments=False)
    good("90 functions that each capture", ARROWS,
         program(*[declared("a", expr(reads_this())) for _ in range(90)]), comments=False)


# Tables by chance.

class Place:
    """What may stand here: a Super that is not called, one that is, an Arrow."""
    def __init__(self, access=False, called=False, arrows=True, supers=True):
        self.access, self.called, self.arrows, self.supers = access and supers, called and supers, arrows, supers

    def owned(self, access=False, called=False):
        """Inside a Function, StaticBlock or Field that allows these."""
        return Place(access, called, self.arrows, self.supers)


class Chance:
    """Well-formed tables of about a given size. With `wild`, now and then a Super, an Arrow or a name stands where 6, 7 or 8
    sees it. The numbers are of a generator that is written out, so that they are the same everywhere."""

    def __init__(self, seed):
        self.state = seed * 2654435761 + 1
        for _ in range(8):
            self.randrange(2)

    def randrange(self, n):
        """A number below n."""
        self.state = (self.state * 6364136223846793005 + 1442695040888963407) % (1 << 64)
        return (self.state >> 33) * n >> 31

    def randint(self, low, high):
        return low + self.randrange(high - low + 1)

    def random(self):
        return self.randrange(10000) / 10000

    def choice(self, items):
        return items[self.randrange(len(items))]

    def table(self, size, mode, wild=0.0):
        self.mode, self.wild = mode, wild
        return program(*self.list_of(self.statement, size - 1, Place()))

    def stray(self):
        return self.random() < self.wild

    def shares(self, size, count):
        """A size as a sum of `count` sizes."""
        cuts = sorted(self.randrange(size + 1) for _ in range(count - 1))
        return [b - a for a, b in zip([0] + cuts, cuts + [size])]

    def list_of(self, maker, size, place, most=None):
        made = []
        while size > 0 and (most is None or len(made) < most):
            share = min(size, self.choice((1, 2, 4, 6, 8, 12, 20, 30)))
            made.append(maker(share, place))
            size -= len(lay(made[-1]))
        return made

    def a_name(self):
        return self.choice(("a", "b", "foo", "foo'", "bar", "arguments", "arguments", "arguments'"))

    def a_binding(self):
        return "arguments" if self.stray() else self.choice(("a", "b", "foo", "bar"))

    def a_property(self):
        return self.choice(("p", "q", "p'", "foo"))

    def statement(self, size, place):
        kind = self.choice("eeeeeervvbocdf")
        if kind == "r":
            return ret(*([self.expression(size - 1, place)] if size > 1 else []))
        if kind == "v":
            return var(*self.declarators(size - 1, place), attr=self.randrange(3))
        if kind == "b":
            return block(*self.list_of(self.statement, size - 1, place), attr=self.randrange(2))
        if kind == "o":
            return other(*self.list_of(self.anything, size - 1, place), attr=self.randrange(9), name=self.randrange(9))
        if kind == "c" and size > 4:
            return self.a_class(size, place, DECLARATION, self.a_binding())
        if kind in "df" and size > 3:
            return self.function(size, place.owned(), self.choice((0, 0, 1, 2, 3)) | DECLARATION, self.a_binding())
        return expr(self.expression(size - 1, place))

    def anything(self, size, place):
        kind = self.choice("set")
        if kind == "s":
            return self.statement(size, place)
        return target(self.left(size - 1, place)) if kind == "t" else self.expression(size, place)

    def declarators(self, size, place):
        made = []
        while size > 0 and len(made) < 3:
            share = self.randint(1, min(size, 8))
            made.append(decl(self.a_binding(), *([self.expression(share - 1, place)] if share > 1 else [])))
            size -= len(lay(made[-1]))
        return made

    def leaf(self):
        return self.choice((this, this, this, arguments, lambda: ident(self.a_name()), opaque))()

    def access(self, size, place):
        """super.p or super[k]"""
        if size > 2 and self.random() < 0.4:
            return at(self.expression(size - 2, place))
        return dot(self.a_property())

    def left(self, size, place):
        kind = self.choice("imcso")
        if kind == "s" and (place.access or self.stray()):
            return self.access(size, place)
        if kind == "m" and size > 1:
            return member(self.expression(size - 1, place), self.a_property())
        if kind == "c" and size > 2:
            first, second = self.shares(size - 1, 2)
            return computed(self.expression(first, place), self.expression(second, place))
        return opaque() if kind == "o" else ident(self.a_name())

    def expression(self, size, place):
        if size <= 1:
            return self.leaf()
        kinds = "mcqla" + "A" * 5 + "F" * 2 + "K" * 2 + "O" * 2 + "Q" + "x"
        kinds += "sssSScz" if place.access else ""
        kinds += "CCC" if place.called else ""
        kind = self.choice(kinds) if not self.stray() else self.choice("sCA")
        if kind == "m":
            return member(self.expression(size - 1, place), self.a_property())
        if kind == "c" and size > 2:
            first, second = self.shares(size - 1, 2)
            return computed(self.expression(first, place), self.expression(second, place))
        if kind in "ql":
            return call(self.expression(size // 2, place), *self.list_of(self.expression, size // 2 - 1, place, 3))
        if kind == "a" and size > 3:
            first, second = self.shares(size - 2, 2)
            return assign(self.left(first, place), self.expression(second, place), attr=self.choice((0, 0, 5, 14)))
        if kind == "s":
            return self.access(size, place)
        if kind == "S":
            return call(self.access(size // 2, place), *self.list_of(self.expression, size // 2 - 1, place, 2))
        if kind == "z" and size > 4:
            first, second = self.shares(size - 2, 2)
            return assign(self.access(first, place), self.expression(second, place), attr=self.choice((0, 3, 15)))
        if kind == "C":
            return super_call(*self.list_of(self.expression, size - 2, place, 2))
        if kind == "A" and (place.arrows or self.stray()):
            return self.arrow(size, place)
        if kind == "F" and size > 3:
            return self.function(size, place.owned(), self.choice((0, 0, 1, 2, 3)), 0)
        if kind == "K" and size > 4:
            return self.a_class(size, place, 0, 0)
        if kind == "O" and size > 3:
            return obj(*self.list_of(self.property, size - 1, place, 3))
        if kind == "Q" and size > 2:
            first, second = self.shares(size - 1, 2)
            return seq(self.expression(first, place), self.expression(second, place))
        return opaque(*self.list_of(self.expression, size - 1, place, 3), attr=self.randrange(4), name=self.randrange(4))

    def arrow(self, size, place):
        attr = self.choice((0, 0, ASYNC))
        given = self.declarators(size // 4, place) if self.random() < 0.3 else []
        if self.random() < 0.5:
            return lam(self.expression(max(1, size - 3), place), *given, attr=attr)
        return arrow(*self.list_of(self.statement, size - 3, place), given=given, attr=attr)

    def function(self, size, place, attr, name):
        given = self.declarators(size // 4, place) if self.random() < 0.3 else []
        return func(*self.list_of(self.statement, size - 3, place), given=given, attr=attr, name=name)

    def property(self, size, place):
        key = self.expression(size // 4, place) if self.random() < 0.3 and size > 5 else None
        if self.random() < 0.6 and size > 4:
            function = self.function(size - 2, place.owned(access=True), self.choice((0, 1, 1, 2, 3)), 0)
            return row(25, *([key] if key else []), function, attr=2 | (1 if key else 0))
        if self.random() < 0.5:
            return self.expression(size, place)
        return prop(self.expression(size - 1, place), key=key)

    def a_class(self, size, place, attr, name):
        heritage = self.expression(size // 5, place) if self.random() < 0.5 else None
        return klass(*self.list_of(self.a_member, size - 2, place, 4), heritage=heritage, attr=attr, name=name)

    def a_member(self, size, place):
        key = self.expression(size // 4, place) if self.random() < 0.3 and size > 5 else None
        kind = self.choice("mmmmCCfs")
        keys, bit = ([key], 1) if key else ([], 0)
        if kind == "C":
            function = self.function(size - 1, place.owned(True, True), CONSTRUCTOR, 0)
            return row(21, *keys, function, attr=bit)
        if kind == "m":
            function = self.function(size - 1, place.owned(access=True), self.choice((0, 1, 1, 1, 2, 3)), 0)
            return row(21, *keys, function, attr=bit | 2 * self.randrange(2))
        if kind == "s":
            return static_block(*self.list_of(self.statement, size - 1, place.owned(access=True)))
        inside = Place(False, False, self.mode == convert_model.ENABLED and place.arrows, False)
        value = self.expression(size - 1, inside) if self.random() < 0.8 else None
        return field(value, key=key, static=self.randrange(2))


    def constructed(self, size, mode, wild=0.0):
        """A class whose constructor has `super(..)` here and there, and captures `this`."""
        self.mode, self.wild = mode, wild
        statements = self.list_of(self.statement, size - 15, Place(True, True))
        calls = [expr(super_call(*self.list_of(self.expression, self.choice((0, 0, 6)), Place(True, True), 2))),
                 block(expr(super_call()), expr(super_call()), attr=self.randrange(2)), expr(lam(this(), attr=ASYNC))]
        for statement in calls:
            statements.insert(self.randrange(len(statements) + 1), statement)
        given = self.declarators(size // 6, Place(True, True)) if self.random() < 0.3 else []
        return in_class(constructor(*statements, given=given), heritage=ident("a"))


def deepest(table):
    return 1 + max((deepest(kid) for kid in table.kids), default=-1)


def by_chance(seed, switches, low, high, wild=0.0, maker=Chance.table, depth=128):
    """A table of `low` to `high` rows and no deeper than `depth`."""
    chance = Chance(seed)
    while True:
        table = maker(chance, chance.randint(low, high), convert_model.mode_of(*switches), wild)
        if low <= len(lay(table)) <= high and deepest(table) <= depth:
            return table


SETTINGS = [ARROWS, ONLY_ASYNC, ALL, BOTH, ONLY_ASYNC, (1, 1, 0), ONLY_GENERATORS, (1, 0, 1), ONLY_ASYNC, OFF]


def small_chance(seed, **more):
    switches = SETTINGS[seed % len(SETTINGS)]
    wild = 0.02 if seed % 5 == 4 else 0.0
    convert("seed %d" % seed, switches, by_chance(seed, switches, 5 + seed % 40, 60, wild), comments=False, **more)


def constructor_chance(seed, **more):
    switches = SETTINGS[seed % 7]
    table = by_chance(seed, switches, 24, 64, maker=Chance.constructed)
    convert("seed %d: a constructor" % seed, switches, table, comments=False, **more)


def chances():
    part("Tables by chance")
    for seed in range(100):
        small_chance(seed)
    for seed in range(200, 240):
        constructor_chance(seed)
    for seed, switches in ((1001, ARROWS), (1002, ONLY_ASYNC), (1003, ALL), (1004, BOTH)):
        convert("seed %d" % seed, switches, by_chance(seed, switches, 1000, 1100), comments=False)


# Request No. 1: the two callers.

THREE = [OFF, ONLY_ASYNC, ARROWS]       # one setting of each mode
SAME = None                             # the print room's answer is the tablet's


def both_callers(what, switches, table, tablet, print_room=(0, 0), **more):
    """One table through both callers with the same room, and by hand the answers of the tablet and of the print room."""
    for one_of in switches if isinstance(switches, list) else [switches]:
        convert(what + ": tablet", one_of, table, want=tablet, tablet=True, **more)
        convert(what + ": print room", one_of, table, want=tablet if print_room is SAME else print_room, **more)


def blocks(depth, *inner):
    """A statement of the Program: a Block in a Block .. down to `depth`, each one row. The last holds `inner`."""
    deep = block(*inner)
    for _ in range(depth - 1):
        deep = block(deep)
    return deep


def wide_and_deep(n, depth):
    """Returns, then a Block in a Block ..: n rows, of which the last one alone has this depth."""
    first = n - depth
    return [[0, 0, 0, n]] + [[4, 0, 0, i + 1] for i in range(1, first)] + [[5, 0, 0, n] for _ in range(depth)]


def methods_in_methods(inner):
    """Six moved methods in one another, the outer five with an accessor. A method has six rows and five depths, so that
    `inner` in its ExprStmt is row 38 at depth 32."""
    deep = expr(klass(method(expr(inner), attr=ASYNC)))
    for _ in range(5):
        deep = expr(klass(method(deep, expr(dot("p")), attr=ASYNC)))
    return program(deep)


def ending(n, *rows):
    """A Program of n rows that ends with these; before them stand Returns."""
    return siblings(n)[:n - len(rows)] + [list(r) for r in rows]


def callers_limits():
    part("Tablet and print room: the limits")
    for n in (511, 512, 513):
        answer = (1, 0) if n == 513 else (0, 0)
        both_callers("%d rows, nothing to do" % n, THREE, siblings(n), answer)
        both_callers("%d rows, each this captured" % n, ARROWS, captures(n), answer)
        both_callers("%d rows, each this captured in an async arrow" % n, ONLY_ASYNC, captures(n, ASYNC), answer)
    both_callers("depth 31", THREE, nested(32), (0, 0))
    both_callers("depth 32", THREE, nested(33), (0, 0))
    both_callers("depth 33", THREE, nested(34), (3, 33))
    both_callers("depth 32, arrows in arrows", ARROWS, arrows_in_arrows(32), (0, 0), comments=False)
    both_callers("depth 33, arrows in arrows", ARROWS, arrows_in_arrows(33), (3, 63), comments=False)
    both_callers("depth 32, moved methods in one another", ONLY_ASYNC, methods_in_methods(this()), (0, 0), comments=False)
    both_callers("depth 33, moved methods in one another", ONLY_ASYNC, methods_in_methods(opaque(this())), (3, 39),
                 comments=False)
    both_callers("512 rows and depth 32", THREE, wide_and_deep(512, 32), (0, 0))
    both_callers("512 rows, the last at depth 33", THREE, wide_and_deep(512, 33), (3, 511))
    both_callers("513 rows, the last at depth 32", ARROWS, wide_and_deep(513, 32), (1, 0))
    both_callers("depth 34: the first row past the limit, not the deepest", ARROWS, nested(35), (3, 33))
    both_callers("depth 33 twice: the first", THREE, program(blocks(33), blocks(33)), (3, 33))
    both_callers("depth 33 twice, after depth 32: the first", ARROWS, program(blocks(32), blocks(33), blocks(33)), (3, 65))
    both_callers("depth 33 side by side: the first", ARROWS, program(blocks(32, ret(), ret())), (3, 33))
    both_callers("depth 32, then rows that are not deep", ARROWS, program(blocks(32), ret(), block(ret())), (0, 0))
    both_callers("depth 128", [OFF, ARROWS], nested(129), (3, 33))
    both_callers("depth 129: each caller's own first row", [OFF, ARROWS], nested(130), (3, 33), (3, 129))
    both_callers("16,384 rows", ARROWS, captures(16384), (1, 0))
    both_callers("16,385 rows", [OFF, ARROWS], siblings(16385), (1, 0), SAME)
    both_callers("no rows", ARROWS, [], (1, 0), SAME)
    both_callers("512 rows and a word", ARROWS, siblings(512), (1, 0), SAME, after_rows=4)
    both_callers("512 rows and a byte", ARROWS, siblings(512), (1, 0), SAME, after_rows=1)
    both_callers("sixteen zero bytes are row 513, and row 0 ends before it", ARROWS, siblings(512), (1, 0), (END, 0),
                 after_rows=16)
    most = {"names": [(0, 1)] * 4096, "text": b"a" * 65535}
    both_callers("4,096 names and 65,535 bytes of text", THREE, one(reads_this()), (0, 0), **most)
    both_callers("4,096 names, 65,535 bytes of text, 512 rows and depth 32", ARROWS, wide_and_deep(512, 32), (0, 0), **most)
    both_callers("4,097 names", ARROWS, one(reads_this()), (1, 0), SAME, names=[(0, 1)] * 4097, text=b"a")
    both_callers("65,536 bytes of text", ARROWS, one(reads_this()), (1, 0), SAME, text=b"a" * 65536)
    both_callers("half a name", ARROWS, one(reads_this()), (1, 0), SAME, after_names=4)


def callers_order():
    part("Tablet and print room: the order")
    bad_name = {"names": [(0, 1), (0, 0)], "text": b"a"}
    both_callers("1 before 3: 513 rows, the last at depth 33", THREE, wide_and_deep(513, 33), (1, 0))
    both_callers("1 before 3: 600 rows in one another", ARROWS, nested(600), (1, 0), (3, 129))
    both_callers("1 before 4: 513 rows and a bad name", THREE, siblings(513), (1, 0), (4, 2), **bad_name)
    both_callers("4: 512 rows and a bad name", ARROWS, siblings(512), (4, 2), SAME, **bad_name)
    both_callers("4 before 3: depth 33 and a bad name", ARROWS, nested(34), (4, 2), SAME, **bad_name)
    both_callers("1 before 21: 513 rows, and row 0 has no kind", ARROWS, set_row(siblings(513), 0, [7, 0, 0, 513]),
                 (1, 0), (KIND, 0))
    both_callers("22: the last of 512 rows has attr 5", ARROWS, set_row(siblings(512), 511, [4, 5, 0, 512]), (ATTR, 511), SAME)
    both_callers("25 before 3: a bad row before depth 33", ARROWS, set_row(nested(40), 5, [5, 0, 1, 40]), (NAME, 5), SAME)
    both_callers("22 before 3: a bad row after depth 33", THREE, set_row(nested(40), 39, [5, 2, 0, 40]), (ATTR, 39), SAME)
    both_callers("25 before 3: the bad row has depth 33", ARROWS, set_row(nested(40), 33, [5, 0, 1, 40]), (NAME, 33), SAME)
    for number, fields in ((KIND, {"kind": 7}), (END, {"end": 39}), (PLACE, {"kind": 9}), (NAME, {"name": 1})):
        both_callers("%d before 3: a bad row after depth 33" % number, THREE, changed(nested(40), 39, **fields), (number, 39),
                     SAME)
    both_callers("1 before 5: 513 rows, the last a made one", ARROWS, ending(513, (1, 0, 0, 513), (27, 0, 0, 513)),
                 (1, 0), (5, 512))
    made = expr(ident(7, attr=1))
    both_callers("3 before 5: a made row before depth 33", THREE, program(made, blocks(33)), (3, 35), (5, 2))
    both_callers("3 before 5: the made row has depth 33", ARROWS, program(blocks(31, made)), (3, 33), (5, 33))
    both_callers("5: the made row has depth 32", ARROWS, program(blocks(30, made)), (5, 32), SAME)
    on = [ARROWS, ONLY_ASYNC]
    x = {"names": [(0, 1)], "text": b"x"}
    last = ending(513, (1, 0, 0, 513), (12, 0, 1, 513), (10, 0, 0, 513))
    both_callers("1 before 6: 513 rows, the last a super out of place", on, last, (1, 0), (6, 512), **x)
    both_callers("3 before 6: super.x at Program and depth 33", on, program(expr(dot("x")), blocks(33)), (3, 36), (6, 3))
    both_callers("3, and no 6 with all off", OFF, program(expr(dot("x")), blocks(33)), (3, 36))
    both_callers("6: super.x at Program and depth 32", on, program(expr(dot("x")), blocks(32)), (6, 3), SAME)
    in_field = expr(klass(field(dot("x"))))
    both_callers("3 before 7: super.x in a Field's value and depth 33", on, program(in_field, blocks(33)), (3, 38), (7, 3))
    both_callers("7: super.x in a Field's value and depth 32", on, program(in_field, blocks(32)), (7, 3), SAME)
    called_so = var(decl("arguments"))
    both_callers("3 before 8: var arguments and depth 33", ONLY_ASYNC, program(called_so, blocks(33)), (3, 35), (8, 2))
    both_callers("8: var arguments and depth 32", ONLY_ASYNC, program(called_so, blocks(32)), (8, 2), SAME)


def callers_room():
    part("Tablet and print room: room")
    for what, switches, table, rows in [
            ("512 rows, a result of 517", ARROWS, captures(512), 517),
            ("512 rows, a result of 515", ONLY_ASYNC, captures(512, ASYNC), 515)]:
        exact = 16 * rows
        both_callers(what + ": exact", switches, table, (0, 0), room=(exact, 12))
        both_callers(what + ": one row short", switches, table, (9, 0), SAME, room=(exact - 16, 12))
        both_callers(what + ": one byte short", switches, table, (9, 0), SAME, room=(exact - 1, 12))
        both_callers(what + ": room for 512", switches, table, (9, 0), SAME, room=(16 * 512, 12))
        both_callers(what + ": no whole record lent", switches, table, (9, 0), SAME, room=(exact, 11))
        both_callers(what + ": nothing lent", switches, table, (9, 0), SAME, room=(0, 0))
    both_callers("512 rows copied: exact", OFF, siblings(512), (0, 0), room=(16 * 512, 0))
    both_callers("512 rows copied: one row short", OFF, siblings(512), (9, 0), SAME, room=(16 * 511, 0))
    both_callers("1 before 9: 513 rows, nothing lent", THREE, siblings(513), (1, 0), (9, 0), room=(0, 0))
    both_callers("3 before 9: depth 33, nothing lent", THREE, nested(34), (3, 33), (9, 0), room=(0, 0))


def callers_options():
    part("Tablet: the eight settings")
    four_sorts(tablet=True)
    part("Options: bits without a name")
    # A request that gives one of these bits a name has to look at these two.
    good("bits without a name, all from 64 up: as without them, 513 rows in the print room", ARROWS, captures(513),
         unnamed=(1 << 32) - 64)
    convert("a bit without a name, 2 to the 31st: as without it, 513 rows on a tablet", ARROWS, captures(513), want=(1, 0),
            tablet=True, unnamed=1 << 31)


def callers_same():
    part("Tablet: the sheet and the plots")
    plots(tablet=True)
    part("Tablet: tables by chance, those of the print room")
    for seed in range(10):
        small_chance(seed, tablet=True)
    for seed in range(200, 203):
        constructor_chance(seed, tablet=True)
    part("Tablet: a table by chance near the limits")
    convert("seed 1005", ALL, by_chance(1005, ALL, 500, 512, depth=32), want=(0, 0), comments=False, tablet=True)


def callers():
    callers_limits()
    callers_order()
    callers_room()
    callers_options()
    callers_same()


def whole():
    sheet()
    modes()
    this_rule()
    super_rule()
    arguments_rule()
    arrow_rule()
    constructors()
    top()
    refusals()
    room()
    large()
    chances()
    callers()
    return HEAD + "\n".join(LINES) + "\n"


def sizes(stored):
    """The bytes and the numbers of the file; it must not have more than its reader has room for."""
    numbers = sum(len(line.split("#")[0].split()) for line in stored.splitlines())
    size = len(stored.encode())
    if size > MOST_BYTES or numbers > MOST_NUMBERS:
        sys.exit("conversions.py: %d bytes of %d, %d numbers of %d" % (size, MOST_BYTES, numbers, MOST_NUMBERS))
    return size, numbers


if __name__ == "__main__":
    stored = whole()
    sizes_of_stored = sizes(stored)
    if sys.argv[1:] == ["--count"]:
        for what, count in sorted(TALLY.items()):
            print(what, count)
        print("%d bytes, %d numbers" % sizes_of_stored)
    else:
        write_or_check(__doc__, "conversions.py", stored, "%d conversions" % COUNT)
