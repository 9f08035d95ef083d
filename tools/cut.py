#!/usr/bin/env python3
"""Tries what docs/FORMAT.md says in "Large scripts" and "Which row was which" with the model of convert_model.py.

  cut.py             exit status 1 where something said there does not hold
  cut.py SEED TIMES  the same for other tables, and as many as one likes

The tables are made by the generator of conversions.py. Each is converted whole, and then

- with Functions cut out, each converted in a table of its own and put back ("A Function as a table of its own");
- with its statements shared out to several Programs ("A Program in parts");
- with Other and Opaque for every row that no rule looks at, once row by row and once with one row for a whole part ("What may
  be Other or Opaque"), and with no Opaque right below another;
- and the rows of its result are matched with its own, by counting and by going through both.

What it prints is how often each of these was met.
"""
import sys
from collections import Counter

import conversions as by_hand
import convert_model as model
from conversions import ALL, ARROWS, ASYNC, BOTH, ONLY_ASYNC, ONLY_GENERATORS, Place
from convert_model import (ARGUMENTS, ARROW, ASSIGN, BLOCK, BODY, CALL, CLASS, COMPUTED, DECLARATOR, EXPR_STMT, FUNCTION,
                           IDENT, MEMBER, METHOD, OBJECT, OPAQUE, OTHER, PARAMS, PROGRAM, PROPERTY, RETURN, SEQUENCE,
                           STATIC_BLOCK, SUPER, TARGET, THIS, VAR, Node, below, laid, method_like, of_super, outward)

TALLY = Counter()


class Script:
    """A table as a tree, with the names that all its parts share."""
    def __init__(self, table):
        rows, self.pairs, self.text = by_hand.named(by_hand.lay(table))
        self.nodes = model.tree(rows)
        self.root = self.nodes[0]

    def is_arguments(self, number):
        start, length = self.pairs[number - 1]
        return self.text[start:start + length] == b"arguments"

    def answer(self, switches, root):
        """The result of a tree, again as a tree, and its records; or the number of a refusal, and None."""
        rows = model.bytes_of([w for row in laid(root) for w in row])
        names = model.bytes_of([w for pair in self.pairs for w in pair])
        try:
            made, records = model.converted(*switches, rows, names, self.text)
        except model.Refused as refused:
            return refused.number, None
        return model.tree(made)[0], records


def again(node, kids, kind=None, name=None):
    """A row of a part, which knows the node that it is of."""
    made = Node(node.kind if kind is None else kind, node.attr, node.name if name is None else name, kids)
    made.of = node
    return made


def owners(part, records):
    """The records of a part's result, with the row of the whole table that each frame is."""
    rows = [getattr(node, "of", None) for node in below(part)]
    return [(use, name, rows[frame].row if rows[frame] else 0) for use, name, frame in records]


def renumber(root, number):
    """Other numbers for the bindings of a result."""
    for node in below(root):
        if node.kind in (DECLARATOR, IDENT) and node.attr == 1:
            node.name = number(node.name)


def hold_same(what, whole, records, other, others):
    """Two results have the same rows and bindings, however the bindings are numbered."""
    first, second, there, back = laid(whole), laid(other), {}, {}
    assert len(first) == len(second) and len(records) == len(others), what
    for (kind, attr, name, end), row in zip(first, second):
        if kind in (DECLARATOR, IDENT) and attr == 1:
            assert [kind, attr, end] == [row[0], row[1], row[3]], what
            assert there.setdefault(name, row[2]) == row[2] and back.setdefault(row[2], name) == name, what
            assert tuple(records[name - 1]) == tuple(others[row[2] - 1]), what
        else:
            assert [kind, attr, name, end] == row, what


# A Function as a table of its own.

def reasons(script, function, mode):
    """Why a Function must stay where it is, by the page."""
    inside = list(below(function))
    turned_away = {SUPER, ARROW} if mode == model.ASYNC_ONLY else {SUPER}
    if any(model.is_value(holder, kid) for holder, kid in outward(function)) and any(n.kind in turned_away for n in inside):
        yield "in a Field's value, with a Super or an Arrow"
    if mode == model.ASYNC_ONLY and any(n.kind == IDENT and script.is_arguments(n.name) for n in below(function.kids[0])):
        yield "arguments in its Params"
    if not method_like(function) and any(n.kind == SUPER and is_static(n, function) for n in inside):
        yield "no method, with super in a static block"


def is_static(node, function):
    """Whether a Super below a Function belongs to a StaticBlock, with no method-like Function between it and the Function."""
    for holder, _ in outward(node):
        if holder is function:
            return model.owner(node).kind == STATIC_BLOCK
        if holder.kind == FUNCTION and method_like(holder):
            return False


def without(node, cut, first=True):
    """A tree whose Functions of `cut` are empty, but for the one at its top."""
    if node in cut and not first:
        return again(node, [Node(PARAMS), Node(BODY)])
    return again(node, [without(kid, cut, False) for kid in node.kids])


def own_table(function, cut):
    """The table of a Function that was cut out."""
    alone, holder = without(function, cut), function.parent
    if function.attr & by_hand.DECLARATION:
        return Node(PROGRAM, kids=[alone])
    if method_like(function):
        alone = Node(holder.kind, holder.attr & 2, kids=[alone])
        alone = Node(CLASS if holder.kind == METHOD else OBJECT, kids=[alone])
    return Node(PROGRAM, kids=[Node(EXPR_STMT, kids=[alone])])


def functions(root):
    """Functions and Arrows together, without the Arrows of accessors."""
    return [node for node in below(root) if node.kind in (ARROW, FUNCTION) and not is_accessor(node)]


def is_accessor(node):
    return node.kind == ARROW and node.parent is not None and node.parent.kind == DECLARATOR and node.parent.attr == 1


def put_together(script, switches, cut):
    """The result of a table whose Functions were cut out and put back, and its records; None if a part is turned away."""
    records, made, stubs = [], {}, []
    for function in [None] + cut:
        part = own_table(function, cut) if function else without(script.root, cut)
        before = [node for node in below(part) if node.kind in (ARROW, FUNCTION)]
        result, bound = script.answer(switches, part)
        if bound is None:
            return None
        shift = len(records)
        renumber(result, lambda number: number + shift)
        records += owners(part, bound)
        pairs = list(zip(before, functions(result), strict=True))
        stubs += [(old.of, new) for old, new in pairs if old.of in cut and old.of is not function]
        made[function] = result if function is None else next(new for old, new in pairs if old.of is function)
    for function, stub in stubs:
        stub.kids = made[function].kids
    return made[None], records


def try_cuts(script, switches, chance, whole, records):
    mode = model.mode_of(*switches)
    every = [node for node in script.nodes if node.kind == FUNCTION]
    why = {node: list(reasons(script, node, mode)) for node in every}
    free = [node for node in every if not why[node]]
    for cut in (free, [node for node in free if chance.randrange(3)]):
        got = put_together(script, switches, cut)
        assert (got is None) == (records is None), "cut: one is turned away"
        if got:
            hold_same("cut", whole, records, *got)
            TALLY["Functions cut out"] += len(cut)
            TALLY["Functions cut out, methods"] += sum(map(method_like, cut))
    for node, found in why.items():
        if len(found) == 1:
            got = put_together(script, switches, [node])
            try:
                assert (got is None) == (records is None)
                if got:
                    hold_same("", whole, records, *got)
                TALLY["Functions to be left, no difference"] += 1
            except AssertionError:
                TALLY["Functions to be left, " + found[0]] += 1


# A Program in parts.

def is_made_var(node):
    return node.kind == VAR and len(node.kids) > 0 and node.kids[0].attr == 1


def try_parts(script, switches, chance, whole, records):
    statements, kids, bound, shared = script.root.kids, [], [], {}
    while statements:
        count = chance.randint(1, len(statements))
        part = Node(PROGRAM, kids=[without(kid, ()) for kid in statements[:count]])
        statements = statements[count:]
        result, own = script.answer(switches, part)
        if own is None:
            assert records is None, "parts: one is turned away"
            return
        numbers = []
        for record in owners(part, own):
            if record[2] == 0:
                assert record[0] in (1, 2), "the Program declares this and arguments"
                numbers.append(shared.setdefault(record[0], len(bound) + 1))
            else:
                numbers.append(len(bound) + 1)
            if numbers[-1] > len(bound):
                bound.append(record)
        renumber(result, lambda number: numbers[number - 1])
        kids += result.kids[1:] if is_made_var(result.kids[0]) else result.kids
    assert records is not None, "parts: only the whole is turned away"
    values = {2: Node(ARGUMENTS, 1), 1: Node(THIS)}
    declared = [Node(DECLARATOR, 1, shared[use], [value]) for use, value in values.items() if use in shared]
    hold_same("parts", whole, records, Node(PROGRAM, kids=[Node(VAR, kids=declared)] * bool(declared) + kids), bound)
    TALLY["Programs in parts"] += 1
    TALLY["Programs in parts, with a Var"] += bool(declared)


# What may be Other or Opaque.

def is_looked_at(script, node):
    """Whether a rule looks at a row, so that it must stand as what it is."""
    if node.kind in (EXPR_STMT, CALL, MEMBER, COMPUTED, ASSIGN):
        return any(n.kind == SUPER for n in heads(node))
    if node.kind == TARGET:
        return of_super(node.kids[0])
    if node.kind == BLOCK:
        return any(n.kind == SUPER for n in below(node))
    if node.kind == IDENT:
        return script.is_arguments(node.name)
    if node.kind == VAR:
        return any(script.is_arguments(kid.name) for kid in node.kids)
    if node.kind == OBJECT:
        return any(kid.kind == PROPERTY and kid.attr & 2 for kid in node.kids)
    if node.kind in (DECLARATOR, PROPERTY):
        return is_looked_at(script, node.parent)
    return node.kind not in (OTHER, OPAQUE, RETURN, SEQUENCE)


def heads(node):
    """`super` where it makes a row one that is looked at: `super.p`, `super[k]`, a call of these or of `super`, the statement
    `super(..)`, an assignment to `super.p` or `super[k]`."""
    first = node.kids[0].kids[0] if node.kind == ASSIGN else node.kids[0]
    if node.kind == EXPR_STMT:
        return first.kids[:1] if first.kind == CALL else []
    return [first] + (first.kids[:1] if node.kind in (CALL, ASSIGN) and of_super(first) else [])


def plain(script, node, kept, bare):
    """A tree with Other and Opaque for the rows that no rule looks at; the name of each is the place in `kept` of what it
    stands for. With `bare`, a part in which no rule looks at anything is one row."""
    quiet = bare and not any(is_looked_at(script, n) for n in below(node))
    if is_looked_at(script, node) and not quiet:
        return again(node, [plain(script, kid, kept, bare) for kid in node.kids])
    statement = node.kind in (EXPR_STMT, VAR, RETURN, BLOCK, OTHER)
    kids = []
    for kid in node.kids if not quiet else ():
        kids += kid.kids if kid.kind in (DECLARATOR, PROPERTY) else [kid]
    made = again(node, [plain(script, kid, kept, bare) for kid in kids], OTHER if statement else OPAQUE, len(kept))
    made.attr = int(quiet)
    kept.append(node)
    return made


def restored(node, kept):
    """A result with the rows of `kept` where Other and Opaque stand for them."""
    kids = [restored(kid, kept) for kid in node.kids]
    if node.kind not in (OTHER, OPAQUE):
        return Node(node.kind, node.attr, node.name, kids)
    old = kept[node.name]
    if node.attr == 1:
        return old
    if old.kind in (VAR, OBJECT):
        parts = iter(kids)
        kids = [Node(kid.kind, kid.attr, kid.name, [next(parts) for _ in kid.kids]) if kid.kind in (DECLARATOR, PROPERTY)
                else next(parts) for kid in old.kids]
    return Node(old.kind, old.attr, old.name, kids)


def flat(node):
    """A tree in which no Opaque with children stands right below an Opaque or Other, and no such Other below an Other."""
    kids = []
    for kid in map(flat, node.kids):
        inner = kid.kind == OPAQUE or kid.kind == node.kind == OTHER
        kids += kid.kids if node.kind in (OTHER, OPAQUE) and inner and kid.kids else [kid]
    return again(getattr(node, "of", node), kids, node.kind, node.name)


def renamed(script, node, name):
    """A tree with one name for all Declarators, and none for Functions and Classes, where the name is not `arguments`."""
    other = node.name
    if node.kind in (DECLARATOR, FUNCTION, CLASS) and other and not (node.kind == DECLARATOR and node.attr):
        other = other if script.is_arguments(other) else name if node.kind == DECLARATOR else 0
    return again(getattr(node, "of", node), [renamed(script, kid, name) for kid in node.kids], node.kind, other)


def try_plain(script, switches, whole, records):
    for bare in (False, True):
        kept = []
        part = plain(script, script.root, kept, bare)
        result, bound = script.answer(switches, part)
        assert (bound is None) == (records is None), "plain: one is turned away"
        if records is not None:
            assert laid(restored(result, kept)) == laid(whole) and owners(part, bound) == list(map(tuple, records)), "plain"
            TALLY["rows that became Other or Opaque"] += 0 if bare else len(kept)
            TALLY["rows spared with one row for a part"] += len(script.nodes) - len(laid(part)) if bare else 0
    name = next((at for at in range(1, len(script.pairs) + 1) if not script.is_arguments(at)), 0)
    changes = [flat] + [lambda root: renamed(script, root, name)] * (name > 0)
    for change in changes:
        part = change(script.root)
        result, bound = script.answer(switches, part)
        assert (bound is None) == (records is None), "flat, or renamed: one is turned away"
        if records is not None:
            assert laid(result) == laid(change(whole)) and owners(part, bound) == list(map(tuple, records)), "flat, or renamed"
            TALLY["rows spared with no Opaque below Opaque"] += len(script.nodes) - len(laid(part))


# Which row was which.

def sets_this(node, uses):
    """`captured = this`."""
    if node.kind != ASSIGN:
        return False
    left = node.kids[0].kids[0]
    return left.kind == IDENT and left.attr == 1 and uses[left.name - 1] == 1


def counted(root, uses, arrows=()):
    """The rows of a result that are counted, by kind; `arrows` are the Functions that were Arrows with an expression."""
    for node in below(root):
        kind = FUNCTION if node.kind == ARROW else node.kind
        holder = node.parent
        made = (
            kind in (THIS, SUPER, MEMBER, COMPUTED, CALL, ASSIGN, TARGET, ARGUMENTS)     # these come and go
            or is_made_var(node) or (kind == DECLARATOR and node.attr == 1)
            or is_accessor(node) or (kind == PARAMS and is_accessor(holder))
            or (kind == EXPR_STMT and sets_this(node.kids[0], uses)) or (kind == SEQUENCE and sets_this(node.kids[1], uses))
            or (kind == IDENT and node.attr == 1 and uses[node.name - 1] != 2)
            or (kind == BODY and holder in arrows) or (kind == RETURN and holder.parent in arrows))
        if not made:
            yield kind, node


def try_counting(script, whole, records):
    uses = [use for use, _, _ in records]
    wrapped = [new for old, new in zip(functions(script.root), functions(whole), strict=True)
               if old.kind == ARROW and old.attr & 2 and new.kind == FUNCTION]
    before, after = list(counted(script.root, uses)), list(counted(whole, uses, wrapped))
    for kind in range(29):
        old, new = ([node for k, node in rows if k == kind] for rows in (before, after))
        for a, b in zip(old, new, strict=True):
            kept = (a.kind, a.attr, a.name) == (b.kind, b.attr, b.name)
            assert kept or kind in (FUNCTION, IDENT), "counting"
            assert kept or kind == IDENT or (a.kind == ARROW and not a.attr & 1 and (b.attr, b.name) == (0, 0)), "counting"
            assert kept or kind == FUNCTION or script.is_arguments(a.name), "counting"
    TALLY["rows matched by counting"] += len(after)


class Match:
    """Both trees at once: for each row of a result the row of the table that it was, or None where it was added."""
    def __init__(self, uses):
        self.uses, self.was = uses, {}

    def row(self, old, new):
        self.was[new] = old
        pair = old.kind, new.kind
        if pair == (CALL, SEQUENCE):                                               # super(..), module 7
            assert model.is_super_call(old), "where a Sequence is added"
            self.was[new] = None
            self.row(old, new.kids[0])
            self.added(new.kids[1])
        elif pair == (ARROW, FUNCTION):
            self.row(old.kids[0], new.kids[0])
            if old.attr & 2:
                body = new.kids[1]
                self.was[body] = self.was[body.kids[0]] = None
                self.row(old.kids[1], body.kids[0].kids[0])
            else:
                self.row(old.kids[1], new.kids[1])
        elif pair in ((MEMBER, CALL), (COMPUTED, CALL)):                           # super.p, super[k]
            self.was[new.kids[0]] = old.kids[0]
            self.list(old.kids[1:], new.kids[1:])
        elif pair == (ASSIGN, CALL):                                               # super.p = v, super[k] = v
            self.was[new.kids[0]] = old.kids[0].kids[0]
            self.list(old.kids[0].kids[0].kids[1:] + old.kids[1:], new.kids[1:])
        elif pair == (CALL, CALL) and (new.kids[0].kind, new.kids[0].attr) == (MEMBER, 1):      # super.m(..)
            self.was[new.kids[0]] = self.was[new.kids[1]] = None
            self.row(old.kids[0], new.kids[0].kids[0])
            self.list(old.kids[1:], new.kids[2:])
        elif pair not in ((THIS, IDENT), (IDENT, IDENT)):
            assert (old.kind, old.attr, old.name) == (new.kind, new.attr, new.name), "match"
            self.list(old.kids, new.kids)

    def list(self, old, new):
        kept = []
        for at, kid in enumerate(new):
            if is_made_var(kid) or (kid.kind == EXPR_STMT and sets_this(kid.kids[0], self.uses)):
                self.added(kid)
                self.hold_place(kid, at, new)
            else:
                kept.append(kid)
        for a, b in zip(old, kept, strict=True):
            self.row(a, b)

    def added(self, node):
        self.was.update((each, None) for each in below(node))

    def hold_place(self, kid, at, new):
        holder = kid.parent
        if kid.kind == VAR:
            function = holder.kind == BODY and holder.parent.kind == FUNCTION and self.was[holder.parent].kind == FUNCTION
            assert at == 0 and (holder.kind in (PROGRAM, STATIC_BLOCK) or function), "where a Var is added"
        else:
            assert holder.kind in (BODY, BLOCK) and model.is_super_call(new[at - 1].kids[0]), "where an assignment is added"


def try_match(script, whole, records):
    match = Match([use for use, _, _ in records])
    match.row(script.root, whole)
    was = [match.was[node] for node in below(whole)]
    rows = [node.row for node in was if node]
    assert len(match.was) == len(was) and rows == sorted(set(rows)), "match: in order, and none twice"
    gone = set(range(len(script.nodes))) - set(rows)
    assert all(script.nodes[row].kind in (SUPER, TARGET) for row in gone), "match: what went"
    TALLY["rows of results matched"] += len(was)
    TALLY["rows of results matched, added"] += len(was) - len(rows)
    TALLY["rows of tables that went"] += len(gone)


# Tables.

def moved(chance, size, mode, wild):
    """A method or object method that is moved."""
    chance.mode, chance.wild = mode, wild
    inside = chance.list_of(chance.statement, size, Place(access=True))
    given = chance.declarators(size // 6, Place(access=True)) if chance.randrange(3) == 0 else []
    if chance.randrange(3) == 0:
        return by_hand.in_object(*inside, attr=ASYNC)
    return by_hand.in_method(*inside, attr=ASYNC, given=given)


def statics(chance, size, mode, wild):
    """A function with a class whose static block may mention `super`, in something that is moved."""
    chance.mode, chance.wild = mode, wild
    block = by_hand.static_block(*chance.list_of(chance.statement, size // 2, Place(access=True)))
    inner = by_hand.func(*chance.list_of(chance.statement, size // 3, Place()), by_hand.expr(by_hand.klass(block)))
    if chance.randrange(2):
        return by_hand.in_method(by_hand.expr(inner), attr=ASYNC)
    return by_hand.in_method(by_hand.expr(by_hand.lam(inner, attr=ASYNC)))


def params(chance, size, mode, wild):
    """A function whose parameters have values, in an async arrow."""
    chance.mode, chance.wild = mode, wild
    inside, given = chance.list_of(chance.statement, size // 2, Place()), chance.declarators(size // 2, Place())
    return by_hand.one(by_hand.lam(by_hand.func(*inside, given=given), attr=ASYNC))


def values(chance, size, mode, wild):
    """A class with functions in the values of its fields; 7 is met now and then."""
    chance.mode, chance.wild = mode, wild
    inside = chance.list_of(chance.statement, size // 2, Place(arrows=chance.randrange(2) == 0))
    value = by_hand.func(*inside)
    if chance.randrange(3) == 0:
        value = by_hand.obj(by_hand.obj_method(*inside, by_hand.expr(by_hand.dot("p"))))
    return by_hand.in_class(by_hand.field(value), *chance.list_of(chance.a_member, size // 2, Place()))


MAKERS = [by_hand.Chance.table, moved, by_hand.Chance.constructed, by_hand.Chance.table, statics, params, values]
SETTINGS = [ARROWS, ONLY_ASYNC, ALL, BOTH, (1, 1, 0), ONLY_ASYNC, ONLY_GENERATORS, ONLY_ASYNC]


def try_all(first, times):
    for seed in range(first, first + times):
        switches, maker = SETTINGS[seed % len(SETTINGS)], MAKERS[seed % len(MAKERS)]
        low = 20 + seed % 50
        script = Script(by_hand.by_chance(seed, switches, low, low + 50, 0.02 if seed % 5 == 4 else 0.0, maker))
        chance = by_hand.Chance(seed)
        whole, records = script.answer(switches, script.root)
        TALLY["tables"] += 1
        TALLY["tables, turned away"] += records is None
        for use, _, _ in records or []:
            TALLY["bindings of use %d" % use] += 1
        try:
            try_cuts(script, switches, chance, whole, records)
            try_parts(script, switches, chance, whole, records)
            try_plain(script, switches, whole, records)
            if records is not None:
                try_counting(script, whole, records)
                try_match(script, whole, records)
        except (AssertionError, ValueError):
            print("seed %d, switches %d %d %d" % (seed, *switches), file=sys.stderr)
            raise


# What has to be met some times, or the tables above show too little: each condition of the page among them.
MET = ["Functions cut out, methods", "Functions to be left, in a Field's value, with a Super or an Arrow",
       "Functions to be left, arguments in its Params", "Functions to be left, no method, with super in a static block",
       "Programs in parts, with a Var", "rows of results matched, added", "rows of tables that went", "tables, turned away",
       *("bindings of use %d" % use for use in range(1, 7))]

if __name__ == "__main__":
    if len(sys.argv) == 3:
        try_all(int(sys.argv[1]), int(sys.argv[2]))
    elif len(sys.argv) == 1:
        try_all(5000, 600)
        assert all(TALLY[what] >= 10 for what in MET), "too few of some sort"
    else:
        sys.exit(__doc__)
    print(", ".join("%s: %d" % item for item in sorted(TALLY.items())))
