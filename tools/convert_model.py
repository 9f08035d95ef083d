#!/usr/bin/env python3
"""A model of the whole conversion of the request, on trees: the refusals 1, 4, 21 to 25, 3, 5 to 9, and the modules 1 and 3
to 9.

  convert_model.py --self-test    the request's sheet and its ten plots, the callers and the options, and the answers of
                                  the stored tables of tables.py

It is written from the request's words and from the Rust, and shares nothing with the crates. Rows become nodes that know
their parent, and a rule that says "outward" walks up the parents. One walk makes the bindings in their order and a new tree;
module 7 then runs on the converted body, as a second pass.
"""
import sys

sys.setrecursionlimit(20000)

(PROGRAM, EXPR_STMT, VAR, DECLARATOR, RETURN, BLOCK, OTHER) = range(7)
(OPAQUE, THIS, SUPER, IDENT, MEMBER, COMPUTED, CALL, ASSIGN, ARROW, FUNCTION, PARAMS, BODY, CLASS, METHOD, FIELD,
 STATIC_BLOCK, OBJECT, PROPERTY, SEQUENCE, ARGUMENTS, TARGET) = range(8, 29)

# The uses of a binding.
USE_THIS, USE_ARGUMENTS, USE_GET, USE_SET, USE_PROP, USE_VALUE = 1, 2, 3, 4, 5, 6

# The modes.
DISABLED, ASYNC_ONLY, ENABLED = "Disabled", "AsyncOnly", "Enabled"


class Refused(Exception):
    def __init__(self, number, place):
        super().__init__(number, place)
        self.number, self.place = number, place


# The callers.

def limits_of(tablet):
    """The most rows and the depth of a caller: "at most 512 rows and depth 32; the print room keeps 16,384 and 128"."""
    return (512, 32) if tablet else (16384, 128)


# The table as it is lent: sizes and names.

def words_of(data):
    return [int.from_bytes(data[i:i + 4], "little") for i in range(0, len(data), 4)]


def bytes_of(words):
    return b"".join(w.to_bytes(4, "little") for w in words)


def sizes(rows, names, text, most):
    """1: "row words not a multiple of 4; rows 0 or over" the caller's number; "name words odd; names over 4,096; text over
    65,535 bytes"."""
    if len(rows) % 16 or not 1 <= len(rows) // 16 <= most:
        raise Refused(1, 0)
    if len(names) % 8 or len(names) // 8 > 4096 or len(text) > 65535:
        raise Refused(1, 0)


def spellings(pairs, text):
    """4: "out of the text, length 0 or over 255, not UTF-8". The bytes of every name."""
    found = []
    for number, (start, length) in enumerate(pairs, 1):
        spelled = text[start:start + length]
        if length == 0 or length > 255 or start + length > len(text):
            raise Refused(4, number)
        try:
            spelled.decode("utf-8")
        except UnicodeDecodeError:
            raise Refused(4, number) from None
        found.append(spelled)
    return found


# The grammar: 21 to 25, a fault of a row each.

BAD_KIND = 21
BAD_ATTR = 22
BAD_END = 23
BAD_PLACE = 24
BAD_NAME = 25

LISTED = set(range(PROGRAM, OTHER + 1)) | set(range(OPAQUE, TARGET + 1))
EXPRESSIONS = {OPAQUE, THIS, IDENT, MEMBER, COMPUTED, CALL, ASSIGN, ARROW, FUNCTION, CLASS, OBJECT, SEQUENCE, ARGUMENTS}
STATEMENTS = {EXPR_STMT, VAR, RETURN, BLOCK, OTHER, FUNCTION, CLASS}
MEMBERS = {METHOD, FIELD, STATIC_BLOCK}
OBJECT_OR_SUPER = EXPRESSIONS | {SUPER}
NO_MORE = frozenset()

# Whose children are statements and nothing else.
LISTS = {PROGRAM, BLOCK, BODY, STATIC_BLOCK}


def children(kind, attr):
    """What may stand below a row: the kinds of its first children, and those of any further ones."""
    key = [EXPRESSIONS] if attr & 1 else []
    lists = {
        VAR: {DECLARATOR}, PARAMS: {DECLARATOR}, OTHER: STATEMENTS | EXPRESSIONS | {TARGET}, OPAQUE: EXPRESSIONS | {TARGET},
        OBJECT: EXPRESSIONS | {PROPERTY},
    }
    if kind in LISTS:
        return [], STATEMENTS
    if kind in lists:
        return [], lists[kind]
    if kind in (THIS, SUPER, IDENT, ARGUMENTS):
        return [], NO_MORE
    if kind in (EXPR_STMT, DECLARATOR, RETURN):
        return [EXPRESSIONS], NO_MORE
    if kind == MEMBER:
        return [OBJECT_OR_SUPER], NO_MORE
    if kind == COMPUTED:
        return [OBJECT_OR_SUPER, EXPRESSIONS], NO_MORE
    if kind == CALL:
        return [OBJECT_OR_SUPER], EXPRESSIONS
    if kind == ASSIGN:
        return [{TARGET}, EXPRESSIONS], NO_MORE
    if kind == ARROW:
        return [{PARAMS}, EXPRESSIONS if attr & 2 else {BODY}], NO_MORE
    if kind == FUNCTION:
        return [{PARAMS}, {BODY}], NO_MORE
    if kind == CLASS:
        return key, MEMBERS
    if kind == METHOD:
        return key + [{FUNCTION}], NO_MORE
    if kind == FIELD:
        return key + ([EXPRESSIONS] if attr & 4 else []), NO_MORE
    if kind == PROPERTY:
        return key + [{FUNCTION} if attr & 2 else EXPRESSIONS], NO_MORE
    if kind == SEQUENCE:
        return [EXPRESSIONS, EXPRESSIONS], EXPRESSIONS
    assert kind == TARGET
    return [{IDENT, MEMBER, COMPUTED, OPAQUE}], NO_MORE


def first_children(rows, at):
    """The children of a row by their ends: "A child whose `end` is at fault counts as its parent's last"."""
    end, kids, next_kid = rows[at][3], [], at + 1
    while next_kid < min(end, len(rows)):
        kids.append(next_kid)
        if not next_kid < rows[next_kid][3] <= end:
            break
        next_kid = rows[next_kid][3]
    return kids


def names_made(kind, attr):
    """A row that 5 speaks of."""
    return kind == ARGUMENTS or (kind in (DECLARATOR, IDENT, MEMBER) and attr == 1)


class Table:
    """Rows, how many names they have, and for each row that was met as a child its parent's row and its position there."""
    def __init__(self, rows, names):
        self.rows, self.names, self.held = rows, names, {}

    def above(self, at):
        """The kind and attr of a row's parent, and the row's position there; row 0 has no parent."""
        if at == 0:
            return None, None, None
        parent, position = self.held[at]
        return (*self.rows[parent][:2], position)


def bad_kind(table, at):
    """21: "a kind that is not in the list"."""
    return table.rows[at][0] not in LISTED


def kind_allows(kind, attr):
    """Whether a row of the kind may have the attr, as far as its place does not matter; of bit 2 of Function, see below."""
    if kind in (OTHER, OPAQUE):
        return True
    if kind == CLASS:
        return attr in (0, 1, 8, 9)
    largest = {VAR: 2, DECLARATOR: 1, BLOCK: 1, IDENT: 1, MEMBER: 1, ASSIGN: 15, ARROW: 3, FUNCTION: 15, METHOD: 3, FIELD: 7,
               PROPERTY: 3, ARGUMENTS: 1}
    return attr <= largest.get(kind, 0)


def bit_3_right(attr, parent):
    """Of a Function or Class: "statements 1, 2, 4, 5, 6, and 17 or 20 with bit 3, which they carry only there". Under Other,
    which holds statements and expressions, either is right."""
    return parent == OTHER or (attr & 8 != 0) == (parent in LISTS)


def bit_2_right(attr, parent, parent_attr, position):
    """"Bit 2 of Function stands alone, on the last child of a non-static Method"."""
    return not attr & 4 or (attr == 4 and parent == METHOD and not parent_attr & 2 and position == parent_attr % 2)


def bad_attr(table, at):
    """22: "an attr that the kind or its place doesn't allow (also a Function or Class without bit 3 in a statement's place)".
    A misplaced Function or Class has this fault too if its bit 3 or 2 is wrong for where it stands."""
    kind, attr = table.rows[at][:2]
    parent, parent_attr, position = table.above(at)
    return (not kind_allows(kind, attr)
            or (kind in (FUNCTION, CLASS) and not bit_3_right(attr, parent))
            or (kind == FUNCTION and not bit_2_right(attr, parent, parent_attr, position)))


def bad_end(table, at):
    """23: "an `end` that is not past the row, exceeds the parent's end or in row 0 is not the row count"."""
    end = table.rows[at][3]
    if at == 0:
        return end != len(table.rows)
    return not at < end <= table.rows[table.held[at][0]][3]


def bad_place(table, at):
    """24: "a row that its parent can't hold there, a row 0 that is no Program or a wrong number of children"."""
    kind, attr = table.rows[at][:2]
    if at == 0 and kind != PROGRAM:
        return True
    if at > 0:
        parent, parent_attr, position = table.above(at)
        wanted, more = children(parent, parent_attr)
        if kind not in (wanted[position] if position < len(wanted) else more):
            return True
    count = len(first_children(table.rows, at))
    wanted, more = children(kind, attr)
    fewest = 0 if kind in (DECLARATOR, RETURN) else len(wanted)
    return count < fewest or (not more and count > len(wanted))


def bad_name(table, at):
    """25: "a name outside its rule": "Ident, Member and Declarator with attr 0 name a name; Function and Class may have 0;
    Other and Opaque hold any number; all else has 0". It "tests no name on a row that 5 names"."""
    kind, attr, name, _ = table.rows[at]
    if names_made(kind, attr) or kind in (OTHER, OPAQUE):
        return False
    if kind in (DECLARATOR, IDENT, MEMBER):
        return not 1 <= name <= table.names
    if kind in (FUNCTION, CLASS):
        return name > table.names
    return name != 0


def faults(table, at):
    """The numbers of a row's faults, where all rows before it are sound. A row of a kind that is not in the list has no
    other."""
    if bad_kind(table, at):
        return [BAD_KIND]
    tests = [(BAD_ATTR, bad_attr), (BAD_END, bad_end), (BAD_PLACE, bad_place), (BAD_NAME, bad_name)]
    return [number for number, is_bad in tests if is_bad(table, at)]


def grammar(rows, names):
    """21 to 25: "The place stays the lowest bad row; where that row has several faults the lowest number is told"."""
    table = Table(rows, names)
    for at in range(len(rows)):
        found = faults(table, at)
        if found:
            raise Refused(min(found), at)
        for position, kid in enumerate(first_children(rows, at)):
            table.held[kid] = (at, position)


# Nodes.

class Node:
    """A row of the table, or one that the conversion makes (row None)."""
    def __init__(self, kind, attr=0, name=0, kids=(), row=None, parent=None):
        self.kind, self.attr, self.name, self.kids = kind, attr, name, list(kids)
        self.row, self.parent = row, parent


def tree(rows):
    """The nodes of a table that is sound, in the order of the rows."""
    nodes = []
    for at, (kind, attr, name, _) in enumerate(rows):
        nodes.append(Node(kind, attr, name, row=at))
    for at in range(len(rows)):
        for kid in first_children(rows, at):
            nodes[kid].parent = nodes[at]
            nodes[at].kids.append(nodes[kid])
    return nodes


def laid(node, rows=None):
    """The rows of a tree, in preorder."""
    rows = [] if rows is None else rows
    at = len(rows)
    rows.append([node.kind, node.attr, node.name, 0])
    for kid in node.kids:
        laid(kid, rows)
    rows[at][3] = len(rows)
    return rows


def outward(node):
    """What holds a node, from the nearest to Program, each with its child on the way."""
    while node.parent is not None:
        yield node.parent, node
        node = node.parent


def below(node):
    """A node and all that it holds."""
    yield node
    for kid in node.kids:
        yield from below(kid)


def is_called(node):
    """Whether a Super is called."""
    return node.parent.kind == CALL


def is_value(field, kid):
    return field.kind == FIELD and field.attr & 4 and kid is field.kids[-1]


def method_like(function):
    """"Method-like: last child of a Method, or of a Property with bit 1"."""
    holder = function.parent
    return function is holder.kids[-1] and (holder.kind == METHOD or (holder.kind == PROPERTY and holder.attr & 2 != 0))


def of_super(node):
    """`super.p` or `super[k]`."""
    return node.kind in (MEMBER, COMPUTED) and node.kids[0].kind == SUPER


# The refusals 3, 5, 6, 7, 8.

def depth(nodes, most):
    deep = [0] * len(nodes)
    for node in nodes[1:]:
        deep[node.row] = deep[node.parent.row] + 1
        if deep[node.row] > most:
            raise Refused(3, node.row)


def made_rows(nodes):
    for node in nodes:
        if names_made(node.kind, node.attr):
            raise Refused(5, node.row)


def owner(node):
    """"Owner: outward, past Arrows, the nearest Function, StaticBlock, Field value or Program"."""
    for holder, kid in outward(node):
        if holder.kind in (FUNCTION, STATIC_BLOCK, PROGRAM) or is_value(holder, kid):
            return holder


def super_allowed(node):
    """"A called Super wants a constructor; any other wants a method-like Function, a StaticBlock or a Field"."""
    who = owner(node)
    if is_called(node):
        return who.kind == FUNCTION and who.attr & 4 != 0
    return who.kind in (STATIC_BLOCK, FIELD) or (who.kind == FUNCTION and method_like(who))


def outside(nodes, mode, spelled):
    for node in nodes:
        if node.kind == SUPER and not super_allowed(node):
            raise Refused(6, node.row)
    shut_out = {SUPER, ARROW} if mode == ASYNC_ONLY else {SUPER}
    for node in nodes:
        if node.kind == FIELD and node.attr & 4 and any(n.kind in shut_out for n in below(node.kids[-1])):
            raise Refused(7, node.row)
    for node in nodes:
        if mode == ASYNC_ONLY and node.kind in (DECLARATOR, FUNCTION, CLASS) and node.name \
                and spelled[node.name - 1] == b"arguments":
            raise Refused(8, node.row)


# The conversion.

class Accessor:
    """One accessor of a frame: its binding, whether it sets, its property's name number, 0 for a computed one."""
    def __init__(self, number, sets, name):
        self.number, self.sets, self.name = number, sets, name


class Frame:
    def __init__(self):
        self.this = 0            # the number of the captured this
        self.arguments = 0
        self.accessors = {}      # by (sets, the property's bytes or None), in the order of first use
        self.super_left = False  # a Super left in place has this Function as its nearest Function


class Conversion:
    def __init__(self, arrow, asyn, asyncgen, spelled):
        self.mode = mode_of(arrow, asyn, asyncgen)
        self.asyn, self.asyncgen, self.spelled = asyn, asyncgen, spelled
        self.records = []
        self.frames = {}

    # Module 1.

    def moved(self, node):
        """"Moved means async and its switch on: async generators for a generator, async-to-generator otherwise"."""
        generator = node.kind == FUNCTION and node.attr & 2
        return bool(node.attr & 1 and (self.asyncgen if generator else self.asyn))

    # Module 3.

    def captured(self, this):
        for holder, kid in outward(this):
            if holder.kind in (PROGRAM, STATIC_BLOCK) or is_value(holder, kid):
                return False
            if holder.kind == FUNCTION:
                return kid is holder.kids[1] and self.moved(holder) and method_like(holder)
            if holder.kind == ARROW and not (self.mode == ASYNC_ONLY and not self.moved(holder)):
                return True

    def this_frame(self, this):
        """"The nearest Function, StaticBlock or Program, Fields skipped"."""
        return next(holder for holder, _ in outward(this) if holder.kind in (FUNCTION, STATIC_BLOCK, PROGRAM))

    # Module 4.

    def super_moves(self, access):
        for holder, _ in outward(access):
            if holder.kind == FUNCTION and method_like(holder):
                return self.moved(holder)
            if self.mode == ASYNC_ONLY and holder.kind == ARROW and self.moved(holder):
                return True
        return False

    def super_frame(self, access):
        """"The nearest method-like Function or StaticBlock"."""
        return next(holder for holder, _ in outward(access)
                    if holder.kind == STATIC_BLOCK or (holder.kind == FUNCTION and method_like(holder)))

    # Module 5.

    def arguments_moves(self, ident):
        if self.mode != ASYNC_ONLY or self.spelled[ident.name - 1] != b"arguments":
            return False
        for holder, kid in outward(ident):
            if holder.kind == ARROW and self.moved(holder):
                return True
            if holder.kind == FUNCTION and kid is holder.kids[1]:
                return self.moved(holder) and method_like(holder)
        return False

    def arguments_frame(self, ident):
        return next(holder for holder, _ in outward(ident) if holder.kind in (FUNCTION, PROGRAM))

    # Bindings.

    def bind(self, use, name, frame):
        """A new binding's number: "Record: use, property name number or 0, frame's input row"."""
        self.records.append([use, name, frame.row])
        return len(self.records)

    def frame_of(self, node):
        return self.frames.setdefault(node.row, Frame())

    def capture_this(self, this):
        at = self.this_frame(this)
        frame = self.frame_of(at)
        if not frame.this:
            frame.this = self.bind(USE_THIS, 0, at)
        return Node(IDENT, 1, frame.this)

    def capture_arguments(self, ident):
        at = self.arguments_frame(ident)
        frame = self.frame_of(at)
        if not frame.arguments:
            frame.arguments = self.bind(USE_ARGUMENTS, 0, at)
        return Node(IDENT, 1, frame.arguments)

    def accessor(self, access, sets):
        """"One accessor per frame, get or set, and property; all computed ones share"."""
        at = self.super_frame(access)
        frame = self.frame_of(at)
        computed = access.kind == COMPUTED
        key = (sets, None if computed else self.spelled[access.name - 1])
        if key not in frame.accessors:
            name = 0 if computed else access.name
            number = self.bind(USE_SET if sets else USE_GET, name, at)
            frame.accessors[key] = Accessor(number, sets, name)
        return Node(IDENT, 1, frame.accessors[key].number)

    # Module 9: the walk.

    def walk(self, node):
        if node.kind == THIS and self.captured(node):
            return self.capture_this(node)
        if node.kind == IDENT and self.arguments_moves(node):
            return self.capture_arguments(node)
        if of_super(node) and node.parent.kind != TARGET and self.super_moves(node):
            return self.get(node)
        if node.kind == CALL and of_super(node.kids[0]) and self.super_moves(node.kids[0]):
            return self.called(node)
        if node.kind == ASSIGN and of_super(node.kids[0].kids[0]) and self.super_moves(node.kids[0].kids[0]):
            return self.assigned(node)
        if node.kind == SUPER:
            self.leave_super(node)
        if node.kind == ARROW and self.mode == ENABLED and not node.attr & 1:
            return self.arrow(node)
        made = Node(node.kind, node.attr, node.name, [self.walk(kid) for kid in node.kids])
        if node.kind in (PROGRAM, STATIC_BLOCK):
            self.close(node, made.kids)
        if node.kind == FUNCTION:
            self.close(node, made.kids[1].kids)
        return made

    def key(self, access):
        return [self.walk(access.kids[1])] if access.kind == COMPUTED else []

    def get(self, access):
        """`super.p` and `super[k]`."""
        accessor = self.accessor(access, False)
        return Node(CALL, kids=[accessor] + self.key(access))

    def called(self, call):
        """`super.m(a)` becomes `get().call(this, a)`."""
        callee = Node(MEMBER, 1, kids=[self.get(call.kids[0])])
        this = self.walk(Node(THIS, parent=call))
        return Node(CALL, kids=[callee, this] + [self.walk(kid) for kid in call.kids[1:]])

    def assigned(self, assign):
        """An assignment, "the operator ignored"."""
        access = assign.kids[0].kids[0]
        accessor = self.accessor(access, True)
        return Node(CALL, kids=[accessor] + self.key(access) + [self.walk(assign.kids[1])])

    def leave_super(self, node):
        for holder, _ in outward(node):
            if holder.kind == FUNCTION:
                self.frame_of(holder).super_left = True
                return

    # Module 6.

    def arrow(self, node):
        params, body = (self.walk(kid) for kid in node.kids)
        if node.attr & 2:
            body = Node(BODY, kids=[Node(RETURN, kids=[body])])
        return Node(FUNCTION, kids=[params, body])

    # Module 8.

    def close(self, node, statements):
        """"As a frame closes, one Var goes first: arguments (guarded at Program), accessors by first use, this"."""
        frame = self.frames.get(node.row)
        if frame is None:
            return
        declarators = []
        if frame.arguments:
            guard = Node(ARGUMENTS, 1 if node.kind == PROGRAM else 0)
            declarators.append(Node(DECLARATOR, 1, frame.arguments, [guard]))
        for accessor in frame.accessors.values():
            declarators.append(Node(DECLARATOR, 1, accessor.number, [self.accessor_arrow(accessor, node)]))
        if frame.this:
            value = [Node(THIS)]
            if node.kind == FUNCTION and node.attr & 4 and frame.super_left:
                scan(statements, frame.this)
                value = []
            declarators.append(Node(DECLARATOR, 1, frame.this, value))
        if declarators:
            statements.insert(0, Node(VAR, kids=declarators))

    def accessor_arrow(self, accessor, node):
        """"Expression Arrows with params prop if computed, then value if set"."""
        params = []
        if accessor.name:
            body = Node(MEMBER, 0, accessor.name, [Node(SUPER)])
        else:
            prop = self.bind(USE_PROP, 0, node)
            params.append(Node(DECLARATOR, 1, prop))
            body = Node(COMPUTED, kids=[Node(SUPER), Node(IDENT, 1, prop)])
        if accessor.sets:
            value = self.bind(USE_VALUE, 0, node)
            params.append(Node(DECLARATOR, 1, value))
            body = Node(ASSIGN, kids=[Node(TARGET, kids=[body]), Node(IDENT, 1, value)])
        return Node(ARROW, 2, kids=[Node(PARAMS, kids=params), body])


# Module 7, on the converted body.

def assignment(this):
    """`captured = this`."""
    return Node(ASSIGN, kids=[Node(TARGET, kids=[Node(IDENT, 1, this)]), Node(THIS)])


def is_super_call(node):
    return node.kind == CALL and node.kids[0].kind == SUPER


def scan(statements, this):
    """A list: "the first direct `super(..)` statement has its arguments visited and `captured = this` put after it as a
    statement; the scan of that list stops"."""
    for at, statement in enumerate(statements):
        if statement.kind == EXPR_STMT and is_super_call(statement.kids[0]):
            visit_kids(statement.kids[0], this, 1)
            statements.insert(at + 1, Node(EXPR_STMT, kids=[assignment(this)]))
            return
        statements[at] = visited(statement, this)


def visit_kids(node, this, first=0, count=None):
    """Visits the children from `first` on, `count` of them or all."""
    last = len(node.kids) if count is None else first + count
    for at in range(first, last):
        node.kids[at] = visited(node.kids[at], this)


def visited(node, this):
    if is_super_call(node):
        return Node(SEQUENCE, kids=[node, assignment(this)])
    if node.kind in (BODY, BLOCK):
        scan(node.kids, this)
    elif node.kind == CLASS:
        if node.attr & 1:
            visit_kids(node, this, 0, 1)
        for member in node.kids[node.attr & 1:]:
            if member.kind in (METHOD, FIELD) and member.attr & 1:
                visit_kids(member, this, 0, 1)
    elif node.kind not in (FUNCTION, STATIC_BLOCK):
        visit_kids(node, this)
    return node


# The entry.

def mode_of(arrow, asyn, asyncgen):
    """Module 1: "Arrow switch on: Enabled. Else either async switch: AsyncOnly. Else Disabled"."""
    if arrow:
        return ENABLED
    return ASYNC_ONLY if asyn or asyncgen else DISABLED


def checked(rows, names, text, tablet=False):
    """1, 4, 21 to 25, 3, 5: the nodes and the names' bytes of a table that is sound for its caller."""
    most_rows, most_depth = limits_of(tablet)
    sizes(rows, names, text, most_rows)
    words, pairs = words_of(rows), words_of(names)
    spelled = spellings(list(zip(pairs[::2], pairs[1::2])), text)
    table = [words[i:i + 4] for i in range(0, len(words), 4)]
    grammar(table, len(spelled))
    nodes = tree(table)
    depth(nodes, most_depth)
    made_rows(nodes)
    return nodes, spelled


def converted(arrow, asyn, asyncgen, rows, names, text, tablet=False):
    """The rows and the records of the result, whatever room there is. The caller's limits are on the table alone."""
    nodes, spelled = checked(rows, names, text, tablet)
    conversion = Conversion(arrow, asyn, asyncgen, spelled)
    if conversion.mode == DISABLED:
        return laid(nodes[0]), []
    outside(nodes, conversion.mode, spelled)
    return laid(conversion.walk(nodes[0])), conversion.records


def convert_bytes(arrow, asyn, asyncgen, rows, names, text, lent_rows, lent_records, tablet=False):
    """The entry as the host calls it: bytes in, and how many bytes are lent for rows and for records."""
    try:
        made, records = converted(arrow, asyn, asyncgen, rows, names, text, tablet)
        if len(made) > lent_rows // 16 or len(records) > lent_records // 12:
            raise Refused(9, 0)
    except Refused as refused:
        return refused.number, refused.place, 0, 0, [], []
    return 0, 0, len(made), len(records), made, records


OPTION_ARROW, OPTION_ASYNC, OPTION_ASYNCGEN, OPTION_TABLET = 1, 2, 4, 8


def convert_with(options, rows, names, text, lent_rows, lent_records):
    """The entry that is told its caller: the switches and the caller are bits of one word. A bit without a name is not
    looked at."""
    arrow, asyn, asyncgen, tablet = (
        options & bit != 0 for bit in (OPTION_ARROW, OPTION_ASYNC, OPTION_ASYNCGEN, OPTION_TABLET))
    return convert_bytes(arrow, asyn, asyncgen, rows, names, text, lent_rows, lent_records, tablet)


def convert(arrow, asyn, asyncgen, words, pairs, text, room_rows, room_records, tablet=False):
    """(number, place, rows, records, row words, record words) for words, name pairs and room in rows and records."""
    names = bytes_of([w for pair in pairs for w in pair])
    answer = convert_bytes(arrow, asyn, asyncgen, bytes_of(words), names, text, 16 * room_rows, 12 * room_records, tablet)
    number, place, rows, records, made, bound = answer
    return number, place, rows, records, [w for row in made for w in row], [w for record in bound for w in record]


# The self-test.

def read_rows(text):
    return [int(w) for line in text.strip().splitlines() for w in line.split("#")[0].split()]


SHEET = """
0 0 0 5
1 0 0 5
16 2 0 5
18 0 0 4
9 0 0 5
"""

SHEET_RESULT = """
0 0 0 10
2 0 0 4
3 1 1 4
9 0 0 4
1 0 0 10
17 0 0 10
18 0 0 7
19 0 0 10
4 0 0 10
11 1 1 10
"""

# `async () => this`
ASYNC_ARROW = SHEET.replace("16 2 0 5", "16 3 0 5")

ASYNC_ARROW_RESULT = """
0 0 0 8    # Program
2 0 0 4    #   Var
3 1 1 4    #     Declarator: binding 1
9 0 0 4    #       This
1 0 0 8    #   ExprStmt
16 3 0 8   #     Arrow, which stays
18 0 0 7
11 1 1 8   #       binding 1
"""

# `class { async m() { super.foo; super.foo } }` as an expression
TWO_GETS = """
0 0 0 13
1 0 0 13
20 0 0 13
21 0 0 13
17 1 0 13
18 0 0 6
19 0 0 13
1 0 0 10
12 0 1 10
10 0 0 10
1 0 0 13
12 0 1 13
10 0 0 13
"""

TWO_GETS_RESULT = """
0 0 0 19
1 0 0 19
20 0 0 19
21 0 0 19
17 1 0 19
18 0 0 6
19 0 0 19
2 0 0 13    # Var
3 1 1 13    #   Declarator: binding 1
16 2 0 13   #     () =>
18 0 0 11
12 0 1 13   #     super.foo
10 0 0 13
1 0 0 16
14 0 0 16   # binding 1 called
11 1 1 16
1 0 0 19
14 0 0 19   # binding 1 called
11 1 1 19
"""

# `class { async m() { super.f(1) } }` as an expression
SUPER_CALL = """
0 0 0 12
1 0 0 12
20 0 0 12
21 0 0 12
17 1 0 12
18 0 0 6
19 0 0 12
1 0 0 12
14 0 0 12
12 0 1 11
10 0 0 11
8 0 0 12
"""

SUPER_CALL_RESULT = """
0 0 0 22
1 0 0 22
20 0 0 22
21 0 0 22
17 1 0 22
18 0 0 6
19 0 0 22
2 0 0 15    # Var
3 1 1 13    #   Declarator: binding 1, get
16 2 0 13
18 0 0 11
12 0 1 13
10 0 0 13
3 1 2 15    #   Declarator: binding 2, this
9 0 0 15
1 0 0 22
14 0 0 22   # Call
12 1 0 20   #   Member `call`
14 0 0 20   #     Call
11 1 1 20   #       binding 1
11 1 2 21   #   binding 2
8 0 0 22    #   1
"""

# `class { constructor() { super(); () => this } }` as an expression
CONSTRUCTOR = """
0 0 0 14
1 0 0 14
20 0 0 14
21 0 0 14
17 4 0 14
18 0 0 6
19 0 0 14
1 0 0 10
14 0 0 10
10 0 0 10
1 0 0 14
16 2 0 14
18 0 0 13
9 0 0 14
"""

CONSTRUCTOR_RESULT = """
0 0 0 23
1 0 0 23
20 0 0 23
21 0 0 23
17 4 0 23
18 0 0 6
19 0 0 23
2 0 0 9     # Var
3 1 1 9     #   Declarator without an initialiser
1 0 0 12
14 0 0 12   # super()
10 0 0 12
1 0 0 17
15 0 0 17   # binding 1 = this
28 0 0 16
11 1 1 16
9 0 0 17
1 0 0 23
17 0 0 23
18 0 0 20
19 0 0 23
4 0 0 23
11 1 1 23
"""

# `async () => arguments`
ASYNC_ARGUMENTS = """
0 0 0 5
1 0 0 5
16 3 0 5
18 0 0 4
11 0 1 5
"""

ASYNC_ARGUMENTS_RESULT = """
0 0 0 8
2 0 0 4     # Var
3 1 1 4     #   Declarator: binding 1
27 1 0 4    #     guarded
1 0 0 8
16 3 0 8
18 0 0 7
11 1 1 8
"""


def plots():
    """The sheet and "Plots walked by hand", each for both callers."""
    def plot(what, switches, rows, result, records, names=(), text=b"", room=2048):
        words, want = read_rows(rows), read_rows(result)
        for tablet in (False, True):
            got = convert(*switches, words, list(names), text, room, 256, tablet)
            assert got == (0, 0, len(want) // 4, len(records), want, [w for r in records for w in r]), (what, tablet, got)

    off, arrows, only_async, only_generators = (0, 0, 0), (1, 0, 0), (0, 1, 0), (0, 0, 1)
    plot("1 the sheet", arrows, SHEET, SHEET_RESULT, [(1, 0, 0)])
    plot("2 with 10 rows", arrows, SHEET, SHEET_RESULT, [(1, 0, 0)], room=10)
    assert convert(*arrows, read_rows(SHEET), [], b"", 9, 256) == (9, 0, 0, 0, [], []), "2 with 9 rows"
    plot("3 all off", off, SHEET, SHEET, [])
    plot("4 async on only", only_async, SHEET, SHEET, [])
    plot("5 an async arrow", only_async, ASYNC_ARROW, ASYNC_ARROW_RESULT, [(1, 0, 0)])
    plot("6 async generators on only", only_generators, ASYNC_ARROW, ASYNC_ARROW, [])
    foo = dict(names=[(0, 3)], text=b"foo")
    plot("7 super.foo twice", only_async, TWO_GETS, TWO_GETS_RESULT, [(3, 1, 4)], **foo)
    plot("8 super.f(1)", only_async, SUPER_CALL, SUPER_CALL_RESULT, [(3, 1, 4), (1, 0, 4)], **foo)
    plot("9 super(); () => this", arrows, CONSTRUCTOR, CONSTRUCTOR_RESULT, [(1, 0, 4)])
    plot("10 arguments at Program", only_async, ASYNC_ARGUMENTS, ASYNC_ARGUMENTS_RESULT, [(2, 0, 0)],
         names=[(0, 9)], text=b"arguments")
    return 10


def options():
    """The bits of the options by hand, on `() => (this, this, ..)` and on the same async, of 512 and of 513 rows."""
    def answer(word, attr, rows):
        table = [[0, 0, 0, rows], [1, 0, 0, rows], [16, attr, 0, rows], [18, 0, 0, 4], [26, 0, 0, rows]]
        table += [[9, 0, 0, at + 1] for at in range(5, rows)]
        return convert_with(word, bytes_of([w for row in table for w in row]), b"", b"", 16 * 520, 12)[:4]

    # The switches, and how many rows the plain arrow's result and the async one's have more; a capture has a binding.
    settings = [(0, 0, 0), (1, 5, 3), (2, 0, 3), (3, 5, 3), (4, 0, 0), (5, 5, 3), (6, 0, 3), (7, 5, 3)]
    for unnamed in (0, 1 << 31):
        for switches, plain, asyn in settings:
            word = unnamed + switches
            for attr, more in ((2, plain), (3, asyn)):
                bound = 1 if more else 0
                assert answer(word, attr, 512) == answer(word + 8, attr, 512) == (0, 0, 512 + more, bound), word
                assert answer(word, attr, 513) == (0, 0, 513 + more, bound), word
                assert answer(word + 8, attr, 513) == (1, 0, 0, 0), word
    return 2 * len(settings)


def stored_tables():
    """The answers that stand by hand beside the tables of tables.py, for those with the limits of a caller."""
    import tables

    count = 0
    callers = {(tables.ROWS, tables.DEPTH): False, (512, 32): True}

    def compare(what, rows, number, place, names=tables.ABC, text=b"abc", limits=(tables.ROWS, tables.DEPTH),
                after_rows=0, after_names=0):
        nonlocal count
        if isinstance(rows, tables.Row):
            rows = tables.lay(rows)
        if limits not in callers:
            return
        lent = bytes_of([w for row in rows for w in row]) + bytes(after_rows)
        pairs = bytes_of([w for pair in names for w in pair]) + bytes(after_names)
        try:
            checked(lent, pairs, text, callers[limits])
            got = (0, 0)
        except Refused as refused:
            got = (refused.number, refused.place)
        assert got == (number, place), (what, got, (number, place))
        count += 1

    tables.table = compare
    tables.whole()
    return count


if __name__ == "__main__":
    if sys.argv[1:] != ["--self-test"]:
        sys.exit(__doc__)
    print("%d plots, %d options and %d stored tables as they should be" % (plots(), options(), stored_tables()))
