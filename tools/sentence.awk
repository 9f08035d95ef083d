# Says in one sentence why a sheet was refused, from the answer's number and place and from the sheet:
#
#   LC_ALL=C awk -v number=7 -v place=2 -v cut=0 -f sentence.awk SHEET
#
# cut is 1 where SHEET is only the front of a longer one. The sheet is read as bytes, of which none is 0. ./convert writes the
# sentence to the standard error; tools/convert_test.py has one of each sort, tools/row_sentences those of a bad row.

BEGIN {
  SWITCHES = "arrow async asyncgen"
  NAMES = "name"
  ROWS = "kind attr name end"
  split("Program ExprStmt Var Declarator Return Block Other - Opaque This Super Ident Member Computed Call Assign Arrow Function " \
    "Params Body Class Method Field StaticBlock Object Property Sequence Arguments Target", kinds, " ")
  number += 0
  place += 0
  in_rows = number == 3 || (number >= 5 && number <= 8)
  bad = number >= 21 && number <= 25
}

# The lines that matter: the switches; of a refusal by row its row and the one before it, of a bad row all rows; of 4 the name;
# of 12 the line. The reading ends where no later line can matter.
NR == 2 { switches = $0 }
NR > 3 && header {
  if (in_rows && rows + 1 == place) above = $0
  if (in_rows && rows == place) row = $0
  if (bad) { split($0, part, " "); for (k = 1; k <= 4; k++) cell[rows + 0, k] = part[k] }
  rows++
}
NR > 3 && !header {
  if ($0 == ROWS) header = NR
  else {
    names++
    text += length($0)
    if (number == 4 && names == place) name = $0
    if (number == 12 && !like && $0 ~ /^[ \t]*kind[ \t]+attr[ \t]+name[ \t]+end[ \t\r]*$/) { like = NR; like_line = $0 }
  }
}
number == 12 && NR == place { there = 1; line = $0; exit }
in_rows && place > 0 && rows > place { exit }

END {
  if (number == 1) said = sizes()
  else if (number == 3) said = row_at() ": it is nested deeper than 128"
  else if (number == 4) said = "name " place " (line " (3 + place) ") " bad_name() ": 1 to 255 bytes of UTF-8 are expected"
  else if (number == 5) said = row_at() ": this sort of row" (kind_of(row) == 27 ? "" : ", with attr 1,") " is only found in a converted table"
  else if (number == 6) said = row_at() ": " bad_super()
  else if (number == 7) said = row_at() ": its value holds a `super`" (switches ~ /^1/ ? "" : " or, while the arrow switch is 0, an arrow") ", which is not converted"
  else if (number == 8) said = row_at() ": it is named `arguments`, which is not converted while the arrow switch is 0; give it another name"
  else if (number == 9) said = "the result has too many rows or bindings: there is room for 2048 rows and 256 bindings"
  else if (number == 12) said = bad_line()
  else if (bad) said = bad_row()
  if (said == "") said = "place " place
  print "refusal " number ": " said
}

function joined(a, b) { return a == "" ? b : b == "" ? a : a " and " b }

# Bytes of the sheet as they may be shown: short, and without what a terminal would not print.
function shown(s,   long) {
  long = length(s) > 40
  s = substr(s, 1, 40)
  gsub(/[^ -~]/, "?", s)
  return "`" s (long ? ".." : "") "`"
}

# Rows.

function field_of(s, k,   part) { split(s, part, " "); return part[k] }
function kind_of(s) { return field_of(s, 1) + 0 }

# The name of a kind, and the same behind its article.
function kind_name(k) { return k + 0 <= 28 && k + 0 != 7 ? kinds[k + 1] : "" }
function with_article(kind) { return (kind ~ /^[AEIO]/ ? "an " : "a ") kind }

# "(line 9)"
function line_at() { return "(line " (header + 1 + place) ")" }

# "row 3, a Super (line 9)"
function row_at() { return "row " place ", " with_article(kind_name(kind_of(row))) " " line_at() }

# Super is the first child of its parent, so the parent is the row above.
function bad_super() {
  if (kind_of(above) == 14) return "a call of `super` may not stand here: a constructor is expected around it, and no function but arrows in between"
  return "`super` may not stand here: a method, a static block or a class field is expected around it, and no function but arrows in between"
}

# Bad rows, 21 to 25. Numbers of the sheet are shown as they stand there, since not every awk prints large ones in full.
# `parent` is the row that the bad one stands under, -1 for row 0. The words are those of host/src/fault.rs.

function kind_at(r) { return r < 0 ? "" : kind_name(cell[r, 1]) }
function has(attr, bit) { return int(attr / bit) % 2 == 1 }
function is_list(kind) { return kind ~ /^(Program|Block|Body|StaticBlock)$/ }

function bad_row(   words) {
  words = place < rows ? bad_words(kind_at(place)) : ""
  return words == "" ? "" : "row " place " " line_at() ": " words
}

function bad_words(kind,   parent) {
  if (kind == "") return number == 21 ? "there is no kind " cell[place, 1] ": the kinds are 0 to 6 and 8 to 28" : ""
  parent = parent_of()
  if (place > 0 && kind_at(parent) == "") return ""
  if (number == 22) return bad_attr(kind, cell[place, 2], parent)
  if (number == 23) return bad_end(kind, cell[place, 4], parent)
  if (number == 24) return bad_place(kind, cell[place, 2], parent)
  if (number == 25) return bad_number(kind, cell[place, 3])
  return ""
}

# The rows before the bad one are sound, so its parent is the last of them that ends past it.
function parent_of(   r) {
  for (r = place - 1; r >= 0; r--) if (cell[r, 4] + 0 > place) return r
  return -1
}

# How many children a row has that ends there. `faulty` is the last of them where its own end is at fault, else empty.
function children(r, end,   child, past, count) {
  faulty = ""
  count = 0
  for (child = r + 1; child < end && child < rows; child = past) {
    count++
    past = cell[child, 4] + 0
    if (past <= child || past > end) { faulty = child; break }
  }
  return count
}

# "a Call under the ExprStmt in row 3", "the first row, a Return,"
function standing(kind, parent) {
  return parent < 0 ? "the first row, " with_article(kind) "," : with_article(kind) " under the " kind_at(parent) " in row " parent
}

function bad_attr(kind, attr, parent,   words, list, constructor) {
  words = attrs_of(kind)
  if (attr + 0 > most || (kind == "Class" && (has(attr, 2) || has(attr, 4)))) return with_article(kind) " has attr " words "; it has " attr
  if (kind != "Function" && kind != "Class") return ""
  list = is_list(kind_at(parent))
  if (list && !has(attr, 8)) return standing(kind, parent) " is a statement, with bit 3 (8) in its attr; it has attr " attr
  if (!list && kind_at(parent) != "Other" && has(attr, 8))
    return standing(kind, parent) " is no statement, and has no bit 3 (8) in its attr; it has attr " attr
  constructor = kind_at(parent) == "Method" && !has(cell[parent, 2], 2) && children(parent, place + 1) == 1 + has(cell[parent, 2], 1)
  if (kind == "Function" && has(attr, 4) && !(attr + 0 == 4 && constructor))
    return "a Function has bit 2 (4) in its attr alone, and only as the last child of a Method that is not static; it has attr " attr
  return ""
}

# The attrs of a kind in words; past `most` there is none.
function attrs_of(kind) {
  most = 0
  if (kind ~ /^(Declarator|Ident|Member)$/) { most = 1; return "0, or 1 in a result only" }
  if (kind == "Block") { most = 1; return "0 or 1" }
  if (kind == "Arguments") { most = 1; return "0 or 1, in a result only" }
  if (kind == "Var") { most = 2; return "0, 1 or 2" }
  if (kind ~ /^(Arrow|Method|Property)$/) { most = 3; return "0 to 3" }
  if (kind == "Field") { most = 7; return "0 to 7" }
  if (kind == "Class") { most = 9; return "0, 1, 8 or 9" }
  if (kind == "Assign") { most = 15; return "0 to 15" }
  if (kind == "Function") { most = 15; return "0 to 4 or 8 to 11" }
  if (kind ~ /^(Other|Opaque)$/) { most = 4294967295; return "any number" }
  return "0"
}

function bad_end(kind, end, parent,   least, last) {
  if (parent < 0)
    return end + 0 == rows ? "" : standing(kind, parent) " ends at the number of rows, which is " rows "; its end is " end
  least = place + 1
  last = cell[parent, 4] + 0
  if (end + 0 >= least && end + 0 <= last) return ""
  return standing(kind, parent) " ends at " least (least == last ? "" : " to " last) ", past its row and not past its parent's end; its end is " end
}

function bad_place(kind, attr, parent,   count, words) {
  if (parent < 0) return kind == "Program" ? "" : "the first row is a Program; this is " with_article(kind)
  count = children(place, cell[place, 4] + 0)
  words = holds(kind, attr)
  if (count < least || count > most)
    return words "; it has " (count == 0 ? "no children" : count == 1 ? "1 child" : count " children") \
      (faulty == "" ? "" : ", as row " faulty ", whose end is at fault, counts as the last")
  if (kind == "Super") words = "a Super stands only as the first child of a Member, Computed or Call; this is"
  else words = holds(kind_at(parent), cell[parent, 2]) "; this is " with_article(kind) ","
  return words " child " children(parent, place + 1) " of the " kind_at(parent) " in row " parent
}

# "a Return holds one expression or none": what a row holds. The attr is told where it matters. `least` and `most` are how many.
function holds(kind, attr) {
  return with_article(kind) (kind ~ /^(Arrow|Class|Method|Field|Property)$/ ? " with attr " attr : "") " holds " held(kind, attr)
}

function counted(from, to, words) { least = from; most = to; return words }

function held(kind, attr,   many) {
  many = 4294967295
  if (is_list(kind)) return counted(0, many, "statements")
  if (kind ~ /^(Var|Params)$/) return counted(0, many, "Declarators")
  if (kind == "Other") return counted(0, many, "statements, expressions and Targets")
  if (kind == "Opaque") return counted(0, many, "expressions and Targets")
  if (kind == "Object") return counted(0, many, "Properties and expressions")
  if (kind ~ /^(This|Super|Ident|Arguments)$/) return counted(0, 0, "nothing")
  if (kind == "ExprStmt") return counted(1, 1, "one expression")
  if (kind ~ /^(Declarator|Return)$/) return counted(0, 1, "one expression or none")
  if (kind == "Sequence") return counted(2, many, "two or more expressions")
  if (kind == "Member") return counted(1, 1, "one expression, which may be a Super")
  if (kind == "Computed") return counted(2, 2, "two expressions, the first of which may be a Super")
  if (kind == "Call") return counted(1, many, "one or more expressions, the first of which may be a Super")
  if (kind == "Assign") return counted(2, 2, "a Target and an expression")
  if (kind == "Target") return counted(1, 1, "one Ident, Member, Computed or Opaque")
  if (kind ~ /^(Arrow|Function)$/) return counted(2, 2, kind == "Arrow" && has(attr, 2) ? "Params and an expression" : "Params and a Body")
  if (kind == "Class" && has(attr, 1))
    return counted(1, many, "a heritage, which is an expression, and then Methods, Fields and StaticBlocks")
  if (kind == "Class") return counted(0, many, "Methods, Fields and StaticBlocks, and no heritage")
  if (kind == "Method") return keyed(has(attr, 1), 1)
  if (kind == "Property") return keyed(has(attr, 1), has(attr, 2))
  if (has(attr, 4)) return keyed(has(attr, 1), 0)
  return has(attr, 1) ? counted(1, 1, "a key, which is an expression, and no value") : counted(0, 0, "no key and no value")
}

function keyed(key, method) {
  if (key) return counted(2, 2, method ? "a key, which is an expression, and a Function" : "a key and a value, which are expressions")
  return counted(1, 1, method ? "a Function and no key" : "a value, which is an expression, and no key")
}

# `named` is 1 for a row that names a name.
function bad_number(kind, given,   named, either, wanted) {
  named = kind ~ /^(Declarator|Ident|Member)$/
  either = kind ~ /^(Function|Class)$/
  if (kind ~ /^(Other|Opaque|Arguments)$/ || (named && cell[place, 2] + 0 == 1)) return ""
  if (given + 0 >= named && given + 0 <= (named || either ? names : 0)) return ""
  if (!named && !either) wanted = "name 0"
  else if (either && !names) wanted = "name 0, as there are no names"
  else if (either) wanted = "name 0, or " (names == 1 ? "1, the number of the only name" : "the number of a name, 1 to " names)
  else if (!names) wanted = "the number of a name, but there are no names"
  else wanted = names == 1 ? "the number of the only name, 1" : "the number of a name, 1 to " names
  return with_article(kind) " has " wanted "; it has " given
}

# Sizes and names.

function sizes(   said) {
  if (header && !rows) said = "no rows (1 to 1024 are converted)"
  if (names > 4096) said = joined(said, (cut ? "over " : "") names " names (up to 4096 are converted)")
  if (text > 65535) said = joined(said, (cut ? "over " : "") text " bytes in its names (up to 65535 are converted)")
  return "the sheet has " (said == "" ? "too many names or too many bytes in them" : said)
}

function bad_name() {
  if (name == "") return "is empty"
  if (length(name) > 255) return "has " length(name) " bytes"
  return "is not UTF-8"
}

# Lines that are not in the form. `line` is the one told, if it is there.

function bad_line() {
  if (place == 1) return told(line, SWITCHES, "line 1", "`" SWITCHES "` is expected")
  if (place == 2) return told(line, "switches", "line 2", "three switches are expected, each 0 or 1, one space apart")
  if (place == 3) return told(line, NAMES, "line 3", "`" NAMES "` is expected")
  if (there && header && header < place && place - header > 1024)
    return "line " place " (row " (place - header - 1) ") is one row too many: up to 1024 are converted"
  if (there && header && header < place)
    return told(line, "row", "line " place " (row " (place - header - 1) ")", "kind, attr, name and end are expected, " \
      (line ~ /^[ \t\r]*$/ ? "or the end of the sheet" : "decimal numbers up to 4294967295 without leading zeros, one space apart"))
  if (there || header || cut) return beyond()
  return told("", ROWS, "line " place, "`" ROWS "` is expected behind the names" \
    (like ? " (line " like " is like it, but " marked(like_line, ROWS) ")" : ""))
}

# The line stands behind what was kept of the sheet.
function beyond() { return "line " place " is faulty or missing, in a sheet that is longer than any that is accepted (at most 114738 bytes)" }

# A sentence about line s, of which `form` is wanted: what is wrong with it, and what was expected.
function told(s, form, where, wanted,   wrong) {
  if (!there) return where " is missing" (place == 1 ? ", as the sheet is empty" : "") ": " wanted
  wrong = marked(s, form)
  if (wrong == "") return beyond()
  return where " " wrong ": " wanted (has_mark(s) ? ", with nothing before it" : "") (ends_in_return(s) ? ", then a newline alone" : "")
}

# Byte order marks: of UTF-8, and of UTF-16 in both orders.
function has_mark(s) { return substr(s, 1, 3) == "\357\273\277" || has_wide_mark(s) }
function has_wide_mark(s) { return substr(s, 1, 2) == "\377\376" || substr(s, 1, 2) == "\376\377" }
function ends_in_return(s) { return substr(s, length(s)) == "\r" }

# What is wrong with a line, byte order mark and carriage return too.
function marked(s, form,   before, behind) {
  if (has_wide_mark(s)) return "starts with a byte order mark of UTF-16"
  if (has_mark(s)) { before = "starts with a byte order mark"; s = substr(s, 4) }
  if (ends_in_return(s)) { behind = "ends in a carriage return"; s = substr(s, 1, length(s) - 1) }
  return joined(joined(before, flaw(s, form)), behind)
}

function flaw(s, form,   tabs, returns, other) {
  if (s ~ /^[ \t]*$/) return "is blank"
  tabs = gsub(/\t/, " ", s) ? "has a tab" : ""
  returns = gsub(/\r/, " ", s) ? "has a carriage return inside" : ""
  if (form == "row") other = tabs returns == "" ? bad_fields(s) : ""
  else if (form == "switches") other = s ~ /^[01] [01] [01]$/ ? "" : "is " shown(s)
  else other = s == form ? "" : "is " shown(s)
  return joined(joined(other, tabs), returns)
}

function bad_fields(s,   copy, count, part, called, k) {
  if (s ~ /^ /) return "starts with a space"
  if (s ~ / $/) return "ends in a space"
  if (index(s, "  ")) return "has two spaces side by side"
  copy = s
  count = gsub(/ /, " ", copy) + 1
  if (count != 4) return "has " count (count == 1 ? " field" : " fields") " instead of 4"
  split(s, part, " ")
  split(ROWS, called, " ")
  for (k = 1; k <= 4; k++) {
    if (part[k] !~ /^[0-9]+$/) return "has " shown(part[k]) " as its " called[k]
    if (part[k] ~ /^0./) return "has " shown(part[k]) " as its " called[k] ", with a leading zero"
    if (length(part[k]) > 10 || part[k] + 0 > 4294967295) return "has " shown(part[k]) " as its " called[k] ", which is over 4294967295"
  }
  return ""
}
