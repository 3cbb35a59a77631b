# Prints the manual page acpiset-faults(7), made from docs/FAULTS.md. scripts/install makes and installs it.
# usage: awk -f man/faults.awk docs/FAULTS.md

# A text of the document in the form of the page: code in bold, only the words of links, special characters of roff escaped.
function roff(text,   before, inside, out) {
  gsub(/\\/, "\\e", text)
  gsub(/-/, "\\-", text)
  out = ""
  while (match(text, /\[[^]]*\]\([^)]*\)/)) {
    inside = substr(text, RSTART + 1, RLENGTH - 2)
    sub(/\].*/, "", inside)
    out = out substr(text, 1, RSTART - 1) inside
    text = substr(text, RSTART + RLENGTH)
  }
  text = out text
  gsub(/\*\*/, "", text)
  out = ""
  while (match(text, /`[^`]*`/)) {
    before = substr(text, 1, RSTART - 1)
    inside = substr(text, RSTART + 1, RLENGTH - 2)
    out = out before "\\fB" inside "\\fR"
    text = substr(text, RSTART + RLENGTH)
  }
  text = out text
  return text
}

# Prints a macro, but no paragraph macro directly after a heading, which begins a paragraph.
function macro(text) {
  if (text != ".PP" || !is_after_heading) print text
  is_after_heading = text ~ /^\.S[HS] /
}

# Prints a text in lines of fewer than 80 columns. None of them may begin like a macro.
function print_text(text,   at) {
  is_after_heading = 0
  while (length(text) > 78) {
    at = 78
    while (at > 0 && substr(text, at, 1) != " ") at--
    if (at == 0) break
    print guarded(substr(text, 1, at - 1))
    text = substr(text, at + 1)
  }
  print guarded(text)
}

function guarded(line) { return (line ~ /^[.\047]/ ? "\\&" : "") line }

# Prints the paragraph that has been gathered; of a list item of a part its first word is the tag.
function flush_text(   tag) {
  if (gathered == "") return
  if (item == "-" && gathered ~ /^[A-Z][a-z]*: /) {
    tag = gathered
    sub(/:.*/, "", tag)
    sub(/^[A-Za-z]*: /, "", gathered)
    macro(".TP")
    macro(".B " tag)
  } else if (item == "-") macro(".IP \\(bu 2")
  else if (item != "") macro(".IP " item " 4")
  else macro(".PP")
  print_text(roff(gathered))
  gathered = ""
  item = ""
}

# A row of a table: its first cell as the tag, followed by the others.
function print_row(row,   cells, count, cell) {
  sub(/^\| */, "", row)
  sub(/ *\|$/, "", row)
  count = split(row, cells, / *\| */)
  macro(".TP")
  macro(".B " roff(cells[1]))
  row = cells[2]
  for (cell = 3; cell <= count; cell++) row = row "; " cells[cell]
  print_text(roff(row))
}

BEGIN {
  gathered = item = ""
  skipped = in_block = was_table = 0
  print ".\\\" Made of docs/FAULTS.md by man/faults.awk: change that document, and make this page again."
  print ".TH ACPISET\\-FAULTS 7 2026-11-25"
  print ".SH NAME"
  print "acpiset\\-faults \\- the lines of acpiset(1), what each means, and what to do"
}

/^# / { next }
/^## Index$/ || /^### Index of advice$/ { skipped = 1; next }
/^##/ { skipped = 0 }
skipped { next }

/^```/ {
  flush_text()
  in_block = !in_block
  if (in_block) macro(".PP")
  macro(in_block ? ".nf" : ".fi")
  next
}
in_block { print roff($0); next }

/^## / { flush_text(); macro(".SH " roff(toupper(substr($0, 4)))); next }
/^### / { flush_text(); macro(".SS " roff(substr($0, 5))); next }
/^\|[- |]*$/ { next }
/^\|/ {
  flush_text()
  if (was_table) print_row($0)
  was_table = 1
  next
}
{ was_table = 0 }
/^$/ { flush_text(); next }
/^- / { flush_text(); item = "-"; gathered = substr($0, 3); next }
/^[0-9]+\. / { flush_text(); item = $1; gathered = substr($0, length($1) + 2); next }
{
  sub(/^ +/, "")
  gathered = gathered == "" ? $0 : gathered " " $0
}

END {
  flush_text()
  print ".SH SEE ALSO"
  print ".BR acpiset (1),"
  print ".BR acpiset\\-explain (1),"
  print ".BR acpiset (3)"
}
