#!/usr/bin/env -S bash -p
# Compares the documents with the tree: what they name exists, and they name what exists. If these are installed, it also runs
# `shellcheck` on the scripts, `gawk --lint` on the awk programs, and `mandoc -T lint` on the manual pages.
# usage: tests/documents.sh; the last line is 'documents: N passed, M failed'.
# shellcheck disable=SC2016 # backquotes in patterns are those of Markdown
# shellcheck disable=SC2013,SC2046 # no name of a file here has blanks in it
# shellcheck source=tests/prelude.sh
. "$(dirname -- "$0")/prelude.sh"

# Each awk that runs from here on prints warnings about its program.
if has gawk; then
  mkdir "$scratch/bin"
  printf '#!/bin/sh\nexec gawk --lint "$@" 2>>"$LINT"\n' >"$scratch/bin/awk"
  chmod +x "$scratch/bin/awk"
  export LINT="$scratch/awk" PATH="$scratch/bin:$PATH"
fi

# agree WHAT FIRST SECOND: both lists have the same names.
agree() { count "$1" "$(diff <(sort -u <<<"$2") <(sort -u <<<"$3") | grep '^[<>]')"; }

# within WHAT FIRST SECOND: each name of the first list is in the second.
within() { count "$1" "$(comm -23 <(sort -u <<<"$2") <(sort -u <<<"$3"))"; }

# The crates, and those that are libraries for C.
crates=$(sed -n 's/^\([a-z_]*\)\( staticlib\)\{0,1\}:.*/\1/p' crates.txt)
for_c=$(sed -n 's/^\([a-z_]*\) staticlib:.*/\1/p' crates.txt)

# ---- edits: exported functions have wrong bodies that the prover must refuse

# exports CRATE: the names that a library exports: those in `pub use` of src/lib.rt, and the functions of its public modules; of a
# library for C the functions that C can call. Laws are left out.
exports() {
  local names module
  if grep -qx "$1" <<<"$for_c"; then
    cat "crates/$1"/src/*.rt | sed -n 's/^pub extern "C" fn \([a-z0-9_]*\).*/\1/p' | tr '\n' ' '
    return
  fi
  names=$(sed -n '/^pub use /,/;/p' "crates/$1"/src/lib.rt | sed 's/^pub use [a-z_:]*:://' | tr -cs 'A-Za-z0-9_' ' ')
  printf '%s ' "$names"
  for module in $names $(sed -n 's/^pub mod \([a-z_]*\);$/\1/p' "crates/$1"/src/lib.rt | grep -vx laws); do
    find "crates/$1/src" -name "$module.rt" -exec sed -n 's/^pub fn \([a-z0-9_]*\).*/\1/p' {} + | tr '\n' ' '
  done
}

# functions CRATE: its functions outside tests, a method as Type_method. One that must have an edit comes once more with a +
# before it: an exported one whose contract has an `ensures`. A program exports nothing: there it is those in `program`.
# Exceptions are a law, which returns nothing and changes nothing, and a function whose whole body returns a field, sets one,
# passes the same call on to one, or puts its arguments into a new value field by field: `rt plant` tries other fields and values
# there. A method of an exported type's impl of an
# exported trait comes with a ~ before it, without its type: its contract is written once, with the trait, so one edit for any
# type is enough.
program='^(do_job|obey|read_words|run_[a-z]+|status_of)$'
functions() {
  local names=""
  [ ! -e "crates/$1/src/lib.rt" ] || names=$(exports "$1")
  awk -v names="$names" -v program="$program" '
    BEGIN {
      split(names, list)
      for (i in list) is_exported[list[i]] = 1
      type = trait = part = ""
    }
    /^impl/ {
      sub(/^impl(<[^>]*>)? /, "")
      trait = / for / ? $1 : ""
      sub(/<.*/, "", trait)
      sub(/.* for /, "")
      sub(/[^A-Za-z0-9].*/, "")
      type = $0
      next
    }
    /^}/ { type = "" }
    /^ *(pub(\([a-z]+\))? )?(extern "C" )?fn / {
      is_pub = $1 == "pub"
      is_law = !/->|&mut /
      part = /[{}]$/ ? "" : "head"
      lines = asks = 0
      is_built = 0
      sub(/.*fn /, "")
      sub(/[^a-z0-9_].*/, "")
      method = $0
      name = type == "" ? method : type "_" method
      is_open = is_pub && (type == "" ? method : type) in is_exported || names == "" && name ~ program
      print name
      if (type in is_exported && trait in is_exported) print "~" method
      next
    }
    part == "head" && /^ *ensures / { asks = 1; next }
    part == "head" && /^ *[{]}?$/ { part = "body"; next }
    part == "head" && !/^ *requires / && /->|&mut / { is_law = 0 }
    part == "body" && /^(    )?}$/ {
      if (is_open && asks && !is_law && !(lines == 1 && is_plain) && !is_built) print "+" name
      part = ""
    }
    part == "body" {
      lines++
      if (lines == 1) is_built = $0 ~ /^ *[A-Z][A-Za-z]* [{]( [a-z_, ]* [}])?$/
      else if (!/^ *([a-z_]+(: (None|Some\([a-z_]+\)|self\.[a-z_]+))?,|[}])$/) is_built = 0
      is_plain = /^ *self\.[a-z_]+( = [a-z_]+;)?$/ || $0 ~ "^ *self\\.[a-z_]+\\." method "\\(\\)$"
    }
  ' $(find "crates/$1/src" -name '*.rt' ! -name laws.rt ! -path '*/tests*')
}

# Functions whose names differ only in digits, as for each width of a number, are a family: one edit is enough.
family() { tr -d '0-9'; }

count 'wrong bodies that cannot be tried, and numbers of them in PROOF.md' "$(scripts/wrong_bodies --read 2>&1)"
for crate in $crates; do
  all=$(functions "$crate")
  harmless=$(sed 's/.*\///; s/$/.edit/' "crates/$crate/wrong/harmless" 2>/dev/null)
  edited=$(find "crates/$crate/wrong" "crates/$crate/must-fail" -name '*.edit' -printf '%f\n' 2>/dev/null | grep -vxF "${harmless:-none}" | sed 's/-.*//')
  within "$crate: functions that no edit is named for" "$(sed -n 's/^+//p' <<<"$all" | family)" "$(family <<<"$edited")"
  within "$crate: methods of its own traits that no edit is named for" "$(sed -n 's/^~//p' <<<"$all")" "$(sed 's/^[A-Z][A-Za-z0-9]*_//' <<<"$edited")"
  within "$crate: edits that are named for no function" "$edited" "$all"
done

# ---- public calls and laws: a table of PROMISES.md names each

# calls CRATE: its public functions whose contract has an `ensures`, and its laws; of a program those in `program`, and its laws.
calls() {
  local names
  if [ -e "crates/$1/src/lib.rt" ]; then
    names="$(exports "$1") $(sed -n 's/^pub fn \([a-z0-9_]*\).*/\1/p' "crates/$1/src/lib.rt")"
  else
    names=$(cat "crates/$1"/src/*.rt | sed -n 's/^pub fn \([a-z0-9_]*\).*/\1/p' | grep -E "$program" | tr '\n' ' ')
  fi
  awk -v names="$names" -f tests/calls.awk $(find "crates/$1/src" -name '*.rt' ! -name laws.rt ! -path '*/tests*')
  find "crates/$1/src" -name laws.rt -exec sed -n 's/^pub fn \([a-z0-9_]*\).*/\1/p' {} +
}

# promised CRATE: the functions that the first columns of its tables in PROMISES.md name; a name after `Type::name` is of the same type.
promised() {
  awk -v crate="$1" '
    BEGIN { is_own = 0 }
    /^## / { is_own = $2 == crate || crate == "acpi_c" && /^## The library$/ }
    is_own && /^[|] `/ {
      sub(/ [|] .*/, "")
      count = split($0, part, "`")
      type = ""
      for (i = 2; i <= count; i += 2) {
        if (part[i] ~ /\//) continue
        name = part[i] ~ /::/ ? part[i] : type part[i]
        type = name
        sub(/[^:]*$/, "", type)
        print name
      }
    }
  ' docs/PROMISES.md
}

for crate in $crates; do
  promised=$(promised "$crate")
  within "$crate: public calls and laws that no table of PROMISES.md names" "$(calls "$crate")" "$promised"
  within "$crate: functions that a table of PROMISES.md names, and that are not there" "$(sed 's/::/_/' <<<"$promised")" "$(functions "$crate" && calls "$crate" | sed 's/::/_/')"
done

# Refusals, types and definitions that doc comments and PROMISES.md name.
mapfile -t sources < <(find crates/*/src -name '*.rt' ! -path '*tests*')
mapfile -t specs < <(find crates/*/specs -name '*.antt')
named=$(cat docs/PROMISES.md <(sed -n 's/^ *\/\/[/!] //p' "${sources[@]}") | grep -o '`[A-Z][A-Za-z0-9]*[a-z][A-Za-z0-9]*`' | tr -d '`')
known=$(
  cat "${sources[@]}" | sed -n 's/^    \([A-Z][A-Za-z0-9]*\)\([ ({].*\)\{0,1\},\{0,1\}$/\1/p; s/^pub \(struct\|enum\|trait\) \([A-Za-z]*\).*/\2/p'
  cat "${specs[@]}" | sed -n 's/^\([a-z]* \)\{0,1\}pub \([a-z]* \)\{0,1\}\([A-Z][A-Za-z0-9]*\).*/\3/p'
  printf '%s\n' "${specs[@]##*/}" AllocError Vec | sed 's/\.antt$//'
)
within 'refusals, types and definitions that doc comments or PROMISES.md name, and that the code does not have' "$named" "$known"

samples=$(sed -n '/^SAMPLED = {$/,/^}$/s/^    "\(.*\)",$/\1/p' tests/refusals.py tests/refused_calls.py)
named=$(sed -n '/^## By test alone$/,/^## /p' docs/PROMISES.md | grep -o '`[^`]*`' | tr -d '`')
within 'runs of which a sample of requests is refused, and that PROMISES.md does not name' "$samples" "$named"

# ---- examples at the heads of the libraries that export more than laws: their lines also occur in code that is compiled, mostly in a
# test of acpi_tests

# bare: code without indents, and without trailing comments.
bare() { sed 's/^ *//; s/ *\/\/ .*$//'; }

for head in crates/*/src/lib.rt; do
  grep -qx "$(cut -d / -f 2 <<<"$head")" <<<"$for_c" && continue
  grep '^pub ' "$head" | grep -qvx 'pub mod laws;' || continue
  example=$(sed -n '/^\/\/! ```rust$/,/^\/\/! ```$/s/^\/\/! \{0,1\}//p' "$head" | grep -v '^```' | bare)
  found=
  for file in $(grep -rlF "$(tail -n 1 <<<"$example")" crates/*/src); do
    [[ $'\n'$(grep -v '^//!' "$file" | bare)$'\n' != *$'\n'"$example"$'\n'* ]] || found=$file
  done
  count "$head: its example is in no code" "$([ -n "$found" ] && [ -n "$example" ] || printf '%s\n' "${example:-no example}")"
done

# ---- the documents
codes=$(sed -n 's/^code_row code\.\([A-Za-z0-9]*\) = (\([0-9]*\), .*)$/\2 \1/p' crates/acpi_base/specs/Codes.antt)
parts=$(sed -n 's/^### \([0-9]* [A-Za-z0-9]*\)$/\1/p' docs/FAULTS.md)
described=$(awk '$1 <= 100' <<<"$parts")
advised=$(awk '$1 > 100' <<<"$parts")
agree 'codes (<) and parts of FAULTS.md (>)' "$codes" "$described"
indexed=$(sed -n '/^## Index$/,/^## How/p' docs/FAULTS.md | grep -o '[0-9][0-9]* \[[A-Za-z0-9]*\](#[a-z0-9-]*)' | sed 's/\[\(.*\)\](#.*/\1/')
agree 'parts of FAULTS.md (<) and its index by code (>)' "$described" "$indexed"
by_name=$(sed -n '/^## Index$/,/^## How/p' docs/FAULTS.md | grep -o '\[[A-Za-z0-9]*\](#[0-9]*-[a-z]*) [0-9][0-9]*' | sed 's/\[\(.*\)\](#.*) \(.*\)/\2 \1/')
agree 'parts of FAULTS.md (<) and its index by name (>)' "$described" "$by_name"
complete=$(awk 'BEGIN { part = "" } /^### [0-9]/ { part = $2 " " $3 } /^## / { part = "" } part != "" && /^- [A-Z][a-z]*:/ { print part, $2 }' docs/FAULTS.md)
asked=$(
  while read -r part; do printf '%s %s\n' "$part" Wrong: "$part" Fields: "$part" Numbers: "$part" System: "$part" Fix: "$part" Example:; done <<<"$described"
  while read -r part; do printf '%s %s\n' "$part" Found: "$part" Fields: "$part" Numbers: "$part" Severity: "$part" System: "$part" Fix: "$part" Example:; done <<<"$advised"
)
agree 'what a part of FAULTS.md has to say (<) and what it says (>)' "$asked" "$complete"
stages=$(sed -n 's/^stage_number stage\.[A-Za-z0-9]* = \([0-9]*\)$/\1/p' crates/acpi_base/specs/Codes.antt)
listed=$(sed -n 's/^| \([0-9]*\) | .* | [0-9to, ]* |$/\1/p' docs/FAULTS.md)
agree 'stages (<) and those that FAULTS.md lists (>)' "$stages" "$listed"
rules=$(sed -n 's/^rule_row rule\.\([A-Za-z0-9]*\) = ([0-9]*, \([0-9]*\), .*)$/\2 \1/p' crates/acpi_lint/specs/Rules/Rows.antt)
listed=$(sed -n '/^## Advice$/,/^## /s/^| \([0-9]* [A-Za-z0-9]*\) | .*/\1/p' docs/TABLES.md)
agree 'rules of advice (<) and those that TABLES.md lists (>)' "$rules" "$listed"
agree 'rules of advice (<) and their parts in FAULTS.md (>)' "$rules" "$advised"
# Of a rule without a definition by hand nothing would be found if it had no row either. A row that is a constant is a part of one.
# Two rules are both: what no row says of them is by hand.
conditions=$(sed -n 's/^condition rule\.\([A-Za-z0-9]*\) = .*/\1/p' crates/acpi_lint/specs/Rules/Broken.antt)
in_part=$'SpcrGsi\nSpcrName'
agree 'rules that are by hand in part (<) and those of them with a condition (>)' "$in_part" "$(grep -xF "$in_part" <<<"$conditions")"
by_hand=$(grep -vxF "$in_part" <<<"$conditions")
agree 'rules of advice that are not by hand (<) and those with a row (>)' "$(grep -vwF "$by_hand" <<<"$rules")" \
  "$(sed -n '/^pub static/,/^];$/p' crates/acpi_lint/src/rows/*.rt | grep -oE 'rule!\([0-9]+ [A-Za-z0-9]+' | cut -d '(' -f 2)"
awk -f man/faults.awk docs/FAULTS.md >"$scratch/acpiset-faults.7"
agree 'codes and rules of advice (<) and their parts in acpiset-faults(7) (>)' "$codes"$'\n'"$rules" \
  "$(sed -n 's/^\.SS \([0-9]* [A-Za-z0-9]*\)$/\1/p' "$scratch/acpiset-faults.7")"
index=$(sed -n '/^### Index of advice$/,/^### What/p' docs/FAULTS.md)
indexed=$(grep -o '[0-9][0-9]* \[[A-Za-z0-9]*\](#[a-z0-9-]*)' <<<"$index" | sed 's/\[\(.*\)\](#.*/\1/')
agree 'rules of advice (<) and their index by number in FAULTS.md (>)' "$rules" "$indexed"
by_name=$(grep -o '\[[A-Za-z0-9]*\](#[0-9]*-[a-z0-9]*) [0-9][0-9]*' <<<"$index" | sed 's/\[\(.*\)\](#.*) \(.*\)/\2 \1/')
agree 'rules of advice (<) and their index by name in FAULTS.md (>)' "$rules" "$by_name"
headline=$(sed -n '/^## The headline$/,/^## /{/^```rust$/,/^```$/p}' docs/PROOF.md | grep -v '^```')
# contract FUNCTION FILE: what comes before the function's body.
contract() { sed -n "/^pub fn $1[(<]/,/^{\$/p" "$2" | grep -v '^{$'; }
contracts=$(
  contract check crates/acpi_check/src/stages.rt
  contract confirm crates/acpi_confirm/src/lib.rt
  contract check_and_confirm_agree crates/acpi_cli/src/laws.rt
  contract run_check crates/acpi_cli/src/check.rt
)
agree 'the contracts of the headline, as PROOF.md has them (<) and in the code (>)' "$headline" "$contracts"
within 'files of these contracts that PROOF.md does not name' "$(printf 'crates/%s.rt\n' acpi_check/src/stages acpi_confirm/src/lib acpi_cli/src/laws acpi_cli/src/check)" \
  "$(sed -n '/^## The headline$/,/^## /p' docs/PROOF.md | grep -o '`crates/[a-z_/.]*`' | tr -d '`')"
# README's mistakes: each line is that of an example in FAULTS.md.
found=$(sed -n '/^## What it finds$/,/^## /p' README.md | grep -o '`no [0-9][^`]*`')
within 'lines of mistakes in README that are in no example of FAULTS.md' "$found" "$(sed -n '/^- Example: /,/\.$/p' docs/FAULTS.md | grep -o '`no [0-9][^`]*`')"
same 'mistakes that README names' "$(wc -l <<<"$found")" 6

count 'definitions that public contracts rest on' "$(tests/definitions.py 2>&1)"
for crate in $crates; do
  files=$(find "crates/$crate" -maxdepth 2 -path '*/specs/*.antt' | sed 's/.*\///; s/\.antt$//' | grep -vx Lib)
  part=$(sed -n '/^## Definitions$/,/^## /p' docs/ARCHITECTURE.md)
  [ "$crate" = acpi_base ] || part=$(grep "^| \`$crate\` |" <<<"$part")
  within "$crate: files of definitions that ARCHITECTURE.md does not name" "$files" "$(grep -o '`[A-Z][A-Za-z]*`' <<<"$part" | tr -d '`')"
done

# ---- how long the commands take: measured on a state that is at most 60 days older than this one, and the same in README

took=$(grep -o 'measured at commit [0-9a-f]*' CONTRIBUTING.md | grep -o '[0-9a-f]*$')
if [ "$(git rev-parse --is-shallow-repository 2>/dev/null)" = false ]; then
  then=$(git log -1 --format=%ct "$took" 2>/dev/null || echo 0)
  age=$((($(git log -1 --format=%ct) - then) / 86400))
  count 'the state on which times were measured, and its age in days' "$([ "$age" -le 60 ] || echo "$took: $age")"
fi
minutes=$(tr '\n' ' ' <CONTRIBUTING.md | sed -n 's/.*clean `make run` took \([0-9]*\) minutes.*`make test` after it \([0-9]*\).*/\1 and \2 minutes/p')
count 'minutes of make run and make test that README does not name' "$(grep -qF "${minutes:-none}" README.md || echo "$minutes")"

# A busy machine fails no test: what takes how long is measured by `make bench`. To wait for something until some time is no comparison.
clocks='(perf_counter|monotonic|process_time|thread_time|time\.time)(_ns)?\(|ru_[us]time|os\.times|EPOCHREALTIME|date .*\+%s|\$\{?SECONDS|(^|[;&({]) *time [-a-z"$]'
count 'scripts of the tests that read a clock' "$(grep -rnE "$clocks" tests --include='*.py' --include='*.sh' | grep -v 'until\|clocks=')"

count 'commands on images of the repository, and not on those of IMAGES' "$(grep -nE '(<|\$SOURCE/) *tests/images|SOURCE/tests' README.md docs/*.md)"
count 'links that lead nowhere' "$(tests/links.py 2>&1)"
count 'lines of README beyond 150' "$(tail -n +151 README.md)"
paths=$(cat README.md docs/*.md | grep -o '`\(bindings\|crates\|docs\|examples\|tests\|bench\|tools\|man\|scripts\|release\|share/acpiset\)/[A-Za-z0-9_./-]*[A-Za-z0-9_]`' | tr -d '`' | sort -u)
there=$(while read -r path; do [ -e "$path" ] && printf '%s\n' "$path"; done <<<"$paths")
agree 'files that the documents name (<) and that are there (>)' "$paths" "$there"
parts=$(cat README.md docs/*.md | grep -o '`\(src\|specs\)/[A-Za-z0-9_/]*\.\(rt\|antt\)`' | tr -d '`' | sort -u)
there=$(while read -r part; do for crate in crates/*; do [ -e "$crate/$part" ] && printf '%s\n' "$part"; done; done <<<"$parts")
agree 'files of a crate that the documents name (<) and that are there (>)' "$parts" "$there"

# listed CHANGE EXAMPLE: the files that a change touches by ARCHITECTURE.md; each of them has to name the example, a pattern.
listed() {
  local told
  told=$(sed -n "/^### $1\$/,/^##/p" docs/ARCHITECTURE.md | awk -F ' [|] ' '/^[|] `/ {
    sub(/^[|] /, "", $1)
    count = split($2, files, /, /)
    for (i = 1; i <= count; i++) print $1 "/" files[i]
  }' | tr -d '` |')
  # shellcheck disable=SC2086 # a list of names
  count "$1: listed files that do not name $2" "$(grep -LE "$2" ${told:-none-is-listed} 2>&1)"
  files=$told
}
# touched CHANGE EXAMPLE [FOLDER..]: those are all files of the crates and of the folders that name the example, except those that
# ARCHITECTURE.md excepts; and some of the others.
touched() {
  listed "$1" "$2"
  within "$1: files that name $2, and that ARCHITECTURE.md does not list" \
    "$(grep -rlE --exclude=ARCHITECTURE.md --exclude=documents.sh "$2" crates/*/src crates/*/specs crates/*/proofs "${@:3}")" \
    "$files"$'\n'"$(sed -n "/^### $1\$/,/^##/p" docs/ARCHITECTURE.md | sed -n '/^Excepted: /,/^$/p' | grep -o '`[^`]*`' | tr -d '`')"
}
# Folders of which each file that names an example is listed.
folders=(bindings docs man scripts share tests tools)
touched 'A fault code' '\bGsiPastEnd\b|\bgsi_past_end\b' "${folders[@]}"
touched 'A rule of advice' 'CacheShape|cache_shape' "${folders[@]}"
touched 'A kind of entry of the MADT' 'X2apicNmi|x2apic[_-]nmi' "${folders[@]}"
touched 'A stage' '\b[Ss]tage(::|\.)Overrides\b'
touched 'An option' '(--|")hotplug\b|hotplug_|_hotplug|hotplug = '
touched 'A line of show' '\bx2apic-nmi\b'
touched 'A kind of answer of the library' '[Pp]iece_?[Pp]ast_?[Ee]nd|PIECE_PAST_END'
touched 'A table' '[Ss]lit|SLIT'
listed 'A table that lint alone reads' '[Ss]lit|SLIT'

# wide COLUMNS: those lines of the output of `grep -n` that have more columns.
wide() { LC_ALL=C.UTF-8 grep -E "^[^:]*:[0-9]+:.{$(($1 + 1)),}$"; }
count 'lines of proofs with more than 120 columns that are no imports' "$(grep -rn '' crates/*/proofs --include='*.antt' | wide 120 | grep -vE '^[^:]*:[0-9]+:(pub )?use ')"
count 'clauses with more than 100 columns' "$(grep -rnE '^ *(requires|ensures) ' crates/*/src --include='*.rt' | wide 100)"

version=$(sed -n 's/^const VERSION: &str = "\(.*\)";$/\1/p' crates/acpi_arguments/src/usage.rt)
agree 'the version of the program (<) and the last one in CHANGELOG.md (>)' "$version" "$(sed -n 's/^## \([0-9.]*\).*/\1/p' CHANGELOG.md | head -n 1)"
# page SECTION: the lines of a section of the manual page, with plain hyphens.
page() { sed -n "/^\.SH $1\$/,/^\.SH /p" man/acpiset.1 | sed 's/\\-/-/g'; }
# terms SECTION: the terms that a section of the manual page explains, which are the lines after a `.TP`.
terms() { page "$1" | sed -n '/^\.TP$/{n;p;}'; }
options=$(sed -n 's/.*option(alloc, "\([a-z-]*\)".*/--\1/p' crates/acpi_arguments/src/command_line.rt)
option_names() { grep -o -- '--[a-z-]*[a-z]'; }
within 'options that the synopsis of man/acpiset.1 does not name' "$options" "$(page SYNOPSIS | option_names)"
within 'options that man/acpiset.1 does not explain' "$options" "$(terms OPTIONS | option_names)"
count 'options of man/acpiset.1 that are not those of the help' "$(tests/manual.py 2>&1)"
commands=$(sed -n 's/.*Command::new(alloc, "\([a-z]*\)").*/\1/p' crates/acpi_arguments/src/command_line.rt | grep -vx acpiset)
commands+=$'\nhelp\nversion'
agree 'commands (<) and those that have a help (>)' "$commands" "$(sed -n 's/^ *"\([a-z]*\)" => Some(Topic::.*/\1/p' crates/acpi_arguments/src/topic.rt)"
agree 'commands (<) and those in the synopsis of man/acpiset.1 (>)' "$commands" "$(page SYNOPSIS | sed -n 's/^\.B acpiset //p')"
agree 'commands (<) and those that man/acpiset.1 explains (>)' "$commands" "$(terms DESCRIPTION | sed -n 's/^\.B //p')"

# ---- the library: what its header declares is in its documents

header=bindings/c/acpiset.h
kinds=$(sed -n '/^enum acpiset_kind {$/,/^};$/s/^ *\(ACPISET_[A-Z_]*\) = \([0-9]*\).*/\1 \2/p' "$header")
refusals=$(awk '$2 > 1' <<<"$kinds")
agree 'refusals in acpiset.h (<) and in LIBRARY.md (>)' "$refusals" "$(sed -n 's/^| `\(ACPISET_[A-Z_]*\)` | \([0-9]*\) | .*/\1 \2/p' docs/LIBRARY.md)"
agree 'refusals in acpiset.h (<) and in man/acpiset.3 (>)' "$refusals" "$(sed -n 's/^\.BR \(ACPISET_[A-Z_]*\) " (\([0-9]*\))"$/\1 \2/p' man/acpiset.3)"
within 'refusals that the order in LIBRARY.md leaves out' "$(sed 's/^ACPISET_//; s/ .*//' <<<"$refusals")" \
  "$(sed -n '/first one in this order/,/^## /p' docs/LIBRARY.md | grep -o '`[A-Z_]*`' | tr -d '`')"
declared=$(sed -n 's/^struct acpiset_answer \(acpiset_[a-z_]*\)(.*/\1/p; s/^[a-z0-9]*_t \(acpiset_[a-z_]*\)(.*/\1/p' "$header")
agree 'functions of acpiset.h (<) and those that LIBRARY.md lists (>)' "$declared" "$(sed -n '/^## The calls$/,/^## /p' docs/LIBRARY.md | sed -n '/^| `acpiset_/p' | cut -d '|' -f 2 | grep -o 'acpiset_[a-z_]*')"
agree 'functions of acpiset.h (<) and those that man/acpiset.3 explains (>)' "$declared" "$(sed -n '/^\.SH DESCRIPTION$/,/^\.SH SETTINGS$/s/^\.B \(acpiset_[a-z_]*\)$/\1/p' man/acpiset.3)"
# members STRUCT: the names of its fields.
members() { sed -n "/^struct $1 {\$/,/^};\$/{s/;.*//;s/^ .* \**\([a-z_]*\)\$/\1/p;}" "$header"; }
told=$(sed -n '/^\.SH SYNOPSIS$/,/^\.SH DESCRIPTION$/p' man/acpiset.3 | grep -o '[a-z_]*[,;]' | tr -d ',;')
within 'fields that the synopsis of man/acpiset.3 does not name' "$(for own in piece inputs settings finding answer; do members "acpiset_$own"; done)" "$told"
within 'settings that LIBRARY.md does not explain' "$(members acpiset_settings | grep -vx size)" "$(sed -n '/^## Settings$/,/^## /s/^| `\([a-z_]*\)`.*/\1/p' docs/LIBRARY.md)"

count 'lists and texts, and what they are written from' "$(scripts/lists.py --check 2>&1)"

# What a call needs of the stack is said wherever the library is described, with one number.
said=$(for page in bindings/c/acpiset.h man/acpiset.3 bindings/rust/src/lib.rs bindings/rust/README.md bindings/python/README.md \
  bindings/python/acpiset/__init__.py docs/LIBRARY.md SECURITY.md; do
  tr '\n' ' ' <"$page" | sed 's| //! | |g; s| \* | |g' | grep -o '[0-9]* KiB of stack' || echo "$page does not say it"
done | sort -u)
same 'how much of the stack a call needs' "$said" '100 KiB of stack'

# ---- a release: what is installed, and what the program and the library have inside

tools=$(sed -n "s/^tools='\(.*\)'$/\1/p" scripts/install | tr ' ' '\n')
agree 'tools that scripts/install lists (<) and those that are here (>)' "$tools" "$(cd tools && printf '%s\n' * | grep -x '[a-z0-9]*')"
agree 'tools (<) and those with a manual page (>)' "$tools" "$(printf '%s\n' man/acpiset-*.1 | sed 's/.*acpiset-//; s/\.1$//')"
within 'tools that the README of an archive does not name' "$tools" "$(grep -o '`bin/acpiset-[a-z0-9]*`' release/README.md | sed 's/^.*-//; s/`//')"
count 'an install' "$(BINARY=/bin/sh LIBRARY=none DESTDIR=$scratch/root PREFIX=/usr scripts/install install 2>&1)"
if [ -z "$(git rev-parse --show-cdup 2>&1)" ]; then
  packed=$(git ls-files -- LICENSE README.md CHANGELOG.md CONTRIBUTING.md SECURITY.md bench/README.md docs 'man/*.[0-9]' share tests/images examples \
    bindings/rust bindings/python | grep -v '/\.[^/]*$\|^bindings/rust/tests/[^t]')
  agree 'files that release/files.txt lists (<) and those that git has (>)' "$(grep -v '^#' release/files.txt)" "$packed"
else
  echo 'left out: the files that release/files.txt lists: this folder is not the top of a repository'
fi
linked=$(sed -n 's/^[a-z_]*\( staticlib\)\{0,1\}: *//p' crates.txt | tr ' ' '\n' | grep -vxF "$crates")
within 'libraries of the toolchain in crates.txt that release/parts.txt does not have' "$linked" "$(sed -n 's/^\([a-z_]*\) | .*/\1/p' release/parts.txt)"
agree 'libraries in release/parts.txt (<) and those with a notice in release/NOTICES.md (>)' "$(sed -n 's/^\([a-z_]*\) | .*/\1/p' release/parts.txt)" \
  "$(sed -n 's/^## //p' release/NOTICES.md)"
if command -v rt >/dev/null; then
  kit=$(dirname "$(rt doc)")
  count 'libraries of the toolchain, and what release/parts.txt and release/NOTICES.md say of them' "$(scripts/parts check "$kit" 2>&1)"
  # rounded SIZE UNIT: how many units a number of bytes is.
  rounded() { echo $((($1 + $2 / 2) / $2)); }
  same 'how large the toolchain is, by PROOF.md' "$(sed -n '/^## What is trusted$/,$p' docs/PROOF.md | tr '\n' ' ' | sed -n 's/.*`rattle`, \([0-9]*\) MB.* \([0-9]*\) KB of C.*/\1 \2/p')" \
    "$(rounded "$(stat -c %s "$kit/bin/rattle")" 1000000) $(rounded "$(cat "$kit"/c/lib*_c.a | wc -c)" 1000)"
fi

# ---- what other programs say about the scripts and the manual pages

# asked PROGRAM: whether it is installed; says so if it is not.
asked() { command -v "$1" >/dev/null || { printf 'left out: %s is not installed\n' "$1" && false; }; }

mapfile -t scripts < <(grep -lIE '^#! ?/(usr/)?bin/(env (-S )?)?(ba|da)?sh( -p)?$' .ci/* bench/* bindings/*/* examples/* man/* release/* scripts/* tests/* tests/*/* tools/* 2>/dev/null)
# Each sources a prelude before it goes anywhere; but the preludes, and what the packages run after they are installed.
count 'scripts that do not begin with the prelude' "$(for script in "${scripts[@]}"; do
  case $script in
    */prelude.sh | release/debian/tests/* | docs/*) ;;
    *) grep -E '^([A-Za-z_]+=[^ ]*\()?\(?(cd|pushd) |^\. ' "$script" | head -n 1 | grep -qE '^\. "\$\(dirname -- "\$0"\)/[a-z./]*prelude\.sh"$' || echo "$script" ;;
  esac
done)"
count 'scripts in bash that take options and functions from their caller' "$(grep -lE '^#!.*bash$' "${scripts[@]}")"
if asked shellcheck; then
  count 'shellcheck' "$(shellcheck --severity=info --format=gcc "${scripts[@]}" 2>&1)"
fi
if asked mandoc; then
  count 'mandoc -T lint' "$(mandoc -T lint -W warning man/*.[0-9] "$scratch/acpiset-faults.7" 2>&1)"
fi
if asked gawk; then
  # POSIX defines what substr returns for an index past the end.
  count 'awk --lint' "$(sort -u "$scratch/awk" | sed 's/ (FILENAME=.*FNR=[0-9]*)//' | grep -v ' warning: substr: ' | sort | uniq -c)"
fi

finish 'documents: '
