#!/usr/bin/env -S bash -p
# Tests the scripts that build and test: that tests/all.sh ends what it started when it is ended, and counts what failed; what
# scripts/wrong_bodies says of wrong bodies, by what the compiler printed of them; what scripts/prove builds in the gate, and what it
# refuses as no proof; and that a make, or a scripts/prove, that is ended leaves no prover. Scripts and a toolchain that do nothing replace the real ones.
# usage: tests/scripts.sh; the last line is 'build scripts: N passed, M failed'.
# shellcheck source=tests/prelude.sh
. "$(dirname -- "$0")/prelude.sh"

# ---- tests/all.sh

mkdir "$scratch/tests" "$scratch/tmp"
printf '#!/bin/sh\necho "fine: $*"\n' >"$scratch/tests/fine.sh"
printf '#!/bin/sh\necho broken\nexit 3\n' >"$scratch/tests/broken.sh"
# One that has child processes and cleans up, and one that ignores signals.
export FOLDER=$scratch
cat >"$scratch/tests/long.sh" <<'END'
#!/bin/sh
trap 'echo tidied >"$FOLDER/tidied"' EXIT
trap 'exit 1' TERM
sleep 987 &
echo $! >"$FOLDER/child"
echo $$ >"$FOLDER/long"
wait
END
cat >"$scratch/tests/deaf.sh" <<'END'
#!/bin/sh
trap '' TERM
echo $$ >"$FOLDER/deaf"
while :; do sleep 0.2; done
END
chmod +x "$scratch"/tests/*.sh

# all SCRIPTS: runs these by tests/all.sh, with its temporary files in a folder that is checked.
all() { TMPDIR="$scratch/tmp" TESTS_FOLDER="$scratch/tests" TESTS_ONLY="$1" tests/all.sh program one two; }

# stays NAME: whether the process with the number in this file is still running after a minute. A zombie is not.
stays() {
  for _ in {1..600}; do ps -o stat= -p "$(cat "$scratch/$1")" | grep -qv '^Z' && sleep 0.1 || return 1; done
}

printed=$(all 'fine.sh broken.sh' 2>&1)
same 'scripts of which one fails' "$? $printed" '1 == tests/fine.sh
fine: program
== tests/broken.sh
broken
scripts: 1 passed, 1 failed
failed: tests/broken.sh'
same 'scripts that pass' "$(all fine.sh 2>&1 | tail -n 1)" 'scripts: 1 passed, 0 failed'
# ---- no check passes with nothing in it

same 'scripts of no name' "$(all ' ' 2>&1; echo $?)" $'tests/all.sh: TESTS_ONLY names no script\n1'
# A shell that reads options from SHELLOPTS would run nothing, and end well.
same 'scripts of which one fails, with SHELLOPTS=noexec' \
  "$(TMPDIR="$scratch/tmp" TESTS_FOLDER="$scratch/tests" TESTS_ONLY='broken.sh' env SHELLOPTS=noexec tests/all.sh program >/dev/null; echo $?)" 1
same 'make fuzz with SHELLOPTS=noexec, by bash' "$(env SHELLOPTS=noexec make -s SHELL="$BASH" fuzz BINARY="$scratch/none" 2>&1 | grep -c 'is missing')" 1
mkdir "$scratch/ci"
printf '#!/bin/sh\necho "make $*"\n' >"$scratch/ci/make"
chmod +x "$scratch/ci/make"
same '.ci/run with SHELLOPTS=noexec' "$(env PATH="$scratch/ci:$PATH" SHELLOPTS=noexec .ci/run)" $'make gate\nmake test'
same 'make fuzz N=0' "$(make -s fuzz N=0 SEED=1 BINARY=/bin/false >"$scratch/log" 2>&1; echo $?)" 2
same 'the tools on no inputs' "$(tests/tools/fuzz.py /bin/false --cases 0; echo $?)" $'fuzz of the tools: 0 passed, 0 failed\n1'
if has cc; then
  echo 'int main(void) { return 0; }' | cc -x c -o "$scratch/none" -
  printf '%s\n' '#include <unistd.h>' 'int main(void) { return write(1, "idle: test\n", 11) != 11; }' | cc -x c -o "$scratch/idle" -
  refused_by() { tests/refused_calls.py "$@" 2>&1; echo $?; }
  same 'refused calls of tests that list none' "$(refused_by "$scratch/none")" $'none: it lists no test\nrefused calls: 0 passed, 1 failed\n1'
  same 'refused calls of tests that make none' "$(refused_by "$scratch/idle")" $'idle: none of its requests was refused\nrefused calls: 0 passed, 1 failed\n1'
else
  left_out 'refused calls of tests that make none' 'no cc'
fi
same 'refused calls of no tests' "$(tests/refused_calls.py 2>&1; echo $?)" $'usage: refused_calls.py TESTS..\n1'
if ! command -v ps >/dev/null; then
  printf 'left out: what tests/all.sh ends: no ps\n'
else
  for signal in TERM INT HUP; do
    rm -f "$scratch/long" "$scratch/deaf" "$scratch/child" "$scratch/tidied"
    # A shell makes its background processes ignore INT, and nohup makes all ignore HUP, so Python starts this one.
    TMPDIR="$scratch/tmp" TESTS_FOLDER="$scratch/tests" TESTS_ONLY='long.sh deaf.sh' python3 - "$signal" "$scratch" >"$scratch/status" 2>"$scratch/log" <<'END'
import os, signal, subprocess, sys, time

def as_usual():
    for it in (signal.SIGINT, signal.SIGHUP):
        signal.signal(it, signal.SIG_DFL)

started = subprocess.Popen(["tests/all.sh", "program"], stdout=sys.stderr, preexec_fn=as_usual)
files = [os.path.join(sys.argv[2], name) for name in ("long", "deaf")]
until = time.monotonic() + 600
while time.monotonic() < until and not all(os.path.exists(it) and os.path.getsize(it) for it in files):
    time.sleep(0.1)
started.send_signal(getattr(signal, "SIG" + sys.argv[1]))
print(signal.Signals(-started.wait(timeout=600)).name)
END
    same "$signal: how tests/all.sh ends" "$(cat "$scratch/status")" "SIG$signal"
    same "$signal: what it leaves" "$(for name in long child deaf; do stays $name && echo $name; done) $(cat "$scratch/tidied") $(ls "$scratch/tmp")" ' tidied '
  done
fi

# ---- scripts/wrong_bodies

# A crate with wrong bodies, one folder for each way in which an edit can fail, and what the compiler printed of each.
mkdir -p "$scratch/small/scripts" "$scratch/small/crates/small/src"
cp scripts/wrong_bodies scripts/crates.py "$scratch/small/scripts"
cp -r tests/wrong_bodies/wrong "$scratch/small/crates/small"
cp tests/wrong_bodies/lib.rt.txt "$scratch/small/crates/small/src/lib.rt"
echo 'small:' >"$scratch/small/crates.txt"

# judged FOLDER [PRINTED]: the status and the verdicts on the edits of a folder, without what the compiler said.
judged() {
  local printed
  printed=$("$scratch/small/scripts/wrong_bodies" --printed "tests/wrong_bodies/printed/${2:-$1}.txt" "small/$1" 2>&1)
  printf '%s\n' $? "$(awk -F ': ' '/^$/ { exit } /^(FAILED )?small/ { print $1 ": " $2 }' <<<"$printed")" "$(tail -n 1 <<<"$printed")"
}

same 'wrong bodies: refused, hidden, harmless' "$(judged 1)" '1
small/1/below_nine-adds_nothing: harmless, and still proved, as it must be
small/1/count_to-stops_one_early: refused
small/1/next-is_the_same_number: refused
FAILED small/1/next_but_one-is_the_next: hidden
wrong bodies: 2 refused in 1 checks'
same 'wrong bodies: one of a const' "$(judged 2 5)" '0
small/2/in_groups-of_sixteen: refused
wrong bodies: 1 refused in 1 checks'
same 'wrong bodies: refused for a name alone' "$(judged 3)" '1
FAILED small/3/count_to-counts_places: refused for a name alone
wrong bodies: 0 refused in 1 checks'
same 'wrong bodies: one that does not compile' "$(judged 4)" '1
FAILED small/4/below_nine-is_the_number: could not tell
FAILED small/4/next-of_another_number: does not compile
wrong bodies: 0 refused in 1 checks'
same 'wrong bodies: still proved; of a function that is not there; a function that no edit is about' "$(judged 5)" '1
FAILED small/5/below_nine-is_the_number: still proved
FAILED small/5/in_groups-of_sixteen: could not tell
FAILED small/5: small::in_groups is refused, and no edit is about it
wrong bodies: 0 refused in 1 checks'
same 'wrong bodies: stale' "$(judged 6 2)" '1
FAILED small/6/next-of_another_text: stale
FAILED small/6/next-without_a_bound: stale
small/6/next_but_one-is_the_next: refused
FAILED small/6: small::in_groups is refused, and no edit is about it
wrong bodies: 1 refused in 1 checks'

# on FOLDER SCRIPT PRINTED: the same after sed has changed what the compiler printed.
on() {
  sed "$2" "tests/wrong_bodies/printed/$3.txt" >"$scratch/printed.txt"
  "$scratch/small/scripts/wrong_bodies" --printed "$scratch/printed.txt" "small/$1" 2>&1 | grep -o '^FAILED small/[^:]*: .*' | sed 's/is_the_number: still.*/is_the_number: still proved/; s/\(could not tell\|refused\): .*/\1/'
}

# shellcheck disable=SC2016 # the prover writes names between backticks
refused='no proof: expected answers in X; `search` did not prove `returns`'
same 'wrong bodies: a harmless edit that is refused' "$(on 1 "s/below_nine: proved/below_nine: $refused/; /next_but_one/d" 1)" 'FAILED small/1/below_nine-adds_nothing: refused
FAILED small/1/next_but_one-is_the_next: could not tell'
same 'wrong bodies: a check that did not end' "$(on 2 '/^logic=/d' 5)" 'FAILED small/2/in_groups-of_sixteen: could not tell'
same 'wrong bodies: a note in a function that is proved' "$(on 5 's/^note: src.lib.rt:35:1:/note: src\/lib.rt:28:1:/' 5 | head -n 1)" 'FAILED small/5/below_nine-is_the_number: still proved'
# shellcheck disable=SC2016 # the same
same 'wrong bodies: a function that fails beside what it calls' "$(on 2 's/next: proved/next: not proved; it calls `small::below_nine`, which is not proved/' 5)" 'FAILED small/2: small::next is refused, and no edit is about it'

# changed WHAT WANTED COMMAND..: what the script says of the crate after a command that is undone again.
changed() {
  cp -r "$scratch/small/crates/small/wrong" "$scratch/kept"
  (cd "$scratch/small/crates/small/wrong" && eval "${*:3}")
  same "$1" "$("$scratch/small/scripts/wrong_bodies" --printed tests/wrong_bodies/printed/1.txt small/1 2>&1 | tail -n 1)" "scripts/wrong_bodies: $2"
  rm -r "$scratch/small/crates/small/wrong"
  mv "$scratch/kept" "$scratch/small/crates/small/wrong"
}
changed 'wrong bodies: two edits of one function' 'small/1: next-again and next-is_the_same_number change one function: put one into another folder' cp 1/next-is_the_same_number.edit 1/next-again.edit
changed 'wrong bodies: two edits for one name' 'small/1: count_to-stops_one_early and next-is_the_same_number change one function: put one into another folder' 'echo refused: small::next >>1/count_to-stops_one_early.edit'
# shellcheck disable=SC2016 # the same
changed 'wrong bodies: a const beside others' 'small/5: in_groups-of_eight changes a `const`: put it into a folder of its own' 'rm 5/in_groups*; sed s/::in_groups/::groups/ 2/in_groups-of_sixteen.edit >5/in_groups-of_eight.edit'
changed 'wrong bodies: no harmless edit' 'small: the file wrong/harmless names no edit of the first folder, or one that is not there: ' rm harmless
changed 'wrong bodies: an edit in no folder' 'crates/small/wrong/next-again.edit is neither an edit in a folder wrong/N nor the file wrong/harmless' cp 1/next-is_the_same_number.edit next-again.edit

# ---- scripts/prove

mkdir -p "$scratch/tree/scripts" "$scratch/tree/docs" "$scratch/tree/crates/acpi_c/src" "$scratch/tree/crates/acpi_c/wrong/1" "$scratch/tree/crates/acpi_cli/src" "$scratch/bin" "$scratch/kit/bin"
cp scripts/prove scripts/wrong_bodies scripts/kept scripts/crates.py "$scratch/tree/scripts"
printf 'acpi_c staticlib:\nacpi_cli:\n' >"$scratch/tree/crates.txt"
echo 'fn main() {}' >"$scratch/tree/crates/acpi_cli/src/main.rt"
printf 'check\n' >"$scratch/tree/crates/acpi_cli/args"
echo 'a text' >"$scratch/tree/crates/acpi_cli/stdin"
printf 'pub fn one() -> u8 {\n    1\n}\n\npub fn two() -> u8 {\n    2\n}\n' >"$scratch/tree/crates/acpi_c/src/lib.rt"
# An edit that changes nothing, and a wrong body, which docs/PROOF.md counts.
printf 'file: src/lib.rt\nold:     2\nnew:     1 + 1\n' >"$scratch/tree/crates/acpi_c/wrong/1/two-is_two.edit"
printf 'file: src/lib.rt\nold:     1\nnew:     3\n' >"$scratch/tree/crates/acpi_c/wrong/1/one-is_three.edit"
echo 1/two-is_two >"$scratch/tree/crates/acpi_c/wrong/harmless"
# shellcheck disable=SC2016 # names between backticks
printf '%s\n' '**Wrong bodies are refused.** Of the bodies' 'all are: 1 of `acpi_c`.' '' >"$scratch/tree/docs/PROOF.md"
cat >"$scratch/bin/rt" <<'END'
#!/bin/sh
echo "${PWD##*/}: $*" | sed 's/ --jobs [0-9]*//' >>"$FOLDER/calls"
case $1 in
  version) echo rattle-kit-stand-in ;;
  doc) echo "$FOLDER/kit/START-HERE.md" ;;
  ci)
    mkdir -p crates/acpi_cli/out && echo 'for x86-64-v2' >crates/acpi_cli/out/acpi_cli
    if [ -d crates/acpi_graph ]; then
      mkdir -p crates/acpi_graph/out/rlib/acpi_graph.rlib && echo 'for rt ci' >crates/acpi_graph/out/rlib/acpi_graph.rlib/format
    fi
    cat "$FOLDER/said"
    ;;
  run) mkdir -p out && echo 'for x86-64' >out/acpi_cli && echo "$PROVED" ;;
  lib)
    if [ "${PWD##*/}" = acpi_c ]; then
      mkdir -p out && echo library >out/libacpi_c.a && echo "$PROVED"
    elif [ ! -e out/rlib/acpi_graph.rlib ]; then
      # It says nothing of a library that it keeps.
      mkdir -p out/rlib/acpi_graph.rlib && echo library >out/rlib/acpi_graph.rlib/format && echo "${PROVED_LIB-$PROVED}"
    fi
    ;;
  check) echo "$CHECKED" ;;
  test) mkdir -p out && echo tests >"out/${PWD##*/}_tests" && echo "$PROVED" ;;
esac
END
# What the toolchain prints of a crate that it has proved.
export PROVED='logic=proved functions=1 sum=0'
# What `rt check` prints.
export CHECKED=
# The compiler and the linker of the toolchain: they note what they build, for which processor, and write it.
cat >"$scratch/kit/bin/rattle" <<'END'
#!/bin/sh
made=
processor=
while [ $# -gt 1 ]; do
  case $1 in
    -o) made=$2 ;;
    --cpu) processor=$2 ;;
  esac
  shift
done
if [ -n "$made" ]; then
  echo "rattle: ${made##*/} for $processor" >>"$FOLDER/calls"
  echo "for $processor" >"$made"
elif [ "$SAYS" = nothing ]; then
  echo 'logic=not-proved'
  exit
elif grep -q ' 3$' src/lib.rt; then
  echo 'fn acpi_c::two: proved'
  echo 'fn acpi_c::one: no proof: expected answers in X; `search` did not prove `returns`'
  echo 'logic=not-proved'
  exit
fi
echo "$PROVED"
END
export SAYS=''
cat >"$scratch/kit/bin/rattle-link" <<'END'
#!/bin/sh
while [ "$1" != -o ]; do shift; done
echo "linked: ${2##*/}" >>"$FOLDER/calls"
cp "$3" "$2"
END
chmod +x "$scratch/bin/rt" "$scratch/kit/bin"/*
echo '2 passed, 0 failed' >"$scratch/said"
printed=$(PATH="$scratch/bin:$PATH" "$scratch/tree/scripts/prove" gate 2>&1)
same 'scripts/prove gate' "$? $(tail -n 1 <<<"$printed" | sed 's/[0-9][0-9]*/N/g')" '0 gate: proved in N.N minutes, from N:N to N:N'
# `rt ci` builds for x86-64-v2: the program and the library are built after it, for any x86-64, over what it proved.
same 'calls by the gate' "$(grep -v ': version$\|: doc$' "$scratch/calls" | LC_ALL=C sort)" $'linked: acpi_cli\nrattle: acpi_cli.o for x86-64\nrattle: libacpi_c.a for x86-64\ntree: ci'
same 'the program of the gate' "$(cat "$scratch/tree/acpiset" "$scratch/tree/crates/acpi_cli/out/acpi_cli")" $'for x86-64\nfor x86-64'
: >"$scratch/calls"
PATH="$scratch/bin:$PATH" "$scratch/tree/scripts/prove" program >"$scratch/log" 2>&1
same 'scripts/prove program after the gate' "$? $(grep -v ': version$' "$scratch/calls")" '0 '
sums=$(cat "$scratch/tree/crates/acpi_c/out/libacpi_c.a.sources" 2>&1)
same 'sums of the sources of the library' "$(cd "$scratch/tree" && sha256sum -c <<<"$sums" 2>&1)" $'crates.txt: OK\ncrates/acpi_c/src/lib.rt: OK'
# refused_gate WHAT WHY: the gate ends with an error, for a wrong body or want of it.
refused_gate() {
  printed=$(PATH="$scratch/bin:$PATH" "$scratch/tree/scripts/prove" gate 2>&1)
  same "$1" "$? $(tail -n 1 <<<"$printed") $(grep -c "^FAILED $2" <<<"$printed")" '1 scripts/prove: not all wrong bodies were refused 1'
}
# A wrong body that is not refused fails the gate: here the compiler says nothing of it.
SAYS=nothing refused_gate 'scripts/prove gate with an edit that is not refused' acpi_c/1/one-is_three
mv "$scratch/tree/crates/acpi_c/wrong" "$scratch/wrong"
refused_gate 'scripts/prove gate without wrong bodies' 'acpi_c: it has 0 wrong bodies, and docs/PROOF.md says 1$'
tries() { PATH="$scratch/bin:$PATH" "$scratch/tree/scripts/wrong_bodies" "$@" 2>&1 | tail -n 2 | tr '\n' ' '; }
same 'scripts/wrong_bodies without wrong bodies' "$(tries acpi_c)" \
  'acpi_c: it has 0 wrong bodies, and docs/PROOF.md says 1 wrong bodies: 0 refused in 0 checks '
same 'scripts/wrong_bodies of a crate that has none' "$(tries acpi_cli)" 'there is no wrong body to try wrong bodies: 0 refused in 0 checks '
mv "$scratch/wrong" "$scratch/tree/crates/acpi_c/wrong"
mv "$scratch/tree/docs/PROOF.md" "$scratch/proof"
same 'scripts/wrong_bodies without numbers' "$(: >"$scratch/tree/docs/PROOF.md"; tries --read)" \
  'scripts/wrong_bodies: docs/PROOF.md does not say how many wrong bodies a crate has '
mv "$scratch/proof" "$scratch/tree/docs/PROOF.md"
same 'scripts/wrong_bodies acpi_c' "$(tries acpi_c)" \
  'acpi_c/1/two-is_two: harmless, and still proved, as it must be wrong bodies: 1 refused in 1 checks '
# The wrong bodies of a crate are tried once the libraries below it are proved, now or by an earlier run.
printf 'acpi_graph:\nacpi_c staticlib: acpi_graph\nacpi_cli:\n' >"$scratch/tree/crates.txt"
mkdir -p "$scratch/tree/crates/acpi_graph/src"
for line in 'acpi_graph proved' 'acpi_graph is kept: an earlier run on this machine proved the same files over the same libraries' 'acpi_graph NOT PROVED'; do
  printf 'rt: %s\n2 passed, 0 failed\n' "$line" >"$scratch/said"
  printed=$(PATH="$scratch/bin:$PATH" "$scratch/tree/scripts/prove" gate 2>&1)
  same "the gate, with a library of which rt ci says: $line" "$? $(grep -c '^acpi_c: proved' <<<"$printed")" "$([[ $line = *NOT* ]] && echo '1 0' || echo '0 1')"
done

# With names it only passes these crates.
: >"$scratch/calls"
PATH="$scratch/bin:$PATH" "$scratch/tree/scripts/prove" gate acpi_c acpi_graph >"$scratch/log" 2>&1
same 'scripts/prove gate acpi_c acpi_graph' "$? $(cat "$scratch/calls") $(cat "$scratch/log")" "0 tree: ci acpi_c acpi_graph $(cat "$scratch/said")"
PATH="$scratch/bin:$PATH" "$scratch/tree/scripts/prove" program acpi_c >"$scratch/log" 2>&1
same 'scripts/prove program acpi_c' "$? $(head -n 1 "$scratch/log" | cut -c 1-28)" '1 usage: scripts/prove program'
same 'make gate acpi_c acpi_graph' "$(PATH="$scratch/bin:$PATH" make --no-print-directory -n gate acpi_c acpi_graph 2>&1 | head -n 1)" 'exec scripts/alone --beside scripts/prove gate acpi_c acpi_graph'
same 'make gate test' "$(PATH="$scratch/bin:$PATH" make --no-print-directory -n gate test 2>&1 | sed -n 's/^exec \(scripts.alone \(scripts.prove gate\|sh -c .scripts.prove tests\)\).*/\1/p')" $'scripts/alone scripts/prove gate\nscripts/alone sh -c \'scripts/prove tests'

# ---- what is no proof

# A library below another is kept by its own checksum, and proved again if it is not as it was made.
of_graph=$scratch/tree/crates/acpi_graph/out
of_c=$scratch/tree/crates/acpi_c/out
# library_proved WANTED WHAT: `scripts/prove library` ends well, and `rt` says as often as wanted that it proved the library below.
library_proved() {
  rm -f "$of_c"/*.made
  PATH="$scratch/bin:$PATH" "$scratch/tree/scripts/prove" library >"$scratch/log" 2>&1
  same "scripts/prove library, $2" "$? $(grep -c '^logic=proved' "$of_graph/lib.log") $(cat "$of_graph/rlib/acpi_graph.rlib/format")" "0 $1 library"
}
mkdir -p "$of_graph/rlib/acpi_graph.rlib"
echo other >"$of_graph/rlib/acpi_graph.rlib/format"
library_proved 1 'over a library of which nothing is recorded'
library_proved 0 'over a kept library'
echo other >"$of_graph/rlib/acpi_graph.rlib/format"
library_proved 1 'over a library that was changed'
printf 'rt: acpi_graph proved\n2 passed, 0 failed\n' >"$scratch/said"
PATH="$scratch/bin:$PATH" "$scratch/tree/scripts/prove" gate >"$scratch/log" 2>&1
library_proved 0 'over a library that was kept before the gate'
echo other >"$of_graph/rlib/acpi_graph.rlib/format"
PATH="$scratch/bin:$PATH" "$scratch/tree/scripts/prove" gate >"$scratch/log" 2>&1
library_proved 1 'over a library that was changed before the gate'

# A library of which `rt lib` says nothing, as a check of the same sources was kept on this machine: `rt check` says what was proved.
# checked CHECKED WANTED
checked() {
  rm -rf "$of_c"/*.made "$of_graph"
  CHECKED=$1 PROVED_LIB='' PATH="$scratch/bin:$PATH" "$scratch/tree/scripts/prove" library >"$scratch/log" 2>&1
  same "scripts/prove library, rt check says '$1'" "$? $(find "$of_c" "$of_graph" -name '*.made' | wc -l)" "$2"
}
checked "$PROVED" '0 2'
checked 'logic=not-proved' '1 0'
checked '' '1 0'

mkdir "$scratch/other"
of_cli=$scratch/tree/crates/acpi_cli/out
# other_rt COMMAND SCRIPT: from now on `rt COMMAND` does this, and the other commands what they did.
other_rt() {
  # shellcheck disable=SC2016 # the script that is written has these variables
  printf '#!/bin/sh\ncase $1 in\n  %s) %s ;;\n  *) exec "$FOLDER/bin/rt" "$@" ;;\nesac\n' "$1" "$2" >"$scratch/other/rt"
  chmod +x "$scratch/other/rt"
}
# no_proof WHAT TARGET: scripts/prove fails, and records nothing as built from these sources; a program from earlier is there.
no_proof() {
  mkdir -p "$of_cli"
  echo stale | tee "$of_cli/acpi_cli" >"$scratch/tree/acpiset"
  rm -f "$of_cli"/*.made "$of_cli"/*.sources
  PATH="$scratch/other:$PATH" "$scratch/tree/scripts/prove" "$2" >"$scratch/log" 2>&1
  same "$1" "$? $(find "$scratch/tree/crates" -path '*acpi_cli*' \( -name '*.made' -o -name '*.sources' \)) $(cat "$scratch/tree/acpiset")" '1  stale'
}
# shellcheck disable=SC2016 # the same
builds='mkdir -p out && echo new >out/acpi_cli'
other_rt run "$builds; exit 1"
no_proof 'rt run that refuses' program
(
  trap '' CHLD
  no_proof 'rt run that refuses, with SIGCHLD ignored' program
  # shellcheck disable=SC2016 # the same
  other_rt ci 'cat "$FOLDER/said"; exit 1'
  no_proof 'rt ci that refuses, with SIGCHLD ignored' gate
  echo "$passed $failed" >"$scratch/counts"
)
read -r passed failed <"$scratch/counts"
# shellcheck disable=SC2016 # the same
other_rt run 'echo "$PROVED"'
no_proof 'rt run that builds nothing' program
other_rt run "$builds"
no_proof 'rt run that does not say that it proved anything' program
# shellcheck disable=SC2016 # the same
other_rt run "$builds"'; echo "$PROVED"; echo logic=not-proved'
no_proof 'rt run that says that it proved one crate, and not the last' program
for last in '' '0 passed, 0 failed' '2 passed, 1 failed'; do
  other_rt ci "echo '$last'"
  no_proof "rt ci that ends well, and says '$last'" gate
done
# shellcheck disable=SC2016 # the same
other_rt doc 'printf "%s\n" "$FOLDER/none/START-HERE.md"'
no_proof 'a gate that builds nothing' gate

# ---- sources that change while a proof runs, and change back: what is built of others is not recorded as built of these

main=$scratch/tree/crates/acpi_cli/src/main.rt
lib=$scratch/tree/crates/acpi_c/src/lib.rt
printf 'acpi_graph:\nacpi_c staticlib: acpi_graph\nacpi_cli:\n' >"$scratch/tree/crates.txt"
# as_recorded BUILT: what was built, and whether it is recorded as built of the sources that are here.
as_recorded() { (cd "$scratch/tree" && cat "$1" && sha256sum -c "$1.sources" >"$scratch/log" 2>&1 && echo recorded); }
# meanwhile COMMAND SCRIPT TARGET: a proof, in which a command of `rt` does this.
meanwhile() {
  rm -rf "$of_cli" "$of_c" "$of_graph"
  other_rt "$1" "$2"
  PATH="$scratch/other:$PATH" "$scratch/tree/scripts/prove" "$3" >"$scratch/log" 2>&1 || cat "$scratch/log"
}
echo first >"$main"
# shellcheck disable=SC2016 # the same
meanwhile run 'echo other >"$FOLDER/tree/crates/acpi_cli/src/main.rt"
    mkdir -p out && cp src/main.rt out/acpi_cli && echo first >"$FOLDER/tree/crates/acpi_cli/src/main.rt" && echo "$PROVED"' program
same 'a file that is written while rt run reads it' "$(as_recorded crates/acpi_cli/out/acpi_cli) $(cat "$scratch/tree/acpiset")" $'first\nrecorded first'
# shellcheck disable=SC2016 # the same
proves='if [ "${PWD##*/}" = acpi_c ]; then
      cp src/lib.rt "$FOLDER/read" && mkdir -p out && cp src/lib.rt out/libacpi_c.a && mv "$FOLDER/first" "$FOLDER/tree/crates/acpi_c/src/lib.rt"
    else
      mkdir -p out/rlib/acpi_graph.rlib && echo library >out/rlib/acpi_graph.rlib/format
      mv "$FOLDER/tree/crates/acpi_c/src/lib.rt" "$FOLDER/first" && echo other >"$FOLDER/tree/crates/acpi_c/src/lib.rt"
    fi
    echo "$PROVED"'
echo first >"$lib"
meanwhile lib "$proves" library
same 'files that are other ones while their crate is proved' "$(as_recorded crates/acpi_c/out/libacpi_c.a) $(cat "$scratch/read" "$lib")" $'other other\nfirst'
# shellcheck disable=SC2016 # the same
other_rt lib '[ "${PWD##*/}" != acpi_c ] || cp src/lib.rt "$FOLDER/tree/crates/acpi_c/out/read"; exec "$FOLDER/bin/rt" "$@"'
PATH="$scratch/other:$PATH" "$scratch/tree/scripts/prove" library >"$scratch/log" 2>&1
same 'they are proved anew' "$? $(cat "$of_c/read") $(as_recorded crates/acpi_c/out/libacpi_c.a)" $'0 first library\nrecorded'
printf 'pub fn one() -> u8 {\n    1\n}\n\npub fn two() -> u8 {\n    2\n}\n' >"$lib"
# The gate reads the sources where they are: it passes nothing if one is written meanwhile, or is another one for a while.
# gate_with SCRIPT: what the gate ends with, and whether a program is recorded.
gate_with() {
  meanwhile ci "$1; exec \"\$FOLDER/bin/rt\" ci" gate | tail -n 1
  [ ! -e "$of_cli/acpi_cli.made" ] || echo recorded
}
# shellcheck disable=SC2016 # the same
same 'a file that is written while the gate runs' "$(gate_with 'cd "$FOLDER/tree" && echo other >crates/acpi_cli/src/main.rt && echo first >crates/acpi_cli/src/main.rt')" \
  'scripts/prove: sources changed while the gate ran, so it is not known what it passed: run it again'
# shellcheck disable=SC2016 # the same
same 'a file in the place of which another one is while the gate runs' "$(gate_with 'cd "$FOLDER/tree/crates/acpi_cli" && mv src/main.rt first && echo other >src/main.rt && mv first src/main.rt')" \
  'scripts/prove: sources changed while the gate ran, so it is not known what it passed: run it again'
same 'a gate in which none is' "$(gate_with :)" recorded

# ---- what else may be among the sources: one line says it

# said WHAT TEXT TARGET: scripts/prove ends with an error, of which the last but one, or the last, line has this text.
said() {
  rm -f "$of_cli"/*.made "$of_c"/*.made
  PATH="$scratch/other:$PATH" "$scratch/tree/scripts/prove" "$3" >"$scratch/log" 2>&1
  same "$1" "$? $(tail -n 2 "$scratch/log" | grep -c -- "$2") $(grep -c Traceback "$scratch/log")" '1 1 0'
}
# What an editor leaves while a file is changed: `rt` refuses it.
# shellcheck disable=SC2016 # the same
other_rt 'lib | run' '[ ! -L src/.#lib.rt ] || { echo "rt: src/.#lib.rt is a link"; exit 2; }; exec "$FOLDER/bin/rt" "$@"'
ln -s someone@nowhere.987 "$scratch/tree/crates/acpi_c/src/.#lib.rt"
for target in library tests; do said "a link to nothing among the sources, prove $target" 'src/.#lib.rt is a link' $target; done
rm "$scratch/tree/crates/acpi_c/src/.#lib.rt"
touch "$scratch/tree/crates/acpi_c/src/a"$'\n'b.rt
for target in library gate; do said "a line break in the name of a source, prove $target" 'line break, or another control character, in its name: .a.nb.rt' $target; done
rm "$scratch/tree/crates/acpi_c/src/a"$'\n'b.rt
printf '// \377\n' >"$scratch/tree/crates/acpi_c/src/other.rt"
# shellcheck disable=SC2016 # the same
other_rt lib 'echo "rt: src/other.rt is no UTF-8"; exit 2'
said 'a source that is no UTF-8' 'src/other.rt is no UTF-8' tests
rm "$scratch/tree/crates/acpi_c/src/other.rt"
# In a checkout of their own: here a `make` may be at work, for which scripts/alone would wait.
cp scripts/alone "$scratch/tree/scripts"
for script in alone kept prove wrong_bodies; do
  same "scripts/$script where Python does not look beside it" "$(PYTHONSAFEPATH=1 "$scratch/tree/scripts/$script" --none 2>&1 | grep -c ModuleNotFoundError)" 0
done
same 'an option that scripts/wrong_bodies does not have' "$(scripts/wrong_bodies --build 2>&1 | grep -c -- --build)" 1
same 'scripts/wrong_bodies --printed of no crate' "$(scripts/wrong_bodies --printed /dev/null 2>&1 | tail -n 1)" 'wrong_bodies: error: these words do not go together'
# A line comes in one piece, also where several threads write.
same 'pieces in which a line is written' "$(python3 -B - 2>&1 <<'END'
import runpy, sys
sys.path[:0] = ["scripts", "tests"]
from acpi_images.program import tell
pieces, out = [], sys.stdout
sys.stdout = type("Out", (), {"write": lambda self, text: pieces.append(text), "flush": lambda self: None})()
for write in (tell, *(runpy.run_path(f"scripts/{it}")["tell"] for it in ("prove", "wrong_bodies"))):
    write("a line")
print(pieces, file=out)
END
)" "['a line\\n', 'a line\\n', 'a line\\n']"

# Each script in Python gives SIGCHLD its default, whatever its caller did, by what it imports; except those that start no others.
modules='acpi_images|crates|measure|preloaded|worst'
mapfile -t scripts < <(find scripts tests bench -path '*/target' -prune -o -type f -perm -u+x -exec grep -l '^#!/usr/bin/env python3' {} + | LC_ALL=C sort)
same 'scripts that import nothing which gives SIGCHLD its default' "$(grep -LE "^(import|from) ($modules)\\b|SIGCHLD, signal.SIG_DFL" "${scripts[@]}")" 'scripts/lists.py
scripts/parts
tests/definitions.py
tests/links.py
tests/manual.py'
for module in ${modules//|/ }; do
  same "SIGCHLD after an import of $module" \
    "$(trap '' CHLD && PYTHONPATH=scripts:tests:bench python3 -B -c "import $module, subprocess; print(subprocess.run('false').returncode)" 2>&1)" 1
done

# ---- a make that is ended

cp Makefile "$scratch/tree"
rm -f "$of_cli"/*.made
PATH="$scratch/bin:$PATH" make -s -C "$scratch/tree" build >"$scratch/log" 2>&1 <&-
same 'make build without standard input' "$? $(tail -n 1 "$scratch/log" | sed 's/, [0-9]* s$//')" '0 1 of 1, acpi_cli: proved'
# shellcheck disable=SC2016 # the same
other_rt 'lib | run | test' 'echo $$ >"$FOLDER/prover"; sleep 987 & echo $! >"$FOLDER/child"; wait'
# end_make SIGNAL WHOM TARGET: starts make, or scripts/prove alone, and ends it, or its whole group, once a prover is at work.
end_make() {
  rm -f "$scratch/prover" "$scratch/child" "$of_cli"/*.made
  PATH="$scratch/other:$PATH" python3 - "$@" "$scratch" >"$scratch/status" 2>"$scratch/log" <<'END'
import os, signal, subprocess, sys, time

def as_usual():
    for it in (signal.SIGINT, signal.SIGHUP):
        signal.signal(it, signal.SIG_DFL)

name, whom, target, scratch = sys.argv[1:]
tree = os.path.join(scratch, "tree")
words = [os.path.join(tree, "scripts", "prove"), target] if whom == "prove" else ["make", "-s", "-C", tree, target]
started = subprocess.Popen(words, stdout=sys.stderr, preexec_fn=as_usual, start_new_session=True)
child = os.path.join(scratch, "child")
until = time.monotonic() + 600
while time.monotonic() < until and not (os.path.exists(child) and os.path.getsize(child)):
    time.sleep(0.1)
(os.killpg if whom == "group" else os.kill)(started.pid, getattr(signal, "SIG" + name))
print(signal.Signals(-started.wait(timeout=600)).name)
END
  same "$1 to $2 at $3: how it ends" "$(cat "$scratch/status")" "SIG$1"
  same "$1 to $2 at $3: what it leaves" "$(for name in prover child; do stays $name && echo $name; done)" ''
}
if has ps; then
  for signal in TERM INT HUP; do
    for whom in make group; do end_make $signal $whom build; done
  done
  end_make TERM make test
  end_make KILL make library
  # A prover that is told to end ends what it started, as `rt` does. Of what started it, scripts/prove alone is told so.
  # shellcheck disable=SC2016 # the same
  other_rt 'lib | run | test | ci' 'echo $$ >"$FOLDER/prover"; sleep 987 & echo $! >"$FOLDER/child"; trap "kill $!; exit 1" TERM; wait'
  for signal in TERM INT HUP KILL; do
    for target in program gate; do end_make $signal prove $target; done
  done
else
  left_out 'what an ended make leaves' 'no ps'
fi

# ---- scripts/library

if has cc; then
  mkdir -p "$scratch/tree/bindings/c" "$scratch/linked/evil"
  cp scripts/library scripts/prelude.sh "$scratch/tree/scripts"
  cp bindings/c/acpiset.map "$scratch/tree/bindings/c"
  for part in crate heap; do
    echo "int acpiset_of_$part(void) { return 1; }" | cc -x c -fPIC -c -o "$scratch/linked/$part.o" - && ar rcD "$scratch/linked/$part.a" "$scratch/linked/$part.o"
  done
  # linked SETTING..: the checksum of the shared library, which is made with these settings of other programs.
  linked() { env "$@" "$scratch/tree/scripts/library" "$scratch/linked/crate.a" "$scratch/linked/heap.a" >"$scratch/log" 2>&1 && sha256sum <"$scratch/tree/library/libacpiset.so.1"; }
  plain=$(linked)
  same 'scripts/library' "$? ${plain:+made}" '0 made'
  printf '#!/bin/sh\nexit 9\n' | tee "$scratch/linked/evil/ld" >"$scratch/linked/evil/collect2"
  chmod +x "$scratch/linked/evil"/*
  echo 'INPUT(nothing-there)' >"$scratch/linked/evil/libc.so"
  for name in LD_RUN_PATH LIBRARY_PATH COMPILER_PATH GCC_EXEC_PREFIX GNUTARGET LDEMULATION CCC_OVERRIDE_OPTIONS; do
    same "scripts/library with the caller's $name" "$(linked "$name=$scratch/linked/evil")" "$plain"
  done
else
  left_out 'scripts/library' 'no cc'
fi

# ---- scripts/kept

# The command `rt`, as far as it is asked: it has passed each crate and its tests whose file is in a folder.
cat >"$scratch/kit/bin/rt" <<'END'
import os
class Crate:
    def __init__(self, name, below, tests):
        self.name, self.is_program, self.below, self.has_tests = name, name == "acpi_cli", lambda: below, lambda: tests
def handles_of(root):
    return ()
def crates_of(root):
    graph = Crate("acpi_graph", [], False)
    return [graph, Crate("acpi_c", [graph], True), Crate("acpi_cli", [], False)]
class Kept:
    def __init__(self, crates):
        self.rlibs = {}
    def key(self, crate):
        return "-".join([crate.name, *(self.rlibs[it.name][:8] for it in crate.below())])
    def place(self, crate, tests, key):
        return f"{os.environ['FOLDER']}/passed/{'tests' if tests else 'proof'}-{key}"
END
passed_by_rt() {
  mkdir -p "$scratch/passed/$1"
  echo '{"files": [["rlib/format", "1f"]]}' >"$scratch/passed/$1/made.json"
}
kept() {
  PATH="$scratch/bin:$PATH" "$scratch/tree/scripts/kept" 2>&1
}
same 'scripts/kept, of nothing' "$(kept)" 'acpi_graph: not kept: its sources were not passed over these libraries
acpi_c: not kept: acpi_graph is not
acpi_cli: not kept: its sources were not passed over these libraries
0 of 3 crates are kept'
passed_by_rt proof-acpi_graph
passed_by_rt proof-acpi_cli
# The library below as it was built: the SHA-256 of [('rlib/format', '1f')].
below=$(printf "[('rlib/format', '1f')]" | sha256sum | cut -c 1-8)
passed_by_rt "proof-acpi_c-$below"
same 'scripts/kept, of all but tests' "$(kept)" 'acpi_graph: kept
acpi_c: not kept: its tests were not passed
acpi_cli: kept
2 of 3 crates are kept'
passed_by_rt "tests-acpi_c-$below"
same 'scripts/kept, of all' "$(kept | tail -n 1)" '3 of 3 crates are kept'
echo 'def crates_of(root): return [1]' >>"$scratch/kit/bin/rt"
printed=$(kept)
same 'scripts/kept, with another toolchain' "$? ${printed%%: AttributeError*}" '1 scripts/kept: cannot tell with this toolchain'

finish 'build scripts: '
