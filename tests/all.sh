#!/usr/bin/env -S bash -p
# Runs all scripts that test the documents, the tools, the built program and the crates' tests, as many in parallel as there are
# processors, the longest first. Prints the output of each, and at the end which of them failed. A signal that ends it also ends
# everything that it started.
# usage: tests/all.sh PROGRAM TESTS..; TESTS are the crates' tests as they were built (see refused_calls.py).
#
# Instead of the scripts of the folder tests, it runs those of the folder TESTS_FOLDER if that is set, and only those that
# TESTS_ONLY names, if that is set: this is how it is tested itself.
set -u
# shellcheck source=scripts/prelude.sh
. "$(dirname -- "$0")/../scripts/prelude.sh"
cd -- "$(dirname -- "$0")/.." || exit
program=${1:?usage: tests/all.sh PROGRAM TESTS..}
shift
tests=("$@")
folder=${TESTS_FOLDER:-tests}
scratch=$(mktemp -d) || exit
trap 'rm -rf "$scratch"' EXIT
# Each script runs in its own process group, with everything that it starts.
set -m

# ended SIGNAL: ends the scripts and what they started, and then itself by the same signal.
ended() {
  local group groups
  trap '' HUP INT TERM
  mapfile -t groups < <(jobs -rp)
  for group in "${groups[@]}"; do kill -TERM -- "-$group" 2>/dev/null; done
  # They have time to remove what they made; what ignores the signal is killed.
  for group in "${groups[@]}"; do
    for _ in {1..50}; do
      kill -0 -- "-$group" 2>/dev/null || break
      sleep 0.1
    done
  done
  for group in "${groups[@]}"; do kill -KILL -- "-$group" 2>/dev/null; done
  rm -rf "$scratch"
  trap - EXIT "$1"
  kill -s "$1" $$
}
for signal in HUP INT TERM; do
  # shellcheck disable=SC2064 # the signal of now
  trap "ended $signal" "$signal"
done

# ran SCRIPT ARGUMENTS..: runs a script of the folder, and keeps its output and its status.
ran() {
  local log="$scratch/${1//\//-}"
  "$folder/$1" "${@:2}" >"$log" 2>&1 </dev/null
  echo $? >"$log.status"
}

scripts=(recipes.sh tools/pythons.sh tools/run.py tools/growth.py limits.py lint/large.py refusals.py explain/run.py lint/run.py lint/near.py lint/edits.py rows/many_slots.py lint/second.py fuzz/run.py rows/examples.py install.sh tools/fuzz.py rebuild/run.py lists.py documents.sh package.sh valgrind.sh rows/confirm.py program.sh rows/words.py show/run.py rows/texts.py scripts.sh refused_calls.py rows/run.py rows/unsorted.py rows/hints.py scratch.sh)
# The library is tested if `make library` has left it.
[ ! -e library/libacpiset.a ] || scripts=(library/run.py library/rust.sh library/python.sh "${scripts[@]}")
[ -z "${TESTS_ONLY-}" ] || read -ra scripts <<<"$TESTS_ONLY"
[ ${#scripts[@]} != 0 ] || { echo 'tests/all.sh: TESTS_ONLY names no script' >&2; exit 1; }
for script in "${scripts[@]}"; do
  while [ "$(jobs -rp | wc -l)" -ge "$(nproc)" ]; do wait -n; done
  case $script in
    documents.sh | lint/second.py | lists.py | scripts.sh) ran "$script" & ;;
    library/run.py) ran "$script" "$program" library & ;;
    library/rust.sh | library/python.sh) ran "$script" library & ;;
    refused_calls.py) ran "$script" "${tests[@]}" & ;;
    lint/edits.py) ran "$script" crates/acpi_edit_rows/out/acpi_edit_rows & ;;
    *) ran "$script" "$program" & ;;
  esac
done
wait

failed=()
for script in "${scripts[@]}"; do
  log="$scratch/${script//\//-}"
  printf '== tests/%s\n' "$script"
  cat "$log"
  [ "$(cat "$log.status")" = 0 ] || failed+=("tests/$script")
done
printf 'scripts: %d passed, %d failed\n' $((${#scripts[@]} - ${#failed[@]})) ${#failed[@]}
[ ${#failed[@]} = 0 ] || { printf 'failed: %s\n' "${failed[*]}"; exit 1; }
