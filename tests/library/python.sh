#!/usr/bin/env -S bash -p
# Runs the tests of the Python package of bindings/python with the built library: with each Python from 3.9 on that is here its unit tests,
# which have the examples of its docstrings and the wheel; with the one named python3 also the sets of the other tests, and pytest and mypy
# if it has them.
# usage: tests/library/python.sh LIBRARY_FOLDER, the folder of libacpiset.so.1; the last line is 'python package: N passed, M failed', or
# 'left out: ..' if there is no Python that is new enough. Nothing is downloaded, and nothing is written into the tree.
library=$(realpath -- "${1:?usage: tests/library/python.sh LIBRARY_FOLDER}")
[ -r "$library/libacpiset.so.1" ] || { printf '%s: no libacpiset.so.1\n' "$library" >&2; exit 1; }
# shellcheck source=tests/prelude.sh
. "$(dirname -- "$0")/../prelude.sh"
SOURCE=$PWD
package=$SOURCE/bindings/python
export ACPISET_LIBRARY="$library" PYTHONPATH="$package" PYTHONDONTWRITEBYTECODE=1
unset PYTHONHOME PYTHONSTARTUP PYTHONOPTIMIZE

# counts LOG: how many tests ran and how many failed, by what unittest, pytest or a script here prints.
counts() {
  awk '
    /^Ran [0-9]+ tests? in / { ran += $2 }
    /^FAILED \(/ {
      count = split($0, parts, /[(), ]+/)
      for (i = 1; i <= count; i++) if (sub(/^(failures|errors)=/, "", parts[i])) wrong += parts[i]
    }
    / (passed|failed|error|errors)(,.*)? in [0-9.]+s/ {
      for (i = 2; i <= NF; i++) if ($i ~ /^(passed|failed|errors?),?$/) { ran += $(i - 1); if ($i !~ /^passed/) wrong += $(i - 1) }
    }
    /: [0-9]+ passed, [0-9]+ failed$/ { ran += $(NF - 3) + $(NF - 1); wrong += $(NF - 1) }
    END { print ran + 0, wrong + 0 }
  ' "$1"
}

# tests TITLE COMMAND..: counts the tests of a command.
tests() {
  local status ran wrong
  "${@:2}" >"$scratch/log" 2>&1
  status=$?
  read -r ran wrong < <(counts "$scratch/log")
  # A command that fails, or that runs nothing, is at least one failed test.
  if [ "$wrong" = 0 ] && { [ "$status" != 0 ] || [ "$ran" = 0 ]; }; then wrong=1 ran=$((ran + 1)); fi
  passed=$((passed + ran - wrong))
  failed=$((failed + wrong))
  [ "$wrong" = 0 ] || printf '%s:\n%s\n' "$1" "$(cat "$scratch/log")"
  printf '%s: %d\n' "$1" "$ran"
  sed -n 's/^OK (skipped=\(.*\))$/left out: \1 of these/p' "$scratch/log"
}

# ran WHAT COMMAND..: counts a command that has to end well.
ran() { count "$1" "$("${@:2}" >"$scratch/log" 2>&1 || { echo "status $?"; cat "$scratch/log"; })"; }

python3 -c 'import sys; sys.exit(sys.version_info < (3, 9))' 2>/dev/null || { echo 'left out: no Python 3.9 or later'; exit 0; }
cd "$scratch" || exit
tests 'python3: unit tests' python3 -m unittest discover -s "$package/tests"
while read -r python; do
  tests "$python: unit tests" "$python" -m unittest discover -s "$package/tests"
done < <(other_pythons)
tests 'sets of the other tests' python3 "$SOURCE/tests/library/python_sets.py"

# The example is for pytest; its tests are functions without arguments.
cat >functions.py <<'PROGRAM'
import runpy, sys
functions = [it for name, it in runpy.run_path(sys.argv[1]).items() if name.startswith("test_")]
for function in functions:
    function()
print(f"example: {len(functions)} passed, 0 failed")
PROGRAM
tests 'examples/test_guest_tables.py' python3 functions.py "$SOURCE/examples/test_guest_tables.py"
if python3 -c 'import pytest' 2>/dev/null; then
  tests 'pytest' python3 -m pytest -q -p no:cacheprovider "$package/tests" "$SOURCE/examples/test_guest_tables.py"
  tests 'pytest, docstrings' python3 -m pytest -q -p no:cacheprovider --doctest-modules "$package/acpiset"
else
  left_out 'the tests under pytest' 'it is not installed'
fi
if python3 -c 'import mypy' 2>/dev/null; then
  ran 'types' python3 -m mypy --strict --cache-dir "$scratch/types" "$package/acpiset"
  ran 'types of the example' env MYPYPATH="$package" python3 -m mypy --cache-dir "$scratch/types" "$SOURCE/examples/test_guest_tables.py"
else
  left_out 'the types' 'mypy is not installed'
fi

count 'files that were written into the tree' "$(find "$package" "$SOURCE/examples" -newer "$scratch/functions.py" ! -type d)"

finish 'python package: '
