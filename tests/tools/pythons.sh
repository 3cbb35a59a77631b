#!/usr/bin/env -S bash -p
# Runs the tests of the tools with each Python from 3.9 on that is here, besides the one named python3.
# usage: tests/tools/pythons.sh PROGRAM; the last line is 'tools with other Pythons: N passed, M failed', a case for each script and Python,
# or 'left out: ..'.
program=$(realpath -- "${1:?usage: tests/tools/pythons.sh PROGRAM}")
# shellcheck source=tests/prelude.sh
. "$(dirname -- "$0")/../prelude.sh"
export PYTHONDONTWRITEBYTECODE=1

# wrong_with PYTHON SCRIPT: what the script prints, if a case of it fails. What it starts by the name python3 is this Python too.
wrong_with() {
  local folder printed
  folder=$(mktemp -d -p "$scratch") || { echo "no folder for it" && return; }
  ln -s "$(command -v "$1")" "$folder/python3"
  printed=$(PATH="$folder:$PATH" "$1" "$2" "$program" 2>&1 </dev/null) && grep -q '[1-9][0-9]* passed, 0 failed$' <<<"$printed" || printf '%s\n' "$printed"
}

scripts=(tests/tools/run.py tests/explain/run.py)
mapfile -t pythons < <(other_pythons)
# printed_by PYTHON SCRIPT: the file with what a script prints that has failed.
printed_by() { printf '%s\n' "$scratch/printed ${1//\//-} ${2//\//-}"; }

for python in "${pythons[@]}"; do
  for script in "${scripts[@]}"; do
    while [ "$(jobs -rp | wc -l)" -ge "$(nproc)" ]; do wait -n; done
    wrong_with "$python" "$script" >"$(printed_by "$python" "$script")" &
  done
done
wait
for python in "${pythons[@]}"; do
  for script in "${scripts[@]}"; do count "$script with $python" "$(cat "$(printed_by "$python" "$script")")"; done
done
[ ${#pythons[@]} != 0 ] || { left_out 'the tools with other Pythons' 'there is none' && exit; }
finish 'tools with other Pythons: '
