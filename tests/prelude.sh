#!/usr/bin/env -S bash -p
# Each test in bash sources this first: then it is in the folder of the sources, has a scratch folder that is removed at its end, and
# counts its cases. If it has a `program`, that is an absolute path by then.
# shellcheck disable=SC2034 # the scripts use them
set -u
umask 022
# shellcheck source=scripts/prelude.sh
. "$(dirname -- "${BASH_SOURCE[0]}")/../scripts/prelude.sh"
cd -- "$(dirname -- "${BASH_SOURCE[0]}")/.." || exit
[ -z "${program-}" ] || [ -x "$program" ] || { printf '%s: no program\n' "$program" >&2; exit 1; }
scratch=$(mktemp -d) || exit
trap 'rm -rf "$scratch"' EXIT
passed=0
failed=0

# count WHAT WRONG: counts a case, which is passed if nothing is wrong.
count() {
  if [ -z "$2" ]; then
    passed=$((passed + 1))
  else
    failed=$((failed + 1))
    printf '%s:\n%s\n' "$1" "$2"
  fi
}

# same WHAT GOT WANTED: counts a case, which is passed if it got what is wanted.
same() { count "$1" "$([ "$2" = "$3" ] || printf '%s\nnot: %s' "$2" "$3")"; }

# has COMMAND: whether it is installed.
has() { command -v "$1" >/dev/null; }

# other_pythons: the Pythons from 3.9 on that are on the PATH or that pyenv has, one of each version that python3 is not.
other_pythons() {
  local python version seen=
  seen=" $(python3 -c 'import sys; print(*sys.version_info[:2])') "
  while read -r python; do
    version=$("$python" -c 'import sys; sys.version_info < (3, 9) or print(*sys.version_info[:2])' 2>/dev/null)
    [[ -z $version || $seen = *" $version "* ]] || { seen+="$version " && printf '%s\n' "$python"; }
  done < <(compgen -c | grep -x 'python3\.[0-9]*' | sort -u; printf '%s\n' "${PYENV_ROOT:-$HOME/.pyenv}"/versions/*/bin/python3)
}

# left_out WHAT WHY: says that cases were left out.
left_out() { printf 'left out: %s: %s\n' "$1" "$2"; }

# finish TITLE: prints how many cases passed, and is the status of the script: an error if there was none.
finish() {
  printf '%s%d passed, %d failed\n' "$1" "$passed" "$failed"
  [ "$failed" = 0 ] && [ "$passed" != 0 ]
}
