#!/usr/bin/env -S bash -p
# Runs each script of release, scripts and tests that makes a scratch folder where none can be made: it must end with an error, and touch
# nothing. Only stand-ins for the commands that change files are on its PATH: they note what they are asked for, and do nothing. In Python
# a hook notes it.
# usage: tests/scratch.sh PROGRAM; the last line is 'scratch folders: N passed, M failed'.
program=$(realpath -- "${1:?usage: tests/scratch.sh PROGRAM}")
# shellcheck source=tests/prelude.sh
. "$(dirname -- "$0")/prelude.sh"
noted=$scratch/noted
bin=$scratch/bin
python=$(python3 -c 'import sys; print(sys.executable)')
mkdir "$bin" "$scratch/hook"

# real COMMAND..: has these do what they do.
real() { for command in "$@"; do ln -sf "$(command -v "$command")" "$bin"; done; }
# stand_in COMMAND LINE: has a command do this instead.
stand_in() { rm -f "$bin/$1" && printf '#!/bin/sh\n%s\n' "$2" >"$bin/$1" && chmod +x "$bin/$1"; }

real bash dirname env realpath
for command in chmod cp dd install ln make mkdir mv rm rmdir sed tar tee touch; do
  stand_in "$command" "echo \"$command \$*\" >>'$noted'"
done
stand_in mktemp "echo scratch >>'$noted'; exec '$(command -v mktemp)' \"\$@\""
stand_in cargo ''
cat >"$scratch/hook/sitecustomize.py" <<'END_OF_HOOK'
import os, sys, tempfile

CHANGES = ("os.link", "os.mkdir", "os.remove", "os.rename", "os.rmdir", "os.symlink", "os.truncate", "shutil.")
descriptor = os.open(os.environ["NOTED"], os.O_WRONLY | os.O_APPEND | os.O_CREAT)

def note(event, words):
    is_written = event == "open" and isinstance(words[0], str) and words[0] != os.devnull and words[2] & (os.O_WRONLY | os.O_RDWR)
    if is_written or event.startswith(CHANGES):
        os.write(descriptor, f"{event} {words}\n".encode())

def full(*_, **__):
    os.write(descriptor, b"scratch\n")
    raise OSError("no room for a scratch folder")

tempfile.mkdtemp = full
sys.addaudithook(note)
END_OF_HOOK

# arguments SCRIPT: what it is run with.
arguments() {
  case $1 in
    scripts/install) echo install ;;
    scripts/library | tests/library/run.py) printf '%s\n' "$program" "$program" ;;
    tests/library/*.sh) echo "$scratch/library" ;;
    scripts/try) ;;
    *) echo "$program" ;;
  esac
}

# without_room SCRIPT: what it is said to have done, and `ended well` if it did.
without_room() {
  local words command=("$1")
  mapfile -t words < <(arguments "$1")
  ! head -n 1 "$1" | grep -q python || command=("$python" -B "$1")
  rm -f "$noted"
  env -i PATH="$bin" HOME="$scratch/none" TMPDIR="$scratch/none" NOTED="$noted" PYTHONPATH="$scratch/hook" TESTS_ONLY=none BINARY="$program" \
    LIBRARY=none DESTDIR="$scratch/root" "${command[@]}" "${words[@]}" >"$scratch/log" 2>&1 </dev/null && echo 'ended well'
  cat "$noted"
}

mkdir "$scratch/library"
touch "$scratch/library/libacpiset.a" "$scratch/library/libacpiset.so.1"
# A module that only scripts import is none: it cannot be run.
mapfile -t scripts < <(find release scripts tests -type f -perm -u+x ! -name scratch.sh -exec grep -lIE 'mktemp|mkdtemp|TemporaryDirectory|tests/prelude\.sh' {} + | LC_ALL=C sort)
same 'scripts that make scratch folders' "$([ ${#scripts[@]} -ge 20 ] && echo many)" many
top=$(ls -A /)
for script in "${scripts[@]}"; do same "$script without room for a folder" "$(without_room "$script")" scratch; done
same 'files that these leave at the top' "$(ls -A /)" "$top"

# A folder that one case of a script makes: here for another Python.
stand_in python3 'echo 3 98'
stand_in python3.99 'echo 3 99'
stand_in mktemp "case \$* in *-p*) exit 1 ;; *) exec '$(command -v mktemp)' \"\$@\" ;; esac"
real cat grep head ln nproc rm sort wc
printed=$(env -i PATH="$bin" HOME="$scratch" TMPDIR="$scratch" tests/tools/pythons.sh "$program" 2>&1)
same 'the tools with another Python, without room for its folder' "$? $(tail -n 1 <<<"$printed")" '1 tools with other Pythons: 0 passed, 2 failed'
finish 'scratch folders: '
