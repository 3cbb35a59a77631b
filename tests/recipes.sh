#!/usr/bin/env -S bash -p
# Runs the recipes of README.md, docs/LIBRARY.md, docs/RECIPES.md, docs/REBUILD.md and docs/TROUBLESHOOTING.md whose tools are on
# the machine, and compares what they print with the page.
# usage: tests/recipes.sh PROGRAM; it lists those that it left out, and the last line is 'recipes: N passed, M failed, L left
# out'. A recipe that runs QEMU and fails is run once more with more time to boot. Recipes with the library find it as if it were
# installed: that of the folder `library`, as `make library` leaves it, or of the folder that the variable LIBRARY names.
#
# A recipe is a block of sh after a line '<!-- recipe NAME needs: WORDS -->', and the block of text after it is what it prints; or
# it is a block of console, whose lines with a '$ ' are the commands, and the others what they print. A word is a command, root,
# library, kernel, venv for that of Python 3.9 or later, file:PATH, command:NAME for a command of the program, iasl:VERSION, or
# cargo:VERSION for this or a later one.
# With 'own' its output depends on the machine: then only its last line is tested. A block after '<!-- file NAME -->' is a file that
# recipes use. All run in one folder and in one shell, so each finds what those before it left. acpiset and acpiset-NAME are on the
# PATH, IMAGES names the folder of images, and SOURCE one that has what the archive has of the sources, and nothing else. The folder
# has ./acpiset and bench, for the one recipe that runs in the repository alone. The kernel is the one that the variable KERNEL names, or
# that of /boot.
program=$(realpath -- "${1:?usage: tests/recipes.sh PROGRAM}")
# shellcheck source=tests/prelude.sh
. "$(dirname -- "$0")/prelude.sh"
top=$PWD
SOURCE=$scratch/source
IMAGES=$scratch/images
KERNEL=${KERNEL:-$(find /boot -name 'vmlinuz-*' -readable 2>/dev/null | sort -V | tail -n 1)}
mkdir "$scratch/bin" "$scratch/blocks" "$scratch/work" "$SOURCE"
cp -r tests/images "$IMAGES"
ln -s "$top/bindings" "$top/examples" "$SOURCE"
ln -s "$program" "$scratch/work/acpiset"
ln -s "$top/bench" "$scratch/work"
ln -s "$program" "$scratch/bin/acpiset"
for tool in tools/*; do ln -s "$top/$tool" "$scratch/bin/acpiset-${tool#tools/}"; done
PATH="$scratch/bin:$PATH"
library=$(realpath -- "${LIBRARY:-library}")
if [ -r "$library/libacpiset.a" ]; then
  mkdir "$scratch/library"
  ln -s "$library/libacpiset.a" "$library/libacpiset.so.1" "$scratch/library"
  # shellcheck disable=SC2016 # pkg-config fills in ${libdir}
  printf 'libdir=%s\nName: acpiset\nDescription: acpiset\nVersion: 0\nCflags: -I%s\nLibs: -L${libdir} -lacpiset\n' \
    "$scratch/library" "$top/bindings/c" >"$scratch/library/acpiset.pc"
  export PKG_CONFIG_PATH="$scratch/library"
  unset ACPISET_LIB_DIR ACPISET_LIBRARY
fi
left=0

awk -v folder="$scratch/blocks" '
  /^<!-- recipe / { name = sprintf("%02d-%s", ++count, $3); needs = $0; sub(/.*needs: */, "", needs); sub(/ *-->$/, "", needs); kind = "recipe"; next }
  /^<!-- file / { name = $3; kind = "file"; next }
  /^```/ && !inside {
    inside = 1
    target = ""
    if (kind == "recipe" && $0 == "```console") { target = folder "/" name ".text"; commands = folder "/" name ".sh"; print needs > (folder "/" name ".needs"); kind = "" }
    else if (kind == "recipe" && $0 == "```sh") { target = folder "/" name ".sh"; print needs > (folder "/" name ".needs"); kind = "printed" }
    else if (kind == "printed" && $0 == "```text") { target = folder "/" name ".text"; kind = "" }
    else if (kind == "file") { target = folder "/../work/" name; kind = "" }
    next
  }
  /^```/ { inside = 0; commands = ""; next }
  inside && commands != "" && /^\$ / { print substr($0, 3) > commands; next }
  inside && target != "" { print > target }
' README.md docs/LIBRARY.md docs/RECIPES.md docs/REBUILD.md docs/TROUBLESHOOTING.md

# lacks NEEDS: what a recipe needs and this machine lacks.
lacks() {
  local word
  for word in $1; do
    case $word in
      own) ;;
      root) [ "$(id -u)" = 0 ] || printf ' %s' "$word" ;;
      file:*) [ -r "${word#file:}" ] || printf ' %s' "$word" ;;
      command:*) "$program" --help 2>&1 | grep -q "acpiset ${word#command:}" || printf ' %s' "$word" ;;
      venv) python3 -c 'import ensurepip, sys, venv; sys.exit(sys.version_info < (3, 9))' 2>"$scratch/found" || printf ' %s' "$word" ;;
      kernel) [ -r "$KERNEL" ] || printf ' %s' "$word" ;;
      library) pkg-config --exists acpiset 2>"$scratch/found" || printf ' %s' "$word" ;;
      cargo:*) printf '%s\n' "${word#cargo:}" "$(cargo --version 2>"$scratch/found" | cut -d ' ' -f 2)" | sort -V -C || printf ' %s' "$word" ;;
      iasl:*) iasl -v 2>"$scratch/found" | grep -q "version ${word#iasl:}" || printf ' %s' "$word" ;;
      *) command -v "$word" >"$scratch/found" || printf ' %s' "$word" ;;
    esac
  done
}

# The time of a test differs from run to run.
settled() { sed 's/finished in [0-9.]*s/finished in 0.00s/'; }

# differs BLOCK NEEDS: runs a recipe in this shell, and prints how what it printed differs from the page.
differs() {
  # shellcheck disable=SC1090 # a block of a page
  . "$1" >"$scratch/printed" 2>&1
  cd "$scratch/work" || exit
  case " $2 " in
    *' own '*) grep -qE '^(yes|no [0-9]+ .*|.*ACPI: RSDP 0x.*)$' <(tail -n 1 "$scratch/printed") || cat "$scratch/printed" ;;
    *) diff <(settled <"$scratch/printed") <(settled <"${1%.sh}.text") ;;
  esac
}

cd "$scratch/work" || exit
for block in "$scratch"/blocks/*.sh; do
  name=$(basename "$block" .sh)
  needs=$(cat "${block%.sh}.needs")
  missing=$(lacks "$needs")
  if [ -n "$missing" ]; then
    left=$((left + 1))
    printf 'left out: %s, for want of%s\n' "$name" "$missing"
    continue
  fi
  differs "$block" "$needs" >"$scratch/difference"
  if [ -s "$scratch/difference" ] && [[ $needs == *qemu* ]]; then
    # shellcheck disable=SC2034 # the recipe uses it
    SECONDS_TO_BOOT=120
    differs "$block" "$needs" >"$scratch/difference"
    unset SECONDS_TO_BOOT
  fi
  if [[ $needs == *own* ]] && [ ! -s "$scratch/printed" ]; then
    left=$((left + 1))
    printf 'left out: %s, for the machine has nothing to print\n' "$name"
  elif [ ! -s "$scratch/difference" ]; then
    passed=$((passed + 1))
    printf 'passed: %s\n' "$name"
  else
    failed=$((failed + 1))
    printf 'failed: %s, what it printed (<) and what the page says (>):\n%s\n' "$name" "$(cat "$scratch/difference")"
  fi
done

printf 'recipes: %d passed, %d failed, %d left out\n' "$passed" "$failed" "$left"
[ "$failed" = 0 ] && [ "$passed" != 0 ]
