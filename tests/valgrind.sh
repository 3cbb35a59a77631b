#!/usr/bin/env -S bash -p
# Runs the program on twenty inputs under valgrind, if that is installed: no access outside a buffer, no use of uninitialized
# memory, no leak, and the same output, error message and status as without it.
# usage: tests/valgrind.sh PROGRAM; the last line is 'valgrind: N passed, M failed', or 'left out: ..'.
program=$(realpath -- "${1:?usage: tests/valgrind.sh PROGRAM}")
# shellcheck source=tests/prelude.sh
. "$(dirname -- "$0")/prelude.sh"
has valgrind || { echo 'left out: valgrind is not installed'; exit 0; }

# A status that the program itself never has.
WRONG=99

# alike IMAGE STATUS ARGUMENT..: runs the program on an image; it has to end with this status.
alike() {
  local image=$1 status=$2 plain under
  shift 2
  "$program" "$@" <"$image" >"$scratch/out" 2>"$scratch/err"
  plain=$?
  valgrind --quiet --leak-check=full --show-leak-kinds=all --errors-for-leak-kinds=all --error-exitcode=$WRONG --log-file="$scratch/log" \
    "$program" "$@" <"$image" >"$scratch/out.under" 2>"$scratch/err.under"
  under=$?
  [ "$plain $under" = "$status $status" ] && cmp -s "$scratch/out" "$scratch/out.under" && cmp -s "$scratch/err" "$scratch/err.under"
  count "$* on $image" "$([ $? = 0 ] || { echo "status $plain, under valgrind $under, and not $status"; tail -n 40 "$scratch/log"; })"
}

numa=tests/images/sb-q35-numa4-dist.img.txt
nvdimm=tests/images/sb-pc-nvdimm-numa.img.txt
example=tests/images/example.img.txt
caches=tests/images/q11-efi-virt-caches.img.txt
# An address changed by one number, a line that is not image text, an empty text, and a text that gives each byte twice.
sed 's/^01 00 00 00 00 00 00 40/01 00 00 00 00 00 00 48/' "$numa" >"$scratch/grown"
printf '@1000\nzz\n' >"$scratch/no-hex"
: >"$scratch/empty"
cat "$example" "$example" >"$scratch/twice"

alike "$example" 0 check
alike "$numa" 0 check
alike "$caches" 0 check --rsdp 47fe0000
alike "$nvdimm" 1 check
alike "$nvdimm" 0 check --hotplug apart
alike "$scratch/grown" 1 check
alike "$scratch/empty" 1 check
alike "$scratch/no-hex" 3 check
alike "$scratch/twice" 3 check
alike "$example" 2 check --no-such-option
alike "$numa" 0 lint
alike "$nvdimm" 1 lint
alike "$scratch/grown" 1 lint --strict
alike "$numa" 0 show
alike "$caches" 0 show --rsdp 47fe0000
alike "$numa" 0 rebuild --base 7ffe0000
alike "$nvdimm" 1 rebuild --base 7ffe0000
alike "$nvdimm" 0 confirm --witness '10 Overlap 0x90 0xb8 0x100000000'
alike "$example" 1 confirm --witness '10 Overlap 0x90 0xb8 0x100000000'
alike "$numa" 0 find

finish 'valgrind: '
