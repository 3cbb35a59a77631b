#!/usr/bin/env -S bash -p
# Runs the built program on image texts, and tests its output, its status and its error messages.
# usage: tests/program.sh PROGRAM; the last line is 'N passed, M failed'.
program=$(realpath -- "${1:?usage: tests/program.sh PROGRAM}")
# shellcheck source=tests/prelude.sh
. "$(dirname -- "$0")/prelude.sh"
cd tests || exit

# told STATUS INPUT ARGUMENTS..: runs the program on the file INPUT, and sets `wrong` where it has another status.
told() {
  local got
  wrong=""
  "${program[@]}" "${@:3}" <"$2" >"$scratch/out" 2>"${errors:-$scratch/err}"
  got=$?
  [ "$got" = "$1" ] || wrong="status $got, not $1"
}

# has_written FILE WHAT TEXT: adds to `wrong` where the file has another text. An x after the text keeps its line ends.
has_written() { [ "$(cat "$scratch/$1"; printf x)" = "$3" ] || wrong="$wrong; $2 $(cat "$scratch/$1")"; }

# runs NAME STATUS STDOUT STDERR INPUT ARGUMENTS..: runs the program on the file INPUT. STDOUT and STDERR are
# what it must write.
runs() {
  told "$2" "$5" "${@:6}"
  has_written out 'standard output' "$(printf '%bx' "$3")"
  has_written err 'standard error' "$(printf '%bx' "$4")"
  count "$1" "$wrong"
}

# text NAME CONTENT: an image text of the scratch folder; prints its path.
text() {
  printf '%b' "$2" >"$scratch/$1"
  printf '%s' "$scratch/$1"
}

smallest=../crates/acpi_cli/stdin
# The number of the last stage.
last=18
# The hints beside `no rsdp`: tests/rows/hints.py has all hints.
empty='acpiset: hint: the input is empty: is it the wrong file, or did the command before the pipe fail?\n'
elsewhere="acpiset: hint: with UEFI firmware the RSDP is elsewhere: give its address by --rsdp, from the image's first line, dmesg or /sys/firmware/efi/systab\n"

# ---- verdicts
runs "the smallest set" 0 'yes\n' '' "$smallest" check --rsdp e0000 --through 3
runs "the smallest set, 0x before the address" 0 'yes\n' '' "$smallest" check --rsdp 0xE0000 --through 3
sed 's/20 4b 41/20 4a 41/' "$smallest" >"$scratch/sum"
runs "an RSDP whose sum is wrong" 1 'no 1 RsdpSum 0xe0000 0x0 0x0\n' '' "$scratch/sum" check --rsdp e0000 --through 3
runs "the smallest set, all stages: it has no FADT" 1 'no 4 NoFadt 0x0 0x0 0x0\n' '' "$smallest" check --rsdp e0000
runs "an empty text" 1 'no 1 RsdpOut 0xe0000 0x0 0x0\n' '' /dev/null check --rsdp e0000 --through 3
runs "no RSDP at the address" 1 'no 1 RsdpOut 0xfffffffffffffff0 0x0 0x0\n' '' "$smallest" check --rsdp fffffffffffffff0 --through 3
runs "the smallest set, with counts of inputs" 0 'yes\n' '' "$smallest" check --rsdp e0000 fec00000=32 --through 3 --default-inputs 16 0xFEC01000=256 fec00000=1
tr 'a-f' 'A-F' <"$smallest" | sed 's/$/\r/' >"$scratch/upper"
runs "digits in upper case, and lines that end in CR LF" 0 'yes\n' '' "$scratch/upper" check --rsdp e0000 --through 3

# Each image, its RSDP's address, the status and the address of a search, and the verdict: an RSDP above the BIOS's memory is not
# found. One image has a window for hot-plugged memory over an NVDIMM.
while read -r image rsdp status found verdict; do
  runs "firmware $image" "$([ "$verdict" = yes ]; echo $?)" "$verdict\n" '' "images/$image.img.txt" check --rsdp "$rsdp" --through "$last"
  runs "firmware $image, its hot-pluggable ranges apart" 0 'yes\n' '' "images/$image.img.txt" check --rsdp "$rsdp" --hotplug apart
  runs "firmware $image, found" "$status" "rsdp $found\n" '' "images/$image.img.txt" find
done <<'LIST'
sb-q35-default f59e0 0 0xf59e0 yes
sb-q35-numa4-dist f59c0 0 0xf59c0 yes
sb-pc-nvdimm-numa f59d0 0 0xf59d0 no 10 Overlap 0x90 0xb8 0x100000000
ovmf-q35 f77e014 1 none yes
mv-acpi f4a10 0 0xf4a10 yes
q10-efi-virt-smp4 4f0b0018 1 none yes
q11-efi-virt-caches 47fe0000 1 none yes
sb-q35-hmat f5990 0 0xf5990 yes
sb-q35-intel-iommu f59e0 0 0xf59e0 yes
sb-q35-amd-iommu f59e0 0 0xf59e0 yes
q102-virt-smmuv3 f5ac0 0 0xf5ac0 yes
LIST
gzip -dc images/sb-q35-default.region.img.txt.gz >"$scratch/region"
runs "firmware sb-q35-default, its whole region" 0 'yes\n' '' "$scratch/region" check --rsdp f59e0
runs "firmware sb-q35-default, its whole region, its RSDP found" 0 'yes\n' '' "$scratch/region" check

# ---- faults that are confirmed
runs "a fault of the smallest set" 0 'true\n' '' "$smallest" confirm --rsdp e0000 --witness '4 NoFadt 0x0 0x0 0x0'
runs "the same, the RSDP found, and all other options" 0 'true\n' '' "$smallest" confirm --default-inputs 16 fec00000=32 --hotplug apart --processors usable --witness '4 NoFadt 0x0 0x0 0x0' 0xFEC01000=8
runs "a number that the fault does not use" 1 'false\n' '' "$smallest" confirm --rsdp e0000 --witness '4 NoFadt 0x0 0x0 0x1'
runs "an RSDP whose sum is wrong, confirmed" 0 'true\n' '' "$scratch/sum" confirm --rsdp e0000 --witness '1 RsdpSum 0xe0000 0x0 0x0'
runs "a later fault of the same set, confirmed" 0 'true\n' '' "$scratch/sum" confirm --rsdp e0000 --witness '4 NoFadt 0x0 0x0 0x0'
runs "an empty text, confirmed" 0 'true\n' '' /dev/null confirm --rsdp e0000 --witness '1 RsdpOut 0xe0000 0x0 0x0'
runs "no RSDP to confirm a fault of" 1 'no rsdp\n' "$empty" /dev/null confirm --witness '1 RsdpOut 0xe0000 0x0 0x0'
runs "no RSDP with a right sum to confirm a fault of" 1 'no rsdp\n' "$elsewhere" "$scratch/sum" confirm --witness '1 RsdpSum 0xe0000 0x0 0x0'
runs "all numbers at their highest" 1 'false\n' '' "$smallest" confirm --rsdp e0000 --witness '14 ParentCycle 0xffffffffffffffff 0xffffffffffffffff 0xffffffffffffffff'
overlap='10 Overlap 0x90 0xb8 0x100000000'
runs "firmware sb-pc-nvdimm-numa, its overlap" 0 'true\n' '' images/sb-pc-nvdimm-numa.img.txt confirm --rsdp f59d0 --witness "$overlap"
runs "firmware sb-pc-nvdimm-numa, its overlap, its hot-pluggable ranges apart" 1 'false\n' '' images/sb-pc-nvdimm-numa.img.txt confirm --rsdp f59d0 --witness "$overlap" --hotplug apart
runs "firmware sb-q35-default, no fault" 1 'false\n' '' images/sb-q35-default.img.txt confirm --rsdp f59e0 --witness "$overlap"

# ---- sets that are shown: tests/show has the lines of each
shown='rsdp 0xe0000 revision 0\nroot 0x1000 RSDT length 36 slots 0\n'
runs "the smallest set, shown" 0 "$shown" '' "$smallest" show --rsdp e0000
runs "the smallest set, shown where it is found" 0 "$shown" '' "$smallest" show
runs "an RSDP whose sum is wrong, shown" 1 'no 1 RsdpSum 0xe0000 0x0 0x0\n' '' "$scratch/sum" show --rsdp e0000
runs "no RSDP with a right sum to show" 1 'no rsdp\n' "$elsewhere" "$scratch/sum" show
runs "nothing to show" 1 'no rsdp\n' "$empty" /dev/null show
runs "firmware sb-q35-default, its whole region, shown" 0 "$(cat show/images/sb-q35-default.txt)\n" '' "$scratch/region" show

# ---- all findings: tests/lint has those of each set
runs "the smallest set, all findings" 1 'no 4 NoFadt 0x0 0x0 0x0\n' '' "$smallest" lint
runs "the smallest set, all findings, strictly" 1 'no 4 NoFadt 0x0 0x0 0x0\n' '' "$smallest" lint --strict --rsdp e0000
runs "nothing to look through" 1 'no rsdp\n' "$empty" /dev/null lint
runs "no RSDP at the address, all findings" 1 'no 1 RsdpOut 0x1000f 0x0 0x0\n' '' /dev/null lint --rsdp 1000f
runs "firmware sb-q35-default, all findings" 0 'yes\n' '' images/sb-q35-default.img.txt lint --strict --rsdp f59e0
runs "firmware q10-efi-virt-smp4, all findings" 0 'yes\n' '' images/q10-efi-virt-smp4.img.txt lint --strict --rsdp 4f0b0018
caches=images/q11-efi-virt-caches.img.txt
twice='yes\nadvice ListedTwice 0x3 0x2 0x47fc198e\n'
runs "firmware q11-efi-virt-caches, all findings" 0 "$twice" '' "$caches" lint --rsdp 47fe0000
runs "firmware q11-efi-virt-caches, all findings, strictly" 1 "$twice" '' "$caches" lint --strict --rsdp 47fe0000
runs "firmware q11-efi-virt-caches, all findings but one" 0 'yes\n' '' "$caches" lint --strict --rsdp 47fe0000 --allow ListedTwice
runs "firmware q11-efi-virt-caches, all findings but another" 1 "$twice" '' "$caches" lint --strict --rsdp 47fe0000 --allow SameUid

# ---- sets that are rebuilt: tests/rebuild has the result of each
runs "the smallest set, rebuilt" 1 'no 4 NoFadt 0x0 0x0 0x0\n' '' "$smallest" rebuild --rsdp e0000 --base e0000
runs "the smallest set, a wrong base address" 1 'refused Unaligned\n' '' "$smallest" rebuild --rsdp e0000 --base e0020
runs "no RSDP with a right sum to rebuild, and a wrong base address" 1 'no rsdp\n' "$elsewhere" "$scratch/sum" rebuild --base e0020
"$program" rebuild --rsdp f59e0 --base 7ffe0000 <images/sb-q35-default.img.txt >"$scratch/rebuilt"
runs "firmware sb-q35-default, rebuilt and checked" 0 'yes\n' '' "$scratch/rebuilt" check --rsdp 7ffe0000
runs "firmware sb-q35-default, its whole region, rebuilt" 0 "$(cat "$scratch/rebuilt")\n" '' "$scratch/region" rebuild --base 7ffe0000

# ---- the search for the RSDP
runs "the smallest set, found" 0 "rsdp 0xe0000\n" "" "$smallest" find
runs "the smallest set, checked where it is found" 0 "yes\n" "" "$smallest" check --through 3
runs "the smallest set, checked where it is found, all stages" 1 'no 4 NoFadt 0x0 0x0 0x0\n' "" "$smallest" check
runs "nothing to find" 1 "rsdp none\n" "" /dev/null find
runs "nothing to check" 1 "no rsdp\n" "$empty" /dev/null check
runs "no RSDP with a right sum to check" 1 "no rsdp\n" "$elsewhere" "$scratch/sum" check

# ---- texts that are refused
runs "half a pair" 3 '' 'acpiset: line 2: bad line\n' "$(text half '@0\n1')" check --rsdp e0000
runs "data before an address" 3 '' 'acpiset: line 1: no address\n' "$(text none '01')" check --rsdp e0000
runs "an address twice" 3 '' 'acpiset: address 0x0 twice\n' "$(text twice '@0\n01\n@0\n02')" check --rsdp e0000
runs "the byte at 4 GiB - 4 KiB twice" 3 '' 'acpiset: address 0xfffff000 twice\n' "$(text high '@fffff000\n01\n@fffff000\n02')" check --rsdp e0000
runs "an address with letters twice" 3 '' 'acpiset: address 0xfec0abcd twice\n' "$(text letters '@fec0abcd\n01\n@fec0abcd\n02')" check --rsdp e0000
runs "a line past the end" 3 '' 'acpiset: line 2: past the end\n' "$(text past '@ffffffffffffffff\n01 02')" check --rsdp e0000
runs "a line after the last address" 3 '' 'acpiset: line 3: past the end\n' "$(text after '@ffffffffffffffff\n01\n02')" check --rsdp e0000
{ printf '#'; head -c 65535 /dev/zero | tr '\0' x; printf '\n'; cat "$smallest"; } >"$scratch/line"
runs "a line of 65,536 bytes" 0 'yes\n' '' "$scratch/line" check --rsdp e0000 --through 3
{ printf '#'; head -c 65536 /dev/zero | tr '\0' x; printf '\n'; cat "$smallest"; } >"$scratch/line"
runs "a line of 65,537 bytes" 3 '' 'acpiset: too long\n' "$scratch/line" check --rsdp e0000
{ cat "$smallest"; yes '' | head -c $((67108864 - $(wc -c <"$smallest"))); } >"$scratch/text"
runs "a text of 67,108,864 bytes" 0 'yes\n' '' "$scratch/text" check --rsdp e0000 --through 3
printf '\n' >>"$scratch/text"
runs "a text of 67,108,865 bytes" 3 '' 'acpiset: too long\n' "$scratch/text" check --rsdp e0000
rm "$scratch/text"
runs "half a pair to show" 3 '' 'acpiset: line 2: bad line\n' "$scratch/half" show --rsdp e0000
runs "half a pair to look through" 3 '' 'acpiset: line 2: bad line\n' "$scratch/half" lint --strict
runs "half a pair to rebuild" 3 '' 'acpiset: line 2: bad line\n' "$scratch/half" rebuild --base e0020
runs "half a pair, and a fault to confirm" 3 '' 'acpiset: line 2: bad line\n' "$scratch/half" confirm --rsdp e0000 --witness "$overlap"
runs "half a pair, a fault to confirm, and no RSDP" 3 '' 'acpiset: line 2: bad line\n' "$scratch/half" confirm --witness "$overlap"

# ---- arguments that are refused
usage="usage: acpiset check [OPTION].. [ADDRESS=COUNT].. < IMAGE
       acpiset lint|confirm|rebuild|show|find [OPTION].. < IMAGE
For more: acpiset help, man acpiset, or TROUBLESHOOTING.md of the documentation"

# says TEXT ARGUMENTS..: the arguments are refused with this text.
says() {
  told 2 "$smallest" "${@:2}"
  has_written out 'standard output' x
  has_written err 'standard error' "acpiset: $1"$'\nx'
  count "arguments '${*:2}'" "$wrong"
}

# refuses MESSAGE ARGUMENTS..: the arguments are refused with this error message, and the usage in short. hints MESSAGE TIP
# ARGUMENTS..: with a tip between the two.
refuses() { says "$1
$usage" "${@:2}"; }
hints() { says "$1
  tip: $2
$usage" "${@:3}"; }

# helps ARGUMENTS..: the complete help is written, exactly as in help.txt.
helps() {
  told 2 "$smallest" "$@"
  has_written out 'standard output' x
  cmp -s help.txt "$scratch/err" || wrong="$wrong; standard error, beside help.txt: $(diff help.txt "$scratch/err")"
  count "arguments '$*'" "$wrong"
}

helps --help
helps check --help
helps show -h
helps rebuild --help
helps lint --strict --help
says "version 0.1.0, $last stages" --version
says "version 0.1.0, $last stages" -V
says "$usage"

# Commands and options, in the words of `clap`.
hints "unrecognized subcommand 'chek'" "a similar subcommand exists: 'check'" chek --rsdp e0000
# By Jaro's measure c has a similarity of 0.714 to confirm and 0.733 to check. Those above 0.7 are named, the least similar first.
hints "unrecognized subcommand 'c'" "some similar subcommands exist: 'confirm', 'check'" c
hints "unrecognized subcommand 'lin'" "some similar subcommands exist: 'find', 'lint'" lin
hints "unexpected argument '--rspd' found" "a similar argument exists: '--rsdp'" check --rspd e0000
refuses "unexpected argument 'fec00000=24' found" find fec00000=24
refuses "unexpected argument 'fec00000=24' found" show fec00000=24
for option in 'check --rsdp <HEX>' 'check --through <N>' 'check --default-inputs <N>' 'check --hotplug <SETTING>' 'check --processors <SETTING>' \
  'confirm --witness <FAULT>' 'rebuild --base <HEX>' 'show --rsdp <HEX>' 'lint --rsdp <HEX>'; do
  read -r command name value <<<"$option"
  refuses "a value is required for '$name $value' but none was supplied" "$command" "$name"
  refuses "the argument '$name $value' cannot be used multiple times" "$command" "$name" 1 "$name" 1
done
refuses "the argument '--strict' cannot be used multiple times" lint --strict --strict
refuses "unexpected value 'yes' for '--strict' found; no more were expected" lint --strict=yes

# Tips on the usual slips: what other programs have, an option of another command, and one where the command belongs.
report='acpiset has no JSON output: pipe it to acpiset-report --format json (in the sources tools/report)'
all='lint lists all findings: acpiset lint < IMAGE'
input='the image is read from standard input: acpiset check < IMAGE'
for word in --json --sarif --junit --tap --format; do
  hints "unexpected argument '$word' found" "$report" lint "$word"
done
hints "unexpected argument '--json' found" "$report" check --json=pretty --rsdp e0000
hints "unexpected argument '--json' found" "$report" --json
hints "unrecognized subcommand 'json'" "$report" json
tools='the tools are programs of their own: acpiset-explain, acpiset-report, acpiset-tables2image, acpiset-memory2image, acpiset-acpidump2image'
for word in explain report tables2image memory2image acpidump2image; do
  hints "unrecognized subcommand '$word'" "$tools" $word image.txt
done
hints "unexpected argument '--all' found" "$all" check --all
hints "unexpected argument '-a' found" "$all" check -a
hints "unrecognized subcommand 'all'" "$all" all
for word in --verbose -v; do
  hints "unexpected argument '$word' found" 'acpiset-explain says what a line means; acpiset version prints the version' check "$word"
done
for word in --version -V; do
  hints "unexpected argument '$word' found" 'acpiset version prints the version' check "$word"
done
for word in --quiet -q; do
  hints "unexpected argument '$word' found" 'the exit status has the verdict: acpiset check < IMAGE > /dev/null' check "$word"
done
for word in --input --image --file -i -f; do
  hints "unexpected argument '$word' found" "$input" check "$word" image
done
hints "'-': expected ADDRESS=COUNT, as in fec00000=24" "$input" check -
hints "unexpected argument '-' found" "$input" find -
for word in --output -o; do
  hints "unexpected argument '$word' found" 'the output goes to standard output: acpiset check < IMAGE > FILE' show "$word" lines
done
for option in 'check --through' 'lint --allow' 'lint --strict' 'confirm --witness' 'rebuild --base'; do
  read -r owner name <<<"$option"
  for command in check lint confirm rebuild show find; do
    [ $command = "$owner" ] || hints "unexpected argument '$name' found" "only $owner has $name" $command "$name" 3
  done
done
for name in --rsdp --through --allow --strict --witness --base --default-inputs --hotplug --processors; do
  hints "unexpected argument '$name' found" 'the command comes before its options, as in acpiset check --rsdp f59e0' $name 3 check
done
refuses "unexpected argument '--rsdp' found" find --rsdp e0000
refuses "unexpected argument '--hotplug' found" show --hotplug apart

# Paths.
path='the image is read from standard input: acpiset check <'
hints "unrecognized subcommand 'image.txt'" "$path image.txt" image.txt
hints "unexpected argument './image' found" "$path ./image" find ./image
hints "'image.txt': expected ADDRESS=COUNT, as in fec00000=24" "$path image.txt" check --rsdp e0000 image.txt
refuses "--hotplug './image': expected counted or apart" check --hotplug ./image
# An option's value is no path of an image, whatever else is wrong.
for command in check lint confirm rebuild show; do
  refuses "unexpected argument '--fix' found" $command --rsdp ./image --fix
done
refuses "unexpected argument '--fix' found" find --fix ./image.txt
hints "unexpected argument '--fix' found" "$path b.txt" check --rsdp a.txt b.txt --fix

# Values, the first wrong one: numbers in hex and in decimal, and settings.
hex='expected 1 to 16 hex digits, with or without 0x before them, as in f59e0'
prefix='write the prefix as 0x, or leave it out'
no_h='leave out the h: all addresses are in hex'
decimal='write it in decimal, without 0x'
for word in g f000:59e0 0x 00000000000000000 xh h f59e0hh 1_000 ' e0000'; do
  refuses "--rsdp '$word': $hex" check --rsdp "$word"
done
for word in 0XE0000 0X 0Xg; do
  hints "--rsdp '$word': $hex" "$prefix" check --rsdp "$word"
done
for word in f59e0h F59E0H 0x1h; do
  hints "--rsdp '$word': $hex" "$no_h" check --rsdp "$word"
done
refuses "--rsdp 'xyz': $hex" show --rsdp xyz
refuses "--rsdp 'xyz': $hex" lint --rsdp xyz --strict
refuses "--rsdp 'xyz': $hex" confirm --rsdp xyz --witness "$overlap"
refuses "--base 'xyz': $hex" rebuild --base xyz
hints "--base '7ffe0000h': $hex" "$no_h" rebuild --base 7ffe0000h
refuses "rebuild needs --base HEX: ${hex#expected }" rebuild --rsdp e0000
stages="expected a stage from 1 to $last, in at most 2 decimal digits"
for word in 0 $((last + 1)) 99 003 three; do
  refuses "--through '$word': $stages" check --rsdp e0000 --through "$word"
done
hints "--through '0x3': $stages" "$decimal" check --rsdp e0000 --through 0x3
inputs='expected a number of inputs from 1 to 256, in at most 3 decimal digits'
for word in 0 257 0024 '' 24h; do
  refuses "--default-inputs '$word': $inputs" check --default-inputs "$word"
done
hints "--default-inputs '0x18': $inputs" "$decimal" check --default-inputs 0x18
hints "--default-inputs '0X18': $inputs" "$decimal" check --default-inputs 0X18
refuses "--default-inputs '257': $inputs" confirm --witness "$overlap" --default-inputs 257
for word in Counted count both 0 ''; do
  refuses "--hotplug '$word': expected counted or apart" check --rsdp e0000 --hotplug "$word"
done
for word in Enabled online both ''; do
  refuses "--processors '$word': expected enabled or usable" check --rsdp e0000 --processors "$word"
done
refuses "--hotplug 'both': expected counted or apart" confirm --witness "$overlap" --hotplug both
refuses "--processors 'both': expected enabled or usable" confirm --witness "$overlap" --processors both
refuses "--processors 'both': expected enabled or usable" lint --processors both

# Of several wrong values the first in this order is named, in whatever order they come: --rsdp, --base, --witness, --through,
# --default-inputs, --hotplug, --processors, ADDRESS=COUNT.
refuses "--rsdp 'g': $hex" check 0=0 --processors x --hotplug x --default-inputs 0 --through 0 --rsdp g
refuses "--through '0': $stages" check 0=0 --processors x --hotplug x --default-inputs 0 --through 0 --rsdp 0
refuses "--default-inputs '0': $inputs" check 0=0 --processors x --hotplug x --default-inputs 0 --through 1
refuses "--hotplug 'x': expected counted or apart" check 0=0 --processors x --hotplug x --default-inputs 1
refuses "--processors 'x': expected enabled or usable" check 0=0 --processors x --hotplug apart
for text in '--processors x --hotplug x --default-inputs 0' '--hotplug x' '--processors x' '0=0'; do
  read -ra after <<<"$text"
  refuses "--rsdp 'g': $hex" rebuild "${after[@]}" --base g --rsdp g
  refuses "--base 'g': $hex" rebuild "${after[@]}" --base g --rsdp 0
  refuses "--rsdp 'g': $hex" lint "${after[@]}" --rsdp g
  refuses "--rsdp 'g': $hex" confirm "${after[@]}" --witness '' --rsdp g
  refuses "--witness '': expected a fault as check prints it after no, as in '10 Overlap 0x30 0x58 0x0'" confirm "${after[@]}" --witness ''
done

# Input counts.
count='expected a COUNT from 1 to 256, in at most 3 decimal digits'
address='expected an ADDRESS of 1 to 8 hex digits, with or without 0x before them'
for word in fec00000=0 fec00000=257 fec00000= fec00000=0024 'fec00000= 24' fec00000=24=24; do
  refuses "'$word': $count" check --rsdp e0000 "$word"
done
hints "'fec00000=0x18': $count" "$decimal" check fec00000=0x18
for word in 1fec00000=24 0x0fec00000=24 =24 1fec00000=257 g=24 4294967296=24 00000000001=24; do
  refuses "'$word': $address" check "$word"
done
hints "'fec0000h=24': $address" "$no_h" check fec0000h=24
hints "'0Xfec00000=24': $address" "$prefix" check 0Xfec00000=24
hints "'4273995776=24': $address" 'addresses are in hex: 4273995776 in decimal is fec00000' check 4273995776=24
hints "'4294967295=24': $address" 'addresses are in hex: 4294967295 in decimal is ffffffff' check 4294967295=24
for word in fec00000 e0000 help ''; do
  refuses "'$word': expected ADDRESS=COUNT, as in fec00000=24" check --rsdp e0000 "$word"
done
refuses "'fec01000=0': $count" check fec00000=24 fec01000=0 fec02000
refuses "'fec00000=0': $count" confirm --witness "$overlap" fec00000=0
refuses "'strict': expected ADDRESS=COUNT, as in fec00000=24" lint strict

# Faults: which part of the text is wrong.
a_fault="a fault as check prints it after no"
refuses "confirm needs --witness FAULT: $a_fault, in one argument, as in '10 Overlap 0x30 0x58 0x0'" confirm --rsdp e0000
refuses "confirm needs --witness FAULT: $a_fault, in one argument, as in '10 Overlap 0x30 0x58 0x0'" confirm --rsdp xyz
# wrong MESSAGE TEXT: this text is no fault. few TEXT [PRINTED]: it has too few parts, and is printed so.
wrong() { refuses "--witness '$2': $1" confirm --rsdp e0000 --witness "$2"; }
quoted="put the whole fault in quotation marks, as in --witness '10 Overlap 0x30 0x58 0x0'"
few() { hints "--witness '${2-$1}': too few parts: expected a stage, a name and three numbers" "$quoted" confirm --rsdp e0000 --witness "$1"; }
wrong "expected $a_fault, as in '10 Overlap 0x30 0x58 0x0'" ''
for text in "no $overlap" 'no 3 TableSum 0x1 0x3000 0x0' 'no rsdp' 'no '; do
  wrong 'leave out the leading no' "$text"
done
hints "--witness 'no': leave out the leading no" "$quoted" confirm --rsdp e0000 --witness no 10 Overlap 0x30 0x58 0x0
wrong 'advice is not a fault, and confirm judges only faults' 'advice SlitDiffers 0x2d 0x30 0x0'
for text in '10  Overlap 0x30 0x58 0x0' '10 Overlap 0x30 0x58 0x0 ' ' 10 Overlap 0x30 0x58 0x0' ' '; do
  wrong 'expected one space between two parts, and none at either end' "$text"
done
for text in 10 yes '10 Overlap' '10 Overlap 0x30 0x58' '10,Overlap,0x30,0x58,0x0' advice 'advice,' advices; do
  few "$text"
done
# The longest text of a fault has 80 bytes. One of more than 200 is not looked at.
top=0xffffffffffffffff
runs "the longest text of a fault" 1 'false\n' '' "$smallest" confirm --rsdp e0000 --witness "6 SecondAddressOverride $top $top $top"
for length in 60 61 79 80 81 100 199 200; do
  printf -v text "%${length}s" ''
  text=${text// /a}
  few "$text"
  wrong "no fault is named '${text:15}'" "10 ${text:15} 0x0 0x0 0x0"
done
hints "--witness '10': too few parts: expected a stage, a name and three numbers" "$quoted" confirm --witness 10 Overlap 0x30 0x58 0x0
wrong 'too many parts: expected a stage, a name and three numbers' "$overlap 0x0"
for name in Overlaps 45 SlitDiffers Ω; do
  wrong "no fault is named '$name'" "10 $name 0x30 0x58 0x0"
done
wrong "no fault is named 'overlap': write Overlap" '10 overlap 0x30 0x58 0x0'
wrong "no fault is named 'FACSOUT': write FacsOut" '5 FACSOUT 0x30 0x58 0x0'
for stage in 9 010 x 0xa 45 +10; do
  wrong "Overlap is a fault of stage 10, not '$stage'" "$stage Overlap 0x30 0x58 0x0"
done
wrong "RangePastEnd is a fault of stage 9, not '09'" '09 RangePastEnd 0x30 0x0 0x0'
number='is not a number as check prints it: 0x and at most 16 digits in lower case, without leading zeros'
for word in 0x030 0X30 0x3A 0x10000000000000000 30 0x 0x00 x 0x3g 0x0x1 -0x1; do
  wrong "'$word' $number" "10 Overlap $word 0x58 0x0"
  wrong "'$word' $number" "10 Overlap 0x30 $word x"
  wrong "'$word' $number" "10 Overlap 0x30 0x58 $word"
done
refuses "'Overlap': expected ADDRESS=COUNT, as in fec00000=24" confirm --witness "$overlap" Overlap 0x30 0x58 0x0

# Control characters are printed as their numbers, and of long arguments the beginning: what reaches a terminal has no control
# character but the line feeds of the text itself.
refuses "an argument is not UTF-8" check --rsdp $'\xff'
refuses "an argument is not UTF-8" check $'fec00000=24\xff'
for command in check find; do
  refuses "unexpected argument '--a\\x1b[31mb' found" $command $'--a\e[31mb'
done
refuses "unrecognized subcommand 'a\\x0ab'" $'a\nb'
refuses "unrecognized subcommand 'a\\x0a\\x0a  tip: a similar one'" $'a\n\n  tip: a similar one'
refuses "unexpected argument '-\\' found" check $'-\a'
refuses "--rsdp 'e0000\\x0d': $hex" check --rsdp $'e0000\r'
refuses "--hotplug '\\x7f\\x01\\x1f': expected counted or apart" check --hotplug $'\x7f\x01\x1f'
hints "'\\x09./a b': expected ADDRESS=COUNT, as in fec00000=24" "$path \\x09./a b" check $'\t./a b'
few $'10\tOverlap 0x30' '10\x09Overlap 0x30'
long=$(printf 'a%.0s' {1..200})
refuses "--witness '$long...': expected $a_fault, as in '10 Overlap 0x30 0x58 0x0'" confirm --witness "${long}a"
refuses "--rsdp '$long': $hex" check --rsdp "$long"
refuses "--rsdp '$long...': $hex" check --rsdp "${long}a"
refuses "unrecognized subcommand '$long...'" "$long$long"

# ---- many arguments counts NAME STATUS STDOUT FIRST_LINE WORDS..: checks the smallest set with many words ADDRESS=COUNT. A run
# that does not end is ended.
counts() {
  local program=(timeout 600 "$program")
  told "$2" "$smallest" check --rsdp e0000 --through 3 "${@:5}"
  [ "$(cat "$scratch/out")" = "$3" ] || wrong="$wrong; standard output $(cat "$scratch/out")"
  [ "$(head -n 1 "$scratch/err")" = "$4" ] || wrong="$wrong; standard error $(head -n 1 "$scratch/err")"
  count "$1" "$wrong"
}
mapfile -t words < <(awk 'BEGIN { for (i = 64999; i >= 0; i--) printf "%x=%d\n", 16 * i, i % 256 + 1 }')
counts "65,000 counts of inputs, addresses falling" 0 yes '' "${words[@]}"
mapfile -t words < <(awk 'BEGIN { for (i = 0; i < 65000; i++) printf "%x=%d\n", 16 * i, i % 256 + 1 }')
counts "65,000 counts of inputs, addresses rising" 0 yes '' "${words[@]}"
counts "65,000 counts of inputs, and a wrong one" 2 '' "acpiset: 'fec00000=0': expected a COUNT from 1 to 256, in at most 3 decimal digits" "${words[@]}" fec00000=0

# status NAME STATUS INPUT ARGUMENTS..: runs the program while writes to standard error fail.
status() {
  local errors=/dev/full
  told "$2" "$3" "${@:4}"
  has_written out 'standard output' x
  count "$1" "$wrong"
}
status "no arguments, and standard error is full" 2 "$smallest"
status "a text that is no image, and standard error is full" 3 "$(text stray 'zz\n')" check --rsdp e0000
status "an input that is a folder, and standard error is full" 4 "$scratch" check --rsdp e0000

finish ''
