#!/usr/bin/env -S bash -p
# Installs the built program into a scratch folder, runs what was installed, makes the archive, and removes everything again:
# without the library, and then with it. If `make library` has left none, other files replace it, and nothing is linked with them.
# The folders have names with blanks, and some with all characters that have a meaning in a shell or in make.
# usage: tests/install.sh PROGRAM; the last line is 'install: N passed, M failed'.
# shellcheck disable=SC2016 # dollar signs and backquotes in names of folders and in pages are no commands
program=$(realpath -- "${1:?usage: tests/install.sh PROGRAM}")
# shellcheck source=tests/prelude.sh
. "$(dirname -- "$0")/prelude.sh"
# `make` passes its own settings on to the programs that it starts.
unset DESTDIR PREFIX LIBDIR PC_PREFIX BINARY LIBRARY SOURCE_DATE_EPOCH
mkdir "$scratch/a tmp"
export TMPDIR="$scratch/a tmp"

# copy_tree FOLDER: copies this tree without what was built, so that no archive is left here, and without a licence.
copy_tree() {
  local all
  mkdir "$1"
  mapfile -t all < <(ls -d Makefile ./*.md bindings crates crates.txt docs examples man release scripts share bench/README.md tests/images tools)
  tar -cf - --exclude=out --exclude=target "${all[@]}" | tar -xf - -C "$1"
  sed -i '/^LICENSE$/d' "$1/release/files.txt"
}

tree="$scratch/a tree"
copy_tree "$tree"

# run TARGET SETTING..: runs make in the copy, and keeps its output.
run() { make -s -C "$tree" "$@" >"$scratch/log" 2>&1; }

# with_program TARGET SETTING..: the same, for the program that is tested.
with_program() { run BINARY="$program" "$@"; }

# of_tree PATTERN..: the files of this tree with such names: those that git has, if this is its folder.
of_tree() {
  if [ -z "$(git rev-parse --show-cdup 2>&1)" ]; then
    git ls-files -- "$@"
  else
    find . -type f -printf '%P\n' | grep -x "$(printf '%s\n' "$@" | sed 's|[.]|[.]|g; s|[*]|.*|g')"
  fi
}

# sorted: lines in one order on every machine.
sorted() { LC_ALL=C sort; }

# files_in FOLDER: its files and links.
files_in() { (cd "$1" 2>/dev/null && find . ! -type d | sed 's|^\./||' | sorted); }

# hardened FILE: how a program or a library was linked: its type, whether its stack is executable, whether relocations are
# read-only and bound at start, and how many segments are both writable and executable.
hardened() {
  readelf -hlWd "$1" | awk '
    $1 == "Type:" { type = $2 }
    $1 == "GNU_STACK" { stack = $7 }
    $1 == "GNU_RELRO" { relro = "relro" }
    /\((FLAGS|FLAGS_1|BIND_NOW)\)/ && /NOW/ { now = "now" }
    $1 == "LOAD" && / RWE / { both++ }
    END { print type, stack, relro, now, both + 0 }
  '
}

# The tools that are installed, by the list of them, and those in the folder.
tools=$(sed -n "s/^tools='\(.*\)'$/\1/p" scripts/install | tr ' ' '\n')
there=$(cd tools && find . -type f -printf '%P\n' | grep -x '[a-z0-9]*' | sorted)
same 'tools that scripts/install lists, and those that are here' "$tools" "$there"
wanted=$({
  echo bin/acpiset
  for tool in $there; do echo "bin/acpiset-$tool"; done
  of_tree 'man/*.1' | sed 's|^|share/man/man1/|; s|/man/|/|2'
  echo share/man/man7/acpiset-faults.7
  of_tree README.md CHANGELOG.md CONTRIBUTING.md SECURITY.md bench/README.md 'docs/*' | sed 's|^|share/doc/acpiset/|'
  echo share/doc/acpiset/NOTICES.md
  of_tree 'share/*'
  echo share/acpiset/FAULTS.md
  of_tree 'tests/images/*' | sed 's|^tests|share/acpiset|'
} | sorted)

# open_links FOLDER: the links in its pages that lead nowhere; not in the copy of FAULTS.md that only tools read.
open_links() {
  local page link
  find "$1" -name '*.md' ! -path '*/share/acpiset/FAULTS.md' | while read -r page; do
    sed '/^```/,/^```$/d' "$page" | grep -o '](\([^)]*\))' | sed 's/^](//; s/)$//; s/#.*//' | grep -v '^$\|^https\{0,1\}:\|^mailto:' | while read -r link; do
      [ -e "${page%/*}/$link" ] || printf '%s: %s\n' "${page#"$1/"}" "$link"
    done
  done
}

# ---- install and uninstall

# Files that an editor or anyone else leaves beside the tools and pages are not installed, nor packed.
others=(LICENSE tools/explain~ tools/explain.orig tools/.explain.swp man/acpiset.1~ docs/.hidden.md docs/FAULTS.md~ docs/other.md docs/other.png
  man/other.1 man/other.3 share/acpiset/explain/other.py tests/images/other.img.txt examples/other.c bindings/rust/src/other.rs
  bindings/python/acpiset/other.py)
add_others() { for name in "${others[@]}"; do echo x >"$tree/$name"; done; }
remove_others() { (cd "$tree" && rm -f "${others[@]}"); }
add_others
with_program install DESTDIR="$scratch/root" PREFIX=/usr
same 'make install' "$? $(cat "$scratch/log")" '0 '
usr="$scratch/root/usr"
same 'files that are installed' "$(files_in "$usr")" "$wanted"
same 'links in the installed pages that lead nowhere' "$(open_links "$usr")" ''
same 'an installed image' "$("$usr/bin/acpiset" check <"$usr/share/acpiset/images/example.img.txt")" yes
remove_others
same 'lines of acpiset-faults(7)' "$(wc -l <"$usr/share/man/man7/acpiset-faults.7")" "$(awk -f man/faults.awk docs/FAULTS.md | wc -l)"
same 'the program' "$("$usr/bin/acpiset" check <tests/images/example.img.txt)" yes
same 'acpiset-explain' "$(echo yes | "$usr/bin/acpiset-explain" | head -n 1)" yes
same 'the page that acpiset-explain names' "$("$usr/bin/acpiset-explain" </dev/null 2>&1)" \
  "acpiset-explain: no line on standard input: acpiset wrote none; what it said on standard error is in $usr/share/doc/acpiset/docs/TROUBLESHOOTING.md"
mv "$usr/share/doc" "$scratch/doc"
same 'acpiset-explain without share/doc' "$("$usr/bin/acpiset-explain" overlap | head -n 1)" '45 Overlap'
same 'acpiset-report without share/doc' "$("$usr/bin/acpiset" check <tests/images/sb-pc-nvdimm-numa.img.txt | "$usr/bin/acpiset-report" --format json | grep -c 'Two enabled memory ranges')" 1
mv "$scratch/doc" "$usr/share/doc"
same 'acpiset-acpidump2image' "$("$usr/bin/acpiset-acpidump2image" tests/images/example.acpidump.txt 2>"$scratch/log" | "$usr/bin/acpiset" check)" yes
ln -s "$usr/bin/acpiset-explain" "$scratch/link"
same 'acpiset-explain by a link' "$(echo 'no rsdp' | "$scratch/link" | head -n 1)" 'no rsdp'
same 'acpiset-tables2image without files' "$("$usr/bin/acpiset-tables2image" 2>&1 | grep -c '^acpiset-tables2image: usage: acpiset-tables2image ')" 1
# A tool whose own name has control characters: the usage and the refusals have none.
mkdir "$scratch/named" "$scratch/named/bin"
cp -r "$usr/share" "$scratch/named"
cp "$usr"/bin/* "$scratch/named/bin"
for tool in $tools; do
  mv "$scratch/named/bin/acpiset-$tool" "$scratch/named/bin/acpiset-$tool"$'\e]0;x\a\r'
  for words in '' '--none' '/nothing/there' '--help'; do
    # shellcheck disable=SC2086 # no word, or one
    same "control characters of its own name that $tool $words prints" \
      "$("$scratch/named/bin/acpiset-$tool"$'\e]0;x\a\r' $words </dev/null 2>&1 | LC_ALL=C tr -d '\n\40-\176' | od -An -c)" ''
  done
done
rm -r "$scratch/named"
# A tool of another owner beside them, and a caller that ignores SIGCHLD.
for tool in $tools; do printf 'open("%s", "w")\n' "$scratch/called" >"$usr/bin/$tool"; done
same 'acpiset-acpidump2image beside a tool of another owner' \
  "$("$usr/bin/acpiset-acpidump2image" tests/images/example.acpidump.txt 2>/dev/null | "$usr/bin/acpiset" check) $(find "$scratch/called" 2>/dev/null)" 'yes '
same 'acpiset-report on a text of acpidump, beside a tool of another owner' \
  "$("$usr/bin/acpiset-report" --format tap tests/images/example.acpidump.txt 2>&1 | grep -c '^ok ') $(find "$scratch/called" 2>/dev/null)" '1 '
for tool in $tools; do rm "$usr/bin/$tool"; done
same 'acpiset-report on a fault, with SIGCHLD ignored' "$(trap '' CHLD; "$usr/bin/acpiset-report" --format tap tests/images/sb-pc-nvdimm-numa.img.txt >"$scratch/log"; echo "$? $(grep -c '^not ok ' "$scratch/log")")" '1 1'
mv "$usr/bin/acpiset" "$scratch/acpiset"
printf '#!/bin/sh\nexit 4\n' >"$usr/bin/acpiset"
chmod +x "$usr/bin/acpiset"
for tool in 'report --format tap' 'explain no 10 Overlap 0x90 0xb8 0x100000000'; do
  # shellcheck disable=SC2086 # a tool and its words
  same "acpiset-$tool with a program that fails, with SIGCHLD ignored" \
    "$(trap '' CHLD; "$usr/bin/acpiset-"$tool tests/images/sb-pc-nvdimm-numa.img.txt 2>&1; echo $?)" "$("$usr/bin/acpiset-"$tool tests/images/sb-pc-nvdimm-numa.img.txt 2>&1; echo $?)"
done
mv "$scratch/acpiset" "$usr/bin/acpiset"
same 'files after the tools ran' "$(files_in "$usr")" "$wanted"
names=$(paste -s -d '|' <<<"$tools")
same 'names of a checkout in what is installed' "$(grep -rnE "(^|[^A-Za-z0-9_./-])(\./acpiset|(\./)?tools/($names)([^A-Za-z0-9_]|$))" "$usr/share/doc" "$usr/share/man")" ''
same 'a second install over the first' "$(with_program install DESTDIR="$scratch/root" PREFIX=/usr; echo "$? $(cat "$scratch/log")")" '0 '
echo mine >"$usr/share/doc/acpiset/docs/mine"
with_program uninstall DESTDIR="$scratch/root" PREFIX=/usr
same 'make uninstall' "$? $(cat "$scratch/log")" '0 '
same 'files that are left' "$(files_in "$scratch/root")" usr/share/doc/acpiset/docs/mine
same 'folders of its own that are left' "$(find "$scratch/root" -path '*/acpiset*' -type d -printf '%P\n' | sorted)" $'usr/share/doc/acpiset\nusr/share/doc/acpiset/docs'
rm -rf "$scratch/root"
(umask 077 && with_program install DESTDIR="$scratch/root" PREFIX=/usr)
same 'modes of what is installed with a umask of 077' "$(find "$scratch/root/usr" -printf '%y %m\n' | sort -u)" $'d 755\nf 644\nf 755'
rm -rf "$scratch/root"

# Folder names that a shell, make, sed or pkg-config could interpret.
odd=(' a  blank ' "'\"" '$(touch made)`touch made`' ';touch made;&touch made&' '|\*?#%' '$HOME $$ ${HOME}~!' '-x>made é')
for name in "${odd[@]}"; do
  root="$scratch/odd/r$name"
  with_program install DESTDIR="$root" PREFIX="/u$name"
  same "make install into '$name'" "$? $(cat "$scratch/log") $(files_in "$root/u$name")" "0  $wanted"
  with_program uninstall DESTDIR="$root" PREFIX="/u$name"
  same "make uninstall from '$name'" "$? $(cat "$scratch/log") $(files_in "$root")" '0  '
done
root="$scratch/odd/"'in $(touch made) the `touch made` environment'
DESTDIR="$root" PREFIX=/usr with_program install
same 'make install by the environment' "$? $(cat "$scratch/log") $(files_in "$root/usr")" "0  $wanted"
same 'commands in names that were run' "$(find "$scratch" . -maxdepth 3 -name made)" ''
mkdir "$scratch/foreign"
for name in x p; do echo mine >"$scratch/foreign/$name"; done
with_program uninstall DESTDIR="$scratch/foreign/x y" PREFIX=/usr
with_program uninstall DESTDIR="$scratch/foreign" PREFIX='/p q'
same 'files of others that make uninstall leaves' "$(files_in "$scratch/foreign")" $'p\nx'

# ---- each shell that is here, and the commands of busybox

# by_shell PATH SHELL..: what scripts/install does by this shell, with the commands of this PATH: it installs, refuses a prefix, and removes.
by_shell() {
  local root="$scratch/by a shell" prefix='/u $(touch made) %'
  (
    cd "$tree" || exit
    export BINARY=$program LIBRARY=none DESTDIR=$root
    PATH=$1 PREFIX=$prefix "${@:2}" scripts/install install
    echo "status $?"
    (cd "$root$prefix" && find . ! -type d -exec sha256sum {} + | sed 's|^\([0-9a-f]*\)  \./|\1 |' | sorted)
    PATH=$1 PREFIX=usr "${@:2}" scripts/install install
    echo "status $?"
    PATH=$1 PREFIX=$prefix "${@:2}" scripts/install uninstall
    echo "status $?"
  ) 2>&1
  files_in "$root"
  rm -rf "$root"
}
by_sh=$(by_shell "$PATH" sh)
# shellcheck disable=SC2001 # a pattern of each line
same 'scripts/install by sh' "$(sed 's/^[0-9a-f]\{64\} //' <<<"$by_sh" | sorted)" "$(sorted <<<"$wanted"$'\nscripts/install: PREFIX is no absolute path: usr\nstatus 0\nstatus 0\nstatus 2')"
for shell in dash 'bash' 'bash --posix' 'busybox sh' mksh ksh yash zsh\ --emulate\ sh; do
  # shellcheck disable=SC2086 # a shell and its options
  if has ${shell%% *}; then same "scripts/install by $shell" "$(by_shell "$PATH" $shell)" "$by_sh"; else left_out "scripts/install by $shell" 'it is not installed'; fi
done
if has busybox; then
  mkdir "$scratch/applets"
  for applet in $(busybox --list); do ln -s "$(command -v busybox)" "$scratch/applets/$applet"; done
  # Debian's has none of this name.
  [ -e "$scratch/applets/install" ] || ln -s "$(command -v install)" "$scratch/applets"
  same 'scripts/install by busybox with its commands' "$(by_shell "$scratch/applets" "$scratch/applets/sh")" "$by_sh"
fi

# refused WHAT TEXT TARGET SETTING..: make says why in one line, and installs nothing.
refused() {
  local what=$1 text=$2
  shift 2
  run "$@"
  same "$what" "$? $(grep -c '^scripts/install: ' "$scratch/log") $(grep -cF -- "$text" "$scratch/log")" '2 1 1'
  same "$what: files that are installed" "$(files_in "$scratch/none")" ''
}

none="DESTDIR=$scratch/none"
given="BINARY=$program"
refused 'a line break in DESTDIR' 'DESTDIR has a line break' install "$given" "$none"$'\n'
refused 'a line break in PREFIX' 'PREFIX has a line break' install "$given" "$none" PREFIX=$'/usr\n'
refused 'no PREFIX' 'PREFIX is empty' install "$given" "$none" PREFIX=
refused 'a PREFIX that is relative' 'PREFIX is no absolute path: usr' install "$given" "$none" PREFIX=usr
refused 'a PREFIX like an option' 'PREFIX is no absolute path: -r' install "$given" "$none" PREFIX=-r
refused 'a DESTDIR like an option' 'DESTDIR is no absolute path: -r' install "$given" DESTDIR=-r
refused 'a LIBDIR that is relative' 'LIBDIR is no absolute path: lib' install "$given" "$none" LIBDIR=lib
refused 'uninstall with a PREFIX that is relative' 'PREFIX is no absolute path: usr' uninstall "$none" PREFIX=usr
refused 'a program that is not there' 'BINARY=FILE' install BINARY=missing "$none"
refused 'a folder as the program' 'BINARY=FILE' install BINARY=docs "$none"
mkdir -p "$scratch/none/usr/bin/acpiset"
refused 'a folder in the place of the program' '/none/usr/bin/acpiset is a folder' install "$given" "$none" PREFIX=/usr
mkdir -p "$scratch/none/usr/share/man/man7/acpiset-faults.7"
rmdir "$scratch/none/usr/bin/acpiset"
refused 'a folder in the place of a page' '/man7/acpiset-faults.7 is a folder' install "$given" "$none" PREFIX=/usr
rm -r "$scratch/none"
for name in docs/FAULTS.md man/faults.awk; do
  mv "$tree/$name" "$scratch/moved"
  refused "no $name" "$name is missing" install "$given" "$none" PREFIX=/usr
  mv "$scratch/moved" "$tree/$name"
done
mkdir -p "$scratch/filed/usr"
echo mine >"$scratch/filed/usr/bin"
run install "$given" DESTDIR="$scratch/filed" PREFIX=/usr
same 'a file in the place of a folder' "$? $(grep -c '/filed/usr/bin is no folder$' "$scratch/log") $(files_in "$scratch/filed")" '2 1 usr/bin'
for name in share/doc/acpiset/docs/TABLES.md share/acpiset; do
  mkdir -p "$scratch/linked/usr/${name%/*}"
  ln -s /nothing/there "$scratch/linked/usr/$name"
  run install "$given" DESTDIR="$scratch/linked" PREFIX=/usr
  same "a link to nothing in the place of $name" "$? $(grep -c "/linked/usr/$name is \\(a link to nothing: remove it\\|no folder$\\)" "$scratch/log") $(files_in "$scratch/linked")" "2 1 usr/$name"
  rm -r "$scratch/linked"
done
mkdir -p "$scratch/kept/usr/bin/acpiset"
run uninstall DESTDIR="$scratch/kept" PREFIX=/usr
same 'uninstall where there is a folder' "$? $(grep -c '/kept/usr/bin/acpiset is a folder: it stays$' "$scratch/log") $(find "$scratch/kept" -name acpiset)" "2 1 $scratch/kept/usr/bin/acpiset"

# ---- what is built, and from which sources: with a fake toolchain that records its calls
stand_in=$scratch/stand-in
mkdir -p "$stand_in/bin" "$stand_in/kit/c"
export FOLDER=$stand_in PROGRAM=$program
cat >"$stand_in/bin/rt" <<'END'
#!/bin/sh
echo "$*" >>"$FOLDER/calls"
case $1 in
  version) echo rattle-kit-stand-in ;;
  doc) echo "$FOLDER/kit/START-HERE.md" ;;
  run) mkdir -p out && cp "$PROGRAM" out/acpi_cli && echo logic=proved ;;
  try)
    printf '== 1\nyes\n== 2\n' && cat "$3/2.args"
    printf 'case=1 run=ended\ncase=2 run=ended\n' >&2
    ;;
  lib)
    rlib=out/rlib/${PWD##*/}.rlib
    mkdir -p "$rlib" && echo "$PWD" >"$rlib/format" && echo logic=proved
    [ "${PWD##*/}" != acpi_c ] || cp "$FOLDER/libacpi_c.a" out/libacpi_c.a
    ;;
esac
END
chmod +x "$stand_in/bin/rt"
# built TARGET SETTING..: runs make with that toolchain.
built() { PATH="$stand_in/bin:$PATH" run "$@"; }
PATH="$stand_in/bin:$PATH" refused 'no program' '`make build` first' install "$none"
PATH="$stand_in/bin:$PATH" refused 'no library' '`make library` first' install-library "$none"
PATH="$stand_in/bin:$PATH" run dist
same 'make dist without a program' "$? $(grep -c '`make build` first' "$scratch/log")" '2 1'
same 'calls of the toolchain by install and dist' "$(cat "$stand_in/calls" 2>/dev/null)" ''
built build
same 'make build' "$? $(cmp "$program" "$tree/acpiset")" '0 '
built install DESTDIR="$scratch/root" PREFIX=/usr
same 'make install of what was built' "$? $(cat "$scratch/log")" '0 '
rm -rf "$scratch/root"
source=$tree/crates/acpi_graph/src/lib.rt
cp "$source" "$scratch/source"
echo '// changed' >>"$source"
PATH="$stand_in/bin:$PATH" refused 'a program of other sources' '`make build` first' install "$none"
cp "$scratch/source" "$source"
if has cc && has ar; then
  echo 'int acpiset_abi(void) { return 1; }' >"$scratch/abi.c"
  echo 'int rattle_alloc(void) { return 0; }' >"$scratch/heap.c"
  (cd "$scratch" && cc -fPIC -c abi.c heap.c && ar rcD "$stand_in/libacpi_c.a" abi.o && ar rcD "$stand_in/kit/c/liblibc_c.a" heap.o)
  built library
  same 'make library' "$? $(tail -n 1 "$scratch/log")" '0 library/libacpiset.so.1'
  same 'how a library is hardened' "$(hardened "$tree/library/libacpiset.so.1")" 'DYN RW relro now 0'
  built install DESTDIR="$scratch/root" PREFIX=/usr
  same 'make install of the library that was built' "$? $(cat "$scratch/log") $(files_in "$scratch/root/usr/lib")" \
    $'0  libacpiset.a\nlibacpiset.so\nlibacpiset.so.1\npkgconfig/acpiset.pc'
  rm -rf "$scratch/root"
  echo '// changed' >>"$source"
  refused 'a library of other sources' '`make library` first' install "$given" "$none"
  refused 'a library of other sources, alone' '`make library` first' install-library "$none"
  run install "$given" DESTDIR="$scratch/root" PREFIX=/usr LIBRARY=none
  same 'make install without the library' "$? $(cat "$scratch/log") $(files_in "$scratch/root/usr")" "0  $wanted"
  rm -rf "$scratch/root"
  cp "$scratch/source" "$source"
  rm "$tree/library/sources.sha256"
  refused 'a library of unknown sources' '`make library` first' install-library "$none"
else
  left_out 'a library that is older than the sources' 'no cc or no ar'
fi
rm -rf "$tree/library" "$tree/acpiset" "$tree"/crates/*/out
image="$scratch/"'an image'"'"'s $(touch made) name'
cp tests/images/example.img.txt "$image"
built try IMAGE="$image" ARGUMENTS='check --through 3'
same 'make try of an image of many marks' "$? $(tail -n 4 "$scratch/log")" "0 $image: acpiset check --through 3
  check
  --through
  3"
run fuzz N=1
same 'make fuzz without a program' "$? $(grep -c '`make build` first' "$scratch/log")" '2 1'

# ---- what a caller set changes nothing

# Where `cd` would look first: another checkout, with what make removes or runs there. An alias that bash would know.
other=$scratch/elsewhere
mkdir -p "$other/scripts" "$other/dist" "$other/tests" "$other/crates" "$other/bench"
echo mine >"$other/dist/mine"
printf 'shopt -s expand_aliases\nalias mkdir="touch %q; mkdir"\n' "$scratch/aliased" >"$scratch/aliases"
for target in dist try; do
  CDPATH=$other BASH_ENV=$scratch/aliases PATH="$stand_in/bin:$PATH" with_program $target IMAGE="$image"
  same "make $target with another checkout in CDPATH" "$? $(files_in "$other") $(find "$scratch/aliased" 2>/dev/null)" '0 dist/mine '
done
same 'the folder of the archive then' "$(find "$tree/dist" -name '*.tar.gz' | wc -l)" 1
rm -rf "$tree/dist"

# ---- a full disk, simulated by a limit on the size of files

printf '#!/bin/sh\n' >"$scratch/small"
(
  trap '' XFSZ
  ulimit -f 64
  with_program install DESTDIR="$scratch/short" PREFIX=/usr
  same 'make install where no long file can be written' "$? $(grep -c 'File too large' "$scratch/log")" '2 1'
  # With a program that fits, the first file that does not is a page that awk writes. mawk reports a failed write in two lines.
  run BINARY="$scratch/small" install DESTDIR="$scratch/short" PREFIX=/usr
  same 'make install where no long page can be written' \
    "$? $(grep -c '^scripts/install: .*acpiset-faults.7 could not be written: .*File too large' "$scratch/log") $(grep -c 'File too large' "$scratch/log")" '2 1 1'
  with_program dist
  same 'make dist where no long file can be written' "$? $(find "$tree/dist" -name '*.tar.gz')" '2 '
  printf '%d %d\n' "$passed" "$failed" >"$scratch/counts"
)
read -r passed failed <"$scratch/counts"
# An awk that writes a part of a page into a file, and does not say so: with -v when names of commands are changed, with -f when a
# page is made.
mkdir "$scratch/silent"
for option in -v -f; do
  printf '#!/bin/sh\nif [ "$1" = %s ] && [ -f /dev/stdout ]; then %s "$@" | head -n 5; else exec %s "$@"; fi\n' \
    "$option" "$(command -v awk)" "$(command -v awk)" >"$scratch/silent/awk"
  chmod +x "$scratch/silent/awk"
  PATH="$scratch/silent:$PATH" with_program install DESTDIR="$scratch/short" PREFIX=/usr
  same "make install with an awk that writes a part, with $option" \
    "$? $(grep -c 'could not be written$' "$scratch/log") $(files_in "$scratch/short/usr/share/man/man7")" '2 1 '
done
make -s -C "$tree" BINARY="$program" dist >/dev/full 2>"$scratch/log"
same 'make dist where its answer cannot be written' "$?" 2
rm -rf "$tree/dist" "$scratch/short"

# ---- the archive: unpacked elsewhere, with only the base system's commands

# archived SETTING..: makes the archive; its standard error is in the file `notes`.
archived() { make -s -C "$tree" BINARY="$program" dist "$@" >"$scratch/log" 2>"$scratch/notes"; }

add_others
archived
remove_others
same 'make dist' "$? $(sed 's/-[0-9.]*-/-VERSION-/' "$scratch/log")" '0 dist/acpiset-VERSION-x86_64-linux.tar.gz'
same 'make dist on a licence that is missing' "$(grep -c '^scripts/archive: acpiset has no licence yet: ' "$scratch/notes")" 1
version=$(sed -n 's/^## \([0-9.]*\).*/\1/p' CHANGELOG.md | head -n 1)
name=acpiset-$version-x86_64-linux
archive=$tree/dist/$name.tar.gz
same 'the sum of the archive' "$(cd "$tree/dist" && sha256sum -c "$name.tar.gz.sha256")" "$name.tar.gz: OK"
same 'files beside the archive' "$(cd "$tree/dist" && echo *)" "$name $name.tar.gz $name.tar.gz.sha256"
copy_tree "$scratch/another"
mkdir "$scratch/tmp" "$scratch/lint"
: >"$scratch/awk"
if has gawk; then
  # The awk programs are checked here, too.
  printf '#!/bin/sh\nexec gawk --lint "$@" 2>>"$LINT"\n' >"$scratch/lint/awk"
  chmod +x "$scratch/lint/awk"
fi
(
  umask 077
  cd "$scratch/another" && LINT="$scratch/awk" PATH="$scratch/lint:$PATH" TMPDIR="$scratch/tmp" TZ=Asia/Tokyo LC_ALL=C.UTF-8 TAR_OPTIONS=--mode=700 GZIP=-1 make -s BINARY="$program" dist >"$scratch/log" 2>&1
)
same 'the archive, made in another folder with another umask' "$(sha256sum <"$scratch/another/dist/$name.tar.gz")" "$(sha256sum <"$archive")"
# POSIX defines what substr returns for an index past the end.
same 'awk --lint on what makes an archive' "$(sed 's/ (FILENAME=.*FNR=[0-9]*)//' "$scratch/awk" | grep -v ' warning: substr: ' | sort | uniq -c)" ''
same 'modes beside that archive' "$(cd "$scratch/another/dist" && stat -c %a ./*.tar.gz*)" $'644\n644'
same 'modes in the archive' "$(tar -tvzf "$archive" | cut -c 1-10 | sort -u)" $'-rw-r--r--\n-rwxr-xr-x\ndrwxr-xr-x\nlrwxrwxrwx'
same 'owners and times in the archive' "$(tar --numeric-owner --full-time -tvzf "$archive" | awk '{ print $2, $4, $5 }' | sort -u | wc -l)" 1
same 'the order of the archive' "$(tar -tzf "$archive" | sed 's|/$||' | LC_ALL=C sort -c 2>&1)" ''
mkdir "$scratch/unpacked"
tar -xzf "$archive" -C "$scratch/unpacked"
unpacked=$scratch/unpacked/$name

# packed FILES..: the files of an archive, except its list of checksums, if these files are installed.
packed() {
  {
    printf '%s\n' README.md PROVED.md acpiset.spdx.json "$@" images
    [ ! -e "$unpacked/lib/acpiset.o" ] || printf '%s\n' lib/acpiset.o licences/LGPL-2.1.txt licences/glibc.txt
  } | sorted
}

mapfile -t installed <<<"$wanted"
same 'files in the archive' "$(files_in "$unpacked" | grep -v SHA256SUMS)" "$(packed "${installed[@]}")"
same 'files that the list of sums has' "$(sed 's/^[0-9a-f]*  //' "$unpacked/SHA256SUMS")" "$(packed "${installed[@]}" | grep -vx images)"
same 'links in its pages that lead nowhere' "$(open_links "$unpacked")" ''
same 'paths of the tree in the archive' "$(grep -rlaF -e "$tree" -e "$PWD" -e "$scratch" "$unpacked")" ''
same 'places to fill in the pages' "$(grep -n '@[A-Z]*@' "$unpacked/README.md" "$unpacked/PROVED.md")" ''
same 'the library in its pages' "$(grep -c libacpiset "$unpacked/README.md" "$unpacked/PROVED.md" | grep -v ':0$')" ''
same 'tools that its README does not name' "$(for tool in $there; do grep -q "\`bin/acpiset-$tool\`" "$unpacked/README.md" || echo "$tool"; done)" ''
same 'the processor in its README' "$(grep -c 'runs on any x86-64 processor' "$unpacked/README.md")" 1
same 'the licence in its README' "$(grep -c 'has chosen no licence yet' "$unpacked/README.md")" 1
same 'the sum of the program in PROVED.md' "$(grep -c "$(sha256sum "$unpacked/bin/acpiset" | cut -d ' ' -f 1)" "$unpacked/PROVED.md")" 1
same 'the version of the program' "$("$unpacked/bin/acpiset" --version 2>&1)" "acpiset: version $version, 18 stages"
same 'its list of parts' "$(tests/parts_list.py "$unpacked" 2>&1)" ''
mkdir "$scratch/kept archive"
cp "$archive" "$archive.sha256" "$scratch/kept archive"
echo 'a licence' >"$tree/LICENSE"
echo LICENSE >>"$tree/release/files.txt"
archived SOURCE_DATE_EPOCH=1700000000
same 'times in an archive of a given time' "$(TZ=UTC tar --full-time -tvzf "$archive" | awk '{ print $4, $5 }' | sort -u)" '2023-11-14 22:13:20'
same 'make dist with a licence' "$? $(grep -c 'no licence' "$scratch/notes") $(tar -tzf "$archive" | grep -c '/share/doc/acpiset/LICENSE$')" '0 0 1'
same 'a licence in the README of the archive' "$(tar -xzOf "$archive" "$name/README.md" | grep -c 'Its licence is in `share/doc/acpiset/LICENSE`')" 1
rm -rf "$tree/LICENSE" "$tree/dist"
sed -i '/^LICENSE$/d' "$tree/release/files.txt"

# ---- which sources an archive names, and the program in it

# sources_of FOLDER: what the archive of a folder names as its sources, a hash as HASH.
sources_of() {
  make -s -C "$1" BINARY="$program" dist >"$scratch/log" 2>&1
  tar -xzOf "$1/dist/$name.tar.gz" "$name/PROVED.md" | sed -n 's/^| sources | `\(.*\)` |$/\1/p' | sed 's/[0-9a-f]\{40\}/HASH/'
}
# git_in FOLDER WORD..: git in this folder, whoever runs this.
git_in() { git -C "$1" -c user.name=someone -c user.email=someone@example.org -c core.excludesFile=/dev/null "${@:2}" >>"$scratch/log" 2>&1; }
same 'sources without git' "$(sources_of "$tree")" unknown
if has git; then
  repository=$scratch/repository
  copy_tree "$repository"
  printf 'out/\n/dist/\n' >"$repository/.gitignore"
  git_in "$repository" init && git_in "$repository" add -A && git_in "$repository" commit -m all
  same 'sources of a commit' "$(sources_of "$repository")" HASH
  git_in "$repository" tag -a -m tagged 'v1&@SUM@'
  same 'sources of a tag of many marks' "$(sources_of "$repository")" 'v1&@SUM@'
  echo x >"$repository/docs/other.md"
  same 'sources beside a file that is not packed' "$(sources_of "$repository")" 'v1&@SUM@'
  echo '// other' >"$repository/crates/acpi_graph/src/other.rt"
  same 'sources with a file that git does not have' "$(sources_of "$repository")" 'v1&@SUM@-dirty'
  rm "$repository/crates/acpi_graph/src/other.rt"
  echo x >>"$repository/docs/TABLES.md"
  same 'sources of which one was changed' "$(sources_of "$repository")" 'v1&@SUM@-dirty'
  copy_tree "$repository/inside"
  same 'sources inside of another repository' "$(sources_of "$repository/inside")" unknown
  # A file that git does not have is packed neither where nothing lists it, nor where the list has it.
  git_in "$repository" checkout -- docs/TABLES.md
  echo 'a licence' >"$repository/LICENSE"
  same 'sources beside a licence that git does not have' "$(sources_of "$repository") $(tar -tzf "$repository/dist/$name.tar.gz" | grep LICENSE)" 'v1&@SUM@ '
  echo LICENSE >>"$repository/release/files.txt"
  git_in "$repository" commit -m listed release/files.txt
  rm -r "$repository/dist"
  make -s -C "$repository" BINARY="$program" dist >"$scratch/log" 2>&1
  same 'make dist of a licence that git does not have' "$? $(grep -c '^scripts/archive: git does not have LICENSE: ' "$scratch/log") $(ls "$repository/dist" 2>/dev/null)" '2 1 '
  git_in "$repository" add LICENSE && git_in "$repository" commit -m licensed
  same 'make dist of a licence that git has' "$(sources_of "$repository" | grep -c dirty) $(tar -tzf "$repository/dist/$name.tar.gz" | grep -o 'share/.*LICENSE$')" '0 share/doc/acpiset/LICENSE'
  rm -rf "$repository"
else
  left_out 'the commit in an archive' 'no git'
fi

# A linker that gives another program: no archive has it.
mkdir "$scratch/linking"
cp "$program" "$scratch/linking/program"
echo object >"$scratch/linking/program.o"
printf '#!/bin/sh\nwhile [ "$1" != -o ]; do shift; done\necho object >"$2"\n' >"$stand_in/bin/ld"
printf '#!/bin/sh\nwhile [ "$1" != -o ]; do shift; done\n{ echo "#!/bin/sh"; echo "$LINKED"; } >"$2" && chmod +x "$2"\n' >"$stand_in/bin/cc"
chmod +x "$stand_in/bin/ld" "$stand_in/bin/cc"
if [ -r /usr/share/doc/libc6-dev/copyright ] || [ -r /usr/share/licenses/glibc/LICENSES ]; then
  for linked in 'echo no 1 NoRsdp 0x0 0x0 0x0' "exec '$program' \"\$@\" | sed s/yes/no/" "'$program' \"\$@\"; exit 4"; do
    LINKED=$linked PATH="$stand_in/bin:$PATH" make -s -C "$tree" BINARY="$scratch/linking/program" dist >"$scratch/log" 2>&1
    same "make dist with a linked program that answers otherwise: $linked" "$? $(grep -c 'answers otherwise than' "$scratch/log") $(ls "$tree/dist" 2>/dev/null)" '2 1 '
  done
else
  left_out 'a linked program that answers otherwise' 'no notices of the C library'
fi
rm -rf "$stand_in/bin/ld" "$stand_in/bin/cc" "$tree/dist"

# Each command of its README prints what the page says.
page=$unpacked/README.md
sed -n '/^```console$/,/^```$/p' "$page" | sed -n 's/^\$ //p' >"$scratch/commands"
(cd "$unpacked" && env -i PATH=/usr/bin:/bin sh "$scratch/commands") >"$scratch/printed" 2>&1
same 'the commands of its README' "$(cat "$scratch/printed")" "$(sed -n '/^```console$/,/^```$/p' "$page" | grep -v '^\$ \|^```')"
same 'commands in its README' "$([ "$(wc -l <"$scratch/commands")" -ge 5 ] && echo yes)" yes
# Each of its commands for tables of one's own makes a page of such files. The table has a wrong checksum, and the dump no RSDT.
mkdir "$scratch/own"
{ printf 'HPET8\0\0\0' && head -c 48 /dev/zero; } >"$scratch/own/hpet.dat"
{ head -c 16 /dev/zero && printf 'RSD PTR KAAAAAA\0\0\020\0\0' && head -c 40 /dev/zero; } >"$scratch/own/dump.bin"
# page_of COMMAND: what a page says of the files, which the command names by the names in README.
page_of() {
  local command=${1//'/sys/firmware/acpi/tables/*'/"'$scratch'/own/*.dat"}
  command=${command//' *.dat'/" '$scratch'/own/*.dat"}
  (cd "$unpacked" && eval "${command%>*}") 2>"$scratch/log" | grep -o '<strong>[A-Za-z]*</strong>' | sort -u
}
mapfile -t own < <(grep -o '`bin/acpiset-report --format html [^i][^`]*`' "$page" | tr -d '`')
same 'commands for own tables in its README' "${#own[@]}" 3
for command in "${own[@]}"; do
  case $command in
    *FILE*)
      same 'a page of text of acpidump' "$(page_of "${command/FILE/images/example.acpidump.txt}" | grep -x '<strong>yes</strong>')" '<strong>yes</strong>'
      same 'a page of a dump of memory' "$(page_of "${command/FILE/"'$scratch'/own/dump.bin"}" | grep Root)" '<strong>RootHeaderOut</strong>'
      ;;
    *) same "a page of raw tables: $command" "$(page_of "$command" | grep TableSum)" '<strong>TableSum</strong>' ;;
  esac
done
# So does the first use in the complete README.
whole=$unpacked/share/doc/acpiset/README.md
blocks=$(awk '/^<!-- recipe first-use/ { on = 1 } on && /^```/ { inside = !inside; if (!inside) on = 0; next } on && inside' "$whole")
if [ -n "$blocks" ]; then
  sed -n 's/^\$ //p' <<<"$blocks" >"$scratch/commands"
  cp -r "$unpacked" "$scratch/used"
  (cd "$scratch/used" && env -i PATH="$PWD/bin:/usr/bin:/bin" IMAGES=images sh "$scratch/commands") >"$scratch/printed" 2>&1
  same 'the first use in README' "$(cat "$scratch/printed")" "$(grep -v '^\$ ' <<<"$blocks")"
  same 'commands of the first use' "$([ "$(wc -l <"$scratch/commands")" -ge 5 ] && echo yes)" yes
fi
# steps: the commands of a step of a CI system that installs the archive, which is in the folder with its sum.
steps() {
  sed -n '/^- name: Install acpiset$/,/^- name: Check/s/^    //p' docs/RECIPES.md
  echo 'PATH=$(cat "$GITHUB_PATH"):$PATH'
}
gitlab_steps() { sed -n '/^acpi-tables:$/,/^  script:/s/^    - //p' docs/RECIPES.md; }
for kind in steps gitlab_steps; do
  cp -r "$scratch/kept archive" "$scratch/$kind"
  { $kind && echo 'cat acpiset-*/images/example.img.txt | acpiset check'; } >"$scratch/$kind/commands"
  same "an archive in CI, by the $kind" "$(cd "$scratch/$kind" && env -i PATH=/usr/bin:/bin GITHUB_PATH="$scratch/$kind/path" sh -e commands 2>&1)" "$name.tar.gz: OK"$'\nyes'
done
# It runs on any x86-64 processor. A program for a later level reads the processor's features as it starts.
if has nm; then
  same 'functions that read the features of the processor' "$(nm -D "$program" | grep -c cpuid)" 0
fi
if ! has qemu-x86_64; then
  left_out 'the program on an old processor' 'no qemu-x86_64'
else
  for processor in qemu64 kvm64 core2duo; do
    for file in "$program" "$unpacked/bin/acpiset"; do
      qemu-x86_64 -cpu "$processor" "$file" check <tests/images/example.img.txt >"$scratch/printed" 2>"$scratch/log"
      status=$?
      if grep -q 'CPU does not support x86-64-v' "$scratch/log"; then
        left_out "$file on the processor $processor" 'the C library of this machine needs a later processor'
      else
        same "$file on the processor $processor" "$status $(cat "$scratch/printed") $(cat "$scratch/log")" '0 yes '
      fi
    done
  done
fi
if has nm; then
  same 'symbols of its program' "$(nm "$unpacked/bin/acpiset" 2>&1 | grep -vc ': no symbols$')" 0
fi
if [ -e "$unpacked/lib/acpiset.o" ]; then
  same 'how its program is hardened' "$(hardened "$unpacked/bin/acpiset")" 'DYN RW relro now 0'
  same 'notices of the C library' "$(grep -cw 'Version 2.1, February 1999' "$unpacked/licences/LGPL-2.1.txt") $(grep -cim 1 'GNU C Library' "$unpacked/licences/glibc.txt")" '1 1'
  same 'libraries that its program asks for' "$(readelf -d "$unpacked/bin/acpiset" | grep -c NEEDED)" 0
  same 'its program on the known sets' "$(tests/rows/run.py "$unpacked/bin/acpiset" | grep -c ' 0 failed$')" 1
else
  left_out 'the statically linked program of the archive' 'it could not be linked here'
  same 'the C library in the list of parts' "$(grep -A 1 '"relationshipType": "DYNAMIC_LINK"' "$unpacked/acpiset.spdx.json" | grep -c acpiset)" 1
fi

# ---- with the library
library=$tree/library
mkdir "$library"
if [ -e library/libacpiset.a ]; then
  cp -P library/* "$library"
else
  for file in libacpiset.a libacpiset.so.1; do echo "in place of $file" >"$library/$file"; done
  ln -s libacpiset.so.1 "$library/libacpiset.so"
fi
# It counts as built from the sources here.
(cd "$tree" && sha256sum crates.txt >library/sources.sha256)
pages=$(for page in man/*.3; do [ ! -e "$page" ] || echo "share/man/man3/${page#man/}"; done)
with_library=$(printf '%s\n' "$wanted" include/acpiset.h lib/libacpiset.a lib/libacpiset.so lib/libacpiset.so.1 lib/pkgconfig/acpiset.pc "$pages" | sorted)

# field NAME FILE: a field of a pkg-config file.
field() { sed -n "s/^$1[=:] *//p" "$2"; }

# fields NAME FILE: all of its fields.
fields() { for name in prefix libdir includedir Version Libs; do field $name "$1"; done; }

plain=("DESTDIR=$scratch/plain" PREFIX=/opt/acpiset)
prefix=$scratch/plain/opt/acpiset
with_program install "${plain[@]}"
same 'make install with the library' "$? $(cat "$scratch/log")" '0 '
same 'files that are installed with the library' "$(files_in "$prefix")" "$with_library"
same 'the name without a version' "$(readlink "$prefix/lib/libacpiset.so")" libacpiset.so.1
same 'acpiset.pc' "$(fields "$prefix/lib/pkgconfig/acpiset.pc")" \
  "$(printf '%s\n' /opt/acpiset '${prefix}/lib' '${prefix}/include' "$version" '-L${libdir} -lacpiset')"
with_program uninstall "${plain[@]}"
same 'make uninstall with the library' "$? $(cat "$scratch/log")" '0 '
same 'files that are left of it' "$(files_in "$prefix")" ''
other=("DESTDIR=$scratch/other" PREFIX=/usr LIBDIR=/usr/lib/x86_64-linux-gnu)
with_program install "${other[@]}"
same 'a folder of its own for libraries' "$(field libdir "$scratch/other/usr/lib/x86_64-linux-gnu/pkgconfig/acpiset.pc")" '${prefix}/lib/x86_64-linux-gnu'
with_program uninstall "${other[@]}"
same 'files that are left there' "$? $(cat "$scratch/log") $(files_in "$scratch/other")" '0  '
# pkg-config prints a dollar sign in a form that a shell would replace, so there is none in this name.
prefix="$scratch/"'pre fix `touch made` ;&|"\ '"'"'#%'"'"
with_program install PREFIX="$prefix" LIBDIR="$prefix/li b"
same 'files that are installed under a prefix of many marks' "$? $(cat "$scratch/log") $(files_in "$prefix" | sed 's|^li b/|lib/|' | sorted)" "0  $with_library"
if has pkg-config; then
  eval "flags=($(PKG_CONFIG_PATH="$prefix/li b/pkgconfig" pkg-config --cflags --libs acpiset))"
  # shellcheck disable=SC2154 # `eval` fills flags
  same 'what pkg-config says of it' "$(printf '%s\n' "${flags[@]}")" "$(printf '%s\n' "-I$prefix/include" "-L$prefix/li b" -lacpiset)"
else
  left_out 'a prefix with blanks in acpiset.pc' 'no pkg-config'
fi
with_program uninstall PREFIX="$prefix" LIBDIR="$prefix/li b"
same 'files that are left under it' "$? $(cat "$scratch/log") $(files_in "$prefix")" '0  '

# A name is filled in as it is, also if it has places to fill itself.
prefix=/opt/@LIBDIR@/@VERSION@
with_program install DESTDIR="$scratch/places" PREFIX="$prefix"
same 'acpiset.pc under a prefix with places to fill' "$(fields "$scratch/places$prefix/lib/pkgconfig/acpiset.pc")" \
  "$(printf '%s\n' "$prefix" '${prefix}/lib' '${prefix}/include' "$version" '-L${libdir} -lacpiset')"

add_others
archived
remove_others
same 'make dist with the library' "$? $(sed 's/-[0-9.]*-/-VERSION-/' "$scratch/log")" '0 dist/acpiset-VERSION-x86_64-linux.tar.gz'
rm -rf "$unpacked"
tar -xzf "$archive" -C "$scratch/unpacked"
beside=$({
  printf '%s\n' bindings/rust/Cargo.lock bindings/rust/Cargo.toml bindings/rust/README.md bindings/rust/build.rs bindings/rust/tests/tables_in_memory.rs
  of_tree 'bindings/rust/src/*' 'bindings/rust/examples/*' 'examples/*'
  of_tree 'bindings/python/*' | grep -v '/\.[^/]*$'
} | sorted)
mapfile -t installed <<<"$with_library"$'\n'"$beside"
same 'files in the archive with the library' "$(files_in "$unpacked" | grep -v SHA256SUMS)" "$(packed "${installed[@]}")"
same 'files that the list of sums has, and no links' "$(sed 's/^[0-9a-f]*  //' "$unpacked/SHA256SUMS")" "$(packed "${installed[@]}" | grep -vx 'lib/libacpiset.so\|images')"
same 'links in its pages that lead nowhere, with the library' "$(open_links "$unpacked")" ''
same 'its sums' "$(cd "$unpacked" && sha256sum --check --quiet SHA256SUMS 2>&1)" ''
same 'paths of the tree in it' "$(grep -rlaF -e "$tree" -e "$PWD" -e "$scratch" "$unpacked")" ''
same 'places to fill in its pages' "$(grep -n '@[A-Z]*@' "$unpacked/README.md" "$unpacked/PROVED.md")" ''
for file in lib/libacpiset.a lib/libacpiset.so.1; do
  same "the sum of $file in PROVED.md" "$(grep -c "$(sha256sum "$unpacked/$file" | cut -d ' ' -f 1)" "$unpacked/PROVED.md")" 1
done
same 'the library in its README' "$(grep -c '^| `lib/libacpiset.a`' "$unpacked/README.md")" 1
same 'its list of parts' "$(tests/parts_list.py "$unpacked" 2>&1)" ''
same 'what acpiset.pc of the archive has as its prefix' "$(field prefix "$unpacked/lib/pkgconfig/acpiset.pc")" '${pcfiledir}/../..'
if [ -e library/libacpiset.a ]; then
  same 'how libacpiset.so.1 is hardened' "$(hardened "$unpacked/lib/libacpiset.so.1")" 'DYN RW relro now 0'
fi

# A program that is linked as the README of the archive says, in the unpacked folder.
if [ ! -e library/libacpiset.a ]; then
  left_out 'programs that are linked with the library' '`make library` has left none'
elif ! has cc; then
  left_out 'programs that are linked with the library' 'no cc'
else
  cd "$unpacked" || exit
  cc -I include examples/unit_test.c lib/libacpiset.a -o unit_test && ./unit_test >"$scratch/log" 2>&1
  same 'a program with libacpiset.a' "$? $(tail -n 1 "$scratch/log" | grep -c ' 0 failed$')" '0 1'
  if has pkg-config; then
    eval "flags=($(PKG_CONFIG_PATH=lib/pkgconfig pkg-config --cflags --libs acpiset))"
    cc examples/unit_test.c "${flags[@]}" -o unit_test &&
      LD_LIBRARY_PATH=lib ./unit_test >"$scratch/log" 2>&1
    same 'a program with libacpiset.so' "$? $(tail -n 1 "$scratch/log" | grep -c ' 0 failed$')" '0 1'
    cc examples/unit_test.c "${flags[@]}" -Wl,-rpath,"$PWD/lib" -o unit_test && ./unit_test >"$scratch/log" 2>&1
    same 'a program with the folder of the library' "$? $(tail -n 1 "$scratch/log" | grep -c ' 0 failed$')" '0 1'
    # The quick starts of the documents, after the line of README that sets the folders.
    export_line=$(grep '^export SOURCE=' README.md)
    guide=share/doc/acpiset/docs/LIBRARY.md
    for kind in c:quick.c python:quick.py; do
      awk -v file="<!-- file ${kind#*:} -->" '$0 == file { on = 1; next } on && /^```/ { if (inside) exit; inside = 1; next } inside' $guide >"${kind#*:}"
    done
    # shellcheck disable=SC2046 # the flags are words, as on the page
    (eval "$export_line" && cc -Wall -o quick quick.c $(pkg-config --cflags --libs acpiset) && ./quick | acpiset-explain) >"$scratch/log" 2>&1
    same 'the quick start in C, explained' "$? $(head -n 1 "$scratch/log") $(grep -c '^- Fix: list the FADT' "$scratch/log")" '0 no 4 NoFadt 0x0 0x0 0x0 1'
    cp quick.c program.c
    (eval "$(awk '/^cc -I include program.c/ { on = 1 } /^```/ { on = 0 } on' README.md)") >"$scratch/log" 2>&1
    same 'the commands of README for a program in C' "$? $(head -n 1 "$scratch/log") $(grep -c '<strong>NoFadt</strong>' page.html)" '1 no 4 NoFadt 0x0 0x0 0x0 1'
    # shellcheck disable=SC2153 # README sets SOURCE
    (eval "$export_line" && PYTHONPATH=$SOURCE/bindings/python ACPISET_LIBRARY=$LD_LIBRARY_PATH python3 -B quick.py) >"$scratch/log" 2>&1
    same 'the quick start in Python' "$? $(head -n 1 "$scratch/log") $(grep -c '^Fix: list the FADT' "$scratch/log")" '0 no 4 NoFadt 0x0 0x0 0x0 1'
    same 'the library that it asks for' "$(readelf -d unit_test | grep -c 'NEEDED.*\[libacpiset.so.1\]')" 1
  fi
  cd - >"$scratch/log" || exit
fi

# ---- without the toolchain: one line, and status 2
mkdir "$scratch/path"
for tool in make sh dirname; do ln -s "$(command -v "$tool")" "$scratch/path"; done
for target in run test build gate library try; do
  PATH="$scratch/path" make -s -C "$tree" "$target" >"$scratch/log" 2>&1
  same "make $target without the toolchain" "$? $(wc -l <"$scratch/log") $(grep -c 'the Rattle toolchain is missing' "$scratch/log")" '2 1 1'
done

# ---- two at the same time: the second one says that it waits
if has flock; then
  : >"$scratch/log"
  (
    flock 9
    : >"$scratch/held"
    for _ in {1..600}; do if grep -q 'waiting for it' "$scratch/log"; then break; fi; sleep 0.1; done
  ) 9<"$tree/crates" &
  until [ -e "$scratch/held" ]; do sleep 0.1; done
  run clean
  same 'a second make' "$(grep -c 'waiting for it' "$scratch/log")" 1
  wait
fi
run clean
same 'make clean leaves no library' "$? $(find "$tree/library" 2>&1 | grep -c 'No such file')" '0 1'

# The program takes from the C library exactly what docs/PROOF.md names.
if has nm; then
  named=$(sed -n '/^- The functions that the built program takes/,/^- What the last line/p' docs/PROOF.md | grep -o '`[A-Za-z0-9_]*`' | tr -d '`')
  taken=$(nm -D --undefined-only "$program" | awk '{ sub(/@.*/, "", $2); print $2 }')
  # The text of an error of `main` is needed or not, as the compiler inlines it.
  same 'functions that the program takes from the C library' "$(printf '%s\n' "$taken" __xpg_strerror_r | sort -u)" "$(sort -u <<<"$named")"
fi

# It is linked as SECURITY.md says.
same 'how the program is hardened' "$(hardened "$program")" 'DYN RW relro now 0'

# The program needs only the C library, in no later version than README says.
if has objdump; then
  same 'libraries of the program' "$(objdump -p "$program" | awk '$1 == "NEEDED" { print $2 }')" libc.so.6
  newest=$(objdump -T "$program" | grep -o 'GLIBC_[0-9.]*' | sed 's/GLIBC_//' | sort -uV | tail -n 1)
  same 'version of the C library' "$newest" "$(sed -n 's/.*`.\/acpiset` itself needs glibc \([0-9.]*\) or later.*/\1/p' README.md)"
fi

finish 'install: '
