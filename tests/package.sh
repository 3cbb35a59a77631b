#!/usr/bin/env -S bash -p
# Builds the Debian packages of release/debian from the program and the library, if debhelper is installed, looks at what is in them,
# has lintian look them over, if that is installed, and runs their own test on the unpacked files. If `make library` has left no
# library, another one with the same functions replaces it.
# usage: tests/package.sh PROGRAM; the last line is 'package: N passed, M failed'.
program=$(realpath -- "${1:?usage: tests/package.sh PROGRAM}")
# shellcheck source=tests/prelude.sh
. "$(dirname -- "$0")/prelude.sh"
unset DESTDIR PREFIX LIBDIR PC_PREFIX BINARY LIBRARY SOURCE_DATE_EPOCH
debian=release/debian
sorted() { LC_ALL=C sort; }

# ---- what needs no tools: the functions, the version, and each installed file in one package
functions=$(sed -n 's/^struct acpiset_answer \(acpiset_[a-z_]*\)(.*/\1/p; s/^\(uint32_t\|size_t\|const char \*\) *\(acpiset_[a-z_]*\)(.*/\2/p' bindings/c/acpiset.h | sorted)
same 'functions in the list of symbols' "$(sed -n 's/^ \(acpiset_[a-z_]*\)@.*/\1/p' $debian/libacpiset1.symbols | sorted)" "$functions"
same 'the version' "$(sed -n '1s/^acpiset (\([0-9.]*\)-[0-9]*) .*/\1/p' $debian/changelog)" "$(sed -n 's/^## \([0-9.]*\).*/\1/p' CHANGELOG.md | head -n 1)"
if ! has dh || ! has dpkg-buildpackage || ! has cc; then
  left_out 'the packages' 'no debhelper, dpkg-dev or cc'
  finish 'package: '
  exit
fi

# ---- the packages
tree=$scratch/acpiset-0
mkdir "$tree"
mapfile -t all < <(ls -d Makefile ./*.md bench/README.md bindings crates crates.txt docs examples man release scripts share tests/images tools)
tar -cf - --exclude=out --exclude=target "${all[@]}" | tar -xf - -C "$tree"
cp -r "$debian" "$tree/debian"
library=$tree/library
mkdir "$library"
if [ -e library/libacpiset.a ]; then
  cp -P library/* "$library"
else
  { echo '#include <stdlib.h>' && for name in $functions; do echo "int $name(void) { return rand(); }"; done; } >"$scratch/functions.c"
  (cd "$library" && cc -O2 -fPIC -c "$scratch/functions.c" && ar rcD libacpiset.a functions.o &&
    cc -shared -o libacpiset.so.1 functions.o -Wl,-soname,libacpiset.so.1 -Wl,--version-script="$tree/bindings/c/acpiset.map" -Wl,-z,relro,-z,now &&
    ln -s libacpiset.so.1 libacpiset.so && rm functions.o)
fi
(cd "$tree" && sha256sum crates.txt >library/sources.sha256)
(cd "$tree" && BINARY=$program dpkg-buildpackage -b -us -uc >"$scratch/log" 2>&1)
same 'dpkg-buildpackage' "$? $(grep -i 'warning' "$scratch/log")" '0 '
mapfile -t packages < <(cd "$scratch" && printf '%s\n' *.deb)
same 'packages' "$(printf '%s\n' "${packages[@]}" | sed 's/_.*//')" $'acpiset\nlibacpiset-dev\nlibacpiset1'
[ ${#packages[@]} = 3 ] || { cat "$scratch/log"; finish 'package: '; exit; }

# files_in FOLDER: its files and links.
files_in() { (cd "$1" && find . ! -type d | sed 's|^\./||' | sorted); }

for package in "${packages[@]}"; do dpkg-deb -x "$scratch/$package" "$scratch/in-${package%%_*}"; done
BINARY=$program LIBRARY=$library DESTDIR=$scratch/installed PREFIX=/usr LIBDIR=/usr/lib/$(dpkg-architecture -q DEB_HOST_MULTIARCH) \
  scripts/install install 2>"$scratch/log"
# Manual pages are compressed, and each package has a copyright, and a list of changes, which CHANGELOG.md becomes.
packed=$(for folder in "$scratch"/in-*; do files_in "$folder"; done | sed 's|\(/man[0-9]/.*\)\.gz$|\1|' |
  grep -v '^usr/share/doc/[a-z0-9-]*/\(changelog.*\|copyright\|examples/.*\)$' | sorted)
count 'files of the packages (<), each in one, and those that are installed (>)' \
  "$(diff <(printf '%s\n' "$packed") <(files_in "$scratch/installed" | grep -v '/CHANGELOG.md$') | grep '^[<>]')"
same 'examples of the package' "$(files_in "$scratch/in-libacpiset-dev" | sed -n 's|.*/examples/\(.*\)|\1|p')" "$(cd examples && printf '%s\n' *.*)"
same "the package's own test" "$(IMAGES="$scratch/in-acpiset/usr/share/acpiset/images" PATH="$scratch/in-acpiset/usr/bin:$PATH" sh $debian/tests/check-image 2>&1)" \
  'images: as expected'
if has lintian; then
  # No licence, no owner's address, no release: only the owner can mend these.
  expected='bogus-mail-host|initial-upload-closes-no-bugs|unreleased|no-homepage'
  same 'lintian' "$(cd "$scratch" && lintian --allow-root --tag-display-limit 0 ./*.changes 2>&1 | grep -vE "^(N|running with root)|$expected")" ''
else
  left_out 'what lintian says' 'it is not installed'
fi
finish 'package: '
