#!/usr/bin/env -S bash -p
# Builds the Rust crate of bindings/rust with the built library, and runs its tests.
# usage: tests/library/rust.sh LIBRARY_FOLDER, the folder of libacpiset.a; the last line is 'rust bindings: N passed, M failed',
# or 'left out: ..' if there is no cargo, or one that is too old. Nothing is downloaded, and nothing is written into the tree.
library=$(realpath -- "${1:?usage: tests/library/rust.sh LIBRARY_FOLDER}")
[ -r "$library/libacpiset.a" ] || { printf '%s: no libacpiset.a\n' "$library" >&2; exit 1; }
# shellcheck source=tests/prelude.sh
. "$(dirname -- "$0")/../prelude.sh"
cd bindings/rust || exit
if ! has cargo || ! has rustc; then
  echo 'left out: no cargo'
  exit 0
fi
needed=$(sed -n 's/^rust-version = "\(.*\)"/\1/p' Cargo.toml)
version=$(rustc --version | cut -d ' ' -f 2)
[ "$(printf '%s\n' "$needed" "$version" | sort -V | head -n 1)" = "$needed" ] || { printf 'left out: rustc %s is older than %s\n' "$version" "$needed"; exit 0; }

export CARGO_TARGET_DIR="$scratch/target" CARGO_TERM_COLOR=never ACPISET_LIB_DIR="$library"
unset RUSTFLAGS RUSTDOCFLAGS PKG_CONFIG PKG_CONFIG_LIBDIR

# ran WHAT COMMAND..: counts a command that has to end well.
ran() { count "$1" "$("${@:2}" >"$scratch/log" 2>&1 || { echo "status $?"; cat "$scratch/log"; })"; }

# says WHAT TEXT COMMAND..: counts a command that has to fail and to say this.
says() {
  ! "${@:3}" >"$scratch/log" 2>&1 && grep -qF -- "$2" "$scratch/log"
  count "$1, which has to fail with \"$2\"" "$([ $? = 0 ] || { echo 'it says:'; cat "$scratch/log"; })"
}

# tests COMMAND..: counts the tests that cargo runs.
tests() {
  "$@" >"$scratch/log" 2>&1
  local status=$? counts
  counts=$(sed -n 's/^test result: [a-zA-Z]*\. \([0-9]*\) passed; \([0-9]*\) failed;.*/\1 \2/p' "$scratch/log" | awk '{ passed += $1; failed += $2 } END { print passed + 0, failed + 0 }')
  passed=$((passed + ${counts% *}))
  failed=$((failed + ${counts#* }))
  [ "$status" = 0 ] || printf '%s:\n%s\n' "$*" "$(cat "$scratch/log")"
  if [ "$status" != 0 ] && [ "${counts#* }" = 0 ]; then failed=$((failed + 1)); fi
}

# ---- the crate
tests cargo test --offline --locked --quiet
ran 'the crate without std' cargo build --offline --locked --quiet --no-default-features
if cargo clippy --version >/dev/null 2>&1; then
  ran 'clippy' cargo clippy --offline --locked --quiet --all-targets -- -D warnings
  ran 'clippy without std' cargo clippy --offline --locked --quiet --no-default-features -- -D warnings
else
  echo 'left out: clippy'
fi
if cargo fmt --version >/dev/null 2>&1; then
  ran 'the layout of the sources' cargo fmt --check
else
  echo 'left out: rustfmt'
fi
ran 'its documentation' env RUSTDOCFLAGS='-D warnings' cargo doc --offline --locked --quiet --no-deps

# ---- its example: the fault, the slot and the parts of 64, 64, 320 and 128 bytes are worked out by hand
told=$(cargo run --offline --locked --quiet --example guest_memory 2>&1)
for line in 'no 10 Overlap 0x30 0x58 0x80000000' yes 'slot 1 0x9f140 SRAT length 128 revision 3' '576 bytes at 0x7fff0000, valid: true'; do
  count "examples/guest_memory.rs: $line" "$(grep -qxF -- "$line" <<<"$told" || printf 'it prints:\n%s\n' "$told")"
done

# ---- its build script
build() { env "$@" cargo build --offline --locked --quiet; }
mkdir "$scratch/empty" "$scratch/installed"
# shellcheck disable=SC2016 # pkg-config fills in ${libdir}
printf 'libdir=%s\nName: acpiset\nDescription: acpiset\nVersion: 0\nLibs: -L${libdir} -lacpiset\n' "$library" >"$scratch/installed/acpiset.pc"
says 'a folder without the library' 'which has no libacpiset.a' build ACPISET_LIB_DIR="$scratch/empty"
says 'a relative path' 'which is no absolute path' build ACPISET_LIB_DIR=lib
says 'no library' 'Set ACPISET_LIB_DIR to the folder that has it' build -u ACPISET_LIB_DIR PKG_CONFIG_LIBDIR="$scratch/empty"
says 'no library and no pkg-config' 'Set ACPISET_LIB_DIR to the folder that has it' build -u ACPISET_LIB_DIR PKG_CONFIG="$scratch/none"
if has pkg-config; then
  ran 'the library of pkg-config' build -u ACPISET_LIB_DIR PKG_CONFIG_PATH="$scratch/installed"
  # As `make install` writes it; only such a file has the folder in pkg-config's quoting.
  prefix="$scratch/a 'prefix' with blanks & marks#"
  PREFIX="$prefix" LIBRARY="$library" ../../scripts/install install-library >"$scratch/log" 2>&1
  if [ -e "$prefix/lib/libacpiset.a" ]; then
    ran 'the library of pkg-config, in a folder of many marks' build -u ACPISET_LIB_DIR PKG_CONFIG_PATH="$prefix/lib/pkgconfig"
  else
    echo "left out: a library in a folder of many marks: $(cat "$scratch/log")"
  fi
else
  echo 'left out: pkg-config'
fi

# ---- libraries of later versions
if has cc && has ar; then
  for version in 1 2; do
    later=$scratch/later$version
    mkdir "$later"
    ran "the library of version $version" cc -O1 -Wall -Wextra -Werror -DVERSION=$version -I ../c -c tests/later_library.c -o "$later/later.o"
    ran "the archive of version $version" ar rcs "$later/libacpiset.a" "$later/later.o"
  done
  tests env ACPISET_LIB_DIR="$scratch/later1" cargo test --offline --locked --quiet --test later_library later_library -- --ignored
  tests env ACPISET_LIB_DIR="$scratch/later2" cargo test --offline --locked --quiet --test later_library version_2 -- --ignored
else
  echo 'left out: later libraries, for want of a C compiler'
fi

finish 'rust bindings: '
