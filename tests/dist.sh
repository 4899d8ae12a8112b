#!/usr/bin/env bash
# `make dist`: which files the package has, their sums, and that it is the same when it is packed again; then, in another folder and with no rt on the path,
# what is installed from it, which is what `make install` of the repository installs; a program and listing-check run there. Last: the library built again from
# the proved crates in another folder is the same, byte for byte. With VICHRELKA_ARCHIVE set nothing is built, and VICHRELKA_CHECKER and VICHRELKA_LOADER are
# as for tests/install.sh. Last line: `N passed, M failed`, counting comparisons.
set -uo pipefail
cd "$(dirname "$0")/.." || exit 2
. tests/from_c.bash
begin dist
built=("ARCHIVE=$archive" "CHECKER=${VICHRELKA_CHECKER:-target/bin/listing_check}" "LOADER=${VICHRELKA_LOADER:-target/bin/load_check}")
version=$(sed -n 's/^VERSION = //p' Makefile)
package=target/vichrelka-$version.tar.gz
scratch=$(mktemp -d "${TMPDIR:-/tmp}/vichrelka dist.XXXXXX") || stop "no room for temporary files"
trap 'rm -rf "$scratch"' EXIT
log=$out/make.log

# The library is built again while the rest is tried: with the crates below it as they were built, and nothing of the archive itself, which is proved and
# compiled there. Not below target/, since `rt ci` refuses another crates.txt in the repository.
again=$scratch/again
build_again() {
  mkdir -p "$again"
  tar -c --exclude='crates/*/out/incremental' --exclude=crates/gateway_c/out crates crates.txt tools/prove | tar -x -C "$again" &&
    (cd "$again" && exec tools/prove staticlib gateway) >"$out/again.log" 2>&1
}
building=
if [ -z "${VICHRELKA_ARCHIVE:-}" ]; then
  build_again &
  building=$!
fi

# ---- the package

# pack WHAT: make dist; the pages are made anew
pack() {
  rm -rf target/man "$package"
  make --no-print-directory dist "${built[@]}" >"$log" 2>&1
  is "$1: status" 0 $?
  [ -f "$package" ] || { show "$log"; stop "there is no $package"; }
}

pack "make dist"
cp "$package" "$scratch/first.tar.gz"
sleep 1
# what is packed only: nothing else is built here with this umask
umask 077
TZ=Asia/Tokyo pack "make dist, later, with another umask and in another time zone"
umask 022
same "the package, packed twice" "$scratch/first.tar.gz" "$package"
rm -rf target/man

tar -xzf "$package" -C "$scratch" || stop "the package cannot be unpacked"
unpacked=$scratch/vichrelka-$version
{
  cat <<'END'
644 ./.kit
644 ./CHANGELOG.md
644 ./COMMIT
644 ./LICENSE
644 ./Makefile
644 ./README.md
644 ./SECURITY.md
644 ./SHA256SUMS
644 ./docs/POWER.md
644 ./docs/PROMISES.md
644 ./docs/REFUSALS.md
644 ./docs/RULES.md
644 ./docs/TRUST.md
644 ./include/vichrelka.h
644 ./lib/libvichrelka.a
755 ./libexec/listing_check
755 ./libexec/load_check
755 ./listing-check
644 ./man/listing-check.1
644 ./man/vichrelka.3
644 ./vichrelka.pc.in
END
  sed -n 's/^\(uint64_t\|static inline.*\) \**\(vichrelka_[a-z_]*\)(.*/644 .\/man\/\2.3/p' include/vichrelka.h
} | LC_ALL=C sort -k 2 >"$out/files"
(cd "$unpacked" && find . -type f -printf '%m %p\n' | LC_ALL=C sort -k 2) >"$out/found"
same "what the package has" "$out/files" "$out/found"
same "its library" "$archive" "$unpacked/lib/libvichrelka.a"
is "its commit" "$(git rev-parse HEAD)" "$(sed 's/-dirty$//' "$unpacked/COMMIT")"
is "its licence" "/* SPDX-License-Identifier: $(sed -n 's/^LICENSE_ID = //p' Makefile) */" "$(head -n 1 "$unpacked/include/vichrelka.h")"
is "the time of its files" "$(git log -1 --format=%ct)" "$(find "$unpacked" -type f -printf '%Ts\n' | sort -u | xargs)"

# sums WHAT STATUS: what sha256sum says to them
sums() {
  (cd "$unpacked" && sha256sum -c --strict --quiet SHA256SUMS) >"$log" 2>&1
  is "$1: status" "$2" $?
}

is "the number of sums" "$(($(wc -l <"$out/files") - 1))" "$(wc -l <"$unpacked/SHA256SUMS")"
sums "the sums" 0
cp "$unpacked/lib/libvichrelka.a" "$scratch/kept.a"
printf '\001' | dd of="$unpacked/lib/libvichrelka.a" bs=1 seek=4000 conv=notrunc 2>/dev/null
cmp -s "$unpacked/lib/libvichrelka.a" "$scratch/kept.a" && stop "the library was not damaged by the test"
sums "the sums, with a byte of the library changed" 1
cp "$scratch/kept.a" "$unpacked/lib/libvichrelka.a"

# ---- installed from it, without the toolchain

# the tools that the package needs to be installed, and no others
tools=$scratch/tools
mkdir "$tools"
for tool in cat chmod find install rm sed sh; do
  ln -s "$(command -v "$tool")" "$tools/$tool" || stop "$tool is missing"
done
make=$(command -v make)
# in_package WHAT STATUS ARGUMENT..: make in the package, with those tools alone
in_package() {
  local what_for=$1 status=$2
  shift 2
  (cd "$unpacked" && PATH=$tools && ! command -v rt >/dev/null && exec "$make" --no-print-directory "$@") >"$log" 2>&1
  is "$what_for: status" "$status" $?
}

stage=$scratch/stage
in_package "make install in the package" 0 install PREFIX=/opt/vich "DESTDIR=$stage"
make --no-print-directory install PREFIX=/opt/vich "DESTDIR=$scratch/from repository" "${built[@]}" >"$log" 2>&1
is "make install in the repository: status" 0 $?
diff -r "$scratch/from repository" "$stage" >"$out/differ" 2>&1
same "what is installed from the package, and from the repository" /dev/null "$out/differ"
in_package "make check in the package" 2 check
has "make check in the package" "this is a package" "$log"

# document 01's example of a written table (docs/RULES.md, 7.8), 140 bytes
example=tests/install.listing
{ echo "records: 3, bytes: 140" && cat "$example"; } >"$out/expected"
flags=("-I$stage/opt/vich/include" "-L$stage/opt/vich/lib" -lvichrelka)
if command -v pkg-config >/dev/null 2>&1; then
  eval "flags=($(PKG_CONFIG_PATH="$stage/opt/vich/lib/pkgconfig" PKG_CONFIG_SYSROOT_DIR="$stage" pkg-config --cflags --libs vichrelka))"
else
  echo "dist: pkg-config: not measured, it is not installed"
fi
# shellcheck disable=SC2086
cc -std=c99 $warn tests/install.c "${flags[@]}" -o "$scratch/program" || fail "the program does not compile"
"$scratch/program" <"$example" >"$out/answer"
is "the program: status" 0 $?
same "the program" "$out/expected" "$out/answer"

# checked STATUS EXPECTED ARGUMENT..: the installed listing-check on the examples, in their folder
checked() {
  local status=$1 expected=$2
  shift 2
  (cd examples/listings && PATH=/usr/bin:/bin exec "$stage/opt/vich/bin/listing-check" "$@") >"$out/answer" 2>"$out/said"
  is "listing-check $*: status" "$status" $?
  same "listing-check $*" "examples/listings/$expected" "$out/answer"
}

checked 0 site.expected site.listing
checked 1 24-dhcid-line-lost.expected 24-dhcid-line-lost.listing
has "listing-check 24-dhcid-line-lost.listing: what to do" "most likely lost a" "$out/said"
checked 0 site.load --load site.listing
checked 1 35-repeated.load --load 35-repeated.listing
in_package "make uninstall in the package" 0 uninstall PREFIX=/opt/vich "DESTDIR=$stage"
is "what is left" "" "$(find "$stage" -type f)"

# ---- the library again, elsewhere

if [ -z "$building" ]; then
  echo "dist: the library built again: not measured, VICHRELKA_ARCHIVE is set"
else
  wait "$building"
  is "tools/prove staticlib gateway in another folder: status" 0 $?
  same "the library, built in two folders" "$archive" "$again/target/staticlib/libgateway.a"
  rm -rf "$again"
fi
finish
