#!/usr/bin/env bash
# `make install` into a prefix with a blank in its name: which files, the licence in header and pkg-config file, a program compiled against them by pkg-config
# as C99 and as C++, the installed listing-check without the repository, the manual pages; then the same below DESTDIR and in other folders, `make uninstall`,
# and how much make says. With VICHRELKA_ARCHIVE set nothing is proved or built, and VICHRELKA_CHECKER and VICHRELKA_LOADER are the checkers to install
# (default target/bin/listing_check and target/bin/load_check). Last line: `N passed, M failed`, counting comparisons.
set -uo pipefail
cd "$(dirname "$0")/.." || exit 2
. tests/from_c.bash
begin install
command -v make >/dev/null 2>&1 || stop "make is missing: install GNU make"
built=()
library=target/staticlib/libvichrelka.a
if [ -n "${VICHRELKA_ARCHIVE:-}" ]; then
  checker=${VICHRELKA_CHECKER:-target/bin/listing_check}
  loader=${VICHRELKA_LOADER:-target/bin/load_check}
  [ -x "$checker" ] || stop "there is no $checker: set VICHRELKA_CHECKER, or unset VICHRELKA_ARCHIVE and let make build it"
  [ -x "$loader" ] || stop "there is no $loader: set VICHRELKA_LOADER, or unset VICHRELKA_ARCHIVE and let make build it"
  library=$archive
  built=("ARCHIVE=$library" "CHECKER=$checker" "LOADER=$loader")
fi
scratch=$(mktemp -d "${TMPDIR:-/tmp}/vichrelka install.XXXXXX") || stop "no room for temporary files"
trap 'rm -rf "$scratch"' EXIT
prefix="$scratch/it's here"
log=$out/make.log

# made WHAT STATUS ARGUMENT..: make, quietly, with this exit status
made() {
  local what_for=$1 status=$2
  shift 2
  make --no-print-directory "$@" ${built[@]+"${built[@]}"} >"$log" 2>&1
  is "$what_for: status" "$status" $?
}

# holds WHAT FOLDER EXPECTED: the files below a folder, each with its mode
holds() {
  (cd "$2" && find . -type f -printf '%m %p\n' | sort -k 2) >"$out/found"
  same "$1" "$3" "$out/found"
}

mapfile -t calls < <(sed -n 's/^uint64_t \(vichrelka_[a-z_]*\)(.*/\1/p' include/vichrelka.h)
mapfile -t functions < <(sed -n 's/^\(uint64_t\|static inline.*\) \**\(vichrelka_[a-z_]*\)(.*/\2/p' include/vichrelka.h)
[ ${#functions[@]} -gt 0 ] || stop "the header has no function"
{
  cat <<'END'
755 ./bin/listing-check
644 ./include/vichrelka.h
644 ./lib/libvichrelka.a
644 ./lib/pkgconfig/vichrelka.pc
755 ./libexec/vichrelka/listing_check
755 ./libexec/vichrelka/load_check
644 ./share/doc/vichrelka/CHANGELOG.md
644 ./share/doc/vichrelka/LICENSE
644 ./share/doc/vichrelka/POWER.md
644 ./share/doc/vichrelka/PROMISES.md
644 ./share/doc/vichrelka/REFUSALS.md
644 ./share/doc/vichrelka/RULES.md
644 ./share/doc/vichrelka/TRUST.md
644 ./share/man/man1/listing-check.1
644 ./share/man/man3/vichrelka.3
END
  printf '644 ./share/man/man3/%s.3\n' "${functions[@]}"
} | sort -k 2 >"$out/files"
made "make install" 0 install "PREFIX=$prefix"
[ -f "$prefix/lib/libvichrelka.a" ] || { cat "$log"; stop "nothing is installed"; }
holds "what is installed" "$prefix" "$out/files"
same "the library" "$library" "$prefix/lib/libvichrelka.a"

# what the header cites is installed
for document in $(grep -o 'docs/[A-Z]*\.md' include/vichrelka.h | sort -u); do
  if [ -f "$prefix/share/doc/vichrelka/${document#docs/}" ]; then pass; else fail "the header cites $document, which is not installed"; fi
done

# the licence: LICENSE_ID, in the header's first line and in the pkg-config file, and nothing else of the header differs
# licensed ID: the header and the .pc file that are installed have this licence
licensed() {
  is "the header's licence" "/* SPDX-License-Identifier: $1 */" "$(head -n 1 "$prefix/include/vichrelka.h")"
  is "the .pc file's licence" "License: $1" "$(grep '^License' "$prefix/lib/pkgconfig/vichrelka.pc")"
  tail -n +2 include/vichrelka.h >"$out/header"
  tail -n +2 "$prefix/include/vichrelka.h" >"$out/header.installed"
  same "the header behind its first line" "$out/header" "$out/header.installed"
}

made "make install with another licence" 0 install "PREFIX=$prefix" "LICENSE_ID=Apache-2.0 OR MIT"
licensed "Apache-2.0 OR MIT"
made "make install again" 0 install "PREFIX=$prefix"
licensed "$(sed -n 's/^LICENSE_ID = //p' Makefile)"

# ---- a program

pc=$prefix/lib/pkgconfig/vichrelka.pc
version=$(sed -n 's/^#define VICHRELKA_VERSION "\(.*\)"$/\1/p' "$prefix/include/vichrelka.h")
is "the version of Makefile and header" "$(sed -n 's/^VERSION = //p' Makefile)" "$version"
is "the version of the .pc file" "Version: $version" "$(grep '^Version' "$pc")"
is "the latest version of CHANGELOG.md" "$version" "$(sed -n 's/^## \([0-9.]*\), .*/\1/p' CHANGELOG.md | head -n 1)"
if command -v pkg-config >/dev/null 2>&1; then
  export PKG_CONFIG_PATH="$prefix/lib/pkgconfig"
  is "the version" "$version" "$(pkg-config --modversion vichrelka)"
  flags=$(pkg-config --cflags --libs vichrelka) || stop "pkg-config does not know vichrelka"
  eval "flags=($flags)"
else
  echo "install: pkg-config: not measured, it is not installed; the flags are those of the .pc file's variables"
  flags=("-I$prefix/include" "-L$prefix/lib" -lvichrelka)
fi
is "a flag with the header's folder" "-I$prefix/include" "${flags[0]:-}"

# document 01's example of a written table (docs/RULES.md, 7.8), 140 bytes
example=tests/install.listing
{ echo "records: 3, bytes: 140" && cat "$example"; } >"$out/expected"
echo "refused 24 at 0" >"$out/refused"

# program LANGUAGE COMPILER..: compiles tests/install.c from another folder, with the flags alone, and runs it
program() {
  local language=$1 source=$PWD/tests/install.c binary=$PWD/$out/program
  shift
  rm -f "$binary"
  # shellcheck disable=SC2086
  if (cd "$scratch" && "$@" $warn "$source" -x none "${flags[@]}" -o "$binary"); then
    "$binary" <"$example" >"$out/answer"
    is "as $language: status" 0 $?
    same "as $language" "$out/expected" "$out/answer"
    printf 'a. A 01.2.3.4' | "$binary" >"$out/answer"
    same "as $language, a fault" "$out/refused" "$out/answer"
  else
    fail "the program does not compile as $language"
  fi
}

program C99 cc -std=c99
if command -v c++ >/dev/null 2>&1; then program C++ c++ -std=c++98 -x c++; else echo "install: C++: not measured, there is no C++ compiler"; fi

# ---- listing-check, without the repository and its tools

# checked WHAT STATUS EXPECTED COMMAND..: the exit status and the output, in another folder
checked() {
  local what_for=$1 status=$2 expected=$3
  shift 3
  (cd "$scratch" && PATH=/usr/bin:/bin exec "$@") >"$out/answer" 2>"$out/said"
  is "$what_for: status" "$status" $?
  same "$what_for: output" "$expected" "$out/answer"
}

listings=$PWD/examples/listings
ln -s "$prefix/bin/listing-check" "$scratch/link"
for command in "$prefix/bin/listing-check" "$scratch/link"; do
  checked "a right listing" 0 "$listings/site.expected" "$command" "$listings/site.listing"
  same "a right listing: error stream" /dev/null "$out/said"
  checked "a damaged listing" 1 "$listings/24-dhcid-line-lost.expected" "$command" "$listings/24-dhcid-line-lost.listing"
  has "a damaged listing: where" "24-dhcid-line-lost.listing:4:1: refused 24: " "$out/said"
  has "a damaged listing: what to do" "most likely lost a" "$out/said"
  checked "a load" 0 "$listings/site.load" "$command" --load "$listings/site.listing"
  checked "a load that is refused" 1 "$listings/35-repeated.load" "$command" --load "$listings/35-repeated.listing"
done
mv "$prefix/libexec/vichrelka/listing_check" "$scratch"
checked "no program" 2 /dev/null "$prefix/bin/listing-check" "$listings/site.listing"
has "no program: what to do" "run 'make install' of Vichrelka again" "$out/said"
mv "$scratch/listing_check" "$prefix/libexec/vichrelka"

# page SECTION NAME: the installed page as man shows it, as $out/page; it has no warning
pages=$prefix/share/man
page() {
  MANWIDTH=100 man --warnings -M "$pages" "$1" "$2" >"$out/page" 2>"$out/said"
  is "$2($1): status" 0 $?
  same "$2($1): warnings" /dev/null "$out/said"
}

if command -v man >/dev/null 2>&1; then
  page 1 listing-check
  has "listing-check(1)" "refused NUMBER at OFFSET" "$out/page"
  page 3 vichrelka
  for section in NAME SYNOPSIS DESCRIPTION CALLS ANSWERS CONSTANTS ARGUMENTS REFUSALS FILES; do
    is "vichrelka(3): the section $section" 1 "$(grep -cx "$section" "$out/page")"
  done
  for call in "${calls[@]}"; do
    is "vichrelka(3): the part on $call" 1 "$(grep -cx "   $call" "$out/page")"
  done
  is "vichrelka(3): the points of its lists" "$(grep -c '^ \*   - ' include/vichrelka.h)" "$(grep -c '^\.IP ' "$pages/man3/vichrelka.3")"
  for name in $(grep -o '\bVICHRELKA_[A-Z0-9_]*' include/vichrelka.h | grep -v -e '_H$' -e NODISCARD | sort -u); do
    grep -q "\b$name\b" "$out/page" || fail "vichrelka(3) does not have $name"
  done
  page 3 vichrelka_name
  has "a function's page" "which DHCP client holds which name" "$out/page"
else
  echo "install: the manual pages: not measured, man is not installed"
fi
# the page follows the header: another word there is another word here, and a version that CHANGELOG.md does not have is told
copy=$scratch/copy
mkdir -p "$copy/tools" "$copy/include"
cp tools/manual "$copy/tools"
cp CHANGELOG.md "$copy"
sed 's/^ \* Count the names of the table\./ * Number the names of the table./' include/vichrelka.h >"$copy/include/vichrelka.h"
"$copy/tools/manual" "$copy/man" >"$log" 2>&1
is "the manual page of another header: status" 0 $?
has "the manual page of another header" "Number the names of the table." "$copy/man/vichrelka.3"
is "lines of the page that differ by it" 1 "$(diff "$pages/man3/vichrelka.3" "$copy/man/vichrelka.3" | grep -c '^>')"
sed 's/VERSION "[0-9.]*"/VERSION "0.99.0"/' include/vichrelka.h >"$copy/include/vichrelka.h"
"$copy/tools/manual" "$copy/man" >"$log" 2>&1
is "a version without changes: status" 1 $?
has "a version without changes" "CHANGELOG.md has no heading '## 0.99.0" "$log"

# ---- uninstall, DESTDIR, and what is refused

: >"$out/none"
echo "644 ./lib/another.a" >"$out/another"
: >"$prefix/lib/another.a"
chmod 644 "$prefix/lib/another.a"
made "make uninstall" 0 uninstall "PREFIX=$prefix"
holds "what is left" "$prefix" "$out/another"
is "folders that are left" "" "$(find "$prefix" -name '*vichrelka*')"
made "make install below DESTDIR" 0 install PREFIX=/opt/vich "DESTDIR=$scratch/stage"
holds "what is installed below DESTDIR" "$scratch/stage/opt/vich" "$out/files"
has "the prefix, without DESTDIR" "prefix=/opt/vich" "$scratch/stage/opt/vich/lib/pkgconfig/vichrelka.pc"
made "make uninstall below DESTDIR" 0 uninstall PREFIX=/opt/vich "DESTDIR=$scratch/stage"
holds "what is left below DESTDIR" "$scratch/stage" "$out/none"

# other folders: of the header and the library below the prefix and not, as the pkg-config file says
other="$scratch/other's folder"
folders=("INCLUDEDIR=$other/inc" "LIBDIR=$prefix/lib/x86 64" "MANDIR=$other/man")
made "make install into other folders" 0 install "PREFIX=$prefix" "${folders[@]}"
for file in "$other/inc/vichrelka.h" "$prefix/lib/x86 64/libvichrelka.a" "$other/man/man1/listing-check.1" "$other/man/man3/vichrelka.3"; do
  if [ -f "$file" ]; then pass; else fail "there is no $file"; fi
done
pc="$prefix/lib/x86 64/pkgconfig/vichrelka.pc"
has "a folder below the prefix" 'libdir=${prefix}/lib/x86 64' "$pc"
has "a folder elsewhere" "includedir=$other/inc" "$pc"
if command -v pkg-config >/dev/null 2>&1; then
  export PKG_CONFIG_PATH="$prefix/lib/x86 64/pkgconfig"
  eval "flags=($(pkg-config --cflags --libs vichrelka))"
  program "C99, in other folders" cc -std=c99
fi
echo "listing-check $version" >"$out/told"
checked "the version, with the header elsewhere" 0 "$out/told" "$prefix/bin/listing-check" --version
made "make uninstall from other folders" 0 uninstall "PREFIX=$prefix" "${folders[@]}"
holds "what is left below the prefix" "$prefix" "$out/another"
holds "what is left elsewhere" "$other" "$out/none"
made "a LIBDIR that is no whole path" 2 install "PREFIX=$prefix" LIBDIR=lib64
has "a LIBDIR that is no whole path" "LIBDIR is 'lib64', and has to begin with /" "$log"
holds "what is then installed" "$prefix" "$out/another"
made "a PREFIX that is no whole path" 2 install PREFIX=here
has "a PREFIX that is no whole path" "has to begin with /" "$log"
[ ! -e here ] || fail "something is installed in ./here"

# ---- what make says

# short MOST FILE: no more lines than so many
short() {
  local count
  count=$(wc -l <"$2")
  if [ "$count" -gt 0 ] && [ "$count" -le "$1" ]; then pass; else fail "$count lines in place of $1 at most"; show "$2"; fi
}

made "make install, once more" 0 install "PREFIX=$prefix"
short 12 "$log"
made "make install, with V=1" 0 install "PREFIX=$prefix" V=1
has "make install, with V=1" "install -m 755 listing-check" "$log"

# the first use, in a copy of the repository with next to nothing in it: without the toolchain, then with one that proves or fails
fresh=$scratch/fresh
tools=$scratch/tools
mkdir -p "$fresh/crates/gateway_c" "$fresh/tools" "$tools"
cp Makefile crates.txt .kit "$fresh"
cp tools/prove "$fresh/tools"
for tool in awk cp find grep mkdir mv sh tail tee; do
  ln -s "$(command -v "$tool")" "$tools/$tool" || stop "$tool is missing"
done
make=$(command -v make)
first() {
  (cd "$fresh" && PATH=$tools "$make" --no-print-directory "$@" target/staticlib/libvichrelka.a) >"$log" 2>&1
}
first
is "no toolchain: status" 2 $?
has "no toolchain" "rt, the Rattle toolchain, is not on the path" "$log"
cat >"$tools/rt" <<'END'
#!/bin/sh
[ "${PWD##*/} $*" = "gateway_c lib" ] || exit 2
for name in base hash name octets address table gateway gateway_c; do
  echo "rt: chose --jobs 2 for $name"
  echo "fn $name::one: proved"
  echo "library text: modules loaded=23 checked=0"
  echo "crate $name: modules loaded=1 checked=39"
  echo "logic=proved functions=1 incremental=trusted"
done
mkdir -p out
echo library >out/libgateway_c.a
END
chmod +x "$tools/rt"
first V=1
is "a toolchain, with V=1: status" 0 $?
has "a toolchain, with V=1" "fn table::one: proved" "$log"
rm -r "$fresh/target"
first
is "a toolchain: status" 0 $?
cat >"$out/told" <<'END'
tools/prove staticlib gateway: proves what is not proved yet, minutes the first time and seconds when little has changed
  base hash name octets address table gateway gateway_c
  1 crates were proved before, and are unchanged
END
same "a toolchain" "$out/told" "$log"
has "all that it said" "fn table::one: proved" "$fresh/target/make.log"
rm -r "$fresh/target"
cat >"$tools/rt" <<'END'
#!/bin/sh
echo "rt: chose --jobs 2 for base"
echo "crate base: modules loaded=1 checked=39"
echo "logic=proved functions=1 incremental=trusted"
echo "rt: chose --jobs 2 for name"
echo "src/lib.rt:16:9: error[unclosed-delimiter]: the first one"
echo "src/lib.rt:16:11: error[unclosed-delimiter]: the second one"
echo "fn name::one: not proved"
echo "logic=not-proved"
echo "rt: the library name did not build, so nothing above it was checked" >&2
exit 1
END
first
is "a toolchain that fails: status" 2 $?
is "a toolchain that fails: the first error" "crates/name/src/lib.rt:16:9: error[unclosed-delimiter]: the first one" "$(grep -A 1 'the first error is' "$log" | tail -n 1)"
has "a toolchain that fails, where all of it is" "target/make.log" "$log"
finish
