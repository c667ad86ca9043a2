#!/usr/bin/env bash
# Installs into temporary folders and uses what is there as others would: the program of README.md by each compiler, static and shared; the
# examples, the man pages and the command. Sees that uninstall takes away all of it, and nothing else. A program that is missing, and without
# which less is tried, is named in the last line.
#
# tests/install.sh [VARIABLE=VALUE..]   handed on to make: LIB is the archive, COMMAND the command
set -u -o pipefail
cd "$(dirname "${BASH_SOURCE[0]}")/.." || exit 1
export LC_ALL=C
umask 022
unset DESTDIR LD_LIBRARY_PATH PKG_CONFIG_PATH PKG_CONFIG_SYSROOT_DIR
variables=("$@")
work=$(mktemp -d) || exit 1
trap 'rm -rf "$work"' EXIT

missing=()
for program in clang pkg-config python3 groff; do command -v "$program" >/dev/null 2>&1 || missing+=("$program"); done
has() { [[ " ${missing[*]-} " != *" $1 "* ]]; }

fail() {
    echo "install: $*" >&2
    exit 1
}

# A command that ends with 0 and prints just that.
prints() { # TEXT COMMAND...
    local said
    said=$("${@:2}") || fail "${*:2}: ended with $?"
    diff <(echo "$1") <(echo "$said") >&2 || fail "${*:2}: not what is expected (<), but that (>)"
}

quiet_make() {
    make --no-print-directory --silent "$@" LDCONFIG=: ${variables[@]+"${variables[@]}"} || fail "make $* failed"
}

version=$(sed -nE 's/^#define TAMPERMAUVE_VERSION_(MAJOR|MINOR|PATCH) ([0-9]+)$/\2/p' include/tampermauve.h | paste -sd .)
soname=libtampermauve.so.${version%%.*}

# ---- which files, and that they go again

installed="755 bin/tampermauve
644 include/tampermauve.h
644 lib/libtampermauve.a
link lib/libtampermauve.so -> $soname
link lib/$soname -> libtampermauve.so.$version
644 lib/libtampermauve.so.$version
644 lib/pkgconfig/tampermauve.pc
644 share/man/man1/tampermauve.1
644 share/man/man3/tampermauve.3
link share/man/man3/tampermauve_check.3 -> tampermauve.3
link share/man/man3/tampermauve_run.3 -> tampermauve.3
link share/man/man3/tampermauve_run_all.3 -> tampermauve.3
644 share/man/man5/tampermauve-plan.5"

files_in() { # FOLDER
    find "$1" -type l -printf 'link %P -> %l\n' -o ! -type d -printf '%m %P\n' | sort -k 2
}

# A file that is not ours stands in each folder, and stays there.
test_uninstall() { # DESTDIR VARIABLE=VALUE..
    local others
    find "$1" -type d -exec touch '{}/other' ';'
    others=$(files_in "$1" | grep -E '[ /]other$')
    quiet_make uninstall DESTDIR="$1" "${@:2}"
    prints "$others" files_in "$1"
}

# The folders that a pkg-config file names.
folders_of() { # FILE
    head -n 3 "$1"
}

test_staged() {
    local stage=$work/stage
    quiet_make install DESTDIR="$stage" PREFIX=/usr
    prints "$installed" files_in "$stage/usr"
    prints usr ls -A "$stage"
    cmp "$stage/usr/include/tampermauve.h" include/tampermauve.h || fail "the header is another"
    prints "prefix=/usr
includedir=\${prefix}/include
libdir=\${prefix}/lib" folders_of "$stage/usr/lib/pkgconfig/tampermauve.pc"
    test_uninstall "$stage" PREFIX=/usr
}

test_other_folders() {
    local file stage=$work/other folders=(PREFIX=/opt/engine bindir=/a includedir=/b libdir=/opt/engine/c mandir=/d)
    quiet_make install DESTDIR="$stage" "${folders[@]}"
    for file in a/tampermauve b/tampermauve.h opt/engine/c/libtampermauve.a d/man1/tampermauve.1; do
        [ -f "$stage/$file" ] || fail "$file is not at its place"
    done
    prints "prefix=/opt/engine
includedir=/b
libdir=\${prefix}/c" folders_of "$stage/opt/engine/c/pkgconfig/tampermauve.pc"
    test_uninstall "$stage" "${folders[@]}"
}

# ---- the shared library

dynamic() { # TAG FILE
    readelf -d "$2" | sed -nE "s/.*\\($1\\).*\\[(.*)\\]/\\1/p"
}

exports_of() { # FILE
    nm -D --defined-only "$1" | awk '{ print $NF }' | sort
}

test_shared_library() {
    local shared=$real/lib/$soname
    prints 'tampermauve_check
tampermauve_run
tampermauve_run_all' exports_of "$shared"
    prints "$soname" dynamic SONAME "$shared"
    prints libc.so.6 dynamic NEEDED "$shared"
    [ "$(readelf -d "$shared" | grep -c TEXTREL)" -eq 0 ] || fail "the shared library's code is not position-independent"
}

# ---- programs that use the library

flags() { # OPTION..
    if has pkg-config; then
        PKG_CONFIG_LIBDIR=$real/lib/pkgconfig pkg-config "$@" tampermauve | sed 's/ *$//'
    else
        echo "-I$real/include -L$real/lib -ltampermauve"
    fi
}

test_pkg_config() {
    has pkg-config || return 0
    prints "$version" flags --modversion
    prints '-I/elsewhere/include -L/elsewhere/lib -ltampermauve' flags --define-variable=prefix=/elsewhere --cflags --libs
}

warnings=(-O2 -Wall -Wextra -Werror -pedantic)

# build COMPILER STANDARD SOURCE PROGRAM [static]
build() {
    local options=()
    [ "${5-}" = static ] && options=(-static)
    # shellcheck disable=SC2046
    "$1" -std="$2" "${warnings[@]}" "${options[@]}" "$3" $(flags ${5:+--static} --cflags --libs) -o "$4" || fail "$1 does not build $3 ${5-}"
    case ${5-} in
    static) [ -z "$(dynamic NEEDED "$4")" ] || fail "$4 is not static" ;;
    *) dynamic NEEDED "$4" | grep -xF "$soname" >/dev/null || fail "$4 does not use $soname" ;;
    esac
}

with_library() {
    LD_LIBRARY_PATH=$real/lib "$@"
}

compilers=()
test_readme() { # COMPILER STANDARD SOURCE
    local expected
    expected=$(cat target/c/readme.expected)
    build "$@" "$work/readme-static" static
    build "$@" "$work/readme-shared"
    prints "$expected" "$work/readme-static"
    prints "$expected" with_library "$work/readme-shared"
    compilers+=("$1")
}

test_compilers() {
    cp target/c/readme.c "$work/readme.cc"
    test_readme gcc c99 target/c/readme.c
    has clang && test_readme clang c99 target/c/readme.c
    test_readme g++ c++11 "$work/readme.cc"
}

# Of its plans one is refused.
run_all() {
    with_library "$work/run_all" plans/race.plan plans/lone-wait.plan plans/far-skip.plan plans/merge.plan
    [ $? -eq 1 ]
}

test_examples() {
    local argument
    build gcc c99 examples/run_all.c "$work/run_all"
    prints "plans/race.plan: finished, 12 moving turns, sum 2
plans/lone-wait.plan: stuck, 3 moving turns, sum 0
plans/far-skip.plan: refused 10
plans/merge.plan: finished, 8 moving turns, sum 257" run_all
    has python3 || return 0
    for argument in "" "$real/lib/libtampermauve.so"; do
        prints "worker 0 first: finished, 8 moving turns, word at 0: 9
in turn: finished, 8 moving turns, word at 0: 9
memory, log and report are equal" with_library python3 examples/two_orders.py ${argument:+"$argument"}
    done
}

# ---- the man pages, their examples, and the command

# The first example of a page.
example_of() { # PAGE
    awk '/^\.SH EXAMPLES/ { there = 1 } there && /^\.EE/ { exit } text { print } there && /^\.EX/ { text = 1 }' "$real/share/man/$1" | sed 's/\\e/\\/g'
}

test_pages() {
    local page said
    example_of man3/tampermauve.3 >"$work/page.c"
    build gcc c99 "$work/page.c" "$work/page"
    prints "returned 0, end 1, word at 0: 7" with_library "$work/page"
    has groff || return 0
    for page in "$real"/share/man/man*/*; do
        said=$(groff -man -Tutf8 -ww "$page" 2>&1 >"$work/page.txt") || fail "$page cannot be formatted: $said"
        [ -z "$said" ] || fail "$page: $said"
        [ -s "$work/page.txt" ] || fail "$page is empty"
    done
}

test_command() {
    "$real/bin/tampermauve" --version | grep -wF -- "$version" >/dev/null || fail "the command's version is not $version"
    prints "$(cat plans/race.listing)" "$real/bin/tampermauve" list plans/race.plan
    example_of man5/tampermauve-plan.5 >"$work/example.steps"
    prints "1 0 32 0 1
1 0 33 0 0
1 1 32 0 1
1 1 33 0 0
2 0 37 0 0
2 1 37 0 2
3 0 39 2 1
3 0 38 0 255
3 1 38 0 255
4 2 38 0 255
finished 29" "$real/bin/tampermauve" list "$work/example.steps"
}

test_staged
test_other_folders
real=$work/real
quiet_make install PREFIX="$real"
test_shared_library
test_pkg_config
test_compilers
test_examples
test_pages
test_command
quiet_make uninstall PREFIX="$real"
prints "" files_in "$real"

names=${compilers[*]}
names="${names% *} and ${names##* }"
[ ${#compilers[@]} -eq 3 ] && names=${names/ /, }
last="install: $(echo "$installed" | wc -l) files, README's program by $names, static and shared, as expected"
[ ${#missing[@]} -eq 0 ] || last+="; not there: ${missing[*]}"
echo "$last"
