#!/usr/bin/env bash
# Holds the archive to what is said of it: it defines the three calls and nothing else, it needs nothing but memset, which each C library
# has, and its proof relies on no axiom: on no function that is written in C.
#
#     tests/archive.sh ARCHIVE LOG      LOG is what rt printed when it built the archive, and then the archive's checksum
set -u -o pipefail
archive=$1 log=$2

fail() {
    echo "archive: $*" >&2
    exit 1
}

# What stands on the first lines and not on the second.
beyond() { # LINES LINES
    comm -23 <(sort -u <<<"$1") <(sort -u <<<"$2") | paste -sd ' '
}

calls='T tampermauve_check
T tampermauve_run
T tampermauve_run_all'
of_c=memset
symbols=$(nm "$archive") || fail "$archive cannot be read"
defined=$(awk 'NF == 3 && $2 ~ /[A-TV-Zuvw]/ { print $2, $3 }' <<<"$symbols")
needed=$(awk 'NF == 2 && $1 ~ /^[A-Za-z]$/ { print $2 }' <<<"$symbols")
[ -z "$(beyond "$calls" "$defined")" ] || fail "it does not define: $(beyond "$calls" "$defined")"
[ -z "$(beyond "$defined" "$calls")" ] || fail "it defines besides: $(beyond "$defined" "$calls")"
[ -z "$needed" ] || [ -z "$(beyond "$needed" "$of_c")" ] || fail "it needs besides: $(beyond "$needed" "$of_c")"

grep -qxF -- "$(sha256sum <"$archive")" "$log" || fail "$log is that of another archive"
# rt names each crate that declares functions of C, and how many of them what is in the archive can reach.
verdict=$(grep '^logic=' "$log" | tail -n 1)
[[ $verdict == 'logic=proved '* ]] || fail "$log has no verdict that it is proved"
leaning=$(grep -E -m 1 '^logic=.* (axioms|foreign)=' "$log")
[ -z "$leaning" ] || fail "the proof relies on an axiom: $leaning"
reached=$(grep '^axioms ' "$log" | grep -vxE 'axioms [a-z0-9_]+: none reached of the [0-9]+ declared')
[ -z "$reached" ] || fail "the archive reaches an axiom: $(head -n 1 <<<"$reached")"
for crate in libc os std; do
    grep -q "^axioms $crate: none reached of" "$log" || fail "$log says nothing of the axioms of $crate"
done
echo "archive: the three calls, no other symbol and no axiom"
