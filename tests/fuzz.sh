#!/bin/sh
# Fuzzes check, run and run_all, or a plan's text, or replays the kept inputs of both.
#
# tests/fuzz.sh replay [ARCHIVE] [INCLUDE]
# tests/fuzz.sh run SECONDS [texts] [ARCHIVE] [INCLUDE]
# tests/fuzz.sh keep [texts] [ARCHIVE] [INCLUDE]    keep those new inputs that add coverage
# tests/fuzz.sh seeds                       have the simulator write its inputs into the kept ones: sleepers, starts, broadcasts, words of several workers, several plans, locks by name
#
# ARCHIVE has the library's calls (default target/staticlib/libtampermauve.a,
# `twin` for the engine of bench/twin.c under the library's names); INCLUDE is
# the folder of tampermauve.h (default include). Running and keeping need clang
# with libFuzzer. New inputs go to build/fuzz/found, texts to build/fuzz/found-texts.
# tests/fuzz/corpus.sum and tests/fuzz/texts.sum have the count of the kept ones
# and a sum of their names and contents, so that none is lost or emptied unseen.
set -eu
cd "$(dirname "$0")/.."
what=${1:-replay}
[ $# -gt 0 ] && shift
seconds=60
if [ "$what" = run ]; then
    seconds=${1:-60}
    [ $# -gt 0 ] && shift
fi
of=calls
if [ "${1:-}" = texts ]; then
    of=texts
    shift
fi
archive=${1:-target/staticlib/libtampermauve.a}
include=${2:-include}
out=build/fuzz
mkdir -p "$out/found" "$out/found-texts"

strict="-std=c99 -g -Wall -Wextra -Werror"
if [ "$archive" = twin ]; then
    ${CC:-cc} $strict -O2 -Dtwin_check=tampermauve_check -Dtwin_run=tampermauve_run \
        -Dtwin_run_all=tampermauve_run_all -c bench/twin.c -o "$out/twin.o"
    archive=$out/twin.o
fi
(cd tests/fuzz/reference && cargo build --release --offline --quiet)
reference=tests/fuzz/reference/target/release/libreference.a
sources="tests/fuzz/fuzz.c tests/fuzz/batch.c tests/fuzz/pair.c bench/twin.c"
libraries="$archive $reference -lpthread -ldl -lm"
text_sources=tests/fuzz/text.c
for part in assemble disassemble parse scan names records refusals bytes; do
    text_sources="$text_sources command/$part.c"
done
safe="-O1 -fsanitize=address,undefined -fno-sanitize-recover=all"

of_calls() {
    kept=tests/fuzz/corpus found=$out/found longest=9000 longest_kept=600 words='' adds=''
}

# A text is kept where it comes to another place of the code, however often.
of_texts() {
    kept=tests/fuzz/texts found=$out/found-texts longest=2000 longest_kept=2000
    words=-dict=tests/fuzz/texts.words adds=-use_counters=0
}

# The engine in C is compiled for coverage, which leads the fuzzer; the target
# itself is not.
build_fuzzer_of_calls() {
    clang $strict $safe -fsanitize=fuzzer-no-link -c bench/twin.c -o "$out/covered.o"
    clang $strict $safe -I "$include" -c tests/fuzz/fuzz.c -o "$out/target.o"
    clang $strict $safe -I "$include" -c tests/fuzz/batch.c -o "$out/batch.o"
    clang $strict $safe -I "$include" -c tests/fuzz/pair.c -o "$out/pair.o"
    clang $safe -fsanitize=fuzzer "$out/covered.o" "$out/target.o" "$out/batch.o" "$out/pair.o" \
        $libraries -o "$out/fuzz"
}

build_fuzzer_of_texts() {
    clang $strict $safe -fsanitize=fuzzer -I "$include" -I command $text_sources "$archive" -o "$out/fuzz"
}

sum_of_corpus() {
    echo "$(ls "$kept" | wc -l) $( (cd "$kept" && sha256sum -- * | LC_ALL=C sort) | sha256sum | cut -d ' ' -f 1)"
}

replay_kept() { # PROGRAM
    if [ "$(sum_of_corpus)" != "$(cat "$kept.sum")" ]; then
        echo "fuzz: the kept inputs are not those of $kept.sum: $(sum_of_corpus)"
        exit 1
    fi
    "$1" "$kept"/*
}

of_$of
case $what in
replay)
    ${CC:-cc} $strict -O1 -I "$include" $sources tests/fuzz/replay.c \
        $libraries -o "$out/replay"
    ${CC:-cc} $strict $safe -DLEAST_INPUT=1 -DREPLAYED='"texts"' -I "$include" -I command $text_sources \
        tests/fuzz/replay.c "$archive" -o "$out/replay-texts"
    of_calls
    replay_kept "$out/replay"
    of_texts
    replay_kept "$out/replay-texts"
    ;;
run)
    build_fuzzer_of_$of
    "$out/fuzz" -max_total_time="$seconds" -max_len=$longest -use_value_profile=1 $words \
        -print_final_stats=1 -artifact_prefix="$out/" "$found" "$kept"
    ;;
keep)
    build_fuzzer_of_$of
    "$out/fuzz" -merge=1 -max_len=$longest_kept $adds "$kept" "$found"
    sum_of_corpus > "$kept.sum"
    ;;
seeds)
    tests/fuzz/reference/target/release/seeds "$kept"
    sum_of_corpus > "$kept.sum"
    ;;
*)
    echo "tests/fuzz.sh replay | run SECONDS [texts] | keep [texts] | seeds"
    exit 2
    ;;
esac
