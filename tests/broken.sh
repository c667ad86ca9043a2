#!/usr/bin/env bash
# Breaks one thing of each kind in a copy of the repository and sees that the test which looks at it fails and says what of it, and tries on
# the gate what once fooled it. Not part of the gate. It needs what `make` has built; no proof is run: in place of rt stands one that
# answers at once, and hands out what is built. Prints a line for each thing broken, then `N of N seen`.
set -u -o pipefail
cd "$(dirname "${BASH_SOURCE[0]}")/.." || exit 1
archive=target/staticlib/libtampermauve.a
archive_log=${archive%.a}.log
for file in "$archive" "$archive_log" target/bin/listing target/bin/vectors; do
    [ -f "$file" ] || { echo "broken: run make first" >&2; exit 2; }
done
work=$(mktemp -d) || exit 2
trap 'rm -rf "$work"' EXIT
mkdir "$work/copy" "$work/bin" "$work/right" "$work/built" || exit 2
git ls-files -co --exclude-standard | tar -cf - -T - target | tar -xf - -C "$work/copy" || exit 2
cd "$work/copy" || exit 2
# what rt hands out: the archive and what was printed of it, less its checksum, and the programs
cp -p "$archive" "$work/built/libtampermauve_c.a" && cp -p target/bin/{listing,vectors} "$work/built" || exit 2
sed '$d' "$archive_log" >"$work/built/log" || exit 2
export PATH=$work/bin:$PATH
seen=0
tried=0

# A command that must fail, and say so.
fails() { # NAME TEXT COMMAND...
    local status=0
    "${@:3}" >"$work/said" 2>&1 || status=$?
    tried=$((tried + 1))
    if [ "$status" -ne 0 ] && grep -qF -- "$2" "$work/said"; then
        seen=$((seen + 1))
        echo "seen    $1: $2"
    else
        echo "MISSED  $1: status $status, and the last line is: $(tail -n 1 "$work/said")"
    fi
}

# The same with a file changed by a sed script while the command runs.
changed() { # NAME FILE SCRIPT TEXT COMMAND...
    cp -p "$2" "$work/kept"
    sed -i -e "$3" "$2"
    cmp -s "$2" "$work/kept" && { echo "broken: $1: nothing changes in $2" >&2; exit 2; }
    fails "$1" "${@:4}"
    mv "$work/kept" "$2"
    # What was built from the broken file is built anew; what is proved need not be.
    [[ $2 == crates/* ]] || touch "$2"
}

# The same with a file or folder moved away.
without() { # NAME PATH TEXT COMMAND...
    mv "$2" "$work/kept" || exit 2
    fails "$1" "${@:3}"
    mv "$work/kept" "$2"
}

# ---- each test, by one value that it expects or one thing that it reads

# A refusal that tests/check.c expects.
expected='/the mark of record 1,039/s/2, 1039/2, 1038/'

c_tests() {
    changed "a refusal that the check test expects" tests/check.c "$expected" 'check: 1 of ' make test-c-check
    changed "a refusal that the run test expects" tests/run.c 's/\("11, no byte", f, turns, 4, told\), 11/\1, 12/' ' 4 failures' make test-c-run
    changed "a byte that the run test expects" tests/run.c 's/{"case 1", {1, 0, 1, 0}/{"case 1", {1, 0, 2, 0}/' ' 10 failures' make test-c-run
    changed "a byte beside unnamed ones that the run test expects" tests/run.c 's/{addresses\[k\] + 1u, 6, 2}/{addresses[k] + 1u, 6, 3}/' ' 400 failures' make test-c-run
    changed "a refusal that the test of many plans expects" tests/run_all.c 's/("41 plans", 15)/("41 plans", 11)/' ' 2 failures' make test-c-run_all
    changed "a byte that the test of many plans expects" tests/run_all.c 's/0x4D, 0x4C, 1, 0, 0, 38, 0, 255/0x4D, 0x4C, 1, 0, 0, 38, 0, 254/' ' 2 failures' make test-c-run_all
    changed "what README.md says that its program prints" README.md 's/^end 0, moving turns 2/end 0, moving turns 3/' '> end 0, moving turns 2' make test-readme
    changed "a constant of the header" include/tampermauve.h 's/8256/8257/' '> refused 11' make test-readme
    changed "a header that is no C++" include/tampermauve.h '$a int class;' 'header.cc.o] Error' make test-header
    fails "a test that does not exist" 'No rule to make target' make test-nothing
}

commands() {
    changed "what the command must print" tests/command.sh 's/moving turns: 26/moving turns: 27/' 'printed: finished, moving turns: 26' make test-command
    changed "a text that is told with another column" command/scan.c 's/(unsigned)(at - begin) + 1}/(unsigned)(at - begin)}/' 'things are not as expected' make test-command
    changed "a page without the last record" command/tables.c 's/i < trace->given; i++/i + 1 < trace->given; i++/' 'has another log' make test-command
    changed "a text with two registers exchanged" command/records.c 's/"add", "$q to $r"/"add", "$r to $q"/' 'FAILED: add r2 to r1' make test-text
    changed "a label one step too far" command/assemble.c 's/label->number - skip->number - 1;/label->number - skip->number;/' 'FAILED: ' make test-text
    changed "a text of the corpus" tests/fuzz/texts/text-race 's/race/rcae/' 'not those of tests/fuzz/texts.sum' make test-fuzz
    changed "the plan of README.md" README.md 's/^    set r1 9$/    set r1 8/' '> word at 0: 8, before 0' make test-readme
}

installs() {
    changed "another soname" install.mk 's/-soname,$(SONAME)/-soname,$(SO)/' '> libtampermauve.so' make test-install
    changed "an export too many" install.mk 's/-Wl,--version-script=.* -Wl,--no-undefined-version/-Wl,--defsym=tampermauve_more=tampermauve_run/' '> tampermauve_more' make test-install
    changed "a link that uninstall leaves" install.mk 's| $(libdir)/$(SONAME) | |' '> link usr/lib/libtampermauve.so.' make test-install
    changed "uninstall takes more than is its own" install.mk 's|^\trm -f |\trm -rf "$(DESTDIR)$(includedir)" |' '< 644 usr/include/other' make test-install
    changed "what README.md says, beside what is installed" README.md 's/^end 0, moving turns 2/end 0, moving turns 3/' '< end 0, moving turns 3' make test-install
    changed "a version that is two" include/tampermauve.h 's/VERSION_PATCH .*/VERSION_PATCH 99/' '> 644 lib/libtampermauve.so.' make test-install
    changed "the plan of a man page" man/tampermauve-plan.5 's/^    start 2 .*/    start 1/' '> finished' make test-install
    changed "a man page with an unknown macro" man/tampermauve.3 's/^\.SH NAME/.XX\n&/' "'XX' not defined" make test-install
}

listings() {
    changed "a listing that is expected" plans/merge.listing '1s/^1/2/' 'plans/merge.plan is not listed' make test-listings
    changed "the bytes of a plan" plans/merge.plan 's/M/N/' 'plans/merge.plan differ' make test-listings
    without "the text of a plan" plans/merge.steps 'plans/merge.steps' make test-listings
    without "the listing of a plan" plans/merge.listing 'plans/merge.listing' make test-listings
    changed "what rt expects of the listing program" crates/listing/stdout '1s/1/2/' 'crates/listing/stdout differ' make test-listings
    changed "what rt expects of the program vectors" crates/vectors/stdout '2s/1/2/' 'crates/vectors/stdout' make test-vectors
    printf '#!/bin/sh\n%s\nexit 3\n' "$PWD/target/bin/listing" >"$work/bin/ends-badly" && chmod +x "$work/bin/ends-badly"
    fails "a listing program that ends with 3" 'plans/merge.plan is not listed' tests/listings.sh "$work/bin/ends-badly" target/bin/tampermauve
}

apart() {
    changed "a value that the simulator's tests expect" simulator/tests/cases.rs '0,/finished 12/s//finished 13/' 'test failed' make test-simulator
    changed "the twin" bench/twin.c 's/MOST_TURNS = 65535,/MOST_TURNS = 65534,/' 'expected: 0, got: 12' make test-twin
    changed "the table of mutants, without a fault" tests/differential/mutants '/^== step-129$/,/^$/d' 'faults, has' tests/mutants.sh 100
    changed "an input of the corpus" tests/fuzz/corpus/raw-race 's/M/N/' 'not those of tests/fuzz/corpus.sum: 860' make test-fuzz
    without "an input of the corpus, lost" tests/fuzz/corpus/raw-race 'not those of tests/fuzz/corpus.sum: 859' make test-fuzz
    cp -rp tests/fuzz/corpus "$work/kept"
    for input in tests/fuzz/corpus/*; do : >"$input"; done
    fails "a corpus of empty inputs" 'not those of tests/fuzz/corpus.sum: 860' make test-fuzz
    rm -r tests/fuzz/corpus && mv "$work/kept" tests/fuzz/corpus
}

# Bytes nobody named, and the pairs of calls that differ in them.
pairs() {
    local named=simulator/src/named.rs promises=simulator/src/pair.rs calls=tests/differential/src/test/pairs.rs
    changed "a step that names one byte alone" $named '/cover(address + 1)/d' 'the_upper_byte_of_a_load_decides' \
        bash -c 'cd simulator && cargo test --release --offline --quiet --test unnamed'
    changed "the same in pairs of calls" $named '/cover(address + 1)/d' ', a pair by ' make test-twin
    changed "a pair whose logs are not compared" $promises 's/first_difference(first.log, second.log)/None::<usize>/' 'each_parting_is_seen' make test-simulator
    changed "a pair whose sums are not compared" $promises '/sums_part(first, second))/d' 'another_sum_is_seen' make test-simulator
    changed "pairs of calls that are not compared" $calls 's/compare_pair(&self.engine, &pair);/None;/' 'MISSED  unnamed-load' tests/mutants.sh 100 '^unnamed-load'
    changed "no pairs among the random calls" $calls 's/chance(1, all)/chance(0, all)/' 'never came up: pair: answer' make test-twin
    changed "a step that names one byte alone, in the fuzz target" tests/fuzz/pair.c '/named\[address + 1\] = 1;/d' 'two calls part' make test-fuzz
}

# The twin under the library's names, with the fault that a woken worker comes into the next round: where make has put the archive, and
# where rt has it from.
wrong_archive() {
    cp -p "$archive" "$work/right/"
    sed 's/put_behind_first(&e->list, woken);/push(\&e->next, woken);/' bench/twin.c >"$work/twin.c"
    gcc -std=c99 -O1 -w -I bench -Dtwin_check=tampermauve_check -Dtwin_run=tampermauve_run -Dtwin_run_all=tampermauve_run_all -c "$work/twin.c" -o "$work/twin.o" || exit 2
    rm "$archive" && ar rcs "$archive" "$work/twin.o" && cp "$archive" "$work/built/libtampermauve_c.a" || exit 2
}

right_archive() {
    cp "$work/right/libtampermauve.a" "$work/built/libtampermauve_c.a" || exit 2
    mv "$work/right/libtampermauve.a" "$archive" && touch "$archive" || exit 2
}

# The archive with a further object in it, which needs memcpy.
archive_with_memcpy() {
    cp -p "$archive" "$work/right/"
    printf '#include <string.h>\nstatic void copy(char *a, const char *b, size_t n) { memcpy(a, b, n); }\nstatic void (*kept)(char *, const char *, size_t) __attribute__((used)) = copy;\n' |
        gcc -std=c99 -O1 -w -x c -c - -o "$work/copies.o" && ar rs "$archive" "$work/copies.o" 2>/dev/null || exit 2
}

archives() {
    archive_with_memcpy
    fails "an archive that needs memcpy" 'it needs besides: memcpy' tests/archive.sh "$archive" "$archive_log"
    right_archive
    wrong_archive
    fails "a wrong archive beside the simulator" 'a small call with a difference' make test-differential
    fails "a wrong archive on the kept inputs" 'the library differs from the simulator' make test-fuzz
    fails "a wrong archive in the C tests" 'FAILED: case 9' make test-c-run
    fails "a wrong archive in the C tests of many plans" 'FAILED: each to its own end' make test-c-run_all
    right_archive
}

# ---- docs/PROMISES.md, held against what is there

promises() {
    local page=docs/PROMISES.md edits=crates/words/must-fail controls=crates/words/controls
    changed "a definition that is not there" $page 's/`Refusals.number_of`/`Refusals.numbers_of`/' \
        '`Refusals.numbers_of` names nothing' make test-promises
    changed "a theorem that is not there" $page 's/`proofs\/Formed.runnable`/`proofs\/Formed.running`/' '`proofs/Formed.running` names nothing' make test-promises
    changed "a contract that is not there" $page 's/`words::word`/`words::words`/' '`words::words` names nothing' make test-promises
    changed "a test that is not there" $page 's/| `lengths`, /| `length`, /' '`length` names nothing' make test-promises
    changed "an edit that is not there" $page 's/`words\/clear-one-byte`/`words\/clear-two-bytes`/' '`words/clear-two-bytes` names nothing' make test-promises
    changed "a definition renamed" crates/protocol/specs/Refusals.antt 's/number_of/numbers_of/' \
        '`number_of` names nothing' make test-promises
    changed "a method renamed" crates/writer/src/lib.rt 's/pub fn append(/pub fn add(/' '`writer::LogWriter::append` names nothing' make test-promises
    changed "a static renamed" crates/format/src/table.rt 's/^static ROWS:/static LINES:/' '`ROWS` names nothing' make test-promises
    changed "a test renamed" tests/check.c 's/\blengths(/all_lengths(/' '`lengths` names nothing' make test-promises
    without "an edit, lost" $edits/clear-one-byte.edit '`words/clear-one-byte` names nothing' make test-promises
    without "the edits of a crate, lost" $edits '`words/high-byte-first` names nothing' make test-promises
    cp $edits/clear-one-byte.edit $edits/clear-no-byte.edit
    fails "an edit that no row cites" 'no row cites the edit words/clear-no-byte' make test-promises
    rm $edits/clear-no-byte.edit
    without "a control, lost" $controls/clear-one-byte.control \
        'words/clear-one-byte has no control, and no row says what it shows' make test-promises
    cp $controls/clear-one-byte.control $controls/clear-no-byte.control
    fails "a control of no edit" 'clear-no-byte.control has no edit of its name' make test-promises
    rm $controls/clear-no-byte.control
    changed "a crate that crates.txt lists below the static library" crates.txt '/^listed:/d' '`listed::' make test-promises
}

# ---- the conventions

conventions() {
    changed "specs that import a proof" crates/engine/specs/Moving.antt '2i use Rattle.protocol.proofs.Sound.{Sound}' \
        ': imports a proof: crates/engine/specs/Moving.antt:2' make test-conventions
    changed "a contract that imports a proof" crates/engine/src/sync.rt '/^ghost use/i ghost use Rattle.engine.proofs.Facts.{known};' \
        'a contract imports a proof' make test-conventions
    changed "a definition by a proof's whole name" crates/engine/specs/Moving.antt '$a sound = Rattle.protocol.proofs.Sound.Sound' \
        ': imports a proof: crates/engine/specs/Moving.antt' make test-conventions
    changed "an import that is not used" crates/engine/specs/Moving.antt '2s/◌<◌, /◌-◌, &/' \
        'is imported and not used: crates/engine/specs/Moving.antt:2: ◌-◌' make test-conventions
    changed "an operator that stands in another alone" crates/protocol/specs/Report.antt '2s/◌++◌, /◌+◌, &/' \
        'crates/protocol/specs/Report.antt:2: ◌+◌' make test-conventions
    changed "a further name that is not used" crates/engine/specs/Moving.antt '2i use Rattle.protocol.specs.Rounds.{Entry as Line}' \
        'crates/engine/specs/Moving.antt:2: Line' make test-conventions
    changed "an import of the code that is not used" crates/engine/src/own.rt 's/^use format::points::synchronises;/use format::fates::GOING;\n&/' \
        'own.rt:8: GOING' make test-conventions
    changed "an import in a list of the code that is not used" crates/engine/src/own.rt 's/^use moves::{fetch/use moves::{Fetched, fetch/' \
        'own.rt:9: Fetched' make test-conventions
    changed "a definition that is imported for the code alone" crates/engine/src/own.rt \
        '2i ghost use Rattle.protocol.specs.Format.{synchronises};' 'own.rt:2: synchronises' make test-conventions
    changed "an import that is read by nobody" crates/engine/src/own.rt 's/^use moves::{fetch, own_move};/use moves::*;/' \
        'own.rt: an import that is not read: moves::*' make test-conventions
    fails "imports that cannot be read" 'the imports could not be read' bash -c 'perl() { return 127; }; export -f perl; tests/conventions.sh'
    changed "a contract that does not end" crates/plan/src/check.rt \
        's/ensures { result ≡ wrong_length bytes }/ensures { result ≡ { wrong_length bytes }/' \
        'check.rt: a contract that does not end' make test-conventions
    changed "a name for two things" crates/decisions/specs/Fates.antt '$a abbrev pub kept : ℕ\nkept = 0' 'stands for two things: kept' make test-conventions
    changed "a type of another's name" crates/decisions/specs/Fates.antt 's/record FatesSettled/record Syncing/' 'is two types: Syncing' make test-conventions
    changed "a type of the code with a definition's name" crates/token/src/lib.rt 's/^pub struct Round /pub struct State /' 'another one in specs or proofs: State' make test-conventions
    changed "two types of the code with one name" crates/token/src/lib.rt 's/^pub struct Round /pub struct Moved /' 'is two types of the code: Moved' make test-conventions
    changed "a number without a name" crates/plan/src/check.rt 's/FILE_LIMIT < bytes/7280 < bytes/' 'a number without a name' make test-conventions
    changed "a number behind a contract of many lines" crates/engine/src/hold.rt 's/let round = (rounds + 1) as u16;/let round = (rounds + 3) as u16;/' \
        'a number without a name: crates/engine/src/hold.rt:' make test-conventions
    changed "a number behind a contract on its last line" crates/plan/src/check.rt 's/ensures { result ≡ wrong_length bytes }/& { 7280 }/' \
        'a number without a name: crates/plan/src/check.rt:' make test-conventions
    changed "a number in an impl" crates/queue/src/lib.rt 's/entries\[w as usize\] == entry)/entries[w as usize] == 5)/' \
        'a number without a name: crates/queue/src/lib.rt:' make test-conventions
    changed "a number at a range's end" crates/plan/src/check.rt '1i fn planted() { for i in 0..7 {} }' \
        'crates/plan/src/check.rt:1: 7' make test-conventions
    changed "a library that takes hold of the system" crates/words/src/lib.rt '$a fn print(rt: HostRuntime) {}' \
        'a library names the system itself: crates/words/src/lib.rt:' make test-conventions
    changed "an op without its name" crates/worker/src/lib.rt 's/op == ops::SKIP_ZERO/op == 2/' 'an op, a fate or an outcome without its name' make test-conventions
    changed "an op without its name, as a case" crates/plan/src/steps.rt 's/ops::SLEEP_RECORD => /2 => /' 'an op, a fate or an outcome without its name' make test-conventions
    changed "a fate without its name" crates/decisions/src/fates.rt 's/fates\[w as usize\] = GOING/fates[w as usize] = 0/' \
        'an op, a fate or an outcome without its name' make test-conventions
    changed "a fate without its name, for a whole queue" crates/decisions/src/fates.rt 's/set_all(fates, GOING)/set_all(fates, 0)/' \
        'an op, a fate or an outcome without its name' make test-conventions
    changed "an op that the header numbers otherwise" include/tampermauve.h 's/OP_WAIT 34u/OP_WAIT 43u/' "not the header's" make test-conventions
    changed "an op without a text" command/records.c '/TAMPERMAUVE_OP_EXIT, "exit"/d' 'has no text in command/records.c, or the other way round: OP_EXIT' make test-conventions
    changed "an op that the definitions number otherwise" crates/protocol/specs/Ops.antt 's/op_wait = 34/op_wait = 43/' "not the definitions'" make test-conventions
    changed "a limit that the header has otherwise" include/tampermauve.h 's/STEPS_LIMIT 128u/STEPS_LIMIT 127u/' 'a limit of the code' make test-conventions
    changed "a limit that the definitions have otherwise" crates/protocol/specs/Format.antt 's/skip_limit = 127/skip_limit = 126/' 'a limit of the definitions' make test-conventions
    changed "ops that nobody numbers" crates/format/src/ops.rt 's/^pub const/const/' 'none in crates/format/src/ops.rt' make test-conventions
    changed "an op that the list of points leaves out" crates/format/src/points.rt '/ops::EXIT =>/d' 'not in the list of points, or not at its place in the table: < EXIT' make test-conventions
    changed "two ops of the list exchanged" crates/format/src/points.rt 's/ops::WAIT/ops::X/; s/ops::SIGNAL/ops::WAIT/; s/ops::X/ops::SIGNAL/' 'not at its place in the table' make test-conventions
    changed "code that decides by the number" crates/engine/src/own.rt 's/if synchronises(r.op)/if ops::LOCK <= r.op/' 'decides by the number' make test-conventions
    changed "a definition that decides by the number" crates/engine/specs/Moving.antt \
        's/pub syncs : synchronises r.op ≡ true/pub syncs : op_lock ≤ r.op/' \
        'decides by the number' make test-conventions
    changed "a definition that decides by the first op's other name" crates/engine/specs/Moving.antt \
        's/pub syncs : synchronises r.op ≡ true/pub syncs : syncs_from ≤ r.op/' \
        'decides by the number' make test-conventions
    changed "limits that nobody defines" crates/protocol/specs/Format.antt 's/^\([a-z_]*\) = \([0-9]\+\)$/\1 = 0 + \2/' \
        'limits: none in crates/protocol/specs/Format.antt' make test-conventions
    changed "a long line" crates/words/src/lib.rt "1s/^/\/\/ $(printf 'é%.0s' {1..200})\n/" 'above 200 characters: crates/words/src/lib.rt:1' make test-conventions
}

# ---- the gate

# An rt that proves nothing. Of the crates and edits that it finds it says what rt ci would say, and the archive and the programs are
# those in built/. What rt leaves in out/ is no part of the repository.
everything='every proof and must-fail edit was done in this run'
write_rt() { # STATUS [BEHIND THE COUNT OF EDITS [HOW MUCH WAS DONE [CRATES THAT FAIL]]]
    cat >"$work/bin/rt" <<STUB
#!/usr/bin/env bash
built=$work/built
case \$1 in
version) grep -v '^#' "$work/copy/toolchain.txt" ;;
ci)
    rm -rf crates/*/out
    crates=\$((\$(grep -c '^[a-z]' crates.txt) - ${4:-0}))
    edits=\$(ls crates/*/must-fail/*.edit | wc -l)
    for program in listing vectors; do install -D "\$built/\$program" "crates/\$program/out/\$program"; done
    mkdir -p crates/pages/out && touch crates/pages/out/copied.edit
    echo "== pages"
    echo "logic=proved functions=7 sum=1"
    echo "rt: pages proved"
    echo "rt: words is kept: an earlier run on this machine proved the same files over the same libraries"
    echo "rt: ok; handles allowed: none; must-fail edits: \$edits refused${2:-}; ${3:-$everything}"
    echo "\$((crates + edits)) passed, 0 failed"
    exit $1
    ;;
lib)
    mkdir -p out && cp "\$built/libtampermauve_c.a" out/
    cat "\$built/log"
    ;;
run)
    program=\$(basename "\$PWD")
    install -D "\$built/\$program" "out/\$program" && "out/\$program"
    ;;
check) echo "logic=proved functions=1 sum=1" ;;
*) exit 2 ;;
esac
STUB
    chmod +x "$work/bin/rt"
}

# Prints what a command prints, and ends with 0 just when its last line is the gate's good one.
passes() { # COMMAND...
    "$@" 2>&1 | tee "$work/gate"
    tail -n 1 "$work/gate" | grep -qxE '[0-9]+ passed, 0 failed'
}

gate_tests() {
    local failed='ci: FAILED: a test failed' missing='ci: FAILED: a test did not run'
    changed "the gate with a failing test" tests/check.c "$expected" "$failed" passes .ci/run
    changed "make -i test with a failing test" tests/check.c "$expected" "$failed" passes make -i test
    changed "make test C_TESTS= with a failing test" tests/check.c "$expected" "$failed" passes make test C_TESTS=
    changed "MAKEFLAGS=n with a failing test" tests/check.c "$expected" "$failed" passes env MAKEFLAGS=n .ci/run
    changed "the gate without most of its tests" Makefile 's/^TESTS = .*/TESTS = test-promises/' "$missing" passes .ci/run
    changed "the gate with one C test less" Makefile 's/^C_TESTS = check run/C_TESTS = run/' 'printed 0 times and not 3 times: check' passes .ci/run
    changed "the gate with fewer random calls" Makefile 's/^COUNT = 250000/COUNT = 2500/' 'printed 0 times and not 1 times: no difference: engine library' passes .ci/run
    wrong_archive
    changed "TAMPERMAUVE_LIB names the right archive" Makefile 's/^TESTS = .*/TESTS = test-differential/' 'a small call with a difference' \
        passes env TAMPERMAUVE_LIB="$work/right" .ci/run
    cp "$work/right/libtampermauve.a" "$archive"
    changed "an archive that stands there already, and is the right one" Makefile 's/^TESTS = .*/TESTS = test-differential/' \
        'a small call with a difference' passes .ci/run
    right_archive
}

# ---- the archive's symbols, and what rt said of it

# The gate with test-archive alone and something changed of what rt hands out.
handed_out() { # NAME FILE SCRIPT TEXT
    cp "$work/built/$2" "$work/handed"
    sed -i -e "$3" "$work/built/$2"
    cmp -s "$work/built/$2" "$work/handed" && { echo "broken: $1: nothing changes in $2" >&2; exit 2; }
    changed "$1" Makefile 's/^TESTS = .*/TESTS = test-archive/' "$4" passes .ci/run
    mv "$work/handed" "$work/built/$2"
}

# The same with something added to the archive.
with_more() { # NAME C-SOURCE TEXT
    cp "$work/built/libtampermauve_c.a" "$work/handed"
    gcc -std=c99 -O1 -w -x c -c - -o "$work/more.o" <<<"$2" && ar rs "$work/built/libtampermauve_c.a" "$work/more.o" 2>/dev/null || exit 2
    changed "$1" Makefile 's/^TESTS = .*/TESTS = test-archive/' "$3" passes .ci/run
    mv "$work/handed" "$work/built/libtampermauve_c.a"
}

gate_archive() {
    handed_out "an archive that reaches an axiom" log \
        's/^axioms libc: none reached of the \([0-9]*\) declared$/axioms libc: libc::write (1 of the \1 declared)/' \
        'the archive reaches an axiom: axioms libc: libc::write'
    handed_out "a proof that relies on an axiom" log 's/^logic=proved functions=[0-9]*/& axioms=1/' 'the proof relies on an axiom'
    handed_out "an archive of whose axioms nothing is said" log '/^axioms libc: /d' 'says nothing of the axioms of libc'
    handed_out "an archive that is not proved" log 's/^logic=proved/logic=unproved/' 'has no verdict that it is proved'
    with_more "an archive that needs a further function" \
        'int puts(const char *); static __attribute__((used)) int more(void) { return puts(""); }' \
        'archive: it needs besides: puts'
    with_more "an archive with a further name" 'int tampermauve_more = 1;' 'archive: it defines besides: D tampermauve_more'
    rm "$archive" && make "$archive" >/dev/null && tests/archive.sh "$archive" "$archive_log" >/dev/null || exit 2
    cp "$archive" "$work/handed"
    ar d "$archive" "$(ar t "$archive" | head -n 1)"
    fails "an archive without the calls" 'archive: it does not define: T tampermauve_check' tests/archive.sh "$archive" "$archive_log"
    cp "$work/handed" "$archive"
    gcc -w -x c -c - -o "$work/more.o" <<<'' && ar rs "$archive" "$work/more.o" 2>/dev/null || exit 2
    fails "an archive of which rt said nothing" 'is that of another archive' tests/archive.sh "$archive" "$archive_log"
    mv "$work/handed" "$archive"
}

gate_proofs() {
    local edits=crates/pages/must-fail none='done in this run: 0 of the 25 proofs (of crates and of their tests) and 0 of the'
    mv $edits $edits.away
    fails "the gate with a folder of edits renamed" 'must-fail edits, but rt ci says' passes .ci/run
    mv $edits.away $edits
    without "the gate with a folder of edits lost" $edits 'ci: FAILED: a test failed' passes .ci/run
    write_rt 1
    fails "an rt ci that prints the line and ends with 1" 'ci: FAILED: rt ci ended with status 1' passes .ci/run
    write_rt 0 ', 1 bad'
    fails "a bad edit" 'refused, 1 bad; every' passes .ci/run
    write_rt 0 ', 1 of them only by a limit'
    fails "an edit that only a limit of the prover refuses" 'refused, 1 of them only by a limit; every' passes .ci/run
    write_rt 0
    sed -i 's/^    echo "== pages"$/&; echo "rt: must-fail pages\/x.edit: refused, as it must be (only because a proof file names what the edit took away, ..): y"/' "$work/bin/rt"
    fails "an edit that is refused for a name alone" 'ci: FAILED: an edit is refused for a name that it takes away' passes .ci/run
    write_rt 0 '' '' 1
    fails "a crate that is not proved" 'edits are not: ' passes .ci/run
    write_rt 0 '' "$none 12 must-fail edits; the others are kept from earlier runs"
    fails "a kept run of fewer edits" 'must-fail edits, but rt ci says: rt: ok; ' passes .ci/run
    write_rt 0 '' "$none \$edits must-fail edits; the others are kept from earlier runs"
    changed "most tests left out where all is kept" Makefile 's/^TESTS = .*/TESTS = test-promises/' 'ci: FAILED: a test did not run' \
        passes .ci/run
    write_rt 0
    sed -i 's/handles allowed: none/handles allowed: Threads/' "$work/bin/rt"
    fails "a handle that is allowed" 'must-fail edits, but rt ci says: rt: ok; handles allowed: Threads' passes .ci/run
    write_rt 0
    without "an rt ci that leaves no program" "$work/built/vectors" 'ci: FAILED: rt ci left no program vectors' passes .ci/run
    sed -i 's/^version) .*/version) echo another ;;/' "$work/bin/rt"
    fails "another toolchain" 'ci: FAILED: the toolchain' passes .ci/run
}

# With nothing broken the gate passes, so that what is seen is what was broken.
write_rt 0
passes .ci/run >/dev/null || { cat "$work/gate"; echo "broken: the gate fails with nothing broken" >&2; exit 2; }

c_tests
commands
installs
listings
apart
pairs
archives
promises
conventions
gate_tests
gate_archive
gate_proofs
echo "$seen of $tried seen"
[ "$seen" -eq "$tried" ]
