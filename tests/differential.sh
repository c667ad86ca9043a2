#!/bin/sh
# Builds the differential test and runs it.
#
# tests/differential.sh library|check|twin [--seed N] [--count N] [--seconds N]
#
# `library` holds the library's check, run and run of several plans against the
# simulator, `check` its check alone, `twin` the engine of bench/twin.c. The
# library is libtampermauve.a of the folder TAMPERMAUVE_LIB (default target/staticlib).
set -eu
cd "$(dirname "$0")/.."
what=${1:-library}
[ $# -gt 0 ] && shift
case $what in
library) features=library engine=library ;;
check) features=check engine=library ;;
twin) features="" engine=twin ;;
*)
    echo "tests/differential.sh library|check|twin [--seed N] [--count N] [--seconds N]"
    exit 2
    ;;
esac
target=$PWD/tests/differential/target/$what
if [ -n "${TAMPERMAUVE_LIB:-}" ]; then
    TAMPERMAUVE_LIB=$(cd "$TAMPERMAUVE_LIB" && pwd)
    export TAMPERMAUVE_LIB
fi
(cd tests/differential &&
    cargo build --release --offline --quiet --features "$features" --target-dir "$target")
"$target/release/differential" --engine "$engine" "$@"
