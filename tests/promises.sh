#!/usr/bin/env bash
# Holds docs/PROMISES.md against the repository, both ways: each name in backquotes is the name of something, in a table of a kind that its
# column may name, and each must-fail edit is cited in a table. The edit crates/X/must-fail/LABEL.edit has its control
# crates/X/controls/LABEL.control, or a row that says what it shows without one.
#
# tests/promises.sh [FILE]   FILE stands for docs/PROMISES.md
set -u -o pipefail
cd "$(dirname "${BASH_SOURCE[0]}")/.." || exit 1
promises=${1:-docs/PROMISES.md}
work=$(mktemp -d) || exit 1
trap 'rm -rf "$work"' EXIT
shopt -s nullglob

# Words of contracts and of listings, and what the page explains its columns with; they name nothing of ours.
words=' requires ensures stuck File.name name proofs/File.name crate::name crate/label label.control '
words+='crates/protocol/specs/File.antt crates/protocol/proofs/File.antt crates/crate/src crates/crate/must-fail/label.edit '
words+='crates/crate/controls/label.control '

# The crates of crates.txt, whose lines are NAME: .. or NAME staticlib: ..
crates=$(sed -nE 's/^([a-z][a-z0-9_]*).*/\1/p' crates.txt)

# What antt files declare: `FILE`, `FILE.name`, `TYPE.field`, and the names alone. Fields, constructors and what stands in a
# module without a name are indented.
declared_in() { # KIND PREFIX FILE...
    awk -v kind="$1" -v prefix="$2" '
        function put(name) { print kind, name }
        function declare(name) { put(prefix file "." name); put(name) }
        FNR == 1 { file = FILENAME; gsub(/.*\/|\.antt$/, "", file); put(prefix file); put(file ".antt") }
        /^[^ ]/ { type = "" }
        { gsub(/^((abbrev|unfoldable|opaque|pub) )*/, "") }
        /^(record|data) / { type = $2; declare(type) }
        /^[^ ]+ :/ { declare($1) }
        sub(/^  (pub )?|^ +pub /, "") && /^[^ ]+ :/ { if (type == "") declare($1); else { put(type "." $1); put($1) } }' "${@:3}"
}

# What the code of a crate declares: `crate::name`, `crate::file::name`, `TYPE::name`, `STRUCT.field`, and the names alone.
declared_by() { # CRATE
    awk -v crate="$1" '
        function put(name) { print "code", name }
        function declare(name) { put(crate "::" name); put(crate "::" file "::" name); put(name) }
        FNR == 1 { file = FILENAME; gsub(/.*\/|\.rt$/, "", file) }
        /^}/ { type = struct = "" }
        # impl TYPE or impl TRAIT for TYPE, with what stands in < > left out
        /^impl[ <]/ { type = $0; sub(/ *\{$/, "", type); gsub(/<[^<>]*>/, "", type); sub(/.* /, "", type) }
        match($0, /(fn|const|static|struct|enum) [A-Za-z_0-9]+/) {
            name = substr($0, RSTART, RLENGTH)
            if (name ~ /^struct/ && /\{$/) struct = substr(name, 8)
            sub(/.* /, "", name)
            declare(name)
            if (type != "") declare(type "::" name)
        }
        struct != "" && match($0, /^    (pub )?[a-z_]+:/) { sub(/^ *(pub )?/, ""); sub(/:.*/, ""); put(struct "." $0) }' crates/"$1"/src/*.rt </dev/null
}

names_there() {
    local crate edit
    for crate in $crates; do
        echo "crate $crate"
        declared_by "$crate"
        for edit in crates/"$crate"/must-fail/*.edit; do echo "edit $crate/$(basename "$edit" .edit)"; done
        [ "$crate" = protocol ] || declared_in proof '' crates/"$crate"/{specs,proofs}/*.antt </dev/null
    done
    declared_in definition '' crates/protocol/specs/*.antt
    declared_in proof proofs/ crates/protocol/proofs/*.antt
    sed -n 's/^static [a-z_0-9 ]*[ *]\([a-z_0-9]*\)(.*/test \1/p' tests/*.c
}

# The names on the page: their line, their column's heading or `text`, and the name. What has a blank in it is a phrase and no name.
names_cited() {
    awk -F '[|]' '
        /^\|/ && before !~ /^\|/ { for (i = 2; i < NF; i++) heading[i] = $i }
        { before = $0 }
        function cite(column, text, name) {
            gsub(/ /, "-", column)
            while (match(text, /`[^`]*`/)) {
                name = substr(text, RSTART + 1, RLENGTH - 2)
                text = substr(text, RSTART + RLENGTH)
                if (name !~ / /) print NR, column, name
            }
        }
        /^\|/ { for (i = 2; i < NF; i++) cite(heading[i], $i); next }
        { cite("text", $0) }' "$promises"
}

# The kinds of names that a column may have.
kinds_of() { # HEADING
    case $1 in
    -must-fail- | -edit-with-a-weak-control-or-none-) echo edit ;;
    -definition-) echo definition ;;
    -test-) echo test ;;
    *) echo edit definition proof code crate test ;;
    esac
}

exists() { # HEADING NAME
    local kind files
    for kind in $(kinds_of "$1"); do grep -qxF -- "$kind $2" "$work/there" && return; done
    [[ $words == *" $2 "* ]] && return
    case $2 in
    proofs/*) grep -qxF -- "proof $2" "$work/there" ;; # in any column, with its file
    */*) files=($2) && [ ${#files[@]} -gt 0 ] && [ -e "${files[0]}" ] ;; # a path, which may have a * in it
    std::*) grep -qF -- "$2" crates/*/src/*.rt ;;
    *) false ;;
    esac
}

control_of() { # EDIT
    echo "crates/${1%%/*}/controls/${1#*/}.control"
}

complaints=0
complain() {
    echo "promises: $*" >&2
    complaints=$((complaints + 1))
}

names_there | sort -u >"$work/there"
names_cited >"$work/cited"
while read -r line column name; do
    exists "$column" "$name" || complain "$promises:$line: \`$name\` names nothing that may stand there ($column)"
done <"$work/cited"
while read -r _ edit; do
    grep -qE -- "^[0-9]+ -(must-fail|what-meets-it)- $edit\$" "$work/cited" || complain "no row cites the edit $edit"
    [ -f "$(control_of "$edit")" ] || grep -q -- " -edit-with-a-weak-control-or-none- $edit\$" "$work/cited" ||
        complain "the edit $edit has no control, and no row says what it shows"
done < <(grep '^edit ' "$work/there")
controls=(crates/*/controls/*)
for control in "${controls[@]}"; do
    label=${control#crates/} && label=${label/\/controls\///}
    [[ $control == *.control ]] && grep -qxF -- "edit ${label%.control}" "$work/there" || complain "$control has no edit of its name"
done

names=$(wc -l <"$work/cited") edits=$(grep -c '^edit ' "$work/there")
[ "$names" -gt 0 ] && [ "$edits" -gt 0 ] || complain "there are $names names and $edits edits"
[ "$complaints" -eq 0 ] || exit 1
echo "promises: $names names stand for something; $edits must-fail edits are cited, and ${#controls[@]} have a control"
