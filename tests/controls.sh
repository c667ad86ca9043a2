#!/usr/bin/env bash
# A must-fail edit shows little where the prover would refuse any change at its place. So with crates/X/must-fail/LABEL.edit may
# stand crates/X/controls/LABEL.control, in the same format: a rewrite at the same place that changes nothing, which the prover must accept.
#
#     tests/controls.sh [CRATE...]        tries the controls of these crates, or of all, in a copy of the repository
#
# The copy has no out/ folders: rt takes over what it kept of the same files in another folder of this machine. So it is fast where
# `rt all check` ran here before.
set -u
cd "$(dirname "$0")/.." || exit 2
[ $# -gt 0 ] || set -- $(sed -nE 's/^([a-z][a-z0-9_]*).*/\1/p' crates.txt)
copy=$(mktemp -d) || exit 2
trap 'rm -rf "$copy"' EXIT
git ls-files -z | while IFS= read -r -d '' f; do [ ! -e "$f" ] || printf '%s\0' "$f"; done | xargs -0 cp --parents -t "$copy" || exit 2

place() { # CRATE EDIT: the file and the line of its first text
    local file old
    file=$(sed -n 's/^file: //p' "$2" | head -n 1) old=$(sed -n 's/^old: //p' "$2" | head -n 1)
    echo "$file:$(grep -nF -e "$old" "crates/$1/$file" | cut -d : -f 1)"
}

replace() { # FILE OLD NEW: fails unless OLD stands there once, and the file changes
    OLD=$2 NEW=$3 perl -0777 -i -pe '$n = () = /\Q$ENV{OLD}\E/g; s/\Q$ENV{OLD}\E/$ENV{NEW}/; END { exit !($n == 1 && $ENV{OLD} ne $ENV{NEW}) }' "$1"
}

try() { # CRATE CONTROL: says why the control fails
    local edit file='' old='' new line pairs=0
    edit=crates/$1/must-fail/$(basename "$2" .control).edit
    [ -f "$edit" ] || { echo "no edit has this name"; return 1; }
    [ "$(place "$1" "$2")" = "$(place "$1" "$edit")" ] || { echo "it does not stand where the edit does"; return 1; }
    while IFS= read -r line; do
        case $line in
        'file: '*) file=crates/$1/${line#file: } ;;
        'old: '*) old=${line#old: } ;;
        'new:'*)
            new=${line#new:}
            replace "$copy/$file" "$old" "${new# }" || { echo "$old: not once in $file, or not changed"; return 1; }
            pairs=$((pairs + 1))
            ;;
        esac
    done <"$2"
    [ "$pairs" -gt 0 ] || { echo "it changes nothing"; return 1; }
    (cd "$copy/crates/$1" && rt check) >"$copy/log" 2>&1 && grep -q '^logic=proved ' "$copy/log" && return 0
    grep -m 1 error "$copy/log" || tail -n 1 "$copy/log"
    return 1
}

# What the crate is of, as it stands; its out/ in the copy stays, so that the next check begins with it.
restore() { # CRATE
    local folder
    for folder in src specs proofs; do
        [ ! -d "crates/$1/$folder" ] || { rm -rf "$copy/crates/$1/$folder" && cp -r "crates/$1/$folder" "$copy/crates/$1/"; } || exit 2
    done
}

all=0 accepted=0
for crate; do
    for control in crates/"$crate"/controls/*.control; do
        [ -f "$control" ] || continue
        all=$((all + 1)) label=$crate/$(basename "$control" .control)
        if said=$(try "$crate" "$control"); then
            accepted=$((accepted + 1))
            echo "accepted $label"
        else
            echo "REFUSED $label: ${said:0:300}"
        fi
        restore "$crate"
    done
done
echo "$accepted of $all accepted"
[ "$all" -gt 0 ] && [ "$accepted" -eq "$all" ]
