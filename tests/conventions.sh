#!/usr/bin/env bash
# Holds the crates to what docs/PROOFS.md says of names and imports, and the code to its named numbers:
#   - no file of specs/ and no contract names a proof of this repository: what a reader must believe is closed under imports
#     (Rattle.std.proofs is the kit's library, words and lemmas alike); nothing is imported that is not used;
#   - no library names the system's runtime: what it prints or reads by, a program hands to it;
#   - no name stands for two things: a definition in the specs, a type in specs and proofs, a type of the code but for those that are its form of a definition's;
#   - no number from 3 up stands in the code outside of a constant, a contract or the one enum that numbers the refusals, but for those of `meant`
#     below, each with its reason; ops, fates and outcomes that are 0, 1 or 2 have their names too, as cases of a match as well;
#   - whether a step synchronises is decided in one place, crates/format/src/points.rt, which has a case for each op of the table, in its order;
#   - an op has one number and one word in the code, the definitions and the header, and so have the limits of the format; each op of the header has its text;
#   - no line is longer than 200 characters.
#
#     tests/conventions.sh [ROOT]      ROOT stands for the repository
set -u -o pipefail
cd "${1:-$(dirname "${BASH_SOURCE[0]}")/..}" || exit 1
export LC_ALL=C.UTF-8

complaints=0
complain() { # reads lines, and complains of each
    local line
    while IFS= read -r line; do
        echo "conventions: $1: $line" >&2
        complaints=$((complaints + 1))
    done
}

# The sources; what rt makes of them stands in crates/NAME/out.
files() { find crates -regex 'crates/[^/]*/out' -prune -o -name "$1" -print | sort; }

# What the scans below read of a source: its text without comments, each line at its place, and without the contracts and the constants.
sources='
    use utf8;
    # the same lines, empty
    sub blank { $_[0] =~ s/[^\n]//gr }
    sub source {
        my ($file) = @_;
        open(my $in, "<", $file) or die "$file: $!\n";
        local $/;
        my $text = <$in>;
        return $text =~ s/(?:^|(?<=\s))--(?: .*)?$//mgr if $file =~ /antt$/;
        # a comment, a text or a character, whichever begins first; of bytes the quotes stay
        $text =~ s{(//.*)|b"(?:[^"\\]|\\.)*"|b\x27(?:[^\x27\\]|\\.)+?\x27|("(?:[^"\\]|\\.)*")}{$1 ? "" : $2 // q(b"") . blank($&)}ge;
        return $text;
    }
    # Takes the clauses of the contracts out of a text, and gives them. A clause ends where its braces are even.
    sub clauses {
        my $clauses = "";
        $_[1] =~ s/(?<!\S)(?:requires|ensures)\b[^{};\n]*(\{(?:[^{}]++|(?1))*\})/$clauses .= "$1\n"; blank($&)/mge;
        die "$_[0]: a contract that does not end\n" if $_[1] =~ /(?<!\S)(?:requires|ensures)\b[^;\n]*\{/;
        return $clauses;
    }
    sub constants {
        $_[1] =~ s/^ *(?:pub(?:\([a-z]+\))? )?const [A-Z_0-9]+:.*?;[ ]*$/blank($&)/msge;
        die "$_[0]: a constant that does not end\n" if $_[1] =~ /^ *(?:pub(?:\([a-z]+\))? )?const [A-Z_0-9]+:/m;
    }
'
scan() { # SCRIPT FILE..
    perl -CSD -e "$sources $1" "${@:2}"
}

# ---- imports

naming_a_proof() { # FILE..: the lines
    scan '
        for my $file (@ARGV) {
            my $line = 0;
            for (split /\n/, source($file)) { $line++; print "$file:$line: $_\n" if /(?<![\w.])Rattle\.(?!std\.proofs\.)\w+\.proofs\b/ }
        }' "$@"
}
complain "imports a proof" < <(naming_a_proof $(files '*.antt' | grep /specs/))
complain "a contract imports a proof" < <(naming_a_proof $(files '*.rt'))

# A name that is imported and does not stand in the rest of the file, comments aside: of an operator, ◌+◌, its signs have to, and what the
# code imports for its contracts has to stand in one of them. METHODS are traits of std that may be imported for their methods alone.
unused() {
    METHODS='Read Write' scan '
        sub imported { map { s/^\s+|\s+$//gr =~ s/^.* as //r } split /,/, $_[0] =~ s/,\s*$//r }
        for my $file (@ARGV) {
            my $text = source($file);
            my $clauses = $file =~ /rt$/ ? clauses($file, $text) : "";
            my %line; # of what is ghost and of what is not, since both may have one name
            my $read = sub {
                my ($at, $ghost, $path, $list, $as) = @_;
                my $module = $path =~ s/^.*[.:]//r;
                for my $name (defined $as ? $as : defined $list ? imported($list) : $module) {
                    next if $name eq "_";
                    next if $name eq "*" && $path eq "super::";
                    die "$file: an import that is not read: $path*\n" if $name eq "*";
                    next if !$ghost && $path =~ /^std::/ && " $ENV{METHODS} " =~ / $name /;
                    $name = $path =~ s/::$//r =~ s/^.*:://r if $name eq "self";
                    $line{$ghost // ""}{$name} = 1 + (substr($text, 0, $at) =~ tr/\n//);
                }
            };
            my $import = qr/^ *(ghost )?use ([^;{}*\s]+)(?:(\*)|\{([^{}]*)\})?(?: as ([^;\s]+))?;?[ ]*$/m;
            $text =~ s/$import/$read->($-[0], $1, $2, defined $3 ? $3 : $4, $5); blank($&)/ge;
            die "$file: an import that is not read: $1\n" if $text =~ /^ *((?:ghost )?use .*)/m;
            # what is ghost stands in the contracts or in an attribute, unless the file has ghost items too
            my $anywhere = "$text $clauses";
            $clauses .= join(" ", $text =~ /^ *#!?\[.*/mg);
            my $ghostly = $file =~ /rt$/ && $text !~ /\bghost\b|\bModel\b/ ? $clauses : $anywhere;
            my $words = sub { map { $_ => 1 } split(/[\s(){},;.\[\]]+/, $_[0]), $file =~ /rt$/ ? split(/\W+/, $_[0]) : () };
            for my $ghost (sort keys %line) {
                my $all = $ghost ? $ghostly : $anywhere;
                my %in = $words->($all);
                for my $name (sort keys %{$line{$ghost}}) {
                    my @signs = $name =~ /◌/ ? grep { length } split(/◌/, $name) : ();
                    my $there = $in{$name} || (@signs ? !grep({ !$in{$_} } @signs) : $name !~ /\w/ && index($all, $name) >= 0);
                    print "$file:$line{$ghost}{$name}: $name\n" unless $there;
                }
            }
        }' "$@"
}
imports=$(unused $(files '*.antt') $(files '*.rt')) || { echo "conventions: the imports could not be read" >&2; exit 1; }
complain "is imported and not used" < <([ -z "$imports" ] || echo "$imports")

# ---- names: a definition of the specs stands in one file of all specs, a type in one file of specs and proofs

declared() { # WHAT FILE...: the names that stand in more than one file
    awk -v types="$1" '
        { gsub(/^((abbrev|unfoldable|pub) )*/, "") }
        /^(record|data) / { print $2, FILENAME; next }
        !types && /^[^ :(){}=-][^ ]* :( |$)/ { print $1, FILENAME }' "${@:2}" | sort -u |
        awk '{ files[$1] = files[$1] " " $2; count[$1]++ } END { for (n in count) if (count[n] > 1) print n ":" files[n] }' | sort
}
complain "stands for two things" < <(declared 0 $(files '*.antt' | grep /specs/))
complain "is two types" < <(declared 1 $(files '*.antt'))

# Types of the code whose name a type of the definitions has: it is the code's form of that thing.
forms='End Entry Fate Goes Record Refusal Row Ruling Uncommitted Worker'
in_rattle() { sed -nE 's/^(pub )?(struct|enum) ([A-Za-z]+).*/\3/p' $(files '*.rt') | sort; }
types() { sed -nE 's/^(pub )?(record|data) ([^ ]+).*/\3/p' $(files '*.antt') | sort -u; }
complain "is two types of the code" < <(in_rattle | uniq -d)
complain "is a type of the code, and another one in specs or proofs" < <(comm -12 <(in_rattle | sort -u) <(types) | comm -23 - <(tr ' ' '\n' <<< "$forms"))

# ---- numbers

# Numbers that are no names of the paper: a crate or all of them, the number, the reason.
meant() {
    cat <<'END'
* 256 the values of a byte, by which a word or a returned number is put together and taken apart
* 65536 the values of a word, likewise and for arithmetic modulo 65,536
* 4294967296 the values of two words, likewise
* 255 the greatest byte
queue 16 the base of a queue's digits
worker 16 the bits of a register
text 10 decimal digits
END
}

# The code without comments, contracts, constants and the refusals' numbers.
code() {
    scan '
        for my $file (@ARGV) {
            my $text = source($file);
            clauses($file, $text);
            constants($file, $text);
            $text =~ s/^pub enum Refusal \{.*?^\}$/blank($&)/mse;
            $text =~ s/^ *ghost use [^;]*;/blank($&)/mge;
            my $line = 0;
            for (split /\n/, $text) { $line++; print "$file:$line:$_\n" if /\S/ }
        }' "$@"
}
code=$(code $(files '*.rt')) || { echo "conventions: the code could not be read" >&2; exit 1; }
complain "a library names the system itself" < <(
    grep <<< "$code" -E '\b(HostRuntime|LibcRuntime|Global)\b|\bextern "C" *\{' |
        grep -vE "^crates/($(files main.rt | cut -d / -f 2 | paste -sd '|'))/")
complain "a number without a name" < <(
    awk -F: -v meant="$(meant)" '
        BEGIN { n = split(meant, rows, "\n"); for (i = 1; i <= n; i++) { split(rows[i], row, " "); allowed[row[1] " " row[2]] } }
        {
            text = $0; sub(/^[^:]*:[0-9]*:/, "", text)
            split($1, path, "/")
            # a field of a tuple is no number
            while (match(text, /[A-Za-z0-9_)\]]\.[0-9]+/)) text = substr(text, 1, RSTART) " " substr(text, RSTART + RLENGTH)
            while (match(text, /(^|[^A-Za-z0-9_])(0[xbo][0-9A-Fa-f_]+|[0-9][0-9_]*)/)) {
                number = substr(text, RSTART, RLENGTH); sub(/^[^0-9]/, "", number); gsub(/_/, "", number)
                text = substr(text, RSTART + RLENGTH)
                if (number !~ /^0[xbo]/ && number + 0 <= 2 || ("* " number) in allowed || (path[2] " " number) in allowed) continue
                print $1 ":" $2 ": " number
            }
        }' <<< "$code")
complain "an op, a fate or an outcome without its name" < <(
    grep <<< "$code" -E '\bop (==|!=|<|<=|>|>=) [0-9]|[0-9] (==|!=|<|<=|>|>=) (r\.)?op\b|\bop: [0-9]|outcome: [0-9]|fates\[[^]]*\] (=|==|!=) [0-9]|\bfates, [0-9]|^[^:]*:[0-9]+: *([0-9]+ \| )*[0-9]+ (if .*)?=>')

# ---- one word and one number for each op, and for each limit of the format: in the code, the header and the definitions

in_code() { sed -nE "s/^pub const ([A-Z_]+): [a-z0-9]+ = (0x[0-9A-F]+|[0-9]+);\$/$2\1 \2/p" "crates/format/src/$1.rt"; }
in_header() { sed -nE 's/^#define TAMPERMAUVE_([A-Z_]+) (0x[0-9A-F]+|[0-9]+)u?( .*)?$/\1 \2/p' include/tampermauve.h; }
in_definitions() { sed -nE 's/^(op_[a-z_]+) = ([0-9]+)$/\U\1\E \2/p' crates/protocol/specs/Ops.antt; }
limits_defined() { sed -nE 's/^([a-z_]+_(limit|count|length)) = ([0-9]+)$/\U\1\E \3/p' crates/protocol/specs/Format.antt; }
ops=$(in_code ops OP_ | sort)
complain "ops" < <([ -n "$ops" ] || echo "none in crates/format/src/ops.rt")
complain "limits" < <([ -n "$(limits_defined)" ] || echo "none in crates/protocol/specs/Format.antt")
complain "an op of the code that is not the header's, or the other way round" < <(comm -3 <(echo "$ops") <(in_header | grep '^OP_' | sort))
complain "an op of the code that is not the definitions', or the other way round" < <(comm -3 <(echo "$ops") <(in_definitions | sort))
complain "an op of the header that has no text in command/records.c, or the other way round" < <(
    comm -3 <(in_header | sed -n 's/^\(OP_[A-Z_]*\) .*/\1/p' | sort) <(sed -nE 's/^    \{TAMPERMAUVE_(OP_[A-Z_]+), ".*/\1/p' command/records.c | sort))
complain "a limit of the code that is not the header's" < <(comm -23 <(in_code limits '' | sort) <(in_header | sort))
complain "a limit of the definitions that is not the code's" < <(comm -13 <(in_code limits '' | sort) <(limits_defined | sort))

# ---- the list of the ops that synchronise

table_ops() { sed -nE 's/^pub const ([A-Z_]+): u8 = [0-9]+;$/\1/p' crates/format/src/ops.rt | grep -v '_RECORD$'; }
listed_ops() { sed -nE 's/^ *ops::([A-Z_]+) => (true|false),.*/\1/p' crates/format/src/points.rt; }
complain "is not in the list of points, or not at its place in the table" < <(diff <(table_ops) <(listed_ops) | grep '^[<>]')
complain "decides by the number whether an op synchronises" < <(
    grep <<< "$code" -E '(<=|>=|<|>) (ops::)?LOCK\b|\b(ops::)?LOCK (<=|>=|<|>) '
    files '*.antt' | grep /specs/ | xargs grep -nE '(≤|<|<=|((leb|ltb|nat_le|nat_lt)( [^ ]+)?)) \(?(op_lock|32)\b|\b(op_lock|32) (≤|<|<=) '
    # what bytes that name no op do, and the law of the numbers
    files '*.antt' | grep /specs/ | grep -vE '^crates/protocol/specs/(Ops|Format|Demands)\.antt$' | xargs grep -nw syncs_from)

# ---- lines

complain "above 200 characters" < <(
    perl -CSD -ne 'chomp; print "$ARGV:$.\n" if length > 200; close ARGV if eof' $(files '*.antt') $(files '*.rt'))

[ "$complaints" -eq 0 ] || exit 1
echo "conventions: $(files '*.antt' | wc -l) files of antt and $(files '*.rt' | wc -l) of Rattle keep them"
