#!/usr/bin/env bash
# Checks docs/TRACEABILITY.md against the project: every name in it exists, no cell is empty, every must-fail edit is named.
# And what no proof says of the text: every public function and every From of a library has a statement (but what the programs share, which prints); outside `height`
# nothing negates a time, nor makes a leader pair of a word but where a height is given as numbers; in the code that reads and writes images the widths of
# a height and a message stand in one list, every other width in one named constant, and no place in numbers; C and Rust have one such list each.
# A line for each thing that is wrong and exit code 1, or one line with how many names were checked.
# The notation, in every cell but the first of a row (other text in a cell is free):
#   `crate` File `name`, `name`    names of crates/CRATE/specs/File.antt, crates/CRATE/specs/inner/File.antt or crates/CRATE/proofs/File.antt
#   `crate::module::name`          a function, a struct or an enum of crates/CRATE/src; no module: of lib.rt or main.rt
#   `must-fail crate/name`         crates/CRATE/must-fail/NAME.edit
#   `compare file::name`           a test of tests/compare/tests; `reference ..` of tests/reference/src, `rust ..` of rust/tests
#   `program`, `program data/name` a crate with a stored output, and a file of its data
#   DECISIONS 32                   a decision of docs/DECISIONS.md
set -euo pipefail
export LC_ALL=C
cd "$(dirname "$0")/.."
table=docs/TRACEABILITY.md
work=$(mktemp -d)
trap 'rm -rf "$work"' EXIT

# ---- what the table names, a line each

awk '
    # `crate` File `name`, `name`: the file stands before a name, and names go on after a comma
    function span(s, gap, rest) {
        if (rest ~ /^ [A-Z][A-Za-z0-9]* `/) { split(rest, word, " "); place = s " " word[1]; names = 1; return }
        if (s ~ /^(must-fail|compare|reference|rust) / || s ~ /^[a-z_]+ data\//) print s
        else if (s ~ /::/) print "source " s
        else if (names && (gap == ", " || gap ~ /^ [A-Z][A-Za-z0-9]* $/)) { print "name " place " " s; return }
        else print "program " s
        names = 0
    }
    /^\|/ && !/^\|[-|]*\|$/ {
        row = $0
        sub(/^\|[^|]*\|/, "", row)
        names = 0
        gap = ""
        while (match(row, /`[^`]*`/)) {
            gap = substr(row, 1, RSTART - 1)
            s = substr(row, RSTART + 1, RLENGTH - 2)
            row = substr(row, RSTART + RLENGTH)
            span(s, gap, row)
        }
        row = $0
        while (match(row, /DECISIONS [0-9]+/)) {
            print substr(row, RSTART, RLENGTH)
            row = substr(row, RSTART + RLENGTH)
        }
    }
' "$table" | sort -u >"$work/named"

# ---- what there is, in the same words

{
    awk '
        FNR == 1 { count = split(FILENAME, part, "/"); crate = part[2]; file = part[count]; sub(/\.antt$/, "", file) }
        {
            i = 1
            if ($i == "unfoldable" || $i == "abbrev") i++
            if ($i != "pub") next
            i++
            if ($i == "record" || $i == "data") i++
            print "name " crate " " file " " $i
        }
    ' crates/*/specs/*.antt crates/*/specs/inner/*.antt crates/*/proofs/*.antt
    awk '
        FNR == 1 {
            split(FILENAME, part, "/")
            module = part[4]
            sub(/\.rt$/, "", module)
            path = part[2] "::" (module == "lib" || module == "main" ? "" : module "::")
            type = ""
        }
        /^impl / { type = $2 "::" }
        /^}/ { type = "" }
        match($0, /^ *(pub )?(extern "C" )?(fn|struct|enum) [A-Za-z0-9_]+/) {
            count = split(substr($0, RSTART, RLENGTH), word, " ")
            print "source " path type word[count]
        }
    ' crates/*/src/*.rt
    awk '
        FNR == 1 {
            count = split(FILENAME, part, "/")
            file = part[count]
            sub(/\.rs$/, "", file)
            kind = part[1] == "rust" ? "rust" : part[2]
        }
        test && match($0, /fn [A-Za-z0-9_]+/) { print kind " " file "::" substr($0, RSTART + 3, RLENGTH - 3) }
        { test = $0 ~ /#\[test\]/ }
    ' tests/compare/tests/*.rs tests/reference/src/*.rs rust/tests/*.rs
    printf '%s\n' crates/*/must-fail/*.edit | sed 's|^crates/\(.*\)/must-fail/\(.*\)\.edit$|must-fail \1/\2|'
    printf '%s\n' crates/*/stdout | sed 's|^crates/\(.*\)/stdout$|program \1|'
    printf '%s\n' crates/*/data/* | sed 's|^crates/\(.*\)/data/\(.*\)$|\1 data/\2|'
    sed -n 's/^\([0-9]*\)\. .*/DECISIONS \1/p' docs/DECISIONS.md
} | sort -u >"$work/there"

# ---- what is wrong

bare() {
    awk '/^ *pub (extern "C" )?fn /{ head = FILENAME ": " $0 } /^impl.* From</ { head = FILENAME ": " $0; next } /^ *(ensures|ghost from_gives)/ { head = "" } /^ *(requires|ghost)[ *]/ { next } /^ *\{$/ || /(fn |^ *\)).*\{$/ { if (head != "") print head; head = "" }' "$@"
}

# Widths and places in the code that reads and writes images: every number there but 0, 1 and 2 is one, unless it stands as below (the most stations, the
# bits of a byte, the ends of ranges, the header's bytes for 10, the most bits that a reader takes, a dash) or where `image` names it.
numbers() {
    awk '
        # a clause, to the brace that closes it
        FNR == 1 { skip = 0 }
        !skip && /^ *(requires|ensures|ghost [a-z_]+:|ghost invariant)( |\*|$)/ { skip = 1; depth = 0 }
        skip { depth += gsub(/\{/, "{") - gsub(/\}/, "}"); if (depth <= 0) skip = 0; next }
        /^ *(ghost )?use / { next }
        FILENAME == "crates/image/src/lib.rt" && /^pub const (HEADER_LENGTH|(DEPTH|VERSION|LENGTH|COUNT|CLOCK|SET|WAITING)_WIDTH): [a-z0-9]+ = [0-9]+;$/ { next }
        FILENAME == "crates/image/src/widths.rt" && /^(    \[32, 5, 1, depth, 32, 5, 5, 32\]|pub const DEPTH: usize = 3;)$/ { next }
        {
            code = " " $0 " "
            sub(/\/\/.*/, "", code)
            gsub(/8 - at % 8| \+ 7\)|16 < n|image\.len\(\) < 4 |32 < width|rule: 45,|4294967295u32|div_ceil\(8\)/, "", code)
            gsub(/n <= 16[^0-9]|[\/%] 8[^0-9]/, "", code)
            while (match(code, /[^A-Za-z0-9_][0-9][0-9A-Za-z_]*/)) {
                n = substr(code, RSTART + 1, RLENGTH - 1)
                code = substr(code, RSTART + RLENGTH)
                if (n !~ /^[012](u32|usize)?$/) print FILENAME ":" FNR ": " n
            }
        }
    ' "$@"
}

# How often the list of widths begins in C and in Rust: once.
lists() {
    local begins=$1
    shift
    [ "$(cat "$@" | tr -d ' \\\n' | grep -oE "$begins" | wc -l)" = 1 ] || echo "widths not listed once: $*"
}

# The same code without its comments, and in Rust without the table of how many histories there are, 128 for one.
bare_c() { sed -e ':a' -e 's|/\*[^*]*\*/||; ta' -e '/\/\*/,/\*\//d' include/election.h; }
bare_rust() { cat rust/src/*.rs | sed -e 's|//.*||' -e '/^const COUNTS/,/^];/d'; }

{
    numbers crates/image/src/*.rt crates/image_{reader,reading,snapshot,writing}/src/*.rt crates/abi/src/*.rt | sed 's/^/a width or a place outside the list: /'
    for number in 37 38 54 64 70 75 80 86 91 96 112 128 144 1028; do
        bare_c | grep -nw "$number" | sed 's/^/election.h, a width or a place outside the list: /' || true
        bare_rust | grep -nw "$number" | sed 's/^/rust, a width or a place outside the list: /' || true
    done
    lists '[(]k[)]>0[?]32:0' include/election.h
    lists '32,5,1,' rust/src/*.rs
    for lib in crates/*/src/lib.rt; do grep -qE 'io::|print(ln)?!|HostRuntime' "$lib" || bare "${lib%/*}"/*.rt; done | sed 's/^/no statement: /'
    grep -n 'NegatedTime(\|nlts_of(\|\.negated()' crates/*/src/*.rt | grep -v '^crates/height/\|NegatedTime(0)' | sed 's/^/a time negated: /' || true
    grep -n 'pair_of(' crates/*/src/*.rt | grep -v '^crates/height/\|^crates/abi/src/reports.rt:\|^crates/height_cases/' | sed 's/^/a leader pair made of a word: /' || true
    grep -Fxv -f "$work/there" "$work/named" | sed 's/^/not in the project: /' || true
    grep -Fxv -f "$work/named" "$work/there" | sed -n 's/^must-fail /not in the table: must-fail /p' || true
    awk -F '|' '/^\|/ { for (i = 2; i < NF; i++) if ($i ~ /^ *$/) { print "empty cell: line " FNR; break } }' "$table"
} >"$work/wrong"
if [ -s "$work/wrong" ]; then
    sed "s|^|$table: |" "$work/wrong"
    exit 1
fi
echo "$table: $(wc -l <"$work/named") names checked, $(grep -c '^must-fail ' "$work/named") of them must-fail edits"
