# shellcheck shell=bash
# What the commands beside this file share: each sources it. bash, coreutils, findutils, awk, grep, flock; and rt where something is to be proved.
# Statuses: 1 a file, a device or proving failed; 2 called otherwise than --help says.
set -euo pipefail
root=$(cd "$(dirname "${BASH_SOURCE[0]}")/.." && pwd -P)
name=${0##*/}

# On standard error; what cannot be said changes nothing.
say() { # LINE
    printf '%s: %s\n' "$name" "$1" >&2 || true
}

fail() { # STATUS LINE
    say "$2"
    exit "$1"
}

# A closed stream would be taken up by the next pipe.
: 8>&2 || exec 2>/dev/null
{ : 8>&1; } 2>/dev/null || fail 1 "standard output is closed"

# ---- arguments and input

# The words that are no options go to `words`; --help writes what the command's `help` writes, and ends.
words=()
arguments() { # WORD..
    while [ $# -gt 0 ]; do
        case $1 in
        --help | -h)
            help | put
            exit
            ;;
        --)
            shift
            words+=("$@")
            return
            ;;
        -?*) fail 2 "unknown option '$1' (see $name --help)" ;;
        *) words+=("$1") ;;
        esac
        shift
    done
}

# Makes FILE the standard input; - is the one there is.
input() { # FILE
    if [ "$1" != - ]; then
        [ -e "$1" ] || fail 1 "no such file: '$1'"
        [ ! -d "$1" ] || fail 1 "a directory, not a file: '$1'"
        if [ ! -r "$1" ] || ! { exec <"$1"; } 2>/dev/null; then
            fail 1 "cannot be read: '$1'"
        fi
    fi
    { : 8<&0; } 2>/dev/null || fail 1 "standard input is closed"
    [ ! -d /dev/stdin ] || fail 1 "standard input is a directory"
}

# ---- a program on its input. What a program says of a read or a write that failed names no file, so others read and write for it.

# Longer than what any program takes: the rest is not read.
longest=1048576

# Ends a part of a pipe: silently where the part behind it is gone.
broken() { # STATUS LINE
    [ "$1" -ne 141 ] || exit 141
    fail 1 "$2"
}

take() {
    head -c "$longest" 2>/dev/null || broken $? "the input cannot be read"
}

put() {
    cat 2>/dev/null || broken $? "standard output cannot be written"
}

# The program reads no more than it has room for; what it leaves is read behind it, so that `take` can end.
run() { # PROGRAM WORD..
    "$root/target/bin/$1" "${@:2}" || broken $? "target/bin/$1 ended with status $?"
    cat >/dev/null
}

# What PROGRAM writes, to the byte, goes to `answer`; nothing where the input could not be read whole.
answer=
answered() { # PROGRAM WORD..
    answer=$(take | run "$@" && echo .) || exit
    answer=${answer%.}
}

# ---- lists of histories

# Ends the command where a word is no number that the program takes.
numbers() { # WORD..
    local word
    for word; do
        [[ $word =~ ^(0|[1-9][0-9]{0,8})$ ]] || fail 2 "not a number of at most 9 digits, without zeros in front: '$word' (see $name --help)"
    done
}

# The list goes to `answer`; where it is refused, the command ends. One station has no history but the empty one.
list_histories() { # N LENGTH
    built histories_list
    answered histories_list "$1" "$2" </dev/null
    case $answer in
    "refused 1"$'\n') fail 3 "refused 1: a plot has 1 to 16 stations, and histories are listed for 1 to 3" ;;
    "refused 19"$'\n') fail 3 "refused 19: histories are listed up to 3 stations and up to 5 events" ;;
    "N $1"$'\n'*$'\n' | "N $1"$'\n') [ $((${#answer} % (4 + 6 * $2))) -eq 0 ] && return ;;
    '') [ "$1" -eq 1 ] && [ "$2" -gt 0 ] && return ;;
    esac
    fail 1 "target/bin/histories_list gave no list"
}

# ---- proving and building

# `rt run` builds a program and then runs it, here on no input.
built() { # PROGRAM
    made run "$1" "bin/$1"
}

archived() { # LIBRARY
    made lib "$1" "staticlib/lib$1.a"
}

# Has target/FILE be what `rt VERB` in the folder of CRATE makes of the crates as they are, which it leaves in out/ there. What they were is told by
# their content: target/commands/CRATE.VERB has the hashes of crates.txt, of all files of the crates that CRATE stands on, and of target/FILE. One
# run at a time, so that each finds what the one before it left.
made() { # VERB CRATE FILE
    local crate=$2 file=$root/target/$3 left=$root/crates/$2/out/${3##*/} kept=$root/target/commands tool before
    local log=$kept/$2.log stamp=$kept/$2.$1 crates
    mapfile -t crates < <(below "$crate" 2>/dev/null)
    [ "${#crates[@]}" -gt 0 ] || fail 1 "crates.txt lists no crate $crate"
    if current; then
        return
    fi
    for tool in rt flock; do
        command -v "$tool" >/dev/null || fail 1 "$tool is not in PATH; it is needed, as target/$3 is missing or not proved of the crates as they are"
    done
    { mkdir -p "$kept" && exec 9>"$kept/lock"; } 2>/dev/null || fail 1 "cannot be written: $kept"
    flock -n 9 || busy waiting flock 9
    if ! current; then
        before=$(sources)
        busy proving prove "$1" || not_proved
        [ -s "$left" ] || fail 1 "rt left no $left"
        # whole at once, since another command may run it
        { mkdir -p "${file%/*}" && cp -- "$left" "$file.new" && mv -f -- "$file.new" "$file"; } 2>/dev/null || fail 1 "cannot be written: $file"
        [ "$(said)" -eq 0 ] || say "${#crates[@]} of ${#crates[@]} crates proved"
        # what changed meanwhile is proved the next time
        [ "$(sources)" != "$before" ] || printf '%s\n' "$before" "$(sha256sum <"$file")" >"$stamp"
    fi
    exec 9>&-
}

# The crates of crates.txt that CRATE stands on, and itself, each behind those that it stands on, as rt takes them. What is not listed there is of
# the kit. Behind a crate's name may stand that it is a static library.
below() { # CRATE
    awk -v crate="$1" '
        function visit(name,    on, count, i) {
            if (!(name in stands) || seen[name]++) return
            count = split(stands[name], on, " ")
            for (i = 1; i <= count; i++) visit(on[i])
            print name
        }
        { sub(/#.*/, ""); colon = index($0, ":"); split(substr($0, 1, colon - 1), words, " ") }
        colon { stands[words[1]] = substr($0, colon + 1) }
        END { visit(crate) }' "$root/crates.txt"
}

# All but what rt leaves in out/. A crate that has no folder is rt's to refuse.
sources() {
    (
        cd "$root"
        { find crates.txt "${crates[@]/#/crates/}" -regex 'crates/[^/]*/out' -prune -o -type f -print0 2>/dev/null || true; } | LC_ALL=C sort -z |
            xargs -0 sha256sum
    ) | sha256sum
}

current() {
    [ -s "$file" ] && [ -s "$stamp" ] && [ "$(sources && sha256sum <"$file")" = "$(cat "$stamp")" ]
}

prove() { # VERB
    (cd "$root/crates/$crate" && rt "$1") >"$log" 2>&1 </dev/null
}

# How many of the crates are proved, 0 where rt had none to prove. It takes them lowest first, passes over those that it had proved before in silence,
# and says of each other one its name and then that it is proved, and before that, on more than one processor, what it chose for it.
said() {
    awk -v all="${crates[*]}" '
        BEGIN { for (count = split(all, name, " "); count > 0; count--) place[name[count]] = count }
        /^crate [a-z0-9_]+: / { at = place[substr($2, 1, length($2) - 1)] }
        /^rt: chose --jobs [0-9]+ for / && place[$NF] > most { most = place[$NF] - 1 }
        /^logic=proved / { most = at }
        END { print most + 0 }' "$log" 2>/dev/null || echo 0
}

not_proved() {
    grep -aE ': error|^fn .*: no proof|^rt: ' "$log" | grep -aEv '^rt: (chose|nothing has changed|running) ' >&2 || tail -n 20 "$log" >&2
    fail 1 "$crate is not proved; all that rt said is in $log"
}

# ---- progress, on standard error

waiting() {
    echo "waiting for another run to prove"
}

proving() {
    echo "$(said) of ${#crates[@]} crates proved"
}

# Runs COMMAND and meanwhile says what SAY writes, with the seconds: on a terminal each second in one line, else a line every five seconds.
busy() { # SAY COMMAND..
    local status=0 clock
    ticks "$1" 9>&- &
    clock=$!
    "${@:2}" || status=$?
    kill "$clock" 2>/dev/null || true
    wait "$clock" 2>/dev/null || true
    [ ! -t 2 ] || printf '\r\033[K' >&2
    return "$status"
}

# Ends with the command itself, however that ends.
ticks() { # SAY
    local seconds=0
    while sleep 1 >/dev/null 2>&1 && kill -0 $$ 2>/dev/null; do
        seconds=$((seconds + 1))
        if [ -t 2 ]; then
            printf '\r%s: %s, %d s\033[K' "$name" "$("$1")" "$seconds" >&2
        elif [ $((seconds % 5)) -eq 0 ]; then
            say "$("$1"), $seconds s"
        fi
    done
}
