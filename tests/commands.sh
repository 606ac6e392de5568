#!/usr/bin/env bash
# The commands of bin/: arguments, files, links, devices, when they prove and what they say meanwhile. A group is a transcript, held to
# tests/commands/GROUP: a line '$ ..' for each call, its standard output, its standard error behind '! ', its status.
# They run in a scratch root with stand-ins: for the programs; for rt, which notes its calls; for sleep, whose seconds the stand-in for rt lets
# go by. PATH has only the tools named below. `real` alone is the proved bench.
# shellcheck disable=SC2016 # calls are lines that `call` evaluates
set -euo pipefail
cd "$(dirname "$0")/.."
here=$PWD
WORK=$(mktemp -d)
export WORK CLOCK
trap 'rm -rf "$WORK"' EXIT
chmod 755 "$WORK"
mkdir "$WORK/tools" "$WORK/rt" "$WORK/links" "$WORK/log"
for tool in bash env readlink dirname cat head tail awk find sort xargs sha256sum grep mkdir rm cp mv flock sleep base64 mktemp mkfifo; do
    ln -s "$(command -v "$tool")" "$WORK/tools/$tool"
done
paths=$WORK/rt:$WORK/tools
timeout=$(command -v timeout)
failed=0

# ---- stand-ins

# Writes the first three lines, or `bad plot` for no input; `much` is more than a pipe holds. Leaves the rest unread.
cat >"$WORK/bench" <<'END'
#!/usr/bin/env bash
for count in 1 2 3; do
    IFS= read -r line || break
    [ "$line" != much ] || printf '%0200000d\n' 0
    echo "listed $line"
done
[ -n "${line:-}" ] || [ "$count" -gt 1 ] || echo bad plot
END

cat >"$WORK/image_look" <<'END'
#!/usr/bin/env bash
case $1:$(cat) in
check:good) echo 0 ;;
check:cut) echo 12 ;;
check:rule) echo 2 3 1 ;;
show:good) printf '%s\n' 'stations 2' '0 and so on' ;;
show:cut) echo refused 12 ;;
show:rule) echo refused 2 3 1 ;;
*:numbers) printf '%s\n' 0 12 ;;
*:zero) echo refused 0 ;;
*:killed) kill -KILL $$ ;;
esac
END

# Its word, and what the file says: a drawing, an image of 5 bytes with a 0 among them, or the lines that it has for what it refuses.
cat >"$WORK/plot_draw" <<'END'
#!/usr/bin/env bash
case $1:$(cat) in
plot:good) printf '%s\n' 'digraph plot {' '  1;' '}' ;;
sketch:good) printf '\x10\x20\x08\x00\xff' ;;
plot:cut) echo refused 12 ;;
plot:short) echo refused 10 ;;
plot:other) echo refused 11 ;;
plot:rule) echo refused 2 3 1 ;;
plot:bad) echo bad plot ;;
plot:half) printf '%s\n' 'digraph plot {' '  1;' ;;
sketch:other) echo refused 16 ;;
sketch:linked) echo refused 17 ;;
sketch:long) echo too long ;;
sketch:half) printf '\x10' ;;
sketch:version) printf '\x20\x20\x08\x00\xff' ;;
*:zero) echo refused 0 ;;
*:numbers) printf '%s\n' 'refused 12' 'refused 16' ;;
*:killed) kill -KILL $$ ;;
esac
END

# Each second has a number in its run's clock, and ends when a file there says so.
cat >"$WORK/rt/sleep" <<'END'
#!/usr/bin/env bash
second=1
until (set -C && : >"$CLOCK/began.$second") 2>/dev/null; do
    [ -d "$CLOCK" ] || exit 1
    second=$((second + 1))
done
while [ -d "$CLOCK" ] && [ ! -e "$CLOCK/ended.$second" ] && [ ! -e "$CLOCK/over" ]; do
    "$WORK/tools/sleep" 0.01
done
END

# seconds COUNT: lets so many go by in the clock CLOCK; what is said of the last has then been said. until_there FILE gives up after half a minute or more.
cat >"$WORK/seconds" <<'END'
second=0
seconds() {
    local last=$((second + $1))
    while [ "$second" -lt "$last" ]; do
        second=$((second + 1))
        until_there "$CLOCK/began.$second"
        : >"$CLOCK/ended.$second"
    done
    until_there "$CLOCK/began.$((second + 1))"
}

until_there() {
    local tries=3000
    until [ -e "$1" ]; do
        tries=$((tries - 1))
        [ "$tries" -gt 0 ] || { echo "never there: $1"; exit 9; }
        "$WORK/tools/sleep" 0.01
    done
}
END
# shellcheck source=/dev/null
source "$WORK/seconds"

# Called in a crate's folder, as rt is. Of the crates that it has no need to prove it says nothing.
cat >"$WORK/rt/rt" <<'END'
#!/usr/bin/env bash
source "$WORK/seconds"
crate=${PWD##*/}
echo "rt $* $crate" >>"$WORK/calls"

proved() { # CRATE..
    local each
    for each; do printf '%s\n' "fn $each::one: proved" "crate $each: modules loaded=1 checked=2" 'logic=proved functions=1'; done
}

program() {
    "$WORK/tools/mkdir" -p out
    "$WORK/install" -m 755 "$WORK/$crate" "out/$crate"
    echo proved >"out/$crate.stamp"
    echo "rt: running out/$crate; to give it other input, run that file yourself"
}

# As rt does: a program whose stamp stands is not made again.
nothing_changed() {
    if [ -e "out/$crate.stamp" ]; then
        echo "rt: nothing has changed since the last proved build, by out/$crate.stamp, so nothing is checked now"
    else
        proved "$crate"
    fi
    program
}

from_nothing() {
    seconds 7
    proved low
    seconds 11
    proved middle "$crate"
    program
}

edited_meanwhile() {
    echo '// edited' >>../low/src/lib.rt
    nothing_changed
}

refused() {
    proved low
    echo 'rt: chose --jobs 2 for middle'
    echo 'src/lib.rt:1:1: note: a hint'
    echo 'src/lib.rt:3:1: error[unexpected-token]: expected expression'
    echo 'fn middle::two: no proof: expected a file'
    echo 'rt: the library middle did not build, so nothing above it was checked' >&2
    exit 1
}

killed() {
    proved low
    echo 'out of memory' >&2
    exit 137
}

nothing_made() {
    proved low middle "$crate"
}

archive() {
    echo "rt: chose --jobs 2 for $crate"
    seconds 5
    proved "$crate"
    "$WORK/tools/mkdir" -p out
    echo archive >"out/lib$crate.a"
}

until_told() {
    : >"$WORK/started"
    until_there "$WORK/go_on"
    from_nothing_at_once
}

from_nothing_at_once() {
    proved low middle "$crate"
    program
}

"$(cat "$WORK/plan")"
END
ln -s "$(command -v install)" "$WORK/install"
chmod +x "$WORK/bench" "$WORK/image_look" "$WORK/plot_draw" "$WORK/rt/rt" "$WORK/rt/sleep"

# ---- calls

# Runs a line in the scratch folder; two minutes are for what never ends.
in_time() { # LINE
    (cd "$WORK" && PATH=$paths exec "$timeout" 120 bash -c "$1")
}

# With a clock of its own.
call() { # LINE
    local status=0
    CLOCK=$(mktemp -d -p "$WORK")
    in_time "$1" >"$WORK/log/out" 2>"$WORK/log/err" </dev/null || status=$?
    : >"$CLOCK/over"
    printf '$ %s\n' "$1"
    shown "$status" "$WORK/log"
}

shown() { # STATUS FOLDER
    cat "$2/out"
    sed 's/^/! /' "$2/err"
    echo "status $1"
}

# How often rt was called since the last note.
note() { # LINE
    local calls
    calls=$(sort "$WORK/calls" | uniq -c | sed 's/^ *//')
    echo "$1: ${calls:-rt was not called}"
    : >"$WORK/calls"
}

plan() { # FUNCTION
    echo "$1" >"$WORK/plan"
}

# bench stands on low by the line of middle; other is not below it.
scratch() {
    rm -rf "$WORK/root"
    mkdir -p "$WORK/root/crates" "$WORK/root/target"
    cp -R "$here/bin" "$WORK/root/bin"
    printf '%s\n' '# crates' 'low:' 'bench: middle csv # and low' 'other: low' 'middle staticlib: low' 'image_look: middle csv' 'plot_draw: middle csv' \
        'histories_list: middle csv' >"$WORK/root/crates.txt"
    for crate in low middle other bench image_look plot_draw histories_list; do
        mkdir -p "$WORK/root/crates/$crate/src"
        echo "// $crate" >"$WORK/root/crates/$crate/src/lib.rt"
    done
    : >"$WORK/calls"
    printf '%s\n' one two >"$WORK/plot"
    plan nothing_changed
}

# All programs, proved.
programs() {
    call 'root/bin/bench plot' >"$WORK/log/programs"
    call 'root/bin/image check plot' >"$WORK/log/programs"
    call 'root/bin/draw plot' >"$WORK/log/programs"
    call 'root/bin/histories 2 0' >"$WORK/log/programs"
    : >"$WORK/calls"
}

group() { # NAME
    scratch
    "$1" 2>&1 | sed "s|$WORK|WORK|g" >"$WORK/transcript"
    if ! diff "$here/tests/commands/$1" "$WORK/transcript"; then
        echo "commands: not what tests/commands/$1 has"
        failed=1
    fi
}

# ---- the groups

# shellcheck source=tests/commands_histories.sh
source "$here/tests/commands_histories.sh"

arguments() {
    call 'root/bin/bench --help'
    call 'root/bin/bench plot -h'
    call 'root/bin/bench --nope'
    call 'root/bin/bench -n plot'
    call 'root/bin/bench plot plot'
    call 'root/bin/bench -- plot --help'
    call 'root/bin/image --help'
    call 'root/bin/image'
    call 'root/bin/image look plot'
    call 'root/bin/image show'
    call 'root/bin/image check plot plot'
    call 'root/bin/image check --nope plot'
    for command in draw sketch; do
        call "root/bin/$command --help"
        call "root/bin/$command"
        call "root/bin/$command plot plot"
        call "root/bin/$command --nope plot"
    done
    note 'all of these'
}

# As nobody where the tests are root's, who reads and writes every file.
files() {
    local nobody=''
    [ "$(id -u)" -ne 0 ] || nobody="$(command -v setpriv) --reuid=65534 --regid=65534 --clear-groups "
    echo secret >"$WORK/unreadable"
    chmod 000 "$WORK/unreadable"
    ln -s nowhere "$WORK/dangling"
    for command in bench 'image check' draw sketch; do
        call "root/bin/$command missing"
        call "root/bin/$command ''"
        call "root/bin/$command dangling"
        call "root/bin/$command root"
        call "root/bin/$command - <root"
        call "${nobody}root/bin/$command unreadable" | sed "s|^\$ $nobody|$ |"
    done
    chmod 555 "$WORK/root/target"
    call "${nobody}root/bin/bench plot" | sed "s|^\$ $nobody|$ |"
    chmod 755 "$WORK/root/target"
    note 'all of these'
    programs
    call 'root/bin/bench <&-'
    call 'root/bin/image show - <&-'
    call 'root/bin/draw - <&-'
    call 'root/bin/sketch - <&-'
    # open, but not for reading
    call 'root/bin/bench 0>log/none'
    call 'root/bin/image check - 0>log/none'
}

links() {
    programs
    ln -s ../root/bin/bench "$WORK/links/relative"
    ln -s relative "$WORK/links/again"
    ln -s "$WORK/root/bin/bench" "$WORK/links/bench"
    ln -s ../root "$WORK/links/folder"
    call 'links/relative plot'
    call 'links/again plot'
    call 'cd links && ./again ../plot'
    call 'cd / && "$WORK/links/again" "$WORK/plot"'
    call 'links/folder/bin/bench plot'
    call 'PATH=$WORK/links:$PATH; bench plot'
    call 'PATH=links:$PATH; again plot'
    call 'PATH=links:$PATH; bash again plot'
    call 'links/again missing'
    note 'all of these'
}

output() {
    programs
    call 'root/bin/bench plot'
    call 'root/bin/bench <plot'
    call 'root/bin/bench - <plot'
    call 'cat plot | root/bin/bench'
    call 'root/bin/bench <(cat plot)'
    call 'root/bin/bench'
    # two megabytes
    awk 'BEGIN { for (i = 0; i < 131072; i++) print "0123456789abcde" }' >"$WORK/long"
    call 'root/bin/bench long'
    call 'cat long | { root/bin/bench; cat >log/rest; }'
    call 'root/bin/bench plot >&-'
    # a reader that goes, whether or not the signal for that is ignored here
    echo much >"$WORK/plot"
    call 'root/bin/bench plot 2>log/none | head -n 0; [ "${PIPESTATUS[0]}" -ne 0 ] && echo "not 0"'
    note 'all of these'
    mv "$WORK/bench" "$WORK/kept"
    printf '#!/usr/bin/env bash\nkill -KILL $$\n' >"$WORK/bench"
    rm "$WORK/root/target/bin/bench"
    call 'root/bin/bench plot' | grep -v 'Killed'
    mv "$WORK/kept" "$WORK/bench"
}

full() {
    programs
    echo good >"$WORK/image"
    call 'root/bin/bench plot >/dev/full'
    call 'root/bin/bench --help >/dev/full'
    call 'root/bin/image --help >/dev/full'
    call 'root/bin/image show image >/dev/full'
    call 'root/bin/image check image >/dev/full'
    call 'root/bin/draw image >/dev/full'
    call 'root/bin/sketch image >/dev/full'
    call 'root/bin/histories 2 1 >/dev/full'
    call 'root/bin/histories-against ./build 2 1 >/dev/full'
    call 'root/bin/histories-against ./build 2 1 late >/dev/full'
    call 'root/bin/bench missing 2>/dev/full'
    echo '// more' >>"$WORK/root/crates/low/src/lib.rt"
    rm -r "$WORK/root/target/bin/bench" "$WORK/root/crates/bench/out"
    call 'root/bin/bench plot 2>/dev/full'
    call 'root/bin/bench plot'
    note 'proved with nowhere to say so'
}

image() {
    programs
    for holds in good cut rule numbers zero silent killed; do
        echo "$holds" >"$WORK/$holds"
        call "root/bin/image show $holds" | grep -v 'Killed'
        call "root/bin/image check $holds" | grep -v 'Killed'
    done
    call 'root/bin/image check - <good'
    call 'root/bin/image show - <cut'
    note 'all of these'
}

# An image's bytes are written out in hexadecimal here.
drawing() {
    local od
    od=$(command -v od)
    programs
    for holds in good cut short other rule bad half zero numbers silent killed; do
        echo "$holds" >"$WORK/$holds"
        call "root/bin/draw $holds" | grep -v 'Killed'
    done
    call 'root/bin/draw - <good'
    call 'cat good | root/bin/draw -'
    for holds in good other linked long half version zero numbers silent killed; do
        echo "$holds" >"$WORK/$holds"
        call "set -o pipefail; root/bin/sketch $holds | $od -An -tx1" | grep -v 'Killed' | sed "s|$od|od|"
    done
    call 'root/bin/sketch - <linked'
    ln -s ../root/bin/draw "$WORK/links/draw"
    call 'links/draw good'
    note 'all of these'
}

proving() {
    paths=$WORK/tools
    call 'root/bin/bench plot'
    paths=$WORK/rt:$WORK/tools
    mv "$WORK/tools/flock" "$WORK/flock"
    call 'root/bin/bench plot'
    mv "$WORK/flock" "$WORK/tools/flock"
    note 'rt or flock missing'
    plan from_nothing
    call 'root/bin/bench plot'
    note 'from nothing'
    call 'root/bin/bench plot'
    note 'the second time'
    find "$WORK/root" -exec touch {} +
    call 'root/bin/bench plot'
    note 'all touched'
    echo '// more' >>"$WORK/root/crates/other/src/lib.rt"
    paths=$WORK/tools
    call 'root/bin/bench plot'
    paths=$WORK/rt:$WORK/tools
    note 'a crate that is not below it changed, and no rt'
    plan nothing_changed
    echo '// more' >>"$WORK/root/crates/low/src/lib.rt"
    call 'root/bin/bench plot'
    note 'a crate below it changed, which rt knows already'
    mkdir "$WORK/root/crates/low/specs"
    echo '-- more' >"$WORK/root/crates/low/specs/Lib.antt"
    call 'root/bin/bench plot'
    note 'a new file'
    echo '# more' >>"$WORK/root/crates.txt"
    call 'root/bin/bench plot'
    note 'crates.txt changed'
    rm "$WORK/root/target/bin/bench"
    call 'root/bin/bench plot'
    note 'the program removed'
    rm -r "$WORK/root/target/bin/bench" "$WORK/root/crates/bench/out"
    call 'root/bin/bench plot'
    note 'the program removed, and what rt left'
    echo '// kept by rt' >"$WORK/root/crates/low/out"
    paths=$WORK/tools
    call 'root/bin/bench plot'
    paths=$WORK/rt:$WORK/tools
    note 'something else that rt left, and no rt'
    rm "$WORK/root/crates/low/out"
    echo '# another' >>"$WORK/root/target/bin/bench"
    call 'root/bin/bench plot'
    note 'another program in its place'
    call 'root/bin/bench plot'
    note 'and again'
    plan edited_meanwhile
    echo '// more' >>"$WORK/root/crates/low/src/lib.rt"
    call 'root/bin/bench plot'
    plan nothing_changed
    call 'root/bin/bench plot'
    call 'root/bin/bench plot'
    note 'a crate edited while it was proved, and two more runs'
    cp -R "$WORK/root/crates" "$WORK/before"
    echo '# and more' >>"$WORK/root/crates.txt"
    plan edited_meanwhile
    call 'root/bin/bench plot'
    cp -R "$WORK/before/." "$WORK/root/crates"
    plan nothing_changed
    call 'root/bin/bench plot'
    note 'the same, and the edit taken back'
}

failing() {
    plan refused
    call 'root/bin/bench plot'
    call 'root/bin/bench plot'
    note 'both'
    plan killed
    call 'root/bin/image check plot'
    plan nothing_made
    call 'root/bin/bench plot'
    plan refused
    rm -r "$WORK/root/crates/middle"
    call 'root/bin/bench plot'
    sed -i '/^image_look/d' "$WORK/root/crates.txt"
    call 'root/bin/image check plot'
    rm "$WORK/root/crates.txt"
    call 'root/bin/bench plot'
}

# A command over a library, as bin/install is.
library() {
    plan archive
    printf '%s\n' 'source "$(dirname "$(readlink -f "${BASH_SOURCE[0]}")")/common.sh"' 'archived middle' 'echo made' >"$WORK/root/bin/archive"
    call 'bash root/bin/archive'
    call 'bash root/bin/archive'
    note 'both'
}

# The second waits for the first, and finds all proved.
two_at_a_time() {
    local one two
    plan until_told
    mkdir "$WORK/one" "$WORK/two"
    CLOCK=$WORK/one in_time 'root/bin/bench plot >one/out 2>one/err' &
    one=$!
    until_there "$WORK/started"
    CLOCK=$WORK/two
    in_time 'root/bin/bench plot >two/out 2>two/err' &
    two=$!
    seconds 10
    : >"$WORK/go_on"
    wait "$one" && shown 0 "$WORK/one"
    wait "$two" && shown 0 "$WORK/two"
    note 'both'
    : >"$WORK/one/over"
    : >"$WORK/two/over"
}

# The start of the line is <, its end >.
terminal() {
    plan from_nothing
    call "$(command -v script) -qec 'root/bin/bench plot' /dev/null" |
        sed -e "s/$(printf '\r')/</g" -e "s/$(printf '\033')\[K/>/g" -e 's/><b/>\n<b/g' -e "s|^\$ .*/script |$ script |"
    plan nothing_changed
    programs
    # what is said once more where a second goes by is left out
    for word in good late; do
        call "$(command -v script) -qec 'root/bin/histories-against ./build 2 1 $word' /dev/null" |
            sed -e "s/$(printf '\r')/</g" -e "s/$(printf '\033')\[K/>/g" -e 's/<histories-against: 1 of 2 histories agree>//' -e "s|^\$ .*/script |$ script |"
    done
}

# The proved programs: what bench lists is the same from a file, from standard input and through a link, and nothing is said; what draw draws is
# that of examples/, of an image too; a sketch becomes an image, and that the drawing of the plot; each refusal has its line and status.
real() {
    ln -s "$here/bin/bench" "$WORK/links/real"
    bin/bench examples/plot.txt >"$WORK/listing"
    cmp examples/plot.out "$WORK/listing"
    for line in "bin/bench examples/plot.txt" "bin/bench <examples/plot.txt" "bin/bench - <examples/plot.txt" "$WORK/links/real examples/plot.txt"; do
        eval "$line" >"$WORK/listing" 2>&1
        cmp examples/plot.out "$WORK/listing"
    done
    bin/draw examples/plot.txt >"$WORK/listing"
    cmp examples/plot.dot "$WORK/listing"
    for line in "bin/draw examples/plot.txt" "bin/draw - <examples/plot.txt" "bin/draw examples/plot.image" "cat examples/plot.image | bin/draw -"; do
        eval "$line" >"$WORK/listing" 2>&1
        cmp examples/plot.dot "$WORK/listing"
    done
    bin/sketch examples/plan.dot >"$WORK/plan.image"
    [ "$(bin/image check "$WORK/plan.image")" = 0 ]
    bin/draw "$WORK/plan.image" | sed -e 's/^digraph/graph/' -e 's/  \(.*\) -> \(.*\);/  \2 -- \1;/' | cmp examples/plan.dot -
    bin/histories 2 2 | cmp examples/histories.txt -
    bin/histories 2 2 2>&1 | cmp examples/histories.txt -
    bin/histories 1 1 | cmp /dev/null -
    refuses 1 'bin/histories 0 6'
    refuses 1 'bin/histories 17 0'
    refuses 19 'bin/histories 16 0'
    refuses 19 'bin/histories 3 6'
    refuses 19 'bin/histories-against true 4 0'
    refuses 16 'bin/sketch examples/plot.dot'
    refuses 17 'sed "s/5 -- 6/6 -- 6/" examples/plan.dot | bin/sketch -'
    refuses 17 'bin/sketch crates/drawing_cases/data/longest'
    refuses 'too long' 'bin/sketch crates/drawing_cases/data/too_long'
    refuses 'too long' '{ cat examples/plan.dot; head -c 2000000 /dev/zero; } | bin/sketch -'
    refuses 'bad plot' 'bin/draw crates/bench_cases/data/too_long'
    refuses 10 'printf N | bin/draw -'
    refuses 11 'bin/draw examples/plan.dot'
    refuses 12 'head -c 400 examples/plot.image | bin/draw -'
    refuses 2 '{ head -c 8 examples/plot.image; printf "\x00\x01"; tail -c +11 examples/plot.image; } | bin/draw -' ' 1 1'
}

refuses() { # NUMBER-OR-WORDS LINE PAIR
    local status=0 says=$1
    [[ $1 == *[a-z]* ]] || says="refused $1"
    eval "$2" >"$WORK/listing" 2>"$WORK/log/err" || status=$?
    if [ "$status" -ne 3 ] || [ -s "$WORK/listing" ] || ! grep -qE "^(draw|sketch|histories|histories-against): $says${3-}: " "$WORK/log/err" || [ "$(wc -l <"$WORK/log/err")" -ne 1 ]; then
        echo "commands: $2: status $status, $(cat "$WORK/log/err")"
        failed=1
    fi
}

for each in arguments files links output image drawing histories_arguments histories against against_no_bench proving failing library two_at_a_time; do
    group "$each"
done
if [ -e /dev/full ]; then
    group full
else
    echo "tests: NOT RUN, no /dev/full here: the commands on a full device"
fi
if command -v script >"$WORK/log/none"; then
    group terminal
else
    echo "tests: NOT RUN, no script here: progress on a terminal"
fi
real
[ "$failed" -eq 0 ]
