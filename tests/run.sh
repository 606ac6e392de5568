#!/usr/bin/env bash
# The tests beside the proofs: the papers' names and counts, the C interface and its examples, the Rust library, and the independent
# implementation beside the proved one.
# Needs rt, gcc, g++, cargo and python3, and takes valgrind and clippy where they are, and Graphviz, which it installs where apt-get can; a step that
# cannot run is left out, and a line says so.
# A line for each step; the last line says how many passed; exit code 0 only if all did.
set -euo pipefail
cd "$(dirname "$0")/.."
export PATH="$PATH:${HOME:-}/.cargo/bin"
log=$(mktemp -d)
trap 'rm -rf "$log"' EXIT
passed=0

step() {
    local name=$1
    shift
    if "$@" >"$log/step" 2>&1; then
        echo "tests: $name ok"
        passed=$((passed + 1))
    else
        cat "$log/step"
        echo "tests: $name FAILED"
        exit 1
    fi
}

strict="-Wall -Wextra -Werror -pedantic -Wconversion -Iinclude"
archive=target/staticlib/libabi.a

# A C program of ours, as C11 and as C++17 without a warning: PROGRAM.c, then what else to tell the linker.
compiles() {
    local program=$1
    shift
    gcc -O2 -std=c11 $strict "$program.c" "$archive" "$@" -o "$log/$(basename "$program")" &&
        g++ -O2 -std=c++17 $strict -x c++ "$program.c" -x none "$archive" "$@" -o "$log/$(basename "$program").cpp"
}

# Both programs print the stored listing.
prints() {
    "$log/$1" | diff "examples/$1.out" - && "$log/$1.cpp" | diff "examples/$1.out" -
}

# What is broken on purpose is noticed: status 1, and a line that says where.
devices_notice() {
    local status=0
    "$log/devices" "$1" >"$log/listing" || status=$?
    [ "$status" = 1 ] && tail -n 1 "$log/listing" | grep '^event .* of device . differs from the plot$'
}

# By gcc's checks of addresses and of undefined behaviour, which see the program's own accesses; by valgrind, which sees the archive's too.
sanitize="-g -fsanitize=address,undefined -fno-sanitize-recover=all"

has_sanitizers() {
    echo 'int main(void) { return 0; }' | gcc $sanitize -x c - -o "$log/sanitized" >"$log/step" 2>&1 && "$log/sanitized"
}

sanitized() {
    gcc -std=c11 $strict $sanitize "$1.c" "$archive" -o "$log/sanitized" && "$log/sanitized" <examples/plot.txt >"$log/listing"
}

under_valgrind() {
    valgrind --quiet --error-exitcode=9 --leak-check=full "$log/$1" <examples/plot.txt >"$log/listing"
}

# cargo in a folder, with the archive: FOLDER, then cargo's arguments.
in_rust() {
    local folder=$1 command=$2
    shift 2
    (cd "$folder" && ELECTION_LIB_DIR=$OLDPWD/target/staticlib RUSTDOCFLAGS="-D warnings" cargo "$command" --offline "$@")
}

clippy() {
    in_rust rust clippy --all-targets "$@" -- -D warnings
}

bench_prints() {
    bin/bench examples/plot.txt | diff examples/plot.out - && bin/bench examples/clocks.txt | diff examples/clocks.out -
}

# examples/build.c beside the bench: inputs with every kind of line, and bad plots.
build_prints() {
    local input
    for input in examples/plot.txt examples/clocks.txt crates/bench_cases/data/*; do
        bin/bench "$input" >"$log/listing"
        "$log/build" <"$input" | cmp "$log/listing" - && "$log/build.cpp" <"$input" | cmp "$log/listing" - || return 1
    done
}

# A build that agrees on every history; and one that is wrong on purpose, which shows from 3 events on, and first in the history that is named.
histories_agree() {
    bin/histories-against "$log/build" 3 3 | diff <(echo "312 of 312 histories agree") - &&
        bin/histories-against "$log/build" 2 5 | diff <(echo "128 of 128 histories agree") - &&
        bin/histories-against "$log/build" 3 2 wrong | diff <(echo "42 of 42 histories agree") -
}

wrong_found() { # N NUMBER COUNT
    local status=0
    bin/histories-against "$log/build" "$1" 3 wrong >"$log/listing" || status=$?
    [ "$status" = 4 ] && head -n 5 "$log/listing" | diff <(printf '%s\n' "history $2 of $3 differs:" "N $1" "U 1 2" "U 2 1" "M 2 1") - &&
        grep -x '3 0 R 1' "$log/listing" && grep -x '3 0 Q 0' "$log/listing"
}

wrongs_found() {
    wrong_found 2 4 16 && wrong_found 3 16 312
}

histories_print() {
    bin/histories 2 2 | diff examples/histories.txt -
}

# What a part of examples/plot.image is said to be, and the status of that.
image_says() { # LINE STATUS, the image on standard input
    local status=0
    bin/image check - >"$log/listing" || status=$?
    echo "$1" | diff - "$log/listing" && [ "$status" = "$2" ]
}

image_shows() {
    local image=examples/plot.image
    bin/image show "$image" | diff examples/image.out - && image_says 0 0 <"$image" &&
        head -c 3 "$image" | image_says 10 3 && { printf '\x20'; tail -c +2 "$image"; } | image_says 11 3 &&
        head -c 498 "$image" | image_says 12 3 && { head -c 8 "$image"; printf '\x00\x01'; tail -c +11 "$image"; } | image_says "2 1 1" 3
}

links_shown() {
    "$log/links" | bin/image show - | diff tests/c/links.out -
}

# The archive's constants, none of them a table of fields, are no more than docs/FIRMWARE.md says, and it has no other data.
constants_fit() {
    size -A "$archive" | awk '/^\.rodata/ { constants += $2 } /^\.(data|bss)/ { data += $2 } END { print constants + 0, data + 0; exit !(constants <= 836 && data == 0) }'
}

drawn() {
    python3 docs/draw_plot.py examples/plot.txt examples/plot.out | cmp docs/plot.svg - && python3 docs/draw_image.py | cmp docs/image.svg - &&
        python3 docs/draw_clocks.py examples/clocks.txt examples/clocks.out | cmp docs/clocks.svg -
}

step "docs/TRACEABILITY.md names what there is" bash tests/traceability.sh
if python3 --version >"$log/step" 2>&1; then
    step "what must be believed stands apart (tests/figures.py)" python3 tests/figures.py
    step "docs/plot.svg, image.svg and clocks.svg are what their scripts draw" drawn
else
    echo "tests: NOT RUN, no python3 here: what must be believed stands apart, the drawings"
fi
step "bin/bench prints examples/plot.out and clocks.out" bench_prints
step "bin/image shows examples/plot.image, and refuses its parts by their numbers" image_shows
step "bin/histories prints examples/histories.txt" histories_print
step "bin/: arguments, files, links, devices, proving and progress (tests/commands.sh)" bash tests/commands.sh
grep '^tests: NOT RUN' "$log/step" || true
if bash tests/graphviz.sh has; then
    step "drawings and sketches as Graphviz reads them (tests/graphviz.sh)" bash tests/graphviz.sh
else
    echo "tests: NOT RUN, no Graphviz here, and none to be had: drawings and sketches as Graphviz reads them"
fi
step "the archive for C and Rust (bin/install)" bin/install "$log/installed"
if gcc --version >"$log/step" 2>&1 && g++ --version >"$log/step" 2>&1; then
    programs="examples/logger examples/six examples/devices examples/build tests/c/header tests/c/groups tests/c/heights tests/c/links tests/c/drawing tests/c/histories"
    for program in $programs; do
        step "$program.c compiles without a warning, as C and as C++" compiles "$program"
    done
    step "examples/logger.c prints examples/logger.out" prints logger
    step "examples/six.c prints examples/six.out" prints six
    step "examples/devices.c prints examples/devices.out" prints devices
    for part in clock stamp kept; do
        step "examples/devices.c notices what it breaks with $part" devices_notice "$part"
    done
    step "include/election.h: sizes, inline functions, the order of checks (tests/c/header.c)" "$log/header"
    step "include/election.h: the same as C++" "$log/header.cpp"
    step "quiet, groups and collectors beside the same worked out another way (tests/c/groups.c)" "$log/groups"
    step "heights compared, on the table of height_cases and beside the same worked out another way (tests/c/heights.c)" "$log/heights"
    step "heights compared: the same as C++" "$log/heights.cpp"
    step "drawings and sketches, by hand and beside the same worked out another way (tests/c/drawing.c)" "$log/drawing"
    step "drawings and sketches: the same as C++" "$log/drawing.cpp"
    step "all short histories beside the same worked out another way (tests/c/histories.c)" "$log/histories"
    step "all short histories: the same as C++" "$log/histories.cpp"
    step "examples/build.c prints what the bench prints" build_prints
    step "bin/histories-against: examples/build.c agrees on every history" histories_agree
    step "bin/histories-against: examples/build.c wrong on purpose is found out, at the right history" wrongs_found
    step "bin/image shows what decides each link of a planted plot (tests/c/links.c)" links_shown
    step "tests/c/stack.c compiles without a warning" compiles tests/c/stack -pthread -Wl,-z,now
    step "no call takes more stack than include/election.h says (tests/c/stack.c)" "$log/stack"
    step "the archive has no more than 836 bytes of constants, and no data" constants_fit
    step "bin/install fills a folder to build from, and says what is wrong (tests/install.sh)" bash tests/install.sh
    for program in $programs; do
        if has_sanitizers; then
            step "$program.c is clean under the sanitizers" sanitized "$program"
        else
            echo "tests: NOT RUN, no sanitizers here: $program.c"
        fi
        if valgrind --version >"$log/step" 2>&1; then
            step "$program.c is clean under valgrind" under_valgrind "$(basename "$program")"
        else
            echo "tests: NOT RUN, no valgrind here: $program.c"
        fi
    done
else
    echo "tests: NOT RUN, no gcc or no g++ here: the programs in C"
fi
if cargo --version >"$log/step" 2>&1; then
    step "the Rust library (rust/), its tests and examples" in_rust rust test --release
    step "the Rust library without std" in_rust rust test --release --no-default-features
    step "the Rust library's pages" in_rust rust doc --no-deps
    step "the Rust library's pages without std" in_rust rust doc --no-deps --no-default-features
    if cargo clippy --version >"$log/step" 2>&1; then
        step "the Rust library under clippy" clippy
        step "the Rust library under clippy without std" clippy --no-default-features
    else
        echo "tests: NOT RUN, no clippy here: the Rust library under clippy"
    fi
    step "the independent implementation and the comparisons (tests/)" in_rust tests test --release
    step "the benchmarks build (benchmarks/)" in_rust benchmarks build --release
else
    echo "tests: NOT RUN, no cargo here: the Rust library, the independent implementation and the comparisons"
fi
echo "tests: $passed passed"
