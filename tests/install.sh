#!/usr/bin/env bash
# bin/install: what it writes, that a program builds from it alone, and what it says of wrong arguments, before it would prove anything.
# A line and exit status 1 for the first thing that is wrong. Needs the archive (bin/install) and gcc.
set -euo pipefail
cd "$(dirname "$0")/.."
root=$PWD
work=$(mktemp -d)
trap 'chmod -R u+w "$work"; rm -rf "$work"' EXIT

wrong() {
    echo "tests/install.sh: $*"
    exit 1
}

# Runs a command with no rt on its path but one that only says that it ran: status, then words that its error output must have.
says() {
    local status=$1 words=$2 got=0
    shift 2
    PATH="$work/fake:$PATH" "$@" >"$work/out" 2>"$work/err" || got=$?
    [ "$got" = "$status" ] || wrong "$*: status $got, not $status: $(cat "$work/err")"
    grep -qF -- "$words" "$work/err" || wrong "$*: does not say '$words' but: $(cat "$work/err")"
    [ ! -e "$work/proved" ] || wrong "$*: proved before it refused"
    [ ! -s "$work/out" ] || wrong "$*: says something on standard output"
}

mkdir "$work/fake"
printf '#!/bin/sh\ntouch "%s/proved"\nexit 1\n' "$work" >"$work/fake/rt"
chmod +x "$work/fake/rt"

# ---- a tree without an archive: arguments first, then the proof, whose failure is told

mkdir -p "$work/tree/bin" "$work/tree/include" "$work/tree/crates/abi"
cp bin/install bin/common.sh "$work/tree/bin/"
cp include/election.h "$work/tree/include/"
echo "abi staticlib:" >"$work/tree/crates.txt"
touch "$work/file"
says 2 "one DIR, the folder to fill" "$work/tree/bin/install"
says 2 "one DIR, the folder to fill" "$work/tree/bin/install" ""
says 2 "one DIR, the folder to fill" "$work/tree/bin/install" "$work/a" "$work/b"
says 2 "unknown option '--prefix'" "$work/tree/bin/install" --prefix
says 1 "a file, not a folder" "$work/tree/bin/install" "$work/file"
says 1 "cannot be made or written" "$work/tree/bin/install" "$work/file/below"
mkdir -p "$work/taken/include/election.h"
says 1 "a folder, not a file" "$work/tree/bin/install" "$work/taken"
if [ "$(id -u)" != 0 ]; then
    mkdir "$work/shut"
    chmod a-w "$work/shut"
    says 1 "cannot be made or written" "$work/tree/bin/install" "$work/shut"
fi
status=0
PATH="$work/fake:$PATH" "$work/tree/bin/install" "$work/unproved" >"$work/out" 2>"$work/err" || status=$?
[ "$status" = 1 ] && [ -e "$work/proved" ] || wrong "a proof that fails ends with status $status"
grep -q "not proved" "$work/err" && [ ! -e "$work/unproved/lib/libelection.a" ] || wrong "a proof that fails is not told"
"$work/tree/bin/install" --help | grep -q "^usage: install DIR" || wrong "no help"

# ---- this tree, through a symbolic link, into a folder with a space in its name

ln -s "$root/bin/install" "$work/link"
(cd "$work" && ./link "to here" >"$work/out")
for file in include/election.h lib/libelection.a lib/pkgconfig/election.pc; do
    [ -s "$work/to here/$file" ] && grep -qxF "$work/to here/$file" "$work/out" || wrong "$file is not written, or not told"
done
[ "$(wc -l <"$work/out")" = 3 ] || wrong "it tells of more than it wrote"
cmp include/election.h "$work/to here/include/election.h" && cmp target/staticlib/libabi.a "$work/to here/lib/libelection.a" || wrong "a file differs"

# ---- a program builds from the folder alone, moved elsewhere

mv "$work/to here" "$work/moved"
bin/install "$work/moved" >"$work/out" || wrong "a second time fails"
flags="-I$work/moved/include -L$work/moved/lib -lelection"
if pkg-config --version >"$work/out" 2>&1; then
    flags=$(PKG_CONFIG_PATH=$work/moved/lib/pkgconfig pkg-config --cflags --libs election)
    version=$(PKG_CONFIG_PATH=$work/moved/lib/pkgconfig pkg-config --modversion election)
    number=$(echo "$version" | awk -F. '{print $1 * 1000000 + $2 * 1000 + $3}')
    printf '#include "election.h"\n_Static_assert(ELECTION_VERSION == %d, "version");\n' "$number" >"$work/version.c"
    gcc -std=c11 -I"$work/moved/include" -fsyntax-only "$work/version.c" || wrong "pkg-config has version $version, the header another"
fi
gcc -std=c11 examples/logger.c $flags -o "$work/logger" || wrong "examples/logger.c does not build with $flags"
"$work/logger" | diff examples/logger.out - || wrong "examples/logger.c prints something else"
