# shellcheck shell=bash
# The groups of tests/commands.sh for bin/histories and bin/histories-against, which it sources: their stand-ins, then their calls.
# shellcheck disable=SC2016 # calls are lines that `call` evaluates

# ---- stand-ins

# Two good lists, a list of no history, the two refusals, and answers that are none.
cat >"$WORK/histories_list" <<'END'
#!/usr/bin/env bash
case $1:$2 in
2:0) printf 'N 2\n' ;;
2:1) printf 'N 2\n%s\n' 'U 1 2' 'U 2 1' ;;
1:5) ;;
0:* | 999999999:0) echo refused 1 ;;
4:0 | 2:6) echo refused 19 ;;
2:2) printf 'N 2\nU 1 2\n' ;;
2:3) printf 'N 3\n%s\n' 'U 1 2' 'U 1 3' 'U 2 1' ;;
2:4) ;;
3:0) echo refused 20 ;;
3:1) printf 'N 3\n' && kill -KILL $$ ;;
esac
END

# A build: what the stand-in for the bench says, but for what its word asks for; `late` is wrong from the second history on.
cat >"$WORK/build" <<'END'
#!/usr/bin/env bash
case ${1-} in
deaf) printf 'listed %s\n' 'N 2' "${2-}" && exit ;;
silent) exit ;;
zero) printf 'listed N 2\n\0' && exec cat /dev/zero ;;
endless) exec cat "$WORK/long" "$WORK/long" ;;
hangs) "$WORK/bench" && exec "$WORK/tools/sleep" 60 ;;
closes) "$WORK/bench" && exec >&- && exec "$WORK/tools/sleep" 60 ;;
leaves) "$WORK/bench" && exec >&- 3>&- && exec "$WORK/tools/sleep" 60 ;;
killed) kill -KILL $$ ;;
esac
IFS= read -r first && IFS= read -r second
echo "listed $first"
case ${1-}:$second in
late:'U 2 1') printf 'listed %s and\tmore\a' "$second" ;;
cut:*) printf 'listed %s' "$second" ;;
status:*) echo "listed $second" && exit 7 ;;
says:*) echo "listed $second" && echo "a line on standard error" >&2 ;;
*) echo "listed $second" ;;
esac
END
chmod +x "$WORK/histories_list" "$WORK/build"

# ---- the groups

histories_arguments() {
    call 'root/bin/histories --help'
    call 'root/bin/histories'
    call 'root/bin/histories 2'
    call 'root/bin/histories 2 1 1'
    call 'root/bin/histories --nope 2 1'
    for word in -1 01 1x ' 1' 1e1 '' 1234567890; do
        call "root/bin/histories -- '$word' 1"
        call "root/bin/histories -- 2 '$word'"
    done
    call 'root/bin/histories-against --help'
    call 'root/bin/histories-against -h build 2 1'
    call 'root/bin/histories-against'
    call 'root/bin/histories-against 2 1'
    call 'root/bin/histories-against -- 2 1'
    call 'root/bin/histories-against --nope ./build 2 1'
    call 'root/bin/histories-against missing two 1'
    call 'root/bin/histories-against missing 2 001'
    call 'root/bin/histories-against missing 2 1'
    call 'root/bin/histories-against ./missing 2 1'
    call "root/bin/histories-against '' 2 1"
    call 'root/bin/histories-against ./root 2 1'
    call 'root/bin/histories-against ./plot 2 1'
    # of bash alone, or of the command itself
    call 'root/bin/histories-against declare 2 1'
    call 'root/bin/histories-against say 2 1'
    note 'all of these'
}

histories() {
    programs
    for list in '2 1' '2 0' '1 5' '0 0' '0 6' '4 0' '2 6' '999999999 0' '2 2' '2 3' '2 4' '3 0' '3 1'; do
        call "root/bin/histories $list" | grep -v 'Killed'
    done
    call 'root/bin/histories 2 1 <&-'
    call 'echo left | { root/bin/histories 2 1; cat; }'
    ln -s ../root/bin/histories "$WORK/links/histories"
    call 'links/histories 2 1'
    note 'all of these'
}

against() {
    programs
    awk 'BEGIN { for (i = 0; i < 131072; i++) print "0123456789abcde" }' >"$WORK/long"
    printf '\177ELF and no more\0\0' >"$WORK/links/no_program"
    chmod +x "$WORK/links/no_program"
    for list in '2 1' '2 0' '1 5' '0 0' '4 0' '2 2' '2 4'; do
        call "root/bin/histories-against root/target/bin/bench $list"
    done
    call 'root/bin/histories-against -- ./build 2 1'
    call 'PATH=$WORK:$PATH; root/bin/histories-against build 2 1'
    call 'cd links && ../root/bin/histories-against ../build 2 1 --help'
    for word in late cut status says silent killed deaf 'deaf "U 1 2"' zero; do
        call "root/bin/histories-against ./build 2 1 $word" | grep -v 'Killed'
    done
    # the first lines of what goes on for 4 megabytes
    call 'root/bin/histories-against ./build 2 1 endless >log/endless; echo "$?"; head -n 10 log/endless; tail -n 2 log/endless'
    call 'root/bin/histories-against links/no_program 2 1'
    call 'root/bin/histories-against ./build 2 1 <&-'
    call 'echo left | { root/bin/histories-against ./build 2 1; cat; }'
    call 'root/bin/histories-against ./build 2 1 >&-'
    # one second for a history
    sed -i 's/^limit=10$/limit=1/' "$WORK/root/bin/histories-against"
    for word in closes hangs leaves; do
        call "root/bin/histories-against ./build 2 1 $word"
    done
    note 'all of these'
}

# A bench that gives no listing; rt makes it of its stand-in.
against_no_bench() {
    cp "$WORK/bench" "$WORK/kept"
    for line in 'exit 0' 'echo listed; exit 1' 'kill -KILL $$'; do
        printf '#!/usr/bin/env bash\n%s\n' "$line" >"$WORK/bench"
        rm -rf "$WORK/root/target/bin/bench" "$WORK/root/crates/bench/out"
        call 'root/bin/histories-against ./build 2 1' | grep -v 'Killed'
    done
    cp "$WORK/kept" "$WORK/bench"
}
