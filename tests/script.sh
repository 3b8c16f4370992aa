#!/bin/sh
# Tests of the script spx and of the commands that README.md prints. Nothing is built: small programs take the place of the examiner
# and of the toolchain's command rt. The examples are run by the examiner where it is built, and else by the second reading of the rules in
# tests/reading.py, which needs Python. The last line is `N passed, M failed`.
set -u
LC_ALL=C
export LC_ALL
unset CDPATH

here=$(readlink -f -- "$0") && top=$(dirname "$(dirname "$here")") || exit 2
room=$(mktemp -d) || exit 2
trap 'rm -rf "$room"' EXIT
trap 'exit 2' HUP INT TERM
umask 022
# Nothing of this machine's own cache is read or written.
XDG_CACHE_HOME=$room/cache
export XDG_CACHE_HOME

passed=0
failed=0
what=

pass() { passed=$((passed + 1)); }
fail() {
    failed=$((failed + 1))
    printf 'FAILED: %s: %s\n' "$what" "$1"
}
skip() { printf 'skipped: %s\n' "$1"; }

# Runs a command and keeps its output and its status.
run() {
    "$@" >"$room/out" 2>"$room/err" </dev/null
    status=$?
}

ends() { if [ "$status" -eq "$1" ]; then pass; else fail "ended with $status and not $1; it said: $(head -c 300 "$room/err")"; fi; }
prints() { if printf "$@" | cmp -s - "$room/out"; then pass; else fail "printed: $(head -c 300 "$room/out")"; fi; }
says() { if grep -qF -- "$1" "$room/err"; then pass; else fail "said '$(head -c 300 "$room/err")' and not '$1'"; fi; }
says_nothing() { if [ ! -s "$room/err" ]; then pass; else fail "said: $(head -c 300 "$room/err")"; fi; }
says_one_line() { if [ "$(wc -l <"$room/err")" -eq 1 ]; then pass; else fail "said not one line: $(head -c 300 "$room/err")"; fi; }
is() { if [ "$1" = "$2" ]; then pass; else fail "'$1' and not '$2'"; fi; }

# ---------------------------------------------------------------- a tree of its own, with programs in the place of others

tree="$room/a tree"
program="$tree/crates/spx_cli/out/spx_cli"

# A program that prints its words and its input, and ends with SPX_STATUS.
write_program() {
    cat >"$1" <<'END'
#!/bin/sh
for word; do printf '<%s>\n' "$word"; done
[ -z "${SPX_READS-}" ] || cat
exit "${SPX_STATUS:-0}"
END
    chmod +x "$1"
}

# A new tree, with the program built last, unless the word is `unbuilt`.
new_tree() {
    rm -rf "$tree" "$room/cache"
    mkdir -p "$tree/crates/spx_cli/src" "$tree/crates/spx_cli/specs"
    cp -p "$top/spx" "$top/VERSION" "$top/crates.txt" "$top/HANDLES" "$tree" && cp -Rp "$top/docs" "$tree"
    echo 'fn main() {}' >"$tree/crates/spx_cli/src/main.rt"
    find "$tree" -exec touch -t 202001010000 {} +
    [ "${1-}" != unbuilt ] || return
    mkdir "$tree/crates/spx_cli/out"
    write_program "$program"
}

# rt on a PATH of its own: it has one version, and a build leaves the program, unless RT_FAILS is set. What it was given is in `copied`.
mkdir "$room/bin" && write_program "$room/bin/built" && cat >"$room/bin/rt" <<END
#!/bin/sh
case \$1 in
    version) echo 'kit of the tests' ;;
    ci)
        echo ci >>'$room/builds'
        find . >'$room/copied'
        printf '%s\n' 'rt: spx_text proved' 'rt: spx_num is kept: it is' 'rt: spx_text proved' 'rt: the tests of spx_tree proved' 'rt: spx_tree NOT PROVED'
        [ -z "\${RT_SLEEPS-}" ] || $(command -v sleep) "\$RT_SLEEPS"
        [ -z "\${RT_FAILS-}" ] || exit 1
        mkdir -p crates/spx_cli/out && cp '$room/bin/built' crates/spx_cli/out/spx_cli
        ;;
esac
END
chmod +x "$room/bin/rt"
printf '#!/bin/sh\necho "${PROCESSORS:-4}"\n' >"$room/bin/nproc" && chmod +x "$room/bin/nproc"
# A PATH with the usual tools and without rt.
mkdir "$room/tools"
for tool in sh awk cat cp date env find flock git grep mkdir mktemp mv readlink rm sed sleep sort touch wc; do
    at=$(command -v "$tool") && case $at in /*) ln -s "$at" "$room/tools/$tool" ;; esac
done

# Runs a command with these tools; words of the form NAME=VALUE before it are set for it.
with_rt() { env "PATH=$room/bin:$room/tools" "$@"; }
without_rt() { env "PATH=$room/tools" "$@"; }

# ---------------------------------------------------------------- words, output and status are the program's

new_tree
cp "$top/examples/inc.adb" "$room/inc.adb"
cp "$top/examples/inc.adb" "$room/two words.adb"

what='words reach the program as they are'
run "$tree/spx" check 'a  b' '' '*' "it's" 'x\n'
prints '<check>\n<a  b>\n<>\n<*>\n<it'"'"'s>\n<x\\n>\n'
for word in conditions run workload -- --verbose Build; do
    run "$tree/spx" "$word" y
    prints '<%s>\n<y>\n' "$word"
done

what='the status is the program'"'"'s'
for number in 0 1 2 3 4 5 6 7 8 42 99; do
    run env SPX_STATUS=$number "$tree/spx" check "$room/inc.adb"
    ends "$number"
    prints '<check>\n<%s>\n' "$room/inc.adb"
done

what='nothing is said where the report says all'
for number in 0 1 2 7 8; do
    run env SPX_STATUS=$number "$tree/spx" check "$room/two words.adb"
    says_nothing
done

what='standard input is the program'"'"'s'
printf 'a\nb' | env SPX_READS=1 "$tree/spx" check - >"$room/out" 2>"$room/err"
prints '<check>\n<->\na\nb'

what='it runs from any folder and by a link'
ln -s "$tree/spx" "$room/link" && ln -s link "$room/link to a link"
for start in "$room/link" "$room/link to a link" "$tree/spx"; do
    run "$start" check "$room/inc.adb"
    prints '<check>\n<%s>\n' "$room/inc.adb"
    ends 0
done
(cd "$tree/docs" && ../spx check x >"$room/out" 2>"$room/err")
prints '<check>\n<x>\n'
(cd "$tree" && sh spx check x >"$room/out" 2>"$room/err")
prints '<check>\n<x>\n'
(cd "$tree" && PATH=".:$PATH" spx check x >"$room/out" 2>"$room/err")
prints '<check>\n<x>\n'
(cd "$room" && 'a tree/spx' check x >"$room/out" 2>"$room/err")
prints '<check>\n<x>\n'

# ---------------------------------------------------------------- what a status does not say

what='why a file cannot be read'
run env SPX_STATUS=3 "$tree/spx" check "$room/no such file"
ends 3
says "spx: cannot read $room/no such file: no such file"
says_one_line
run env SPX_STATUS=3 "$tree/spx" check "$room"
says "spx: cannot read $room: it is a directory"
says_one_line
ln -s nothing "$room/dangling"
run env SPX_STATUS=3 "$tree/spx" check "$room/dangling"
says 'it is a symbolic link to no file'
run env SPX_STATUS=3 "$tree/spx" check ''
says 'no such file'
run env SPX_STATUS=3 "$tree/spx" check "$room/inc.adb"
says "spx: cannot read $room/inc.adb"
says_one_line
cp "$room/inc.adb" "$room/closed.adb" && chmod 0 "$room/closed.adb"
mkdir "$room/closed" && cp "$room/inc.adb" "$room/closed" && chmod 0 "$room/closed"
# To root nothing is closed.
drop='env'
if [ "$(id -u)" -eq 0 ]; then
    drop='setpriv --reuid=65534 --regid=65534 --clear-groups'
    chmod 711 "$room"
fi
# shellcheck disable=SC2086
if $drop true 2>/dev/null; then
    run $drop env SPX_STATUS=3 "$tree/spx" check "$room/closed.adb"
    says "spx: cannot read $room/closed.adb: permission denied"
    run $drop env SPX_STATUS=3 "$tree/spx" check "$room/closed/inc.adb"
    says "permission denied in $room/closed"
    ends 3
else
    skip 'root may read every file, and there is no setpriv'
fi
chmod 700 "$room/closed"

what='which file of a run cannot be read'
printf 'X = 1\n' >"$room/in.txt"
for words in "--entry inc.adb --turns 5 --inputs in.txt no_file" "no_file --inputs=in.txt --entry no_entry" "--inputs no_file --entry no_entry inc.adb" "inc.adb --inputs=no_file --entry no_entry"; do
    # shellcheck disable=SC2086
    (cd "$room" && SPX_STATUS=3 "$tree/spx" run $words) >"$room/out" 2>"$room/err" </dev/null
    says 'spx: cannot read no_file: no such file'
    says_one_line
done

what='that the output, the memory or a limit ends the work'
run env SPX_STATUS=4 "$tree/spx" check "$room/inc.adb"
says 'could not be written'
says_one_line
run env SPX_STATUS=5 "$tree/spx" check "$room/inc.adb"
says 'out of memory'
says_one_line
run env SPX_STATUS=6 "$tree/spx" check "$room/inc.adb"
says 'a limit is passed'
says_one_line

# ---------------------------------------------------------------- open conditions

# A program that prints a report on `check`, with SPX_STATUS, and a list on `conditions`.
cat >"$program" <<END
#!/bin/sh
cat '$room/'"\$1"
[ "\$1" = conditions ] || exit "\${SPX_STATUS:-1}"
END
cat >"$room/check" <<'END'
a b.adb:9:4: V1 unproved: Mid.3 overflow
a b.adb:10:2: V1 unproved: Mid.1 post
a b.adb:9:4: V1 unproved: Mid.5 overflow
a b.adb:9:4: V1 unproved: Mid.4 division
Mid: 6 conditions, 2 simplified, 0 scripted, 4 open
refused: 4
END
cat >"$room/conditions" <<'END'
Mid.1 post a b.adb:10:2
H1 A
G1 A
G2 B
Mid.2 overflow a b.adb:9:4
G1 A
Mid.3 overflow a b.adb:9:4
H1 B
G1 A
Mid.4 division a b.adb:9:4
H1 A
G1 A
Mid.5 overflow a b.adb:9:4
G1 A
Mid.6 range a b.adb:9:4
G1 A
END
what='open prints the conditions of the findings, by place'
run "$tree/spx" open "$room/inc.adb"
ends 1
says_nothing
cat >"$room/wanted" <<'END'
a b.adb:9:4 division: open on 1 path
Mid.4 division a b.adb:9:4
H1 A
G1 A

a b.adb:9:4 overflow: open on 2 paths
Mid.3 overflow a b.adb:9:4
H1 B
G1 A   <--
Mid.5 overflow a b.adb:9:4
G1 A   <--

a b.adb:10:2 post: open on 1 path
Mid.1 post a b.adb:10:2
H1 A
G1 A
G2 B   <--

<-- no hypothesis has the text of this goal; docs/simplifier.md says what else closes it
END
is "$(cat "$room/out")" "$(cat "$room/wanted")"
what='open prints the conditions that are named'
run "$tree/spx" open "$room/inc.adb" mid.4 MID.2
ends 1
cat >"$room/wanted" <<'END'
a b.adb:9:4 division: open on 1 path
Mid.4 division a b.adb:9:4
H1 A
G1 A

a b.adb:9:4 overflow: closed on 1 path
Mid.2 overflow a b.adb:9:4
G1 A   <--

<-- no hypothesis has the text of this goal; docs/simplifier.md says what else closes it
END
is "$(cat "$room/out")" "$(cat "$room/wanted")"
run "$tree/spx" open "$room/inc.adb" Mid.3
is "$(sed -n 1p "$room/out")" 'a b.adb:9:4 overflow: open on 2 paths'
run "$tree/spx" open "$room/inc.adb" Mid.6
ends 0
run "$tree/spx" open "$room/inc.adb" Mid.7 Mid.1 mid '*'
ends 2
prints ''
says "$room/inc.adb has no condition Mid.7, mid, *;"
says_one_line
run "$tree/spx" open "$room/inc.adb" ''
ends 2
says_one_line
what='open where there is no file'
run env SPX_STATUS=3 "$tree/spx" open ''
ends 3
says 'no such file'
what='open prints at most 20 conditions'
for number in 1 2 3 4 5 6 7 8 9 10 11 12 13 14 15 16 17 18 19 20 21 22 23; do
    echo "x:5:$number: V1 unproved: P.$number post" >&3
    printf 'P.%s post x:5:%s\nH1 A\nG1 A\n' "$number" "$number" >&4
done 3>"$room/check" 4>"$room/conditions"
run "$tree/spx" open "$room/inc.adb"
ends 1
is "$(grep -c '^P' "$room/out")" 20
is "$(tail -n 1 "$room/out")" '3 more are open; --all prints them'
for words in "$room/inc.adb --all" "--all $room/inc.adb"; do
    # shellcheck disable=SC2086
    run "$tree/spx" open $words
    is "$(grep -c '^P' "$room/out")" 23
    is "$(tail -n 1 "$room/out")" 'G1 A'
done
what='open where no condition is open'
echo accepted >"$room/check"
run env SPX_STATUS=0 "$tree/spx" open "$room/inc.adb"
ends 0
prints 'no condition is open\n'
says_nothing
run env SPX_STATUS=0 "$tree/spx" open "$room/inc.adb" p.23
ends 0
is "$(sed -n 1p "$room/out")" 'x:5:23 post: closed on 1 path'
what='open where a check says something else'
printf 'x:1:1: P1 expected another token\nrefused: 1\n' >"$room/check"
for number in 1 2 3 4 5 6; do
    run env SPX_STATUS=$number "$tree/spx" open "$room/inc.adb" P.1
    ends "$number"
    prints 'x:1:1: P1 expected another token\nrefused: 1\n'
done
says 'a limit is passed'
says_one_line
what='words of open'
for words in '' --all '-' "$room/inc.adb --al"; do
    # shellcheck disable=SC2086
    run "$tree/spx" open $words
    ends 2
    prints ''
    says_one_line
done
write_program "$program"

# ---------------------------------------------------------------- bytes that end a line for some compilers

what='bytes that end a line for some Ada compilers'
for bytes in '\r' '\v' '\f' '\032' '\302\205' '\342\200\250' '\342\200\251'; do
    printf -- "-- a comment${bytes}X := 1;\n" >"$room/odd bytes.adb"
    run "$tree/spx" check "$room/odd bytes.adb"
    says "spx: warning: $room/odd bytes.adb has a byte that ends a line"
    says_one_line
    ends 0
    prints '<check>\n<%s>\n' "$room/odd bytes.adb"
done
what='bytes that end a line in the program of a run'
printf 'X = 1 -- \rY\n' >"$room/odd.txt"
run env SPX_STATUS=7 "$tree/spx" run --entry odd --inputs "$room/odd.txt" "$room/odd bytes.adb"
says "spx: warning: $room/odd bytes.adb has a byte that ends a line"
says_one_line
run "$tree/spx" run --entry "$room/odd bytes.adb" --inputs "$room/odd.txt" "$room/inc.adb"
says_nothing
what='bytes that end no line'
printf -- '-- a comment\r\n-- \303\251 \342\200\246 \302\240 \205 \250\tx\r\n' >"$room/even.adb"
run "$tree/spx" check "$room/even.adb"
says_nothing
if command -v mkfifo >/dev/null && mkfifo "$room/pipe"; then
    what='a pipe is read by the program only'
    run "$tree/spx" check "$room/pipe"
    ends 0
else
    skip 'there is no mkfifo'
fi

# ---------------------------------------------------------------- the time that the script takes

# The least time of some runs of a command, in nanoseconds.
least() {
    best=
    for _ in 1 2 3 4 5 6 7 8 9 10; do
        began=$(date +%s%N)
        "$@" >/dev/null 2>&1
        spent=$(($(date +%s%N) - began))
        [ -n "$best" ] && [ "$best" -le "$spent" ] || best=$spent
    done
}

what='a check takes less than 20 ms beyond the program'
case $(date +%N) in
    '' | *[!0-9]*) skip 'this date counts no nanoseconds' ;;
    *)
        # With all sources, which it compares with the program.
        for crate in "$top"/crates/*; do
            mkdir -p "$tree/crates/${crate##*/}"
            for part in src specs; do
                [ ! -d "$crate/$part" ] || cp -Rp "$crate/$part" "$tree/crates/${crate##*/}"
            done
        done
        find "$tree/crates" -exec touch -t 202001010000 {} +
        touch "$program"
        # On a machine with other work one round may be slow.
        beyond=20000000
        for _ in 1 2 3 4 5 6 7 8; do
            least "$program" check "$room/inc.adb"
            program_took=$best
            least "$tree/spx" check "$room/inc.adb"
            [ $((best - program_took)) -ge "$beyond" ] || beyond=$((best - program_took))
            [ "$beyond" -ge 20000000 ] || break
        done
        # A slow machine is no fault of the script.
        if [ "$beyond" -lt 20000000 ]; then pass; else skip 'it took longer on this machine'; fi
        printf 'the script takes %s microseconds beyond the program\n' "$((beyond / 1000))"
        ;;
esac
new_tree

# ---------------------------------------------------------------- a program that is out of date, or not there

what='a program that is out of date is run'
run with_rt "$tree/spx" check x
says_nothing
echo '// more' >>"$tree/crates/spx_cli/src/main.rt"
touch -t 203001010000 "$tree/crates/spx_cli/src/main.rt"
run with_rt "$tree/spx" check x
prints '<check>\n<x>\n'
ends 0
says 'out of date'
says './spx build'
says_one_line

what='a build brings it up to date'
touch -t 201901010000 "$program"
touch "$tree/crates/spx_cli/src/main.rt"
run with_rt "$tree/spx" build
ends 0
says 'building the program'
says 'the first time this takes about 36 minutes (processors: 4)'
says 'the tests, .ci/run, take about 59 minutes'
says 'built in'
prints ''
touch -t 202001010000 "$tree/crates/spx_cli/src/main.rt" "$tree/crates/spx_cli/src"
run with_rt "$tree/spx" check x
says_nothing
run with_rt "$tree/spx" build
ends 0
says 'up to date'
run with_rt "$tree/spx" version
is "$(sed -n 2p "$room/out")" 'kit of the tests'

what='a build that fails leaves the program'
touch -t 203001010000 "$tree/crates/spx_cli/src/main.rt"
run with_rt RT_FAILS=1 "$tree/spx" build
ends 125
says 'not built: see '
says 'on this machine the last time'
run with_rt "$tree/spx" check x
ends 0
prints '<check>\n<x>\n'
says 'out of date'

what='what is built is a copy of the crates of the program, without edits that must fail'
mkdir -p "$tree/crates/spx_examiner/src" "$tree/crates/spx_examiner/must-fail" "$tree/crates/spx_table/src" "$tree/crates/spx_tests/src"
touch "$tree/crates/spx_examiner/src/lib.rt" "$tree/crates/spx_examiner/must-fail/an.edit"
run with_rt "$tree/spx" build
ends 0
for path in .git HANDLES crates.txt crates/spx_cli/src/main.rt crates/spx_examiner/src/lib.rt crates/spx_rows; do
    is "$path $(grep -cxF "./$path" "$room/copied")" "$path 1"
done
for path in must-fail out spx_table spx_tests spx_examples; do
    is "$path $(grep -c "/$path" "$room/copied")" "$path 0"
done

what='where there is no program one is built'
new_tree unbuilt
run without_rt "$tree/spx" check x
ends 125
prints ''
says 'rt is not on PATH'
says_one_line
run with_rt RT_FAILS=1 "$tree/spx" check x
ends 125
prints ''
run with_rt "$tree/spx" check x
ends 0
prints '<check>\n<x>\n'
says 'building the program'
rm "$program"
run with_rt SPX_STATUS=1 "$tree/spx" check x
ends 1
says 'on this machine the last time'
run with_rt "$tree/spx" check x
says_nothing

what='the time of a first build is that of so many processors'
while read -r processors minutes; do
    new_tree unbuilt
    run with_rt PROCESSORS="$processors" "$tree/spx" check x
    ends 0
    says "the first time this takes about $minutes minutes"
done <<'END'
1 119
2 64
3 45
8 36
END

# A second is a hundredth here, in which the script waits.
what='a build shows its progress'
mkdir "$room/fast" && printf '#!/bin/sh\nexec %s 0.01\n' "$(command -v sleep)" >"$room/fast/sleep" && chmod +x "$room/fast/sleep"
new_tree unbuilt
crates=$(awk '/^[a-z]/ { count++ } END { print count }' "$top/crates.txt")
run env "PATH=$room/fast:$room/bin:$room/tools" RT_SLEEPS=4 "$tree/spx" check x
ends 0
prints '<check>\n<x>\n'
if grep -qE '^spx: 2 of [0-9]+ crates are proved after 1 min$' "$room/err"; then pass; else fail "said: $(cat "$room/err")"; fi
shown=$(sed -n 's/^spx: 2 of \([0-9]*\) crates.*/\1/p' "$room/err" | sed -n 1p)
if [ "${shown:-0}" -gt 20 ] && [ "${shown:-0}" -lt "$crates" ]; then pass; else fail "it shows $shown of the $crates crates"; fi
if grep -q "$(printf '\r')" "$room/err"; then fail 'a line is written again where there is no terminal'; else pass; fi
if command -v python3 >/dev/null && python3 -c 'import pty' 2>/dev/null; then
    what='a build shows its progress on a terminal'
    new_tree unbuilt
    env "PATH=$room/fast:$room/bin:$room/tools:$PATH" RT_SLEEPS=1 python3 -c 'import pty, sys; pty.spawn(sys.argv[1:])' "$tree/spx" build >"$room/out" </dev/null 2>"$room/err"
    if grep -q "$(printf '\rspx: 2 of %s crates are proved after 0 min' "$shown")" "$room/out"; then pass; else fail "printed: $(cat "$room/out" "$room/err")"; fi
    if grep -q '^spx: built in' "$room/out"; then pass; else fail "printed: $(cat "$room/out")"; fi
else
    skip 'there is no Python to make a terminal with'
fi

what='of two builds at a time one waits for the other'
if command -v flock >/dev/null; then
    new_tree unbuilt
    rm -f "$room/builds"
    with_rt RT_SLEEPS=1 "$tree/spx" check x >"$room/other" 2>/dev/null </dev/null &
    run with_rt RT_SLEEPS=1 "$tree/spx" check x
    wait
    ends 0
    prints '<check>\n<x>\n'
    is "$(cat "$room/other")" "$(cat "$room/out")"
    is "$(grep -c . "$room/builds")" 1
else
    skip 'there is no flock, so that builds at a time are not kept apart'
fi

# ---------------------------------------------------------------- the script's own words

new_tree
what='version'
run with_rt "$tree/spx" version
ends 0
prints 'spx %s\nkit of the tests\ncommit unknown: no git clone\n' "$(cat "$top/VERSION")"
run without_rt "$tree/spx" version
ends 0
is "$(sed -n 2p "$room/out")" 'toolchain unknown: rt is not on PATH'
if [ -e "$top/.git" ] && commit=$(git -C "$top" rev-parse HEAD 2>/dev/null); then
    # Also in a hook of another repository, where git sets its variables.
    for folder in "$top/.git" "$room/no repository"; do
        run env GIT_DIR="$folder" "$top/spx" version
        case $(sed -n 3p "$room/out") in
            "commit $(printf '%.12s' "$commit")"*) pass ;;
            *) fail "$(sed -n 3p "$room/out") is not commit $commit" ;;
        esac
    done
else
    skip 'this is no git clone'
fi

what='help and version, where nothing is built'
new_tree unbuilt
run without_rt "$tree/spx" help
cp "$room/out" "$room/help"
for word in '' --help -h; do
    # shellcheck disable=SC2086
    run without_rt "$tree/spx" $word
    ends 0
    says_nothing
    if cmp -s "$room/help" "$room/out"; then pass; else fail "printed: $(head -c 300 "$room/out")"; fi
done
run without_rt "$tree/spx" version
cp "$room/out" "$room/version"
run without_rt "$tree/spx" --version
ends 0
says_nothing
if cmp -s "$room/version" "$room/out"; then pass; else fail "printed: $(head -c 300 "$room/out")"; fi

what='a word that is no command'
run without_rt "$tree/spx" chek x
ends 2
prints ''
says "spx: 'chek' is no command; the nearest one is check"
says_one_line
new_tree
while read -r word command; do
    run env SPX_STATUS=2 "$tree/spx" "$word" x
    ends 2
    prints '<%s>\n<x>\n' "$word"
    says "spx: '$word' is no command; the nearest one is $command, and ./spx help lists all"
    says_one_line
done <<'END'
chek check
Check check
checks check
cond conditions
condition conditions
opne open
--run run
rum run
explian explain
e explain
biuld build
--versoin version
hlep help
END
run env SPX_STATUS=2 "$tree/spx" workload 3
says 'workload is not there yet'
says_one_line
run env SPX_STATUS=2 "$tree/spx" "$room/inc.adb"
says "./spx check $room/inc.adb examines it"
says_one_line

what='what is wrong with the words after a command'
while read -r words; do
    read -r line
    # The words are split at spaces.
    run env SPX_STATUS=2 "$tree/spx" $words
    ends 2
    says "spx: $line"
    says_one_line
done <<'END'
check
no file is named
check a b
more than one file is named, which is not supported yet
conditions --foo a
conditions has no option --foo; ./spx help lists the commands
check --turns 3 a
check has no option --turns
check --proofs p a
the option --proofs is not there yet
run a
run needs a procedure to call: --entry NAME
run --entry
the option --entry has no value
run --entry X --turns 0 a
--turns takes a number from 1 to 1000000000, and not '0'
run --entry X --turns=1000000001 a
--turns takes a number from 1 to 1000000000, and not '1000000001'
run --entry=X --turns 5 --inputs i a b
more than one file is named, which is not supported yet
END
for words in 'check a' 'run --entry X --turns 1000000000 a'; do
    run env SPX_STATUS=2 "$tree/spx" $words
    ends 2
    says_nothing
done

what='help'
run "$tree/spx" help
ends 0
for word in check conditions open run explain build version help; do
    is "$(grep -c "spx $word" "$room/out")" 1
done

what='words of the script with too many words'
for word in build version help --version --help -h; do
    run with_rt "$tree/spx" "$word" more
    ends 2
    says_one_line
done

what='explain has each rule that the program can print, and no other'
sources=$top/crates/spx_report/src
inputs=$top/crates/spx_run/specs/Results.antt
run "$tree/spx" explain
ends 0
says_nothing
cp "$room/out" "$room/rules"
sed 's/ .*//' "$room/rules" | sort >"$room/explained"
{
    sed -n 's/.*RuleName::\([A-Z]*[0-9]*\) => b"\1",.*/\1/p' "$sources/report.rt"
    sed -n 's/.*codes "\(I[0-9]\) .*/\1/p' "$inputs"
} | sort >"$room/printed"
is "$(wc -l <"$room/printed")" "$(wc -l <"$room/explained")"
if cmp -s "$room/printed" "$room/explained"; then pass; else fail "$(diff "$room/printed" "$room/explained")"; fi
# With their texts: those of the sources, and those in what is expected of the table of texts.
sed -n 's/.*RuleName::\([A-Z]*[0-9]*\) => b"\([^"]* [^"]*\)",.*/\1 \2/p' "$sources/refusals.rt" >"$room/texts"
sed -n 's/.*codes "\(I[0-9] [^":]*\)\\n".*/\1/p; s/.*codes "\(I4 [^"]*: \)".*/\1X/p; s/.*codes "\(I5 [^"]*: \)".*/\1NAME/p' "$inputs" >>"$room/texts"
sed -n 's/^[^ ]*:[0-9]*:[0-9]*: \([LPNUI][0-9]*\) \(.*\)/\1 \2/p; s/^[^ ]*:[0-9]*:[0-9]*: \(F[0-9]\) \(.*\)/\1 \2/p; s/^I[45] .*/&/p' "$top/crates/spx_table/stdout" |
    sed 's/^\(F[12] [a-z]*:\) .* from .*/\1 Y from X/; s/^\(F4 unset:\) .*/\1 X/; s/^\(I4 [a-z ]*:\) .*/\1 X/; s/^\(I5 [a-z ]*:\) .*/\1 NAME/' >>"$room/texts"
sort -u "$room/texts" | sed 's/ /|/' | sort >"$room/wanted"
sed 's/  */|/' "$room/rules" | grep -v '^V1|' | sort -u >"$room/has"
if diff "$room/wanted" "$room/has" >"$room/diff"; then pass; else fail "$(cat "$room/diff")"; fi
if grep -q '^V1   unproved: NAME KIND$' "$room/rules"; then pass; else fail 'V1 has another text'; fi

what='explain prints a section with all its parts'
while read -r rule text; do
    run "$tree/spx" explain "$rule"
    ends 0
    is "$(sed -n 1p "$room/out")" "### $rule $text"
    is "$(grep -c '^##' "$room/out")" 1
    for part in When Place Example 'What to do'; do
        is "$rule $part: $(grep -c "^\*\*$part\*\*:" "$room/out")" "$rule $part: 1"
    done
    if grep -qE "^    (.*: )?$rule " "$room/out"; then pass; else fail "$rule has no example"; fi
done <"$room/rules"
run "$tree/spx" explain u7 V1
is "$(grep -c '^### ' "$room/out")" 2
for letter in F f V; do
    run "$tree/spx" explain "$letter"
    ends 0
    is "$(cat "$room/out")" "$(grep -i "^$letter" "$room/rules")"
done
run "$tree/spx" explain V1
lines=$(wc -l <"$room/out")
if [ "$lines" -le 50 ]; then pass; else fail "V1 has $lines lines"; fi
is "$(grep -c '^\*\*To read on\*\*' "$room/out")" 1
for word in U99 Q 7 '' '.*' '?' U7x; do
    run "$tree/spx" explain "$word"
    ends 2
    says_one_line
    prints ''
done

# ---------------------------------------------------------------- the documents

what='README.md'
lines=$(wc -l <"$top/README.md")
if [ "$lines" -lt 250 ]; then pass; else fail "it has $lines lines"; fi

what='links in documents'
for document in "$top"/README.md "$top"/docs/*.md "$top"/examples/*.md; do
    [ -e "$document" ] || continue
    grep -o '](\([^)]*\))' "$document" | sed 's/^](//; s/)$//' | sort -u >"$room/links"
    while read -r link; do
        case $link in
            http*) continue ;;
            '#'*) target=$document ;;
            *) target=$(dirname "$document")/${link%%#*} ;;
        esac
        if [ -e "$target" ]; then pass; else fail "${document##*/}: no $link" && continue; fi
        case $link in *'#'*) ;; *) continue ;; esac
        # A heading in lower case, without what is no letter, digit, hyphen or space, and with hyphens for spaces.
        if sed -n 's/^##* //p' "$target" | tr '[:upper:]' '[:lower:]' | sed 's/[^a-z0-9 _-]//g; s/ /-/g' | grep -qxF -- "${link#*#}"; then
            pass
        else
            fail "${document##*/}: no heading $link"
        fi
    done <"$room/links"
done

what='docs/problem-matcher.json'
matcher=$top/docs/problem-matcher.json
pattern=$(sed -n 's/.*"regexp": "\(.*\)",*$/\1/p' "$matcher" | sed 's/\\\\d/[0-9]/g')
if printf '%s\n' 'examples/inc.adb:5:11: V1 unproved: Inc.1 overflow' | grep -qE -- "$pattern"; then pass; else fail "it does not match a finding: $pattern"; fi
for line in 'Inc: 2 conditions, 2 simplified, 0 scripted, 0 open' accepted 'refused: 1' 'limit: paths, at most 4096'; do
    if printf '%s\n' "$line" | grep -qE -- "$pattern"; then fail "it matches '$line'"; else pass; fi
done

what='JSON in README.md and docs'
if command -v python3 >/dev/null; then
    awk '/^```json$/ { inside = 1; next } /^```/ { inside = 0 } inside' "$top/README.md" >"$room/task.json"
    for file in "$matcher" "$room/task.json"; do
        if python3 -m json.tool "$file" >/dev/null 2>"$room/err"; then pass; else fail "$file: $(cat "$room/err")"; fi
    done
else
    skip 'there is no Python to read JSON with'
fi
is "$(grep -o '"regexp": "[^"]*"' "$top/README.md")" "$(grep -o '"regexp": "[^"]*"' "$matcher")"

what='words in README.md and docs'
if command -v python3 >/dev/null; then
    if python3 -B "$top/tests/words.py" >"$room/out" 2>&1; then pass; else fail "$(cat "$room/out")"; fi
else
    skip 'there is no Python to look for words with'
fi

what='names in README.md and docs'
if command -v python3 >/dev/null && command -v git >/dev/null && git -C "$top" rev-parse >/dev/null 2>&1; then
    if python3 -B "$top/tests/names.py" >"$room/out" 2>&1; then pass; else fail "$(cat "$room/out")"; fi
else
    skip 'there is no Python or no git to look for names with'
fi

# ---------------------------------------------------------------- commands of README.md, and the examples

cp -Rp "$top/examples" "$top/README.md" "$tree"
examiner=
if [ -x "$top/crates/spx_cli/out/spx_cli" ]; then
    cp "$top/crates/spx_cli/out/spx_cli" "$program" && examiner=built
elif command -v python3 >/dev/null && python3 -c 'import dataclasses' 2>/dev/null; then
    examiner=second
    printf '#!/bin/sh\nexec python3 -B - "$@" <<END\n' >"$program"
    printf 'import sys\nsys.path.insert(0, "%s/tests")\n' "$top" >>"$program"
    cat >>"$program" <<'OUTER'
from pathlib import Path
from reading import answered, asked_by
words = sys.argv[1:]
asked = asked_by(words)
answer = answered(words, {name: Path(name).read_bytes() for name in (asked.files() if asked else []) if Path(name).is_file()})
sys.stdout.write(answer.report)
sys.exit(answer.status)
OUTER
    skip 'the examiner is not built: the second reading in tests/reading.py takes its place'
else
    skip 'the examiner is not built, and there is no Python for the second reading: no example is run'
fi

# Each block ```console has commands after `$ `, each with what it prints; the commands of a block are run by one shell.
sessions() {
    awk -v room="$room" '/^```console$/ { inside = 1; count++; next }
        /^```/ { inside = 0 }
        inside { print > (room "/session." count) }' "$top/README.md"
    for session in "$room"/session.*; do
        what="README.md: $(sed -n 1p "$session")"
        sed -n 's/^\$ //p' "$session" >"$room/commands"
        {
            echo 'exec 2>&1'
            while read -r command; do
                printf 'cat <<"END"\n$ %s\nEND\n%s\n' "$command" "$command"
            done <"$room/commands"
        } >"$room/commands.sh"
        (cd "$tree" && sh "$room/commands.sh") >"$room/out" 2>&1 </dev/null
        if cmp -s "$session" "$room/out"; then pass; else fail "$(diff "$session" "$room/out")"; fi
    done
}

# Each line of a block ```sh is a command; those that take long or need a network are only looked for.
commands() {
    awk '/^```sh$/ { inside = 1; next } /^```/ { inside = 0 } inside' "$top/README.md" >"$room/lines"
    while read -r command; do
        what="README.md: $command"
        case $command in
            '' | '#'*) ;;
            .ci/run | './spx build') if [ -x "$top/${command%% *}" ]; then pass; else fail 'it is not there'; fi ;;
            *)
                (cd "$tree" && sh -c "$command") >"$room/out" 2>"$room/err" </dev/null
                status=$?
                if [ "$status" -le 1 ]; then pass; else fail "ended with $status: $(cat "$room/err")"; fi
                ;;
        esac
    done <"$room/lines"
}

# The steps of a workflow, in a folder outside of the tree with the examples: some of them have findings.
steps() {
    what='README.md: the steps of a workflow'
    mkdir "$room/elsewhere" && cp -Rp "$top/examples" "$room/elsewhere/src"
    sed -n 's/^- run: //p' "$top/README.md" >"$room/steps"
    (cd "$room/elsewhere" && SPX="$tree/spx" sh "$room/steps") >"$room/out" 2>"$room/err" </dev/null
    status=$?
    ends 1
    is "$(grep -c '^refused' "$room/out")" 3
    is "$(sed -n 's/^::add-matcher:://p' "$room/out")" "$tree/docs/problem-matcher.json"
    what='README.md: the blocks for editors'
    for language in vim elisp json yaml; do
        if awk -v kind="$language" '$0 == "```" kind { inside = 1; next } /^```/ { inside = 0 } inside' "$top/README.md" | grep -qE 'SPX'; then
            pass
        else
            fail "$language calls spx by another path than SPX"
        fi
    done
}

# Each example of the findings and of the guide has its report beside it.
reports() {
    for text in examples/findings/*.adb examples/guide/*.adb; do
        what=$text
        (cd "$tree" && ./spx check "$text") >"$room/out" 2>"$room/err" </dev/null
        if cmp -s "$tree/${text%.adb}.report" "$room/out"; then pass; else fail "printed: $(cat "$room/out")"; fi
    done
}

# Each command of the examples has what it prints beside it.
runs() {
    for command in examples/*/*.command; do
        what=$command
        # shellcheck disable=SC2046
        (cd "$tree" && ./spx $(cat "$command")) >"$room/out" 2>"$room/err" </dev/null
        if cmp -s "$tree/${command%.command}.report" "$room/out"; then pass; else fail "printed: $(cat "$room/out")"; fi
    done
}

# What is open in two examples, and what is not.
opened() {
    what='open with the examiner'
    run "$tree/spx" open examples/findings/v1_on_two_paths.adb
    ends 1
    grep '^[^HG]' "$room/out" >"$room/kept"
    cat >"$room/wanted" <<'END'
examples/findings/v1_on_two_paths.adb:8:14 overflow: open on 1 path
Step.5 overflow examples/findings/v1_on_two_paths.adb:8:14
examples/findings/v1_on_two_paths.adb:10:11 overflow: open on 1 path
Step.3 overflow examples/findings/v1_on_two_paths.adb:10:11
<-- no hypothesis has the text of this goal; docs/simplifier.md says what else closes it
END
    is "$(cat "$room/kept")" "$(cat "$room/wanted")"
    run "$tree/spx" open examples/divide.adb
    is "$(grep -c '   <--$' "$room/out")" 6
    run "$tree/spx" open examples/inc.adb
    ends 0
    prints 'no condition is open\n'
}

# Each row of the tables of docs/simplifier.md is a procedure with the hypothesis as `pre` and the goal as `check`, which is its only
# condition. Each procedure of the page is accepted.
simplified() {
    page=$top/docs/simplifier.md
    awk -F ' [|] ' '/^[|] `/ { gsub(/^[|] |`/, "", $1); gsub(/`/, "", $2); printf "%s|%s|%s\n", $1, $2, $3 }' "$page" >"$room/cases"
    awk -F '|' '{
        printf "procedure Case_%d (A, B, C : in Integer; P, Q, R : in Boolean; X : out Boolean)\n", NR
        printf "--# derives X from A, B, C, P, Q, R;\n--# pre %s;\nis\nbegin\n   --# check %s;\n", $1, $2
        printf "   X := (A = B and B = C) and (P = Q and Q = R);\nend Case_%d;\n", NR
    }' "$room/cases" >"$room/cases.adb"
    what='docs/simplifier.md: the cases'
    run "$program" check "$room/cases.adb"
    ends 1
    is "$(grep -c ': 1 conditions, ' "$room/out")" "$(wc -l <"$room/cases")"
    if [ "$(wc -l <"$room/cases")" -ge 60 ]; then pass; else fail 'there are fewer than 60'; fi
    number=0
    while IFS='|' read -r hypothesis goal result; do
        number=$((number + 1))
        what="docs/simplifier.md: $goal under $hypothesis"
        if grep -q ": V1 unproved: Case_$number\.1 check$" "$room/out"; then is "$result" 'stays open'; else is "$result" closes; fi
    done <"$room/cases"

    what='docs/simplifier.md: the procedures'
    sed -n '/^    procedure /,/^    end [A-Za-z_]*;$/s/^    //p' "$page" >"$room/recipes.adb"
    if [ "$(grep -c '^procedure ' "$room/recipes.adb")" -ge 5 ]; then pass; else fail 'there are fewer than 5'; fi
    run "$program" check "$room/recipes.adb"
    ends 0
}

# A procedure that negates a variable so many times. Its postcondition is true where the number is even.
negations() {
    awk -v count="$1" 'BEGIN {
        print "procedure Flip (B : in out Boolean)\n--# derives B from B;\n--# post B = B~;\nis\nbegin"
        for (k = 0; k < count; k++) print "   B := not B;"
        print "end Flip;"
    }'
}

# What no row of the table has: the deepest term, the greatest file, the most tokens, a file that is not there, and an output that takes nothing.
limits() {
    what='a file of the greatest size, and one byte more'
    head -c 4194304 /dev/zero | tr '\0' ' ' >"$room/most.adb"
    run "$program" check "$room/most.adb"
    ends 0
    prints 'accepted\n'
    printf ' ' >>"$room/most.adb"
    run "$program" check "$room/most.adb"
    ends 6
    prints 'limit: file size, at most 4194304\n'

    what='a file of the most tokens, and one more'
    head -c 1000000 /dev/zero | tr '\0' ';' >"$room/most.adb"
    run "$program" check "$room/most.adb"
    ends 1
    prints '%s:1:1: P1 expected another token\nrefused: 1\n' "$room/most.adb"
    printf ';' >>"$room/most.adb"
    run "$program" check "$room/most.adb"
    ends 6
    prints 'limit: tokens, at most 1000000\n'

    # Each assignment is a level of the term in the one condition, and a variable and `=` are two more.
    what='a term of the most levels that are printed, and one more'
    negations 31998 >"$room/deep.adb"
    run "$program" conditions "$room/deep.adb"
    ends 0
    awk -v count=31998 -v file="$room/deep.adb" 'BEGIN {
        for (k = 0; k < count; k++) { open = open "(not "; shut = shut ")" }
        printf "Flip.1 post %s:3:5\nG1 %sB~%s = B~\n", file, open, shut
    }' >"$room/wanted"
    if cmp -s "$room/wanted" "$room/out"; then pass; else fail "printed: $(head -c 300 "$room/out")"; fi
    negations 31999 >"$room/deep.adb"
    run "$program" conditions "$room/deep.adb"
    ends 5
    prints ''
    run "$program" check "$room/deep.adb"
    ends 1

    what='a file that is not there'
    run "$program" check "$room/none.adb"
    ends 3
    prints ''
    run "$program" run --entry Inc --inputs "$room/none.txt" "$tree/examples/inc.adb"
    ends 3
    prints ''

    what='an output that takes nothing'
    [ -c /dev/full ] || { skip 'there is no /dev/full' && return; }
    "$program" check "$tree/examples/inc.adb" >/dev/full
    status=$?
    ends 4
}

# Each other example is a text of the table, by its name, with what is printed on it.
rows() {
    for text in examples/*.adb; do
        what=$text
        name=${text##*/}
        awk -v head="%% $name" '/^%[%-] / { inside = $0 == head; next } inside' "$top/crates/spx_table/stdout" | sed '$d' >"$room/report"
        (cd "$tree/examples" && ../spx check "$name") >"$room/out" 2>"$room/err" </dev/null
        if [ -s "$room/report" ] && cmp -s "$room/report" "$room/out"; then pass; else fail "printed: $(cat "$room/out")"; fi
    done
}

cd "$top" || exit 2
if [ -n "$examiner" ]; then
    sessions
    commands
    steps
    runs
    rows
fi
if [ "$examiner" = built ]; then
    reports
    opened
    simplified
    limits
fi

printf '%s passed, %s failed\n' "$passed" "$failed"
[ "$failed" -eq 0 ]
