#!/bin/sh
# Runs the front door, ./lamp, over a kit and a program that are made up: a copy of it in a small project of its own, where a proof takes no
# time and the program tells what it was handed. What the real program prints is for tests/lamp.sh.
# shellcheck disable=SC2016
set -u
here=$(cd "$(dirname "$0")/.." && pwd -P)
room=$(mktemp -d)
trap 'rm -rf "$room"' EXIT
umask 022
chmod 755 "$room"
passed=0
failed=0
said=$room/said
kit=$room/kit
tools=$kit/toolchain
project="$room/the project"
lamp=$project/lamp

# ---- how a thing is tested

# count GOOD WHAT: counts one test, and tells of it where it went wrong
count() {
    if [ "$1" = yes ]; then
        passed=$((passed + 1))
    else
        failed=$((failed + 1))
        printf '%s\n' "$2"
    fi
}

# expect STATUS STDOUT STDERR COMMAND..: of this command, in the caller's folder; in what is said, # is the project's folder
expect() {
    status=$1
    print=$2
    say=$3
    shift 3
    out=$(cd "$room/caller" && "$@" 2>"$said")
    ended=$?
    err=$(sed "s|$project|#|g" "$said")
    good=no
    [ "$ended" = "$status" ] && [ "$out" = "$print" ] && [ "$err" = "$say" ] && good=yes
    count "$good" "$*: status $ended, printed \"$out\", said \"$err\""
}

# holds WHAT COMMAND..: this command succeeds
holds() {
    what=$1
    shift
    if "$@" >/dev/null 2>&1; then count yes; else count no "does not hold: $what"; fi
}

# proofs NUMBER: so often rt was asked for a proof since nothing was built
proofs() { holds "$1 proofs, and not $(wc -l <"$kit/calls")" [ "$(wc -l <"$kit/calls")" -eq "$1" ]; }

# wait_for TEXT FILE: until the file has it, for 10 seconds at most
wait_for() {
    tries=0
    until grep -q -- "$1" "$2" 2>/dev/null; do
        tries=$((tries + 1))
        [ "$tries" -lt 200 ] || return 1
        sleep 0.05
    done
}

# fresh MOOD: nothing is built, and rt will do as the mood says
fresh() {
    rm -rf "$project/target" "$project"/crates/*/out "$kit/go" "$room"/one.* "$room"/two.*
    : >"$kit/calls"
    echo "$1" >"$kit/mood"
}

# measure COMMAND..: how long a hundred calls take, in $took, and the quickest of them, in $best, in hundredths of a second
measure() {
    took=0
    best=1000000
    for _ in 0 1 2 3 4 5 6 7 8 9; do
        for _ in 0 1 2 3 4 5 6 7 8 9; do
            read -r begun _ </proc/uptime
            "$@" >/dev/null 2>&1
            read -r ended _ </proc/uptime
            one=$((${ended%.*}${ended#*.} - ${begun%.*}${begun#*.}))
            took=$((took + one))
            [ "$one" -ge "$best" ] || best=$one
        done
    done
}

# ---- a kit that is made up

mkdir -p "$kit/bin" "$tools/lib" "$room/none" "$room/caller"
: >"$kit/START-HERE.md"
echo 'a C library' >"$tools/lib/libc.so.6"
cat >"$tools/lib/ld-linux-x86-64.so.2" <<'END'
#!/bin/sh
[ "$1" = --library-path ] && [ -f "$2/libc.so.6" ] || exit 99
shift 2
exec sh "$@"
END
# proves one crate at a call, begins with base, and has proved right already
cat >"$kit/bin/rt" <<'END'
#!/bin/sh
kit=${0%/bin/rt}
crate=${PWD##*/}
case "$crate $*" in
    *' doc') echo "$kit/START-HERE.md"; exit ;;
    'lamp run --cpu=x86-64 -- list data/scale.rom 100000') ;;
    *' lib') [ "$crate" != lamp ] || exit 2 ;;
    *) exit 2 ;;
esac
[ -f ../../crates.txt ] || exit 2
[ "$crate" != base ] || echo "$*" >>"$kit/calls"
mood=$(cat "$kit/mood")
case $mood-$crate in
    waits-right | once-right)
        tries=0
        until [ -e "$kit/go" ] || [ "$tries" -ge 200 ]; do
            sleep 0.05
            tries=$((tries + 1))
        done
        [ "$mood" != once ] || [ "$(wc -l <"$kit/calls")" -gt 1 ] || refuse=yes
        ;;
    refused-left) refuse=yes ;;
    killed-left) kill -KILL $$ ;;
    broken-left) exit 2 ;;
    changes-left) echo more >>src/lib.rt ;;
esac
if [ -n "${refuse-}" ]; then
    echo "crates/$crate/src/lib.rt:1: error"
    exit 1
fi
[ "$crate" = right ] || echo "fn $crate::all: proved" >&2
[ "$crate" = lamp ] || exit 0
if [ "$mood" != unbuilt ]; then
    mkdir -p out
    cp "$kit/program" out/lamp
fi
echo 'rt: running out/lamp' >&2
[ "$mood" != breaks ] || exit 3
if [ "$mood" = differs ]; then echo 'another listing'; else echo 'the listing'; fi
END
# says its words and the names that it is handed, each with its link, and ends as ENDS has it
cat >"$kit/program" <<'END'
names=
if [ "$1" = scan ]; then
    [ -n "${SKIPS-}" ] || names=$(tr '\0' '|' <"$4" | sed 's/||/|/g')
    set -- "$1" "$2" "$3"
fi
printf '%s' "$1" || exit 2
shift
for word in "$@"; do printf ' [%s]' "$word"; done
printf '%s\n' "${names:+ $names}"
[ -z "${READS-}" ] || cat
case ${ENDS=0} in
    killed) kill -KILL $$ ;;
    flood) for line in $(seq 1 10000); do echo "$line: more than a pipe holds" || exit; done ;;
    bytes) printf 'a\0b\377\n\n\nc' && printf 'd\0e\n\nf' >&2 ;;
    open)
        for number in 3 4 5 6 7 8 9; do
            if { true <&"$number"; } 2>/dev/null; then echo "$number"; fi
        done
        ;;
    *) exit "$ENDS" ;;
esac
END
chmod 755 "$kit/bin/rt" "$tools/lib/ld-linux-x86-64.so.2"

# ---- a small project

mkdir "$project"
cp "$here/lamp" "$lamp"
chmod 755 "$lamp"
cat >"$project/crates.txt" <<'END'
# NAME: the crates that it names
base:
left: base
aside: base log
lamp staticlib: left right base log   # the program
right: base
END
for crate in base left right aside lamp; do
    mkdir -p "$project/crates/$crate/src" "$project/crates/$crate/specs"
    echo "the code of $crate" >"$project/crates/$crate/src/lib.rt"
done
mkdir -p "$project/crates/left/proofs/deep" "$project/crates/lamp/data"
echo proof >"$project/crates/left/proofs/deep/Proof.antt"
echo board >"$project/crates/lamp/data/scale.rom"
echo 'the listing' >"$project/crates/lamp/stdout"
code=$project/crates/left/src/lib.rt

PATH=$kit/bin:$PATH
export PATH
usage='
usage: ./lamp [FILE [BUDGET]]
       ./lamp scan [--budget N] [--csv] FILE|FOLDER...
       ./lamp explain FILE [BUDGET], or tokens FILE, or numbers
       ./lamp --help says more'
none='lamp: no program is built for these sources yet'
progress="$none: 4 crates are to be proved first
lamp: the first time this takes some minutes, 8 to 15, and about 3 GB of memory
lamp: proving crate 1 of 4: base
lamp: proving crate 2 of 4: left
lamp: proving crate 3 of 4: right
lamp: right is unchanged since it was last proved
lamp: proving crate 4 of 4: lamp"
# the same where no crate behind the second is begun
two_steps=$(printf '%s\n' "$progress" | sed '/right\|: lamp$/d')
seen='so there is no program; #/target/lamp/log has all that was said'

# ---- what needs neither a kit nor a program

fresh plain
without_kit() { PATH=$room/none "$@"; }
told=$(without_kit "$lamp" --help)
expect 0 "$told" '' without_kit "$lamp" --help
expect 0 "$told" '' without_kit "$lamp" -h
for command in scan explain tokens --tokens numbers --version; do
    expect 0 "$told" '' without_kit "$lamp" "$command" --help
    expect 0 "$told" '' without_kit "$lamp" "$command" -h
done
for words in '[FILE [BUDGET]]' 'scan [--budget N] [--csv] FILE|FOLDER...' 'explain FILE [BUDGET]' 'tokens FILE' numbers --help --version; do
    case $told in *"
  ./lamp $words"[' 
']*) count yes ;; *) count no "help has no line on $words" ;; esac
done
for status in '0 passed and finished, or listed' '1 refused' '2 could not be read, or bad usage, or there is no program' \
    '3 the budget was spent'; do
    case $told in *" $status"*) count yes ;; *) count no "help has no status $status" ;; esac
done
version=$(without_kit "$lamp" --version)
holds "the version is a name and 12 digits, not $version" expr "$version" : 'celestalamp [0-9a-f]\{12\}$'
expect 0 "$version" '' "$lamp" --version

expect 2 '' "$none, and there is no Rattle kit to prove and build it with: no rt on the PATH" without_kit "$lamp" a.rom
proofs 0
holds 'nothing is written where there is nothing to prove' [ ! -e "$project/target" ]

# words that are wrong are told before anything is proved
for command in explain tokens; do
    expect 2 '' "lamp: $command: no FILE is given$usage" "$lamp" "$command"
    expect 2 '' "lamp: $command: no FILE is given$usage" "$lamp" "$command" --
done
expect 2 '' "lamp: scan: no FILE and no FOLDER is given$usage" "$lamp" scan
expect 2 '' "lamp: scan: no FILE and no FOLDER is given$usage" "$lamp" scan --csv --
expect 2 '' "lamp: 8: one word too many$usage" "$lamp" a.rom 7 8
expect 2 '' "lamp: 8: one word too many$usage" "$lamp" -- a.rom 7 8
expect 2 '' "lamp: 8: one word too many$usage" "$lamp" explain a.rom 7 8
expect 2 '' "lamp: 7: one word too many$usage" "$lamp" tokens a.rom 7
expect 2 '' "lamp: 7: one word too many$usage" "$lamp" --tokens a.rom 7
expect 2 '' "lamp: a.rom: one word too many$usage" "$lamp" numbers a.rom
expect 2 '' "lamp: a.rom: one word too many$usage" "$lamp" --version a.rom
expect 2 '' "lamp: --budget: no number is given$usage" "$lamp" scan a.rom --budget
expect 2 '' "lamp: --budget=: no number is given$usage" "$lamp" scan a.rom --budget=
expect 2 '' "lamp: -: standard input can be scanned once only$usage" "$lamp" scan - a.rom -
for word in -x --csv --budget -1 --no; do
    expect 2 '' "lamp: $word: no such option (a FILE of this name goes behind --)$usage" "$lamp" "$word"
done
for word in -x --tokens --csvs -1; do
    expect 2 '' "lamp: $word: no such option (a FILE of this name goes behind --)$usage" "$lamp" explain "$word"
    expect 2 '' "lamp: $word: no such option (a FILE of this name goes behind --)$usage" "$lamp" scan a.rom "$word"
done
expect 2 '' "lamp: -x: no such option (a FILE of this name goes behind --)$usage" "$lamp" a.rom -x
empty="lamp: '': an empty word (a script's variable that was never set?)$usage"
expect 2 '' "$empty" "$lamp" ''
expect 2 '' "$empty" "$lamp" a.rom ''
expect 2 '' "$empty" "$lamp" -- ''
expect 2 '' "$empty" "$lamp" tokens ''
expect 2 '' "$empty" "$lamp" --tokens ''
expect 2 '' "$empty" "$lamp" explain a.rom ''
expect 2 '' "$empty" "$lamp" scan a.rom ''
expect 2 '' "$empty" "$lamp" scan -- ''
expect 2 '' "$empty" "$lamp" scan --budget '' a.rom
proofs 0

# ---- proved once, then at once

expect 0 'list [a.rom] [100000]' "$progress" "$lamp" a.rom
proofs 1
holds 'the log has all that rt said' [ "$(wc -l <"$project/target/lamp/log")" -eq 4 ]
state() { find "$project" -exec ls -ldi --full-time {} +; }
state >"$room/before"
expect 0 'list [a.rom] [100000]' '' "$lamp" a.rom
expect 0 'scan [text] [100000] a.rom|' '' "$lamp" scan a.rom
state >"$room/after"
holds 'a call that proves nothing writes nothing' cmp "$room/before" "$room/after"
proofs 1
mv "$kit" "$room/gone"
expect 0 'list [a.rom] [100000]' '' without_kit "$lamp" a.rom
mv "$room/gone" "$kit"
rm -rf "$project"/crates/*/out
expect 0 'list [a.rom] [100000]' '' "$lamp" a.rom

# found through links, and from any folder
mkdir "$room/links"
ln -s "$lamp" "$room/links/first"
ln -s first "$room/links/second"
ln -s ../links/second "$room/caller/third"
expect 0 "list [$project/crates/lamp/data/scale.rom] [100000]" '' ./third
expect 0 "list [$project/crates/lamp/data/scale.rom] [100000]" '' "../the project/lamp"
expect 0 'list [a.rom] [100000]' '' env PATH="$room/links:$PATH" second a.rom
expect 0 'list [lamp] [100000]' '' sh -c 'cd "$1" && ./lamp lamp' sh "$project"
expect 0 'list [lamp] [100000]' '' sh -c 'cd "$1" && sh lamp lamp' sh "$project"
expect 0 'list [a.rom] [100000]' '' sh -c 'cd / && "$1" a.rom' sh "$lamp"
proofs 1

# what a caller's shell may have set
mkdir "$room/odd"
for tool in find sort sha256sum readlink uname; do
    printf '#!/bin/sh\nexit 1\n' >"$room/odd/$tool"
    chmod 755 "$room/odd/$tool"
done
expect 0 'list [a.rom] [100000]' '' env CDPATH="$room:/:crates" "$lamp" a.rom
expect 0 'list [a.rom] [100000]' '' env IFS=/ae "$lamp" a.rom
expect 0 'list [a.rom] [100000]' '' env LC_ALL=xx_XX.UTF-8 LANG=yy "$lamp" a.rom
expect 0 'list [a.rom] [100000]' '' env PATH="$room/odd:$PATH" "$lamp" a.rom
expect 0 'list [a.rom] [100000]' '' env -u PATH "$lamp" a.rom
for closed in '<&-' '2>&-' '<&- 2>&-'; do
    expect 0 'list [a.rom] [100000]' '' sh -c "exec \"\$1\" a.rom $closed" sh "$lamp"
    expect 0 'scan [text] [100000] a.rom|' '' sh -c "exec \"\$1\" scan a.rom $closed" sh "$lamp"
done
holds 'where standard output is closed, it ends with 2' sh -c '"$1" a.rom >&-; [ "$?" -eq 2 ]' sh "$lamp"
proofs 1
fresh plain
expect 0 'list [a.rom] [100000]' '' sh -c 'exec "$1" a.rom <&- 2>&-' sh "$lamp"
fresh plain
expect 0 'list [a.rom] [100000]' "$progress" sh -c 'cd "$1" && exec env PATH=bin CDPATH=/ IFS=rt LC_ALL=xx "$2" a.rom' sh "$kit" "$lamp"

# by what is in the sources, not by their dates
touch -d '2001-01-01 00:00' "$code"
expect 0 'numbers' '' "$lamp" numbers
proofs 1
echo ' ' >>"$code"
expect 0 'numbers' "$progress" "$lamp" numbers
expect 0 'numbers' '' "$lamp" numbers
proofs 2
holds 'the program of the older sources is gone' [ "$(find "$project/target/lamp" -name program | wc -l)" -eq 1 ]
other_key() { [ "$("$lamp" --version)" != "$version" ]; }
same_key() { [ "$("$lamp" --version)" = "$version" ]; }
version=$("$lamp" --version)
echo note >"$project/crates/left/NOTE"
holds 'a file that is no source is not in the key' same_key
for changed in crates.txt crates/base/src/lib.rt crates/left/proofs/deep/Proof.antt; do
    cp "$project/$changed" "$room/kept"
    echo '# more' >>"$project/$changed"
    holds "$changed is in the key" other_key
    cp "$room/kept" "$project/$changed"
    holds "$changed is in the key by what is in it alone" same_key
done
echo spec >"$project/crates/aside/specs/New.antt"
holds 'a new file is in the key' other_key
mv "$project/crates/aside/specs/New.antt" "$project/crates/base/specs/New.antt"
version=$("$lamp" --version)
mv "$project/crates/base/specs/New.antt" "$project/crates/base/specs/Other.antt"
holds 'the name of a file is in the key' other_key
rm "$project/crates/base/specs/Other.antt"
ln -s "$room/kept" "$project/crates/base/specs/Linked.antt"
version=$("$lamp" --version)
echo more >>"$room/kept"
holds 'what a link leads to is in the key' other_key
rm "$project/crates/base/specs/Linked.antt"

# what is kept goes with the emulator where the kit has one
mkdir "$tools/bin"
printf '#!/bin/sh\necho emulated\nexec "$@"\n' >"$tools/bin/qemu-x86_64"
chmod 755 "$tools/bin/qemu-x86_64"
fresh plain
expect 0 'emulated
numbers' "$progress" "$lamp" numbers
rm -r "${tools:?}/bin"
expect 0 'emulated
numbers' '' without_kit "$lamp" numbers

# ---- a proof that does not end well

fresh refused
expect 2 '' "$two_steps
lamp: crate left is NOT PROVED, $seen" "$lamp" a.rom
holds 'the log has what was refused' grep -q 'lib.rt:1: error' "$project/target/lamp/log"
fresh killed
expect 2 '' "$two_steps
lamp: rt broke off at crate left with status 137 (killed, or out of memory?), $seen" "$lamp" a.rom
fresh broken
expect 2 '' "$two_steps
lamp: rt broke off at crate left with status 2 (killed, or out of memory?), $seen" "$lamp" a.rom
for mood in differs breaks; do
    fresh "$mood"
    expect 2 '' "$progress
lamp: each crate is proved, but the built program does not run as it should, $seen" "$lamp" a.rom
done
fresh unbuilt
expect 2 '' "$progress
lamp: rt has proved all and left no program in #/crates/lamp/out; remove #/crates/lamp/out and call again" "$lamp" a.rom
fresh changes
expect 2 '' "$progress
lamp: a source was changed while it was being proved, so this program is not used; call again" "$lamp" a.rom
holds 'nothing of it is kept' [ -z "$(find "$project/target/lamp" -name program)" ]
echo plain >"$kit/mood"
expect 0 'list [a.rom] [100000]' "$progress" "$lamp" a.rom
fresh plain
mv "$tools/lib" "$tools/away"
expect 2 '' "$progress
cp: cannot stat '$tools/lib/*.so*': No such file or directory
lamp: the program is proved and built, but cannot be kept in #/target/lamp" "$lamp" a.rom
mv "$tools/away" "$tools/lib"
holds 'no part of it is left' [ "$(cd "$project/target/lamp" && echo *)" = 'lock log ran said' ]
mv "$project/crates.txt" "$room/crates.txt"
unread='lamp: the sources of the program cannot all be read:'
expect 2 '' "$unread find: 'crates.txt': No such file or directory" "$lamp" a.rom
mv "$room/crates.txt" "$project/crates.txt"

# ---- calls at the same time

# begin NAME: a call that goes on while others are made; what it prints, says and returns is in the files NAME.*
begin() { (
    "$lamp" "$1.rom" >"$room/$1.out" 2>"$room/$1.err"
    echo "$?" >"$room/$1.ended"
) & }

waiting='lamp: another call is proving the sources; waiting for it'
fresh waits
begin one
holds 'the crate that is being proved is told while it is' wait_for 'crate 3 of 4: right' "$room/one.err"
holds 'one that is not being proved yet is not told' [ "$(grep -c 'crate 4' "$room/one.err")" -eq 0 ]
begin two
holds 'a second call says that it waits' wait_for 'waiting for it' "$room/two.err"
: >"$kit/go"
wait
expect 0 'list [one.rom] [100000]
0' '' cat "$room/one.out" "$room/one.ended"
expect 0 "list [two.rom] [100000]
0
$waiting" '' cat "$room/two.out" "$room/two.ended" "$room/two.err"
proofs 1

fresh once
begin one
holds 'the first call proves' wait_for 'crate 3 of 4: right' "$room/one.err"
begin two
holds 'the second call waits' wait_for 'waiting for it' "$room/two.err"
: >"$kit/go"
wait
expect 0 2 '' cat "$room/one.out" "$room/one.ended"
expect 0 "list [two.rom] [100000]
0
$waiting
$progress" '' cat "$room/two.out" "$room/two.ended" "$room/two.err"
proofs 2

# where a call is killed, rt goes on, and no second one is started beside it
fresh waits
"$lamp" one.rom >"$room/one.out" 2>"$room/one.err" &
first=$!
holds 'the call that will be killed proves' wait_for 'crate 3 of 4: right' "$room/one.err"
kill -KILL "$first"
begin two
holds 'a call waits for what a killed one left at work' wait_for 'waiting for it' "$room/two.err"
proofs 1
: >"$kit/go"
wait 2>/dev/null
expect 0 "list [two.rom] [100000]
0" '' cat "$room/two.out" "$room/two.ended"

# ---- one who may read and not write

reader() { setpriv --reuid=65534 --regid=65534 --clear-groups "$@"; }
if [ "$(id -u)" -eq 0 ] && reader test -x "$lamp" 2>/dev/null; then
    expect 0 'list [a.rom] [100000]' '' reader "$lamp" a.rom
    fresh plain
    expect 2 '' "$none, and you may not write one into #/target" reader "$lamp" a.rom
    mkdir -p "$project/target"
    expect 2 '' "$none, and you may not write one into #/target" reader "$lamp" a.rom
    proofs 0
    rmdir "$project/target"
    expect 0 'list [a.rom] [100000]' "$progress" sh -c 'umask 077 && exec "$1" a.rom' sh "$lamp"
    expect 0 'scan [csv] [7] a.rom|' '' reader "$lamp" scan --csv --budget 7 a.rom
    chmod 600 "$code"
    expect 2 '' "$unread sha256sum: crates/left/src/lib.rt: Permission denied" reader "$lamp" a.rom
    chmod 644 "$code"
    mkdir "$room/caller/shut"
    : >"$room/caller/shut/a.rom"
    chmod 700 "$room/caller/shut"
    expect 2 '' 'lamp: shut: this folder cannot be read' reader "$lamp" scan shut
    rm -r "$room/caller/shut"
else
    echo 'tests/door.sh: no other user can be had here, so one who may read and not write is not tested'
fi

# ---- the words that the program is handed

board=$project/crates/lamp/data/scale.rom
expect 0 "list [$board] [100000]" '' "$lamp"
expect 0 "list [$board] [100000]" '' "$lamp" --
expect 0 'list [../a b/c.rom] [100000]' '' "$lamp" '../a b/c.rom'
expect 0 'list [a.rom] [007]' '' "$lamp" a.rom 007
expect 0 'list [a.rom] [-1]' '' "$lamp" a.rom -1
expect 0 'list [a.rom] [many more]' '' "$lamp" a.rom 'many more'
expect 0 'list [-] [100000]' '' "$lamp" -
expect 0 'list [-] [7]' '' "$lamp" - 7
expect 0 'list [./-] [100000]' '' "$lamp" -- -
expect 0 'list [./--help] [-7]' '' "$lamp" -- --help -7
expect 0 'list [scan] [100000]' '' "$lamp" -- scan
expect 0 'list [a.rom] [7]' '' "$lamp" a.rom -- 7
expect 0 'list [./--] [100000]' '' "$lamp" -- --
expect 0 'explain [a.rom] [100000]' '' "$lamp" explain a.rom
expect 0 'explain [-] [7]' '' "$lamp" explain - 7
expect 0 'explain [./-x] [7]' '' "$lamp" explain -- -x 7
expect 0 'tokens [a.rom]' '' "$lamp" tokens a.rom
expect 0 'tokens [-]' '' "$lamp" tokens -
expect 0 'tokens [./-]' '' "$lamp" tokens -- -
expect 0 "tokens [$board]" '' "$lamp" --tokens
expect 0 "tokens [$board]" '' "$lamp" --tokens --
expect 0 'tokens [a.rom]' '' "$lamp" --tokens a.rom
expect 0 'tokens [-]' '' "$lamp" --tokens -
expect 0 'tokens [./-x]' '' "$lamp" --tokens -- -x
expect 0 'numbers' '' "$lamp" numbers
expect 0 'numbers' '' "$lamp" numbers --
expect 0 'list [$(a) `b` *
\n] [100000]' '' "$lamp" '$(a) `b` *
\n'

# ---- scan

(
    cd "$room/caller" || exit
    mkdir few few/deeper none ./-d 'a [b]*' many
    touch few/b few/B few/-x few/.hidden few/deeper/no 'few/a c' 'few/a
b' ./-d/x none/.hidden 'a [b]*/*' 'a [b]*/c\d'
    ln -s b few/link
    ln -s deeper few/folder
    ln -s nowhere few/broken
    for number in 0 1 2 3 4 5; do for digit in 0 1 2 3 4 5 6 7 8 9; do : >"many/$number$digit.rom"; done; done
)
all='few/-x|few/B|few/a
b|few/a c|few/b|few/link|'
expect 0 'scan [text] [100000] b|a|missing|' '' "$lamp" scan b a missing
expect 0 "scan [text] [100000] $all" '' "$lamp" scan few
expect 0 "scan [text] [100000] $all" '' "$lamp" scan few/
expect 0 "scan [text] [100000] $all" '' "$lamp" scan few//
expect 0 "scan [text] [100000] z|$all./-x|a|" '' env LC_ALL=en_US.UTF-8 "$lamp" scan z few ./-x a
expect 0 'scan [text] [100000] ./x|' '' sh -c 'cd ./-d && "$1" scan .' sh "$lamp"
expect 0 'scan [text] [100000] a [b]*/*|a [b]*/c\d|' '' "$lamp" scan 'a [b]*'
expect 0 'scan [text] [100000] ./-d/x|./-d/x|./--csv|./-|' '' "$lamp" scan -- -d -d/ --csv -
expect 0 'scan [text] [100000] -|./-|' '' "$lamp" scan - -- -
expect 0 'scan [csv] [5] a|b|c|' '' "$lamp" scan a --csv b --budget 5 c
expect 0 'scan [csv] [6] a|' '' "$lamp" scan --budget 5 --csv --budget=6 --csv a
expect 0 'scan [text] [--csv] a|' '' "$lamp" scan --budget --csv a
expect 0 'scan [text] [-1] a|' '' "$lamp" scan --budget -1 a
expect 0 'scan [text] [100000] scan|few/b|' '' "$lamp" scan scan few/b
expect 2 '' 'lamp: none/: no file in this folder' "$lamp" scan none/
expect 2 'scan [text] [100000] a|b|' 'lamp: none: no file in this folder' env ENDS=1 "$lamp" scan a none b
expect 3 'scan [text] [100000] a|' 'lamp: none: no file in this folder' env ENDS=3 "$lamp" scan none a
sixty=$(cd "$room/caller" && printf '%s|' many/*)
holds 'there are 60 dumps' [ "$(printf '%s' "$sixty" | tr -cd '|' | wc -c)" -eq 60 ]
expect 0 "scan [text] [100000] $sixty" '' "$lamp" scan many
expect 0 "scan [text] [100000] $sixty" '' sh -c 'exec "$1" scan many/*' sh "$lamp"
# some thousands, which are more than a pipe holds at once, and more than could be handed on as words of one command
(
    mkdir "$room/caller/thousands" && cd "$room/caller/thousands" || exit
    long=$(printf '%0200d' 0)
    seq -f "$long%05g" 1 12000 | xargs touch
)
counted() { "$lamp" scan thousands | tr -cd '|' | wc -c; }
expect 0 12000 '' counted
expect 1 'scan [text] [100000]' '' env --default-signal=PIPE SKIPS=yes ENDS=1 "$lamp" scan thousands
expect 1 'scan [text] [100000]' '' env --ignore-signal=PIPE SKIPS=yes ENDS=1 "$lamp" scan thousands

# ---- names that are no text: a link to such a file is handed on too, and gone when the door is shut

TMPDIR=$room/links.d
export TMPDIR
mkdir "$TMPDIR" "$room/caller/odd"
latin=$(printf 'caf\351.rom')
text=$(printf 'caf\303\251.rom')
echo latin >"$room/caller/odd/$latin"
: >"$room/caller/odd/$text"
linked() { "$@" | sed "s|$TMPDIR/[^/]*/|@|g"; }
expect 0 "list [odd/$latin] [100000] [@1]" '' linked "$lamp" "odd/$latin"
expect 0 "list [odd/$text] [100000]" '' linked "$lamp" "odd/$text"
expect 0 "explain [$room/caller/odd/$latin] [7] [@1]" '' linked "$lamp" explain "$room/caller/odd/$latin" 7
expect 0 "tokens [odd/$latin] [@1]" '' linked "$lamp" tokens "odd/$latin"
expect 0 "scan [text] [100000] odd/$text|odd/$latin|@1|" '' linked "$lamp" scan odd
expect 0 "scan [text] [100000] a|odd/$latin|@1|odd/$latin|@2|b|" '' linked "$lamp" scan a "odd/$latin" "odd/$latin" b
holds 'no link is left' rmdir "$TMPDIR"
unset TMPDIR

# ---- how it ends, and what streams through

for digit in 0 1 2 3; do
    expect "$digit" 'list [a] [100000]' '' env ENDS="$digit" "$lamp" a
    expect "$digit" 'tokens [a]' '' env ENDS="$digit" "$lamp" tokens a
    expect "$digit" 'scan [text] [100000] a|' '' env ENDS="$digit" "$lamp" scan a
done
for ends in 4 99 127; do
    expect 2 'list [a] [100000]' 'lamp: the program broke off' env ENDS="$ends" "$lamp" a
    expect 2 'scan [text] [100000] a|' 'lamp: the program broke off' env ENDS="$ends" "$lamp" scan a
done
expect 137 'list [a] [100000]' 'lamp: the program was killed by signal 9' env ENDS=killed "$lamp" a
expect 137 'scan [text] [100000] a|' 'lamp: the program was killed by signal 9' env ENDS=killed "$lamp" scan a

# a caller of this test may have it ignore the signal
piped() { env --default-signal=PIPE ENDS=flood sh -c '{ "$@"; echo "$?" >&2; } | head -n 1' sh "$lamp" "$@"; }
expect 0 'list [a] [100000]' 141 piped a
expect 0 'scan [text] [100000] a|' 141 piped scan a

expected() {
    printf 'list [a] [100000]\na\0b\377\n\n\nc'
    printf 'd\0e\n\nf' >&2
}
expected >"$room/out.meant" 2>"$room/err.meant"
ENDS=bytes "$lamp" a >"$room/out" 2>"$room/err"
holds 'standard output comes through byte for byte' cmp "$room/out" "$room/out.meant"
holds 'standard error comes through byte for byte' cmp "$room/err" "$room/err.meant"
expect 0 'list [-] [100000]
of the caller' '' sh -c 'echo of the caller | READS=yes "$1" -' sh "$lamp"
expect 0 'scan [text] [100000] a|-|
of the caller' '' sh -c 'echo of the caller | READS=yes "$1" scan a -' sh "$lamp"
open_in() { ENDS=open "$@" 4<&- 5<&- 6<&- 7<&- 8<&- 9<&-; }
expect 0 'list [a] [100000]' '' open_in "$lamp" a
expect 0 'scan [text] [100000] a|
4' '' open_in "$lamp" scan a
fresh plain
expect 0 'list [a] [100000]' "$progress" open_in "$lamp" a

# ---- what a call costs, over the sources of this project

(cd "$here" && tar -c --exclude=out crates.txt crates) | tar -x -C "$project"
echo 'the listing' >"$project/crates/lamp/stdout"
holds 'the sources of this project have a program' "$lamp" a
measure sh "$tools/lib/ld-linux-x86-64.so.2" --library-path "$tools/lib" "$kit/program" list a 100000
own=$took
measure "$lamp" a
echo "tests/door.sh: a call takes $((took * 10 / 100)) ms, of which its program has $((own * 10 / 100))"
# the mean of a busy machine says little about the door
holds "the quickest call takes at most 150 ms, and not $((best * 10))" [ "$best" -le 15 ]

printf 'tests/door.sh: %s as expected, %s not\n' "$passed" "$failed"
[ "$failed" = 0 ]
