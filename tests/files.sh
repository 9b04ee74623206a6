#!/usr/bin/env bash
# files.sh TOOL EXAMPLES FAULTS: what is left of files where a rename fails, where a signal comes, and where they are another owner's. FAULTS is
# tests/faults.c as a library.
set -euo pipefail
tool=$(realpath "$1") examples=$(realpath "$2") faults=$(realpath "$3")
work=$(mktemp -d)
trap 'rm -rf "$work"' EXIT
kept=$work/kept
mkdir "$work/in" "$kept"
cd "$work/in"
cp "$examples"/[FI].rule .
fails() { echo "files: $*"; exit 1; }
# nothing but what these names say is in the folder, hidden files included
only() { [ "$(LC_ALL=C ls -A | tr '\n' ' ')" = "F.rule I.rule $*${*:+ }" ] || fails "$(ls -A | tr '\n' ' ') are left, not $*"; }
# expect STATUS COMMAND..
expect() { local status=0; "${@:2}" > "$kept/said" 2>&1 || status=$?; [ $status = "$1" ] || fails "status $status, not $1, of ${*:2}: $(cat "$kept/said")"; }
build() { expect "$1" env "${@:3}" "$tool" build --codes=c --transitions=t "$2.rule"; }

# both files of `build` or neither, whatever fails: the table is that of the rule that was built before
build 0 F
mv c F.c; mv t F.t
build 0 I
mv c I.c; mv t I.t
cmp -s F.c I.c && fails 'the two tables do not differ'
mv ?.[ct] "$kept"
is_of() { cmp c "$kept/$1.c" && cmp t "$kept/$1.t" || fails "$2"; }
for fault in FAIL_RENAME=1-1 FAIL_RENAME=2-2 FAIL_RENAME=2-3 FAIL_RENAME=2-9; do
    for other in NONE= FAIL_LINK=1-1; do
        # where neither a link nor the way back can be had, nothing can be put back; that is told below
        case $fault$other in FAIL_RENAME=2-[39]FAIL_LINK*) continue ;; esac
        rm -f c t
        build 0 F
        chmod 640 c
        build 3 I LD_PRELOAD="$faults" "$fault" "$other"
        is_of F "$fault $other: the table is not the old one"
        only c t
        [ "$(stat -c %a c)" = 640 ] || fails "$fault $other: the rights are other ones"
        rm c t
        build 3 I LD_PRELOAD="$faults" FAIL_RENAME=2-2 "$other"
        only
        build 0 F LD_PRELOAD="$faults" "$other"
        build 0 I LD_PRELOAD="$faults" "$other"
        is_of I "$other: the table is not the new one"
        only c t
    done
done
# the worst: no second name, and nothing can be renamed back; no table of two rules is left, and what was there is told
rm -f c t
build 0 F
build 3 I LD_PRELOAD="$faults" FAIL_RENAME=3-9 FAIL_LINK=1-9
old=$(sed -n 's/^mulgreddi: c: what was there is now //p' "$kept/said")
[ -n "$old" ] && cmp "$old" "$kept/F.c" && cmp t "$kept/F.t" && [ ! -e c ] || fails "no way back: $(ls -A | tr '\n' ' ') $(cat "$kept/said")"
rm -f "$old" c t
# one file needs no way back
build 0 F
expect 3 env LD_PRELOAD="$faults" FAIL_RENAME=1-9 "$tool" build --codes=c I.rule
is_of F 'one file'
only c t

# a signal: while the second file waits for somebody to read it, the first stands beside its name. A shell tells by which signal a program
# ended (of some), and nothing where it ended by a status
mkfifo pipe
waits() { until compgen -G '.mulgreddi-*' > /dev/null; do kill -0 $1 || fails 'the program ended by itself'; sleep 0.02; done; }
# ends_by SIGNALS ENV..: runs the program by ENV.., sends it the signals, and leaves its status
ends_by()
{
    status=0
    "${@:2}" "$tool" build --codes=c --transitions=pipe I.rule &
    waits $!
    for signal in $1; do kill -$signal $!; done
    wait $! || status=$?
}
for signal in HUP INT QUIT TERM; do
    (ulimit -c 0; ends_by $signal env --default-signal=HUP,INT,QUIT,TERM; exit $status) 2> "$kept/said" && status=0 || status=$?
    [ $status = $((128 + $(kill -l $signal))) ] || fails "SIG$signal: status $status"
    [[ $signal == INT || $signal == TERM ]] || grep -qE 'Hangup|Quit' "$kept/said" || fails "SIG$signal did not end the program: $(cat "$kept/said")"
    cmp c "$kept/F.c"
    only c pipe t
done
# one that the caller has had ignored stays so
(ends_by 'HUP TERM' env --default-signal=TERM --ignore-signal=HUP; exit $status) 2> "$kept/said" && status=0 || status=$?
[ $status = 143 ] || fails "an ignored SIGHUP: status $status"
only c pipe t
rm pipe

# another owner's file that may be written: its group stays where the writer is in it, and no other group gets its rights
if [ "$(id -u)" = 0 ] && command -v setpriv > /dev/null; then
    chmod 755 "$work"
    mkdir folder
    chmod 777 folder
    by() { expect 0 setpriv --reuid=54321 --regid=54321 "$@" "$tool" hoa --out=folder/x F.rule; }
    echo old > folder/x
    chmod 666 folder/x
    # a container may lack these rights
    if { chown 0:65432 folder/x && setpriv --reuid=54321 --regid=54321 --clear-groups test -x "$tool" -a -w folder; } 2> /dev/null; then
        by --groups=65432
        [ "$(stat -c '%u:%g %a' folder/x)" = '54321:65432 666' ] || fails "the group was not kept: $(stat -c '%u:%g %a' folder/x)"
        chown 0:65432 folder/x
        chmod 662 folder/x
        by --clear-groups
        [ "$(stat -c '%u:%g %a' folder/x)" = '54321:54321 622' ] || fails "another group got rights: $(stat -c '%u:%g %a' folder/x)"
        [ "$(ls -A folder)" = x ] || fails "left beside it: $(ls -A folder)"
    fi
fi
echo 'files: whole pairs where a rename fails, nothing left by a signal, groups kept'
