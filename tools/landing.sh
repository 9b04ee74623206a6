#!/usr/bin/env bash
# The figures of a landing, for docs/LANDINGS.md: which crates are new, gone or changed from one commit to another, and how long the check took.
#   landing.sh BEFORE [AFTER]                clones both commits (AFTER: HEAD) and runs `rt all verdict` in each, which proves all from nothing, RT_JOBS
#                                            (default 2) crates at a time. The logs stay in build/log/landing. Nothing else should run meanwhile.
#   landing.sh --log LOG LOG [BEFORE AFTER]  reads two kept logs in place of running: those above, of `rt ci` (build/log/ci), or of the kit before, with
#                                            or without the time in front of each line. Which crates changed is known where the commits are given.
# A crate is changed if a file of it is, must-fail edits apart: `rt all verdict` does not try them. Only logs of the kit before have seconds of single
# crates, wall time beside RT_JOBS - 1 others, and of edits. No commit before the port is proved by today's kit, nor one after it by the kit before.
set -euo pipefail
shopt -s inherit_errexit
export LC_ALL=C
from=$PWD
cd "$(dirname "$0")/.."
logs=build/log/landing
stamp='([0-9]{2}:[0-9]{2}:[0-9]{2} )?'

usage() { sed -n '2,/^set/{/^#/s/^# \{0,1\}//p}' "$0" >&2; exit 2; }
# a path as the caller meant it
path() { case "$1" in /*) echo "$1" ;; *) echo "$from/$1" ;; esac; }
short() { git rev-parse --short --verify --quiet "$1^{commit}" || { echo "$1: no such commit" >&2; return 1; }; }

# Proves a commit from nothing in a clone of its own; what it says and what it took stand in its log, whose path is printed.
measure() {
    local commit=$1 log=$PWD/$logs/$1.log clone=$scratch/$1 status=0
    git clone --quiet --no-checkout . "$clone"
    git -C "$clone" checkout --quiet "$commit"
    {
        echo "landing: toolchain $(rt version), RT_JOBS=$RT_JOBS"
        echo "landing: load before $(cut -d ' ' -f 1 /proc/loadavg)"
    } > "$log"
    TIMEFORMAT='%R %U %S'
    { time (cd "$clone" && rt all verdict --jobs "$RT_JOBS" < /dev/null >> "$log" 2>&1) || status=$?; } 2> "$scratch/time"
    awk '{ printf "landing: wall %.0f s, CPU %.0f s\n", $1, $2 + $3 }' "$scratch/time" >> "$log"
    rm -rf "$clone"
    if [ "$status" != 0 ]; then
        echo "$commit is not proved (status $status); the end of $log:" >&2
        tail -n 12 "$log" | cut -c 1-300 >&2
        return 1
    fi
    echo "$log"
}

# Lines "name seconds" of the crates that a log has proved, or "name -" where it does not tell how long. What was proved twice counts as proved the
# second time. Today's logs name a crate in the summary of `rt all verdict`, or in a line of `rt ci`, which may have kept it from an earlier run.
crates_of() {
    sed -nE "s/^${stamp}rt: ([A-Za-z0-9_]+) proved \(([0-9]+) s\)$/\2 \3/p; s/^${stamp}rt: ([A-Za-z0-9_]+) (proved|is kept: .*)$/\2 -/p
        /^${stamp}== summary$/,\$s/^${stamp}([A-Za-z0-9_]+): ok$/\2 -/p" "$1" | awk '{ t[$1] = $2 } END { for (c in t) print c, t[c] }' | sort
}

# Crates, seconds, and what else the log tells: wall and CPU time, or the time between its first and its last line; edits.
total_of() {
    crates_of "$1" | awk '{ n++; t += $2; if ($2 != "-") told = 1 } END { printf "%d crates", n; if (told) printf ", %d s added up", t }'
    sed -nE 's/^landing: (wall .*)$/, \1/p' "$1" | tr -d '\n'
    awk '/^[0-9][0-9]:[0-9][0-9]:[0-9][0-9] / {
            s = substr($0, 1, 2) * 3600 + substr($0, 4, 2) * 60 + substr($0, 7, 2)
            if (!seen++) last = s
            gone += (s - last + 86400) % 86400
            last = s
        }
        END { if (seen) printf ", %d s from its first line to its last", gone }' "$1"
    sed -nE "s/^${stamp}rt: must-fail [^ ]+: refused, as it must be \((.*; )?([0-9]+) s\)$/\3/p" "$1" |
        awk '{ n++; t += $1 } END { if (n) printf ", %d edits refused in %d s added up", n, t }'
    sed -nE "s/^${stamp}rt: ok; .*must-fail edits: ([0-9]+ refused(, [0-9]+ bad)?).*$/, edits: \2/p" "$1" | tr -d '\n'
    sed -nE 's/^landing: (load before .*)$/, \1/p' "$1" | tr -d '\n'
    grep -qE "^${stamp}rt: ok[,;] |^${stamp}([0-9]+) of \3 crates ok$" "$1" || printf ', UNFINISHED: it has no closing line'
    echo
}

toolchain_of() {
    local told
    told=$(sed -n 's/^landing: toolchain //p' "$1")
    [ -n "$told" ] || told=$(sed -nE 's/.*[ =]sum=([0-9a-f]{16}).*/logic \1/p' "$1" | sort -u | paste -sd ' ')
    echo "${told:-not told}"
}

edits_at() { git ls-tree -r --name-only "$1" crates | grep -c '/must-fail/.*\.edit$' || true; }

# report LOG LOG [BEFORE AFTER]
report() {
    local a b log
    for log in "$1" "$2"; do
        [ -r "$log" ] || { echo "$log: cannot be read" >&2; exit 1; }
        [ -n "$(crates_of "$log")" ] || { echo "$log: no line tells that a crate is proved" >&2; exit 1; }
        if grep -E "^${stamp}(rt: FAILED:|[A-Za-z0-9_]+: failed \()" "$log" >&2; then echo "$log: not everything passed" >&2; exit 1; fi
    done
    a=$(toolchain_of "$1") b=$(toolchain_of "$2")
    if [ "$a" = "$b" ]; then echo "toolchain: $a"; else echo "toolchain: $a before, $b after, so the times are not to be compared"; fi
    echo "before${3:+ $3}: $(total_of "$1")"
    echo "after${4:+ $4}: $(total_of "$2")"
    if [ $# = 4 ]; then
        echo "must-fail edits: $(edits_at "$3") before, $(edits_at "$4") after"
        git diff --no-renames --name-only "$3" "$4" -- crates | grep -v '/must-fail/' | cut -d / -f 2 | sort -u > "$scratch/changed" || true
    else
        : > "$scratch/changed"
    fi
    crates_of "$1" > "$scratch/a"
    crates_of "$2" > "$scratch/b"
    awk -v told=$(($# == 4)) '
        function line(what, text, count, sum) {
            if (!count) printf "%s: none\n", what
            else if (seconds) printf "%s: %s (%d, %s s)\n", what, text, count, sum
            else printf "%s: %s (%d)\n", what, text, count
        }
        # the seconds of a crate, behind a blank, where its log tells them
        function took(t) { return t == "-" ? "" : " " t }
        FILENAME == ARGV[1] { changed[$1] = 1; next }
        FILENAME == ARGV[2] { a[$1] = $2; names[++n] = $1; next }
        { b[$1] = $2; if (!($1 in a)) names[++n] = $1; if ($2 != "-") seconds = 1 }
        END {
            for (i = 1; i <= n; i++) for (j = i; j > 1 && names[j] < names[j - 1]; j--) { t = names[j]; names[j] = names[j - 1]; names[j - 1] = t }
            for (i = 1; i <= n; i++) {
                c = names[i]
                if (!(c in a)) { new = new s1 c took(b[c]); s1 = ", "; n1++; t1 += b[c] }
                else if (!(c in b)) { gone = gone s2 c took(a[c]); s2 = ", "; n2++; t2 += a[c] }
                else if (!told || c in changed) { both = both s3 c (a[c] == "-" || b[c] == "-" ? "" : " " a[c] " → " b[c]); s3 = ", "; n3++; t3 += a[c]; t4 += b[c] }
            }
            line("new", new, n1, t1)
            line("gone", gone, n2, t2)
            line(told ? "changed" : "in both", both, n3, t3 " → " t4)
        }' "$scratch/changed" "$scratch/a" "$scratch/b"
}

[ $# -ge 1 ] || usage
scratch=$(mktemp -d)
trap 'rm -rf "$scratch"' EXIT
case "$1" in
--log)
    if [ $# = 5 ]; then
        before=$(short "$4")
        after=$(short "$5")
        report "$(path "$2")" "$(path "$3")" "$before" "$after"
    elif [ $# = 3 ]; then
        report "$(path "$2")" "$(path "$3")"
    else
        usage
    fi ;;
-*) usage ;;
*)
    [ $# -le 2 ] || usage
    export RT_JOBS=${RT_JOBS:-2}
    before=$(short "$1")
    after=$(short "${2:-HEAD}")
    mkdir -p "$logs"
    first=$(measure "$before")
    second=$(measure "$after")
    report "$first" "$second" "$before" "$after" ;;
esac
