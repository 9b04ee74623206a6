#!/usr/bin/env bash
# scratch.sh COMMAND..: runs a command with a new folder as TMPDIR, which is gone when it has ended, whatever the end. It stands in the caller's
# TMPDIR, where that is set; else in memory, where 2 GB are free for each check that runs at a time and programs may run; else in /tmp.
# What `rt ci` lays out for itself it links to what stands in the tree, which a folder in memory would have it copy: it runs without this.
set -euo pipefail
memory=/dev/shm

has_room()
{
    local needed=$((2000000 * $(nproc))) free available
    [ -d "$memory" ] && [ -w "$memory" ] || return 1
    free=$(df -Pk "$memory" | awk 'NR == 2 { print $4 }')
    available=$(awk '/^MemAvailable:/ { print $2 }' /proc/meminfo)
    [ "${free:-0}" -ge "$needed" ] && [ "${available:-0}" -ge "$needed" ]
}

programs_run()
{
    printf '#!/bin/sh\n' > "$1/probe"
    chmod 755 "$1/probe"
    "$1/probe" 2> /dev/null || { rm -f "$1/probe"; return 1; }
    rm -f "$1/probe"
}

# the tree's own name, so that what a killed call left can be told from what others have there
own=mulgreddi-$(id -u)-$(printf '%s' "$PWD" | cksum | cut -d' ' -f1)
take_in() { folder=$(mktemp -d "$1/$own.$$.XXXXXX"); chmod 755 "$folder"; }

folder=
trap 'if [ -n "$folder" ]; then rm -rf -- "$folder"; fi' EXIT
if [ -n "${TMPDIR:-}" ]; then
    take_in "$TMPDIR"
elif has_room; then
    for left in "$memory/$own".*; do
        caller=${left#"$memory/$own."}
        if [ -O "$left" ] && [ ! -L "$left" ] && ! kill -0 "${caller%%.*}" 2> /dev/null; then rm -rf -- "$left"; fi
    done
    take_in "$memory"
    if ! programs_run "$folder"; then
        rm -rf -- "$folder"
        take_in /tmp
    fi
else
    take_in /tmp
fi
TMPDIR=$folder "$@"
