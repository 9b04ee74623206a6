#!/usr/bin/env bash
# listings.sh TOOL PROGRAM FILE..: `list` prints what the listing program prints, on files that fit the program's rooms.
set -euo pipefail
tool=$1 program=$2
shift 2
for file in "$@"; do
    diff <("$program" < "$file") <("$tool" list "$file" 2> /dev/null || [ $? = 2 ]) || { echo "$file: the listings differ"; exit 1; }
done
echo "listings: 'list' prints what the listing program prints, on $# files"
