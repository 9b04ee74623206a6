#!/usr/bin/env bash
# shared.sh PROGRAM LIBRARY SONAME SYMBOLS HEADER: of the shared library the entries of the header are visible, and nothing else; its name for
# the loader is SONAME; PROGRAM (tests/shared.c) opens it and works with it. SYMBOLS is what `nm` prints of the archive.
set -euo pipefail
program=$1 library=$(realpath "$2") soname=$3 symbols=$4 header=$5
declared=$(sed -nE 's/^(mulgreddi_(answer|comparison)|uint32_t) (mulgreddi_[a-z_]+)\(.*/\3/p' "$header" | sort)
visible=$(nm -D --defined-only "$library" | awk '{ print $3 }' | sort)
diff <(echo "$declared") <(echo "$visible") || { echo "$library: visible are not the entries of $header"; exit 1; }
readelf -d "$library" | grep -qF "Library soname: [$soname]" || { echo "$library: the soname is not $soname"; exit 1; }
if readelf -d "$library" | grep -q TEXTREL; then echo "$library: its code is changed when it is loaded"; exit 1; fi
inside=$(awk '$2 ~ /^[Tt]$/ && $3 !~ /^mulgreddi_/ { print $3 }' "$symbols" | head -n 5)
$program "$library" $inside
echo "shared library: $soname, $(wc -l <<< "$declared") entries visible, opened and called"
