#!/bin/bash
# Tries a wrong library for each class of the table of limits (wrong.c): the comparison has to fail on each of them.
# usage: compare/wrong.sh LIBRARY-FOLDER WORK-FOLDER [ENTRY ..]; not part of the gate
set -eu -o pipefail
cd "$(dirname "$0")"
lib=$(cd "$1" && pwd) work=$(mkdir -p "$2" && cd "$2" && pwd)
shift 2
names=$(grep -o '^[a-z0-9_]* mulgreddi_[a-z_]*(' wrong.c | sed 's/.* //; s/(//' | sort -u)
for name in $names; do echo "$name real_$name"; done > "$work/names"
objcopy --redefine-syms="$work/names" "$lib/libmulgreddi.a" "$work/libmulgreddi.a"
# the header's declarations, of the library under its other names
for name in $names; do echo "extern __typeof__($name) real_$name;"; done > "$work/wrong_names.h"
${CC:-cc} -O2 -std=gnu11 -Wall -Wextra -I../include -I"$work" -c wrong.c -o "$work/wrong.o"
ar rs "$work/libmulgreddi.a" "$work/wrong.o"
export MULGREDDI_LIB=$work CARGO_TARGET_DIR=$work/cargo WRONG_TABLE=$work/table
cargo build --release --offline --quiet
compare=$CARGO_TARGET_DIR/release/compare
"$compare" --limits > "$WRONG_TABLE"
[ $# -gt 0 ] || mapfile -t entries < <(cut -f 1 "$WRONG_TABLE" | sort -u)
[ $# -eq 0 ] || entries=("$@")
for entry in "${entries[@]}"; do
    WRONG_ENTRY=$entry "$compare" --only "$entry" 2>&1 > /dev/null
done | tee "$work/told"
wanted=$(for entry in "${entries[@]}"; do grep "^$entry"$'\t' "$WRONG_TABLE"; done | grep -vc $'\tnone\t')
told=$(grep -c '^told: ' "$work/told")
echo "wrong libraries told: $told of $wanted"
[ "$told" = "$wanted" ]
