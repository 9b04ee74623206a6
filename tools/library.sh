#!/usr/bin/env bash
# library.sh ARCHIVE: proves and compiles the static library, the crate mulgreddi. `rt ci` proves it and compiles nothing of it; the crates below it it leaves
# compiled. Where they still are as the sources say, mulgreddi alone is compiled over them: `rt lib`, which trusts no work of `rt ci`, would prove
# all of them once more. Otherwise `rt lib` makes it, over what earlier checks left.
set -euo pipefail
export LC_ALL=C
cd "$(dirname "$0")/.."
archive=$1 crate=mulgreddi

# the crates of the repository below one, and it, in the order of crates.txt, which has what a crate stands on above it
below=$(sed -E 's/#.*//; /:/!d; s/^([a-z0-9_]+)[^:]*:/\1/' crates.txt | awk -v wanted="$crate" '
    { row[++rows] = $1; needs[$1] = $0 }
    END {
        want[wanted] = 1
        for (i = rows; i > 0; i--) if (row[i] in want) { m = split(needs[row[i]], need, " "); for (j = 2; j <= m; j++) want[need[j]] = 1 }
        for (i = 1; i <= rows; i++) if (row[i] in want) print row[i]
    }')

# `rt ci` writes no stamp beside what it compiles, and what is older than a source is of another text
left_by_ci()
{
    local name made
    for name in $below; do
        made=crates/$name/out/rlib/$name.rlib
        if [ "$name" = "$crate" ]; then continue; fi
        [ -f "$made/format" ] && [ ! -e "crates/$name/out/rlib/stamp" ] || return 1
        [ -z "$(find crates.txt "crates/$name" -path "crates/$name/out" -prune -o -path "crates/$name/must-fail" -prune -o -newer "$made" -type f -print)" ] || return 1
    done
}

# as `rt lib` does it
compile()
{
    local kit name needed libraries=()
    kit=$(dirname "$(rt doc)")
    needed=" $(sed -nE "s/^$crate[^:]*://p" crates.txt) "
    for name in std $needed; do
        if [ -d "$kit/rlibs/$name.rlib" ]; then libraries+=(--extern "$name=$kit/rlibs/$name.rlib"); fi
    done
    libraries+=(-L "dependency=$kit/rlibs")
    for name in $below; do
        if [ "$name" = "$crate" ]; then continue; fi
        if [[ $needed == *" $name "* ]]; then libraries+=(--extern "$name=$PWD/crates/$name/out/rlib/$name.rlib"); fi
        libraries+=(-L "dependency=$PWD/crates/$name/out/rlib")
    done
    mkdir -p "crates/$crate/out"
    (cd "crates/$crate" && "$kit/bin/rattle" build --crate-name "$crate" src/lib.rt "${libraries[@]}" --antt-project "$kit/rattle/logic/antt-project.json" \
        --logic-built "$kit/logic_built" --crate-type staticlib --toolchain "$kit/toolchain" --backend llvm -o "out/lib$crate.a")
}

mkdir -p "$(dirname "$archive")"
if left_by_ci && compile; then :; else (cd "crates/$crate" && rt lib); fi
cp "crates/$crate/out/lib$crate.a" "$archive"
