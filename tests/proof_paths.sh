#!/usr/bin/env bash
# proof_paths.sh: a proof names a place by its type and a fact by its record, and counts no steps (docs/CONTRIBUTING.md, "A function").
# A chain of .before stands only under a comment of its declaration that begins "-- a path" and says why (of a whole file at its head: "-- paths");
# a chain of three or more .0 and .1 nowhere.
set -euo pipefail
export LC_ALL=C.UTF-8
cd "$(dirname "$0")/.."
find crates -path '*/proofs/*' -not -path 'crates/*/out/*' -name '*.antt' -print0 | sort -z | xargs -0 awk '
    FNR == 1 { told = whole = 0 }
    FNR < 4 && /^-- paths/ { whole = 1 }
    /^[^ ]/ && !/^--/ && !/^[^ ]+ [^:]*=/ { told = above }     # a declaration begins: what stands above it, or in it, is told
    { above = 0 }
    /^ *-- a path/ { told = 1; above = 1; next }
    /\.before *\.before/ || /^ *\.before/ { if (told || whole) paths++; else { print FILENAME ":" FNR ": counts steps back: name the place by its type, or say why in a comment, -- a path .."; bad = 1 } }
    /\.[01] *\.[01] *\.[01]([^0-9]|$)/ { print FILENAME ":" FNR ": counts positions: take the fact by search, by omega from its record, or by a name"; bad = 1 }
    END {
        if (paths > 100) { print "paths by counting: " paths ", over 100"; bad = 1 }
        exit bad
    }' >&2
