#!/usr/bin/env bash
# refusals.sh HEADER: each refusal of the header has a text.
set -euo pipefail
numbered=$(sed -nE 's/^    (MULGREDDI_[A-Z_]+) = [0-9]+,? .*/\1/p' "$1" | sort)
told=$(sed -nE 's/^    case (MULGREDDI_[A-Z_]+): return ".+";$/\1/p' "$1" | sort)
diff <(echo "$numbered") <(echo "$told") || { echo "$1: a refusal has no text, or a text no refusal"; exit 1; }
echo "refusals: $(wc -l <<< "$numbered"), each with its text"
