#!/usr/bin/env bash
# quietly.sh LOG COMMAND..: runs a command with all of its output in the file LOG, and shows a line for each crate on standard error as it
# is proved. If the command fails, the end of the log is shown, and the command's status is answered.
set -uo pipefail
log=$1
shift
mkdir -p "$(dirname "$log")"
"$@" < /dev/null 2>&1 | tee "$log" | sed -un 's/^crate \([a-z0-9_]*\): modules .*/  \1 proved/; t keep; /^logic=proved /{x; /./p; s/.*//; x}; d; :keep; h' >&2
status=${PIPESTATUS[0]}
if [ "$status" != 0 ]; then
    tail -n 40 "$log" >&2
    echo "failed: $*; all of its output is in $log" >&2
fi
exit "$status"
