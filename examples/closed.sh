#!/usr/bin/env bash
# Whether states, sorted lines of hex, have all that the CPUs' turns lead to from them: closed.sh FILE STATES
set -o pipefail
export LC_ALL=C
ebpf expand "$1" < "$2" | sed 's/^state \([0-9a-f]*\) by .*/\1/; /^report /d' | sort -u | comm -23 - "$2" > beyond
status=$?
test "$status" -eq 0 || { echo "status $status: nothing is known"; exit 1; }
test ! -s beyond || { echo "$(wc -l < beyond) lines are beyond"; exit 3; }
echo closed
