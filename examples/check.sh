#!/bin/sh
# Fails where a run file isn't as its own comments expect, in some order of turns: sh check.sh FILE ..
status=0
for file in "$@"; do
    echo "# $file"
    ebpf check "$file" || status=1
done
exit $status
