#!/usr/bin/env bash
# Times the reading of a DAG file of 65,536 JOB lines and 200,000 PARENT pairs beside `wc -w` on the same file. The last line of
# the file is no command, so that dagrun reads all of it, says so, and does nothing else.
. "$(dirname -- "${BASH_SOURCE[0]}")/common.sh"
awk 'BEGIN {
    for (i = 0; i < 65536; i++) print "JOB Node" i " folder/node" i ".sub"
    for (i = 0; i < 200000; i++) print "PARENT Node" (i % 65535) " CHILD Node" (i % 65535) + 1
    print "END"
}' >"$work/large.dag"
bytes=$(wc -c <"$work/large.dag")

for round in 1 2 3; do
    read_ms=$(milliseconds "$program" rehearse "$work/large.dag")
    words_ms=$(milliseconds wc -w "$work/large.dag")
    awk -v b="$bytes" -v r="$read_ms" -v w="$words_ms" \
        'BEGIN { printf "%.1f MB: dagrun reads it in %d ms (%.0f MB/s), wc -w in %d ms (%.0f MB/s)\n", b / 1e6, r, b / 1e3 / r, w, b / 1e3 / w }'
done
"$program" rehearse "$work/large.dag" || true
