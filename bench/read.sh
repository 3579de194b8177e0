#!/bin/sh
# Reads C texts of 2^23 and 2^24 bytes by `mmc exec`, of which hardly any is run, and prints the
# times, their ratio, and the most memory that mmc held as a ratio to the text.
. "$(dirname "$0")/lib.sh"
for size in 8388608 16777216; do
    "$programs/text.py" $size >"$work/$size.c"
done
half=$(measure "$mmc" exec 8388608.c)
whole=$(measure "$mmc" exec 16777216.c)
tail -n 1 "$work/out" | grep -q '^result 0$' || { cat "$work/said"; exit 1; }
echo "2^23 bytes: $(seconds "$half") s; 2^24 bytes: $(seconds "$whole") s;" \
    "ratio: $(ratio "$(seconds "$half")" "$(seconds "$whole")")"
bytes=$(($(kilobytes "$whole") * 1024))
echo "most memory of the second: $(kilobytes "$whole") KB, $(ratio 16777216 $bytes) times the text"
