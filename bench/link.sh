#!/bin/sh
# Links units of 2^19 and 2^20 bytes, which are nearly all statements, and prints the times and
# their ratio.
. "$(dirname "$0")/lib.sh"
for size in 524288 1048576; do
    "$programs/unit.py" statements $size >"$work/$size.cc"
done
half=$(seconds "$(measure "$mmc" link 524288.cc)")
whole=$(seconds "$(measure "$mmc" link 1048576.cc)")
echo "2^19 bytes: $half s; 2^20 bytes: $whole s; ratio: $(ratio "$half" "$whole")"
