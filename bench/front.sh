#!/bin/sh
# Reads units of 2^19 and 2^20 bytes and prints, for each kind of text, the times, their ratio and
# what is said: of tokens alone, since the last byte is none; of statements with expressions; of
# functions; and of classes.
. "$(dirname "$0")/lib.sh"
for kind in tokens expressions bodies classes; do
    for size in 524288 1048576; do
        "$programs/unit.py" $kind $size >"$work/$size.cc"
    done
    half=$(seconds "$(measure "$mmc" link 524288.cc)")
    whole=$(seconds "$(measure "$mmc" link 1048576.cc)")
    echo "$kind: $half s, $whole s, ratio $(ratio "$half" "$whole") ($(cat "$work/said"))"
done
