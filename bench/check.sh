#!/bin/sh
# Checks and links units of 2^19 and 2^20 bytes, of functions and of variables, and prints the
# times, their ratios, those of `g++ -fsyntax-only` on the same units, and how many bytes of C a
# byte of the unit becomes.
. "$(dirname "$0")/lib.sh"
for kind in functions variables; do
    for size in 524288 1048576; do
        "$programs/unit.py" $kind $size >"$work/$size.cc"
    done
    for command in check link; do
        half=$(seconds "$(measure "$mmc" $command 524288.cc)")
        whole=$(seconds "$(measure "$mmc" $command 1048576.cc)")
        said=$(head -c 60 "$work/said")
        echo "$command of $kind: $half s, $whole s," \
            "ratio $(ratio "$half" "$whole")${said:+ ($said)}"
        if [ $command = check ]; then
            checked=$whole
        else
            bytes=$(wc -c <"$work/out")
            echo "  $(ratio "$checked" "$whole") times the check;" \
                "$(ratio 1048576 "$bytes") bytes of C a byte"
        fi
    done
    if command -v g++ >/dev/null; then
        other=$(seconds "$(measure g++ -std=c++98 -w -fsyntax-only 1048576.cc)")
        echo "  g++ -fsyntax-only: $other s; the check takes $(ratio "$other" "$checked") of that"
    fi
done
