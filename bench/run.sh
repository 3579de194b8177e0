#!/bin/sh
# Runs four C texts by `mmc exec`, and by a plain tree-walking interpreter of the same texts that
# gcc -O2 builds from interpreter.c, and prints both times and their ratio: a loop of 10^7 turns;
# fib(32), some 7 million calls; the primes below 20,000, sieved by a recursion over lists; a walk
# ten times along a list of 10^6 nodes. Prints then the most memory that mmc holds in a recursion
# 10^6 deep. Nothing is asserted but that both put the same.
. "$(dirname "$0")/lib.sh"
gcc -O2 -o "$work/interpreter" "$top/bench/interpreter.c"
ulimit -s unlimited || true
steps=1000000000
for name in loop fib sieve list; do
    plain=$(seconds "$(measure ./interpreter "$programs/$name.c")")
    cp "$work/out" "$work/wanted"
    ours=$(seconds "$(measure "$mmc" exec --steps $steps "$programs/$name.c")")
    sed '$d' "$work/out" | cmp - "$work/wanted"
    echo "$name: interpreter $plain s, mmc $ours s, ratio $(ratio "$plain" "$ours")" \
        "(puts $(cat "$work/wanted"))"
done
deep=$(measure "$mmc" exec --steps $steps "$programs/deep.c")
echo "a recursion 10^6 deep: most memory $(kilobytes "$deep") KB, $(seconds "$deep") s"
