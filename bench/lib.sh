# What the scripts of bench/ share; each reads it first. Nothing is asserted by any of them but what
# they say themselves.
#
# $top is the repository, $programs the folder of what is measured, $work a folder for the while,
# and $mmc the program, which is built first where it isn't there (or the one that MMC names).
set -eu
top=$(cd "$(dirname "$0")/.." && pwd)
programs=$top/bench/programs
work=$(mktemp -d)
trap 'rm -rf "$work"' EXIT
mmc=${MMC:-$top/crates/mmc/out/mmc}
if [ "${MMC:-}" = "" ]; then "$top/mmc" check "$top/examples/sum.cc" >/dev/null; fi

# Runs a command in $work, whose output goes to `out` there and its messages to `said`; prints the
# processor seconds that it took, and the kilobytes that it held at most.
measure() { (cd "$work" && "$programs/measure.py" "$@"); }

# the seconds, and the kilobytes, of what `measure` printed
seconds() { echo "${1% *}"; }
kilobytes() { echo "${1#* }"; }

# how many times the first number the second one is
ratio() { awk -v a="$1" -v b="$2" 'BEGIN { printf "%.2f", b / a }'; }

# Proves and builds programs/NAME.rattle over these crates, in a folder of its own, as the program
# $built. It takes some minutes where nothing is kept of the crates.
build_over() {
    name=$1
    shift
    crate=$work/crates/${name}_bench
    mkdir -p "$crate/src"
    cp "$programs/$name.rattle" "$crate/src/main.rt"
    for below in "$@"; do
        mkdir "$work/crates/$below"
        for part in src specs proofs; do
            cp -r "$top/crates/$below/$part" "$work/crates/$below/"
        done
        grep "^$below:" "$top/crates.txt" >>"$work/crates.txt"
    done
    echo "${name}_bench: $* anyhow" >>"$work/crates.txt"
    git init -q "$work"
    (cd "$crate" && rt run >"$work/log" 2>&1) || { cat "$work/log"; exit 1; }
    built=$crate/out/${name}_bench
}
