#!/bin/sh
# Builds two graphs of 1,024 classes, nearly all with 256 subobjects: one whose paths are as long as
# they can be, and one with as many virtual bases as there can be. Prints for each the time to build
# it, the time for all compositions in its last class, and the most memory that the program held;
# and the same of 64 such graphs, built one after the other, of which the tables alone are kept.
. "$(dirname "$0")/lib.sh"
build_over graph mm_base mm_classes mm_class_table mm_paths
for what in long wide tables; do
    used=$(measure "$built" $what)
    echo "$what: $(cat "$work/out"); most memory: $(kilobytes "$used") KB"
done
