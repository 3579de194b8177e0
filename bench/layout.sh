#!/bin/sh
# Lays out a graph of 1,024 classes, nearly all with 256 subobjects, looks up a name in its last
# class, and packs tables of 2^19 and 2^20 cells, and prints the times.
. "$(dirname "$0")/lib.sh"
build_over layout mm_base mm_classes mm_class_table mm_paths mm_layout mm_lookup mm_pack
measure "$built" >/dev/null
cat "$work/out"
