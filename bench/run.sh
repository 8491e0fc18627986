#!/bin/sh
# Builds the proved archive and, over it, the comparison and the benchmark, and runs them: run.sh [compare] [benchmark] [raster]
# Needs rt and gcc on the PATH. raster, which is run only where it is named, needs g++ and Debian's package libopencv-imgproc-dev.
set -eu
here=$(cd "$(dirname "$0")" && pwd)
root=$(dirname "$here")
built=$root/target/bench
warn='-Wall -Wextra -Werror'
mkdir -p "$built"
[ $# -gt 0 ] || set -- compare benchmark

sh "$root/bindings/archive.sh"
for program in "$@"; do
    case $program in
    compare) set -- gcc -std=gnu11 -O3 compare.c compare_octagons.c compare_pairs.c compare_triples.c compare_spectra.c compare_known_spectra.c compare_lengths.c compare_sheets.c compare_random_sheets.c compare_full_sheets.c compare_edges.c compare_tapes.c compare_trees.c compare_joins.c compare_full_joins.c compare_conversions.c compare_full_conversions.c inputs.c input_plots.c input_pairs.c input_spectra.c input_sheets.c input_trees.c input_joins.c cells.c walks.c search.c spectra.c splits.c sheets.c joins.c conversions.c listings.c tapes.c trees.c ;;
    benchmark) set -- gcc -std=gnu11 -O2 benchmark.c benchmark_octagons.c benchmark_folds.c benchmark_outlines.c benchmark_splits.c benchmark_surveys.c benchmark_spectra.c benchmark_sheets.c benchmark_joins.c benchmark_listing.c plain.c plain_folds.c plain_outlines.c plain_spectra.c plain_sheets.c plain_inserts.c plain_joins.c plain_conversions.c plain_tapes.c plain_clearances.c ;;
    raster)
        [ -d /usr/include/opencv4 ] || { echo "run.sh: raster needs Debian's package libopencv-imgproc-dev" >&2; exit 2; }
        set -- g++ -std=c++17 -O2 -isystem /usr/include/opencv4 raster.cpp -lopencv_imgproc -lopencv_core ;;
    *) echo "run.sh: no program $program" >&2; exit 2 ;;
    esac
    echo "run.sh: compiling and running $program"
    (cd "$here" && "$@" $warn -o "$built/$program" "$root/target/bindings/libkoxirmeta.a")
    "$built/$program"
done
