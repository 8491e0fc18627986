#!/bin/sh
# Runs the benchmark linked at eight places in memory, 16 bytes apart, and prints of each call how long it takes beside plain C: the geometric
# mean of the ratios, the least and the greatest. Where a loop stands decides up to a third on some processors, on both sides.
# Needs gcc on the PATH, and the archive that run.sh builds. places.sh [TURNS]: each place TURNS times, once where nothing is said.
set -eu
here=$(cd "$(dirname "$0")" && pwd)
root=$(dirname "$here")
built=$root/target/bench
turns=${1:-1}
objects=$built/places
mkdir -p "$objects"
cd "$here"
for source in benchmark*.c plain*.c; do
    gcc -std=gnu11 -O2 -Wall -Wextra -Werror -c "$source" -o "$objects/${source%.c}.o"
done
rm -f "$objects"/ratios
for place in 0 1 2 3 4 5 6 7; do
    printf '.text\n.skip %d, 0x90\n.section .note.GNU-stack,"",@progbits\n' $((16 * place + 16)) >"$objects/gap.s"
    gcc -c "$objects/gap.s" -o "$objects/gap.o"
    gcc "$objects"/benchmark*.o "$objects/gap.o" "$objects"/plain*.o "$root/target/bindings/libkoxirmeta.a" -o "$objects/benchmark"
    turn=0
    while [ "$turn" -lt "$turns" ]; do
        "$objects/benchmark" >>"$objects/ratios"
        turn=$((turn + 1))
    done
done
awk '
    NF >= 4 && $NF + 0 > 0 {
        name = $0
        sub(/ +[0-9.]+ +[0-9.]+ +[0-9.]+ *$/, "", name)
        if (!(name in count)) order[++rows] = name
        if (!(name in count) || $NF < least[name]) least[name] = $NF
        if ($NF > most[name]) most[name] = $NF
        count[name]++
        sum[name] += log($NF)
    }
    END {
        printf "%-18s%8s%8s%8s\n", "at eight places", "mean", "least", "most"
        for (k = 1; k <= rows; k++)
            printf "%-18s%8.2f%8.2f%8.2f\n", order[k], exp(sum[order[k]] / count[order[k]]), least[order[k]], most[order[k]]
    }' "$objects/ratios"
