#!/bin/sh
# Times proved programs beside the same loops in C++, each pair in one run on one processor.
#
#     bench/run.sh [FOLDER]    FOLDER has the built programs; without it rt proves and builds them first
cd "$(dirname "$0")/.." || exit 1
folder=$1
work=$(mktemp -d) || exit 1
trap 'rm -r "$work"' EXIT
last=$(($(nproc) - 1))

# Builds a proved program and its twin. The checksums of both are the same, or they have not done the same.
prepare() {
    program=$folder/$1
    if [ ! "$folder" ]; then
        (cd "crates/$1" && rt run >/dev/null) || exit 1
        program=crates/$1/out/$1
    fi
    g++ -O2 -o "$work/$2" "bench/$2.cpp" || exit 1
    [ "$("$program")" = "$("$work/$2")" ] || { echo "$1 and $2 print different sums"; exit 1; }
}

# The users of a value, each of 11 nodes and 23 bytes of texts.
users=454546

# Times a program on the value, and prints the bytes a node that it took at its peak beside the texts.
at_peak() {
    taskset -c "$last" /usr/bin/time -f %M -o "$work/peak" "$1" $users || exit 1
    tail -n 1 "$work/peak" \
        | awk -v n=$users '{ printf "    %.1f bytes a node at the peak\n", (1024 * $1 - 23 * n) / (11 * n + 1) }'
}

prepare bit_bench twin
for turn in 1 2; do
    taskset -c "$last" "$program" time || exit 1
    taskset -c "$last" "$work/twin" time || exit 1
done

prepare tree_bench tree_twin
for turn in 1 2; do
    at_peak "$program"
    at_peak "$work/tree_twin"
done

prepare pack_bench pack_twin
for turn in 1 2; do
    taskset -c "$last" "$program" time || exit 1
    taskset -c "$last" "$work/pack_twin" time || exit 1
done

prepare codec_bench codec_twin
for turn in 1 2; do
    for what in time items; do
        for one in "$program" "$work/codec_twin"; do
            taskset -c "$last" /usr/bin/time -f "    %M KB at the peak" "$one" $what || exit 1
        done
    done
done

prepare lookup_bench lookup_twin
for turn in 1 2; do
    taskset -c "$last" "$program" time || exit 1
    taskset -c "$last" "$work/lookup_twin" time || exit 1
done
