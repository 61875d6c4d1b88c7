#!/usr/bin/env bash
# Measures calls of a turn beside a lock: thousands of calls a second of a counter by one seat and by four seats of four threads,
# and of a number under std's Mutex by one thread and by four, each the best of five runs. It is no part of the gate.
# CALLS says how many calls each thread makes.
cd "$(dirname "$0")/.." || exit 1
program="crates/count_calls/out/count_calls"
if [ ! -x "$program" ]; then
    echo "bench: skipped, since there is no $program"
    exit 0
fi
calls="${CALLS:-2000000}"

# The nanoseconds of the fastest of five runs, which count so many calls.
fastest() {
    local way="$1" counted="$2"
    for _ in 1 2 3 4 5; do
        local before after said
        before="$(date +%s%N)"
        said="$("$program" "$way" "$calls")"
        after="$(date +%s%N)"
        if [ "$said" != "$way $counted" ]; then
            echo "bench: $way counted wrongly: $said" >&2
            exit 1
        fi
        echo $((after - before))
    done | sort -n | head -n 1
}

printf '%-7s %12s %20s\n' way calls "thousands a second"
for way in seat seats lock locks; do
    counted="$calls"
    case "$way" in seats | locks) counted=$((calls * 4)) ;; esac
    time="$(fastest "$way" "$counted")" || exit 1
    printf '%-7s %12s %20s\n' "$way" "$counted" "$(awk -v n="$counted" -v t="$time" 'BEGIN { printf "%.0f", n * 1000000 / t }')"
done
