#!/usr/bin/env bash
# How many times a second threads enter and leave the lock of the crate bus_lock, beside a std::sync::Mutex in
# ordinary Rust on the same machine. "look" enters and leaves with nothing added; "add" adds an entry each time.
#
#   bench/bus_lock.sh [ROUNDS]      rounds of each thread, 1,000,000 if not given; each side runs three times, in
#                                   turns, and its best run counts
#
# It needs the toolchain's `rt`, and `rustc`. It proves the crate first, if that was not done.
set -eu
rounds=${1:-1000000}
here=$(cd "$(dirname "$0")" && pwd)
work=$(mktemp -d)
trap 'rm -rf "$work"' EXIT

rustc -O -o "$work/std_mutex" "$here/std_mutex.rs"
for _ in 1 2 3; do
    (cd "$here/../crates/bus_lock_bench" && rt run -- "$rounds") 2>/dev/null | grep -E '^(look|add) ' | sed 's/^/bus_lock /' >>"$work/runs"
    "$work/std_mutex" "$rounds" | sed 's/^/mutex /' >>"$work/runs"
done

awk '
    {
        key = $2 " " $3
        rate = $3 * $4 * 1000 / $5
        if (!(key in seen)) { seen[key] = 1; order[++count] = key }
        if (rate > best[$1, key]) best[$1, key] = rate
    }
    END {
        print "million pairs of enter and leave a second, all threads together"
        printf "%-6s %8s %12s %14s\n", "what", "threads", "bus_lock", "std::Mutex"
        for (i = 1; i <= count; i++) {
            split(order[i], part, " ")
            printf "%-6s %8d %12.2f %14.2f\n", part[1], part[2], best["bus_lock", order[i]], best["mutex", order[i]]
        }
    }' "$work/runs"
