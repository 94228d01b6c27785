# shellcheck shell=bash disable=SC2154 # of run, which sources this
# Rows, each stepped once from the start: one worked by hand, the others by the first line of a trace of their vector alone.

by_hand() {
    # the latch starts as 1, and 6 is the And of it and the input
    printf 'aag 3 1 1 2 1\n2\n4 6 1\n6\n3\n6 4 2\n' >"$room/plan"
    printf '0\n1\nx\n' >"$room/vectors"
    printf '1 0 01 0\n1 1 10 1\n1 x xx x\n' >"$room/rows"
    accepts "$room/rows" rows "$room/plan" "$room/vectors"
    printf 'o0 1 1 1\no1 1 1 1\n' >"$room/rows"
    accepts "$room/rows" rows --count "$room/plan" "$room/vectors"
    accepts /dev/null rows "$room/plan" /dev/null
    printf 'o0 0 0 0\no1 0 0 0\n' >"$room/rows"
    accepts "$room/rows" rows --count "$room/plan" /dev/null
    printf '01\n' >"$room/vectors"
    refuses "refused 12 at 2" rows "$room/plan" "$room/vectors"
}

# More than two blocks of 64 and a part of one, so that no row is lost between them.
as_traces() {
    local plan k line
    for plan in examples/*.aag; do
        plan=${plan%.aag}
        for k in $(seq 40); do cat "$plan.vectors"; done | head -n 135 >"$room/vectors"
        while IFS= read -r line; do
            printf '%s\n' "$line" >"$room/one"
            $command trace "$plan.aig" "$room/one" >"$room/of.$line"
            cat "$room/of.$line"
        done <"$plan.vectors" >/dev/null
        while IFS= read -r line; do cat "$room/of.$line"; done <"$room/vectors" >"$room/rows"
        accepts "$room/rows" rows "$plan.aag" "$room/vectors"
        awk -F '[ ]' '
            { for (k = 1; k <= length($3); k++) n[k, substr($3, k, 1)]++; outputs = length($3) }
            END { for (k = 1; k <= outputs; k++) print "o" k - 1, n[k, "0"] + 0, n[k, "1"] + 0, n[k, "x"] + 0 }' \
            "$room/rows" >"$room/counts"
        accepts "$room/counts" rows --count "$plan.aig" "$room/vectors"
    done
}

# 300 vectors of 200,000 latches: a block of rows is held, not all of them. (The compiler's checks take more memory by far.)
in_blocks() {
    local lines
    { printf 'aag 200000 0 200000 0 0\n' && seq 2 2 400000 | sed 's/.*/& 1/'; } >"$room/latches"
    yes '' | head -n 300 >"$room/vectors"
    lines=$(ulimit -v 50000 && $plain rows "$room/latches" "$room/vectors" 2>&1 | uniq -c | cut -c 1-20 | tr -s ' ')
    holds "rows in a little memory: ${lines:0:100}" [ "$lines" = " 300 000000000000" ]
    rm "$room/latches"
}

by_hand
as_traces
[ -n "$emulator" ] || in_blocks
