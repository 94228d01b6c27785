# shellcheck shell=bash disable=SC2154 # of run, which sources this
# The needle report: that of the paper's toggle worked by hand, and those of all examples counted from their traces, which are
# written by hand.

# counted TRACE: the report of a trace's lines, state, inputs, outputs and next state.
counted() {
    awk -F '[ ]' '
        function count(kind, text, k, v) {
            for (k = 1; k <= length(text); k++) {
                v = substr(text, k, 1)
                n[kind, k, v]++
                if (NR > 1 && last[kind, k] != v) n[kind, k, "changes"]++
                last[kind, k] = v
            }
        }
        function print_all(kind, number, k) {
            for (k = 1; k <= number; k++)
                print kind k - 1, n[kind, k, "0"] + 0, n[kind, k, "1"] + 0, n[kind, k, "x"] + 0, n[kind, k, "changes"] + 0
        }
        { count("o", $3); count("l", $1); outputs = length($3); latches = length($1) }
        END { print_all("o", outputs); print_all("l", latches) }' "$1"
}

reports() {
    local plan form
    printf 'o0 2 1 1 3\no1 1 2 1 3\nl0 2 1 1 3\n' >"$room/report"
    accepts "$room/report" report examples/toggle.aag examples/toggle.vectors
    printf 'o0 2 1 1 3 q\no1 1 2 1 3 not q\nl0 2 1 1 3 q\n' >"$room/report"
    accepts "$room/report" report --names examples/toggle.aag examples/toggle.vectors
    printf 'o0 0 0 0 0\no1 0 0 0 0\nl0 0 0 0 0\n' >"$room/report"
    accepts "$room/report" report examples/toggle.aag /dev/null
    for plan in examples/*.aag; do
        plan=${plan%.aag}
        counted "$plan.trace" >"$room/report"
        for form in aag aig; do
            accepts "$room/report" report "$plan.$form" "$plan.vectors"
        done
    done
}

# A list of 65,536 vectors is the longest; one more is 13.
longest() {
    printf 'aag 1 1 0 1 0\n2\n3\n' >"$room/plan"
    yes 0 | head -n 65536 >"$room/vectors"
    printf 'o0 0 65536 0 0\n' >"$room/report"
    accepts "$room/report" report "$room/plan" "$room/vectors"
    echo 0 >>"$room/vectors"
    refuses "vectors: refused 13 at 65536: there are 65537 vectors, and a report takes 65536 at most" report "$room/plan" "$room/vectors"
}

wrong_lists() {
    printf '11\n1\n' >"$room/vectors"
    refuses "refused 12 at 2" report examples/toggle.aag "$room/vectors"
    printf '11' >"$room/vectors"
    refuses "refused 1 at 2" report examples/toggle.aag "$room/vectors"
    misuses "plan report" report --count examples/toggle.aag
}

reports
longest
wrong_lists
