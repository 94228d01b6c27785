# shellcheck shell=bash disable=SC2034,SC2154 # of run, which sources this
# The plain engine beside the stepper: the lines of the paper, the limit of 24 gates, and an engine that is wrong.

# chain NUMBER: a plan in which so many gates, the last one first, are each the And of the one below and 1; it gives its input.
chain() {
    local k
    printf 'aag %d 1 0 1 %d\n2\n%d\n' $(($1 + 1)) "$1" $((2 * $1 + 2))
    for k in $(seq "$1" -1 1); do printf '%d %d 1\n' $((2 * k + 2)) $((2 * k)); done
}

# The four lines of the paper, whatever form the plan has and wherever it comes from.
paper_lines() {
    local form
    printf '0 11 01 1\n1 11 10 0\n0 x1 01 x\nx 10 xx 0\n' >"$room/lines"
    printf '11\n11\nx1\n10\n' >"$room/vectors"
    for form in aag aig; do
        accepts "$room/lines" plain "examples/toggle.$form" "$room/vectors"
        accepts "$room/lines" plain "examples/toggle.$form" <"$room/vectors"
        accepts "$room/lines" plain - "$room/vectors" <"examples/toggle.$form"
    done
    accepts /dev/null plain -o "$room/made" examples/toggle.aag "$room/vectors"
    holds "plain -o writes the lines" cmp -s "$room/made" "$room/lines"
    accepts /dev/null plain examples/toggle.aag /dev/null
    for form in examples/*.aag; do accepts "${form%.aag}.trace" plain "$form" "${form%.aag}.vectors"; done
    misuses "standard input can't be both files" plain - <examples/toggle.aag
    misuses "plain has no option --vcd" plain --vcd examples/toggle.aag "$room/vectors"
}

# 25 gates are refused before the vectors are looked at, by the header's A.
few_gates() {
    printf '0\n1\nx\n' >"$room/vectors"
    printf ' 0 0 \n 1 1 \n x x \n' >"$room/lines"
    chain 24 >"$room/few"
    chain 25 >"$room/many"
    accepts "$room/lines" plain "$room/few" "$room/vectors"
    accepts "$room/lines" trace "$room/many" "$room/vectors"
    says plain "$room/many" "$room/none" <<END
$room/many:1:14: refused 24 at 25: A is 25, and the plain engine takes 24 gates at most; "plan trace" takes any number
      1 | aag 26 1 0 1 25
        |              ^~
END
    $plain convert -o "$room/many.aig" "$room/many"
    refuses "many.aig:1:14: refused 24 at 25: A is 25" plain "$room/many.aig" "$room/none"
    # without inputs, latches and outputs too
    { printf 'aag 25 0 0 0 25\n' && seq 2 2 50 | sed 's/$/ 0 1/'; } >"$room/many"
    refuses "refused 24 at 25" plain "$room/many" /dev/null
    sed '$d; s/25 0 0 0 25/24 0 0 0 24/' "$room/many" >"$room/few"
    printf '\n' >"$room/vectors"
    printf '   \n' >"$room/lines"
    accepts "$room/lines" plain "$room/few" "$room/vectors"
}

# Vectors are refused in the words of trace.
wrong_vectors() {
    local vectors
    for vectors in '11\n1\n' '11\n12\n' '111\n' '11\n11' '11\r\n' '\n'; do
        # shellcheck disable=SC2059 # a format
        printf "$vectors" >"$room/vectors"
        try trace examples/toggle.aag "$room/vectors"
        cp "$room/error" "$room/trace-says"
        holds "trace refuses $vectors" grep -q ': refused [0-9]* at ' "$room/trace-says"
        says plain examples/toggle.aag "$room/vectors" <"$room/trace-says"
    done
    refuses "none: refused 14 at 0" plain examples/toggle.aag "$room/none"
    refuses "refused 8 at 1" plain tests/refused-08/two-gates.aag "$room/none"
}

# An engine that is wrong from its third step on, linked in the place of the plain one, is found out at that step.
wrong_engine() {
    local which
    build_over_desk plan-parted tests/plan/parted.c -g -O1 -Wl,--wrap=golvanzo_step_plain c/plan.c c/sentences.c command/*.c
    command="${emulator}target/desk/plan-parted"
    printf '0 11 01 1\n1 11 10 0\ndiffer\n' >"$room/lines"
    for which in state outputs answer; do
        export PARTS=$which
        try plain examples/toggle.aag examples/toggle.vectors
        expect "engines that part in the $which" 1 "$room/lines" ""
    done
    try plain -o "$room/made" examples/toggle.aag examples/toggle.vectors
    expect "engines that part, -o" 1 /dev/null ""
    holds "what engines that part write" cmp -s "$room/made" "$room/lines"
    accepts examples/toggle.trace trace examples/toggle.aag examples/toggle.vectors
    unset PARTS
    accepts examples/toggle.trace plain examples/toggle.aag examples/toggle.vectors
    command=$checked
}

paper_lines
few_gates
wrong_vectors
wrong_engine
