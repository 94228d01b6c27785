# shellcheck shell=bash disable=SC2154 # of run, which sources this
# One way to name things: a position, a letter and a position, or a name; and bad states and constraints wherever values are shown.

# The guard's third step: the needle was lifted in the row before, and is not now.
named_entries() {
    local word
    printf 'needle (o0) is 0 at step 2, because\nright (l0) is 0\n' >"$room/said"
    for word in 0 o0 needle; do
        accepts "$room/said" explain --output "$word" --step 2 examples/guard.aag examples/guard.vectors
    done
    # at step 2 it is lifted, but was not before, and the carriage does not turn
    printf 'lifted twice (b0) is 0 at step 2, because\nlifted (l1) is 0\n' >"$room/said"
    for word in 0 b0 "lifted twice"; do
        accepts "$room/said" explain --bad "$word" --step 2 examples/guard.aag examples/guard.vectors
    done
    printf 'no turn while lifting (c0) is 1 at step 2, because\nturn (i1) is 0\n' >"$room/said"
    for word in 0 c0 "no turn while lifting"; do
        accepts "$room/said" explain --constraint "$word" --step 2 examples/guard.aag examples/guard.vectors
    done
    refuses '17 at 1: there is no bad state "b1": the plan has 1, counted from 0' explain --bad b1 --step 2 examples/guard.aag examples/guard.vectors
    refuses '17 at 1: there is no constraint "": the plan has 1' explain --constraint "" --step 2 examples/guard.aag examples/guard.vectors
    refuses '17 at 2: bad state "0" is x at step 0, and only 0 and 1 are explained' explain --bad 0 --step 0 examples/guard.aag examples/guard.vectors
    refuses 'note: l0 is latch 0; an output, a bad state or a constraint is explained, each by its own option' \
        explain --output l0 --step 2 examples/guard.aag examples/guard.vectors
    misuses '--step is missing' explain --bad 0 examples/guard.aag
    # a position comes before a name, a name that is no position is found
    printf 'aag 2 2 0 2 0\n2\n4\n2\n5\no0 o1\no1 7\n' >"$room/plan"
    printf '11\n' >"$room/vectors"
    printf '7 (o1) is 0 at step 0, because\ni1 is 1\n' >"$room/said"
    accepts "$room/said" explain --output o1 --step 0 "$room/plan" "$room/vectors"
    accepts "$room/said" explain --output 7 --step 0 "$room/plan" "$room/vectors"
}

# The first gate of toggle is 8 = 6 & 2, variable 4; it becomes 4 & 2, and 5 & 7.
rewired_by_names() {
    local sides
    sed -n '/^i0/,$p' examples/toggle.aag >"$room/tail"
    printf 'aig 7 2 1 2 4\n14\n6\n7\n\4\2\3\4\1\2\2\10' | cat - "$room/tail" >"$room/rewired"
    for sides in "2 4" "i0 i1" "run enable" "v1 v2" "run 2"; do
        # shellcheck disable=SC2086 # two words
        accepts "$room/rewired" rewire examples/toggle.aig v4 $sides
    done
    printf 'aig 7 2 1 2 4\n14\n6\n7\n\1\2\3\4\1\2\2\10' | cat - "$room/tail" >"$room/rewired"
    for sides in "5 7" "!i1 !l0" "!run !q" "!v3 !v2"; do
        # shellcheck disable=SC2086 # two words
        accepts "$room/rewired" rewire examples/toggle.aig 0 $sides
    done
    refuses "refused 15 at 0: right side v4 is not below 8, the left side of gate 0 (variable 4)" rewire examples/toggle.aig v4 v4 2
    refuses "refused 22 at 18446744073709551615: there is no gate v3: gates count from 0, and A is 4" rewire examples/toggle.aig v3 0 0
    refuses "refused 22 at 4: there is no gate v8" rewire examples/toggle.aig v8 0 0
    misuses '"!4" is no number, input, latch or variable' rewire examples/toggle.aig 0 !4 2
    misuses '"i2" is no number, input, latch or variable' rewire examples/toggle.aig 0 i2 2
    misuses '"v" is no number of a gate, and no variable as v7' rewire examples/toggle.aig v 0 0
}

# A latch that starts as x and is bad while it is 0, an input that must be 1; worked by hand.
all_values() {
    printf 'aag 2 1 1 1 0 2 1\n2\n4 2 4\n4\n5\n1\n2\nb0 low\nc0 held\n' >"$room/plan"
    printf '1\n0\nx\n' >"$room/vectors"
    printf 'x 1 x 1 x1 1\n1 0 1 0 01 0\n0 x 0 x 11 x\n' >"$room/lines"
    accepts "$room/lines" trace --all "$room/plan" "$room/vectors"
    printf 'o0 1 1 1 2\nl0 1 1 1 2\nb0 1 1 1 2 low\nb1 0 3 0 0\nc0 1 1 1 2 held\n' >"$room/lines"
    accepts "$room/lines" report --all --names "$room/plan" "$room/vectors"
    cat >"$room/wave" <<'END'
$version Golvanzo $end
$timescale 1 ns $end
$scope module plan $end
$scope module inputs $end
$var wire 1 ! i0 $end
$upscope $end
$scope module latches $end
$var wire 1 " l0 $end
$upscope $end
$scope module outputs $end
$var wire 1 # o0 $end
$upscope $end
$scope module bad_states $end
$var wire 1 $ low $end
$var wire 1 % b1 $end
$upscope $end
$scope module constraints $end
$var wire 1 & held $end
$upscope $end
$upscope $end
$enddefinitions $end
#0
1!
x"
x#
x$
1%
1&
#1
0!
1"
1#
0$
0&
#2
x!
0"
0#
1$
x&
#3
x"
END
    accepts "$room/wave" trace --vcd --all "$room/plan" "$room/vectors"
    # without bad states and constraints their places are empty
    printf '0 1  1  \n' >"$room/lines"
    printf 'aag 2 1 1 0 0\n2\n4 2\n' >"$room/plan"
    printf '1\n' >"$room/vectors"
    accepts "$room/lines" trace --all "$room/plan" "$room/vectors"
}

named_entries
rewired_by_names
all_values
