# shellcheck shell=bash disable=SC2154 # of run, which sources this
# One gate rewired, against files written by hand.

rewired() {
    # 8 = 6 & 2 becomes 4 & 2, whichever comes first, and again what it was; 14 = 12 & 4 becomes 13 & 13
    sed -n '/^i0/,$p' examples/toggle.aag >"$room/tail"
    printf 'aig 7 2 1 2 4\n14\n6\n7\n\4\2\3\4\1\2\2\10' | cat - "$room/tail" >"$room/rewired"
    accepts "$room/rewired" rewire examples/toggle.aig 0 2 4
    accepts "$room/rewired" rewire examples/toggle.aig 0 4 2
    accepts examples/toggle.aig rewire "$room/rewired" 0 2 6
    accepts examples/toggle.aig rewire - 0 6 2 <"$room/rewired"
    printf 'aig 7 2 1 2 4\n14\n6\n7\n\2\4\3\4\1\2\1\0' | cat - "$room/tail" >"$room/rewired"
    accepts /dev/null rewire -o "$room/made" examples/toggle.aig 3 13 13
    holds "-o writes the rewired plan" cmp -s "$room/rewired" "$room/made"
    # text stays text, with its names, resets, bad state and constraint
    printf 'aag 4 2 1 1 1 1 1\n2\n4\n6 8 6\n8\n7\n3\n8 6 2\nl0 row\nc\nx\n' >"$room/plan"
    printf 'aag 4 2 1 1 1 1 1\n2\n4\n6 8 6\n8\n7\n3\n8 7 1\nl0 row\nc\nx\n' >"$room/rewired"
    accepts "$room/rewired" rewire "$room/plan" 0 1 7
}

not_rewired() {
    refuses "refused 22 at 4: there is no gate 4: gates count from 0, and A is 4" rewire examples/toggle.aig 4 99 99
    refuses "refused 22 at 18446744073709551615: " rewire examples/toggle.aig 18446744073709551615 0 0
    refuses "refused 5 at 4: right side 16 is above 2M + 1 = 15" rewire examples/toggle.aig 0 2 16
    refuses "refused 5 at 4: right side 4294967298 is above 2M + 1 = 15" rewire examples/toggle.aig 0 4294967298 2
    refuses "refused 15 at 0: right side 15 is not below 12, the left side of gate 2" rewire examples/toggle.aig 2 2 15
    refuses "refused 15 at 0: the plan is not in binary order: convert it first" rewire examples/toggle.aag 0 2 4
    # M is larger than what is defined
    printf 'aag 9 2 0 1 1\n2\n4\n6\n6 4 2\n' >"$room/plan"
    refuses "refused 15 at 0: the plan is not in binary order" rewire "$room/plan" 0 2 4
    refuses "refused 8 at 1" rewire tests/refused-08/two-gates.aag 0 0 0
    printf 'aag 0 0 0 0 0\n' >"$room/plan"
    refuses "refused 22 at 0" rewire "$room/plan" 0 0 0
    misuses '"four" is no number, input, latch or variable' rewire examples/toggle.aig 0 2 four
    misuses '"" is no number of a gate' rewire examples/toggle.aig "" 2 4
    misuses "plan rewire [-o OUT]" rewire examples/toggle.aig 0 2
    misuses "plan rewire [-o OUT]" rewire examples/toggle.aig 0 2 4 6
    misuses "plan rewire [-o OUT]" rewire examples/toggle.aig 0 -2 4
    $command rewire examples/toggle.aig 0 2 4 >/dev/full 2>"$room/error"
    echo $? >"$room/status"
    : >"$room/out"
    expect "rewire to a full device" 2 /dev/null "standard output: No space left on device"
}

rewired
not_rewired
