# shellcheck shell=bash disable=SC2154 # of run, which sources this
# The verb explain, against lines written by hand.

# The last step of the selector's trace is 1 110 10 0: an odd row in both borders, without pattern.
explanations() {
    local form
    printf 'left needle (o0) is 1 at step 5, because\nodd row (l0) is 1\nleft border (i0) is 1\n' >"$room/left"
    printf 'right needle (o1) is 0 at step 5, because\nodd row (l0) is 1\npattern (i2) is 0\n' >"$room/right"
    for form in aag aig; do
        accepts "$room/left" explain --output 0 --step 5 "examples/selector.$form" examples/selector.vectors
        accepts "$room/left" explain --output 'left needle' --step 5 "examples/selector.$form" examples/selector.vectors
        accepts "$room/right" explain "examples/selector.$form" --step 5 --output 1 <examples/selector.vectors
    done
    # the first step starts from the resets: the row that starts as 1 is to blame, and a constant blames nothing
    printf 'aag 2 1 1 2 0\n2\n4 2 1\n5\n1\n' >"$room/plan"
    printf '0\n1\n0\n' >"$room/vectors"
    printf 'o0 is 0 at step 0, because\nl0 is 1\n' >"$room/first"
    printf 'o0 is 1 at step 1, because\nl0 is 0\n' >"$room/second"
    printf 'o1 is 1 at step 2, whatever the inputs and latches are\n' >"$room/third"
    accepts "$room/first" explain --output 0 --step 0 "$room/plan" "$room/vectors"
    accepts "$room/second" explain --output 0 --step 1 "$room/plan" "$room/vectors"
    accepts "$room/third" explain --output 1 --step 2 "$room/plan" "$room/vectors"
    refuses '17 at 1: there is no output "2": the plan has 2, counted from 0' explain --output 2 --step 0 "$room/plan" "$room/vectors"
    refuses '17 at 1' explain --output 'left needle' --step 0 "$room/plan" "$room/vectors"
    refuses '17 at 1' explain --output 99999999999999999999 --step 0 "$room/plan" "$room/vectors"
    refuses '17 at 2: output "0" is x at step 4, and only 0 and 1 are explained' explain --output 0 --step 4 examples/selector.aag examples/selector.vectors
    misuses 'there is no step 3: there are 3 vectors' explain --output 0 --step 3 "$room/plan" "$room/vectors"
    misuses 'a step is a number' explain --output 0 --step first "$room/plan" "$room/vectors"
    misuses "plan explain [-o OUT]" explain --output 0 "$room/plan" "$room/vectors"
    misuses "plan explain [-o OUT]" explain --step 0 "$room/plan" "$room/vectors"
    misuses "plan explain [-o OUT]" explain --output 0 --step 0 - <"$room/plan"
    misuses "plan trace [-o OUT]" trace --step 0 examples/selector.aag examples/selector.vectors
}

explanations
