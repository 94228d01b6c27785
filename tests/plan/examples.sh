# shellcheck shell=bash disable=SC2154 # of run, which sources this
# The verbs on examples/ and on small plans, against files written by hand.

convert_and_trace() {
    local plan form
    for plan in examples/*.aag; do
        plan=${plan%.aag}
        accepts "$plan.aig" convert "$plan.aag"
        for form in aag aig; do
            accepts "$plan.trace" trace "$plan.$form" "$plan.vectors"
        done
    done
    accepts examples/selector.aag convert examples/selector.aig
    printf 'aig 6 3 0 2 3\n13\n13\n\4\2\4\3\1\2' >"$room/reduced"
    sed -n '/^i0/,$p' examples/drafted.aag >>"$room/reduced"
    accepts "$room/reduced" reduce examples/drafted.aag
    accepts examples/toggle.aig reduce examples/toggle.aag
    accepts examples/toggle.aig drop examples/toggle.aag
    # gate 8 is used by nothing, gate 12 by gate 8 alone; the bad state, the constraint and the next state keep theirs
    printf 'aag 8 2 1 1 5 1 1\n2\n4\n6 14\n10\n14\n17\n8 12 3\n10 4 2\n12 5 3\n14 6 2\n16 10 7\nl0 row\n' >"$room/unused.aag"
    printf 'aig 6 2 1 1 3 1 1\n10\n8\n10\n13\n\4\2\4\4\4\1l0 row\n' >"$room/dropped"
    accepts "$room/dropped" drop "$room/unused.aag"
}

# The files beside the worked examples of the paper were written by hand too. The command converts binary to text.
worked_examples() {
    local plan
    for plan in tests/accepted/*.converts; do
        [ ! -f "${plan%.converts}.aag" ] || accepts "$plan" convert "${plan%.converts}.aag"
    done
    for plan in tests/accepted/*.reduces; do
        accepts "$plan" reduce "$(ls "${plan%.reduces}".a?g)"
    done
    for plan in tests/accepted/*.trace; do
        accepts "$plan" trace "$(ls "${plan%.trace}".a?g)" "${plan%.trace}.inputs"
    done
}

words_and_check() {
    local plan
    printf '1 inputs 2\n2 latches 2\n3 outputs 2\n4 gates 12\n5 scratch 34\n7 resets 1\n8 bads 0\n9 constraints 0\n' >"$room/words"
    accepts "$room/words" words examples/toggle.aag
    printf '1 inputs 2\n2 latches 4\n3 outputs 1\n4 gates 18\n5 scratch 47\n7 resets 2\n8 bads 1\n9 constraints 1\n' >"$room/words"
    accepts "$room/words" words examples/guard.aag
    for plan in tests/accepted/*.expected tests/refused-*/*.expected; do
        sed -n 's/^words \([0-9]\)/\1/p' "$plan" | tr ' ' '\n' >"$room/numbers"
        [ -s "$room/numbers" ] || continue
        printf '1 inputs\n2 latches\n3 outputs\n4 gates\n5 scratch\n7 resets\n8 bads\n9 constraints\n' |
            paste -d ' ' - "$room/numbers" >"$room/words"
        accepts "$room/words" words "$(ls "${plan%.expected}".a?g)"
    done
    printf 'text M 7 I 2 L 1 O 2 A 4 B 0 C 0\ninput 0 enable\ninput 1 run\nlatch 0 q\noutput 0 q\noutput 1 not q\n' >"$room/names"
    accepts "$room/names" check examples/toggle.aag
    printf 'aag 1 1 0 1 0 0 1\n2\n3\n2\no0 a\nc0 b c\ni0 \nc\nc0 no name\n' >"$room/plan"
    printf 'text M 1 I 1 L 0 O 1 A 0 B 0 C 1\ninput 0 \noutput 0 a\nconstraint 0 b c\n' >"$room/names"
    accepts "$room/names" check "$room/plan"
}

# answers WORD VECTORS THREE MORE MORE-THREE: by fillings, with their number, and in three values; what more is told of each.
answers() {
    printf '%s\n%s\n' "$1" "$4" >"$room/found"
    printf '%s' "$2" >"$room/vectors"
    accepts "$room/found" witness "$room/plan" "$room/vectors"
    printf '%s\n%s\n' "$3" "$5" >"$room/found"
    accepts "$room/found" witness --three "$room/plan" "$room/vectors"
}

# An And of two inputs; a latch that is bad when it is 1; an input and its negation, of which one is 1 whatever x is; the README's example; a
# latch that starts as x.
witnesses() {
    local list never="no output or bad state is 1"
    printf 'aag 3 2 0 1 1\n2\n4\n6\n6 2 4\n' >"$room/plan"
    answers "yes, 1 filling tried" $'01\n11\n' yes "o0 is 1 at step 1" "o0 is 1 at step 1"
    answers "no, 1 filling tried" $'01\n1x\n' no "$never, in filling 0:"$'\n'"i1 is 0 at step 1" "$never"
    answers "no, 1 filling tried" '' no "$never" "$never"
    printf 'aag 1 0 1 0 0 1 0\n2 3 0\n2\n' >"$room/plan"
    answers "yes, 1 filling tried" $'\n\n' yes "b0 is 1 at step 1" "b0 is 1 at step 1"
    answers "no, 1 filling tried" $'\n' no "$never" "$never"
    printf 'aag 1 1 0 2 0\n2\n2\n3\n' >"$room/plan"
    answers "yes, 2 fillings tried" $'x\n' no "o1 is 1 at step 0, where every x is 0" "$never"
    cp examples/selector.aag "$room/plan"
    answers "yes, 4 fillings tried" $'xx1\n' no "left needle (o0) is 1 at step 0, where every x is 0" "$never"
    printf 'aag 2 1 1 1 0\n2\n4 0 4\n5\nl0 row\n' >"$room/plan"
    answers "no, 2 fillings tried" $'x\n' no "$never, in filling 1:"$'\n'"row (l0) starts as 1"$'\n'"i0 is 0 at step 0" "$never"
    answers "yes, 8 fillings tried" $'x\nx\n' yes "o0 is 1 at step 1" "o0 is 1 at step 1"
    list=$(printf 'x\n%.0s' {1..20})$'\n'
    answers "yes, 1048576 fillings tried" "${list#$'x\n'}" yes "o0 is 1 at step 1" "o0 is 1 at step 1"
    printf '%s' "$list" >"$room/vectors"
    refuses "vectors: refused 20 at 21: resets and vectors have 21 x, of which 20 at most are filled; --three asks" \
        witness "$room/plan" "$room/vectors"
    printf 'yes\no0 is 1 at step 1\n' >"$room/found"
    accepts "$room/found" witness --three "$room/plan" "$room/vectors"
}

# Constraints: lifting and turning at once ends the run, before which nothing is 1; and what may be tried and written out.
witnesses_more() {
    printf 'no, 1 filling tried\nno turn while lifting (c0) is 0 at step 0, and no output or bad state is 1 before, in filling 0:\nlifted (l1) starts as 0\n' >"$room/found"
    printf '11\n10\n' >"$room/vectors"
    accepts "$room/found" witness examples/guard.aag "$room/vectors"
    printf 'no\nno turn while lifting (c0) is 0 at step 0, and no output or bad state is 1 before\n' >"$room/found"
    accepts "$room/found" witness --three examples/guard.aag "$room/vectors"
    # the latch is 1 at the first step in filling 1 and in every other one after it: the input is the second x
    printf 'aag 2 1 1 1 0\n2\n4 0 4\n5\n' >"$room/plan"
    printf 'x\nx\n' >"$room/vectors"
    printf 'undecided, 3 fillings tried\n' >"$room/found"
    accepts "$room/found" witness --allow 3 "$room/plan" "$room/vectors"
    printf 'undecided, 0 fillings tried\n' >"$room/found"
    accepts "$room/found" witness --allow 0 --list "$room/undecided" "$room/plan" "$room/vectors"
    holds "no list of what is undecided" test ! -e "$room/undecided"
    printf 'aag 2 2 0 1 0\n2\n4\n3\n' >"$room/plan"
    printf '1x\nxx\n' >"$room/vectors"
    printf 'no, 3 fillings tried\nno output or bad state is 1, in filling 2:\ni1 is 0 at step 0\ni0 is 1 at step 1\ni1 is 0 at step 1\n' >"$room/found"
    accepts "$room/found" witness --list "$room/list" "$room/plan" "$room/vectors"
    printf '10\n10\n' >"$room/expected"
    holds "the filling that fails as vectors" cmp -s "$room/list" "$room/expected"
    printf '0x\n' >"$room/vectors"
    printf 'yes, 2 fillings tried\no0 is 1 at step 0\n' >"$room/found"
    accepts "$room/found" witness --list "$room/list" "$room/plan" "$room/vectors"
    holds "a filling of a yes as vectors" test 00 = "$(cat "$room/list")"
    misuses '--allow takes a number of fillings, not "some"' witness --allow some "$room/plan" "$room/vectors"
    misuses "--three fills nothing" witness --three --allow 3 "$room/plan" "$room/vectors"
    misuses "--three fills nothing" witness --three --list "$room/list" "$room/plan" "$room/vectors"
    misuses "$room/none/list: No such file or directory" witness --list "$room/none/list" "$room/plan" "$room/vectors"
}

# A waveform and a drawing, whole.
pictures() {
    cat >"$room/plan" <<'END'
aag 4 2 1 2 1 1 0
2
4
6 3 6
8
0
7
8 2 5
i0 left "border"
l0 held
o0 back\slash
END
    cat >"$room/wave" <<'END'
$version Golvanzo $end
$timescale 1 ns $end
$scope module plan $end
$scope module inputs $end
$var wire 1 ! left_"border" $end
$var wire 1 " i1 $end
$upscope $end
$scope module latches $end
$var wire 1 # held $end
$upscope $end
$scope module outputs $end
$var wire 1 $ back\slash $end
$var wire 1 % o1 $end
$upscope $end
$upscope $end
$enddefinitions $end
#0
1!
0"
x#
1$
0%
#1
x!
0#
x$
#2
x#
END
    cat >"$room/drawing" <<'END'
digraph plan {
  rankdir=LR;
  node [fontname="Helvetica"];
  { rank=source;
  v1 [label="i0\nleft \"border\"", shape=box];
  v2 [label="i1", shape=box];
  v3 [label="l0\nheld\nstarts as x", shape=box, peripheries=2];
  }
  { rank=sink;
  o0 [label="o0\nback\\slash", shape=box, style=rounded];
  o1 [label="o1", shape=box, style=rounded];
  b0 [label="b0", shape=octagon, color=red];
  }
  v4 [label="8"];
  v1 -> v4;
  v2 -> v4 [style=dotted];
  v1 -> v3 [style=dotted, constraint=false];
  v4 -> o0;
  k0 [label="0", shape=plaintext];
  k0 -> o1;
  v3 -> b0 [style=dotted];
}
END
    printf '10\nx0\n' >"$room/vectors"
    accepts "$room/wave" trace --vcd "$room/plan" "$room/vectors"
    accepts "$room/drawing" draw "$room/plan"
}

# "-" is standard input, for the plan or for the vectors but not for both.
standard_input() {
    accepts examples/toggle.aig convert - <examples/toggle.aag
    accepts examples/toggle.aig convert -o - - < <(cat examples/toggle.aag)
    accepts examples/toggle.trace trace - examples/toggle.vectors <examples/toggle.aag
    accepts examples/toggle.trace trace examples/toggle.aag <examples/toggle.vectors
    accepts examples/toggle.trace trace examples/toggle.aag - <examples/toggle.vectors
    misuses "plan trace [-o OUT]" trace - <examples/toggle.aag
    misuses "plan witness [-o OUT]" witness - - <examples/toggle.aag
    cp examples/toggle.aag "$room/-o"
    (cd "$room" && PATH=$PATH "$OLDPWD/target/desk/plan" convert -- -o >out 2>error; echo $? >status)
    expect "convert -- -o" 0 examples/toggle.aig ""
}

usage() {
    local verb
    for verb in check convert reduce drop strip mend rewire trace plain explain witness report rows same file card draw words; do
        try "$verb" --help
        holds "$verb --help" grep -q "^plan $verb \[-o OUT\] " "$room/out"
        cp "$room/out" "$room/told"
        accepts "$room/told" help "$verb"
        accepts "$room/told" "$verb" -h sideways
        holds "help of $verb" grep -q "^  $verb " "$room/help"
        misuses "plan: a file is missing
plan $verb [-o OUT]" "$verb"
        misuses "plan: $verb has no option --sideways
plan $verb [-o OUT]" "$verb" --sideways examples/toggle.aag
        misuses "plan: after -o a word is missing
plan $verb [-o OUT]" "$verb" examples/toggle.aag -o
        misuses "plan: -o stands there twice
plan $verb [-o OUT]" "$verb" -o a -o b examples/toggle.aag
    done
    accepts "$room/help" -h
    accepts "$room/help" help
    misuses 'plan: there is no command "nosuch"' help nosuch
    misuses 'plan: there is no command "chek", but "check"' help chek
    $command --help >/dev/full 2>"$room/error"
    holds "help to a full device" [ "$? $(cat "$room/error")" = "2 plan: standard output: No space left on device" ]
}

# What is wrong is said, with what is near.
mistyped() {
    misuses 'plan: "examples/guard.aag" is one word too many' words examples/toggle.aag examples/guard.aag
    misuses 'plan: convert has no option --vcd' convert --vcd examples/toggle.aag
    misuses 'plan: trace has no option --vdc, but --vcd' trace --vdc examples/toggle.aag
    misuses 'plan: trace has no option --three' trace --three examples/toggle.aag
    misuses 'plan: after --step a word is missing' explain examples/toggle.aag --output 0 --step
    misuses 'plan: --output is missing' explain examples/toggle.aag --step 0
    misuses 'plan: standard input can'"'"'t be both files' trace - <examples/toggle.aag
    misuses 'plan: a gate and two right sides must follow the file' rewire examples/toggle.aig 1 2
    misuses 'plan: there is no command "sideways"
"plan --help" lists the commands.' sideways examples/toggle.aag
    misuses 'plan: there is no command "convrt", but "convert"' convrt examples/toggle.aag
    misuses 'plan: there is no command "fiel", but "file"' fiel examples/toggle.aag
    misuses 'plan: there is no command ""' ""
    misuses 'plan: there is no command "diff", but "same"' diff examples/toggle.aag examples/toggle.aig
    misuses 'plan: there is no command "sim", but "trace"' sim examples/toggle.aag
    misuses 'plan: there is no command "stats", but "check"' stats examples/toggle.aag
    misuses 'plan: there is no command "info", but "check"' info examples/toggle.aag
    misuses 'plan: there is no command "cat", but "convert"' cat examples/toggle.aag
    misuses 'plan: there is no command "nosuch"' help nosuch
    misuses 'plan: one thing is explained at a time' explain examples/guard.aag --step 0 --bad 0 --output 0
    misuses 'plan: "examples/toggle.aag" is no command, which comes before the file: "plan check examples/toggle.aag"' examples/toggle.aag
    misuses "  check "
}

convert_and_trace
worked_examples
words_and_check
witnesses
witnesses_more
pictures
standard_input
usage
mistyped
