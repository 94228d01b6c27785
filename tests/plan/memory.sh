# shellcheck shell=bash disable=SC2034,SC2154 # of run, which sources this
# Under valgrind: the library's own reads, which the compiler's checks do not see. And the program of examples/.

valgrind_on_small() {
    need valgrind valgrind
    command="valgrind -q --error-exitcode=99 --leak-check=full target/desk/plan-plain"
    accepts examples/guard.aig convert examples/guard.aag
    accepts examples/guard.aag convert examples/guard.aig
    accepts examples/toggle.aig reduce examples/toggle.aag
    accepts examples/toggle.aig rewire examples/toggle.aig 0 2 6
    refuses "refused 22 at 9" rewire examples/guard.aig 9 0 0
    sed 's/$/\r/' examples/guard.aag >"$room/windows"
    try mend "$room/windows"
    expect "mend $room/windows" 0 examples/guard.aag "takes the CR off"
    printf 'aig 7 2 1 2 4\n14\n6\n7\n\2\4\3\4\1\2\2\10' >"$room/bare"
    accepts "$room/bare" strip examples/toggle.aig
    accepts examples/guard.trace trace examples/guard.aag - <examples/guard.vectors
    accepts examples/guard.trace trace examples/guard.aag examples/guard.vectors
    accepts examples/guard.trace plain examples/guard.aag examples/guard.vectors
    printf '%s\n' 'left needle (o0) is 1 at step 5, because' 'odd row (l0) is 1' 'left border (i0) is 1' >"$room/told"
    accepts "$room/told" explain --output 'left needle' --step 5 examples/selector.aag examples/selector.vectors
    refuses "refused 17 at 2" explain --output 1 --step 4 examples/selector.aag examples/selector.vectors
    echo same >"$room/same"
    accepts "$room/same" same examples/guard.aig tests/plan/same/guard.aag
    sed 's/^16$/1/' tests/plan/same/guard.aag >"$room/plan"
    printf '%s\n' different 'examples/guard.aag: output 0 ("needle") is literal 10, gate 0' \
        "$room/plan: output 0 (\"needle\") is constant 1" >"$room/told"
    try same examples/guard.aag "$room/plan"
    expect "same examples/guard.aag $room/plan" 1 "$room/told" ""
    misuses "refused 8 at 2" same examples/guard.aag tests/refused-08/above-a-cycle.aag
    try same examples
    holds "same of a folder" [ "$(cat "$room/status") $(tail -n 1 "$room/out" | cut -d ';' -f 1)" = "0 5 of 5 pairs are the same" ]
    try check examples tests/refused-10
    holds "check of folders" [ "$(cat "$room/status") $(grep -c 'refused 10 at' "$room/out") $(wc -c <"$room/error")" = "1 $(ls tests/refused-10/*.a?g | wc -l) 0" ]
    try reduce -o "$room/mirror" examples
    holds "reduce of a folder" [ "$(cat "$room/status") $(find "$room/mirror" -type f | wc -l)" = "2 5" ]
    printf 'no, 1 filling tried\nno output or bad state is 1, in filling 0:\nlifted (l1) starts as 0\nlift (i0) is 0 at step 0\n' >"$room/told"
    printf 'x1\n' >"$room/vectors"
    accepts "$room/told" witness examples/guard.aag "$room/vectors"
    printf 'lifted twice (b0) is 0 at step 2, because\nlifted (l1) is 0\n' >"$room/told"
    accepts "$room/told" explain --bad 0 --step 2 examples/guard.aag examples/guard.vectors
    try report --all --json examples/guard.aag examples/guard.vectors
    holds "report --all --json" [ "$(cat "$room/status") $(wc -l <"$room/out")" = "0 5" ]
    refuses "refused 12 at 2" trace --vcd examples/guard.aag examples/toggle.aag
    refuses "refused 10 at 23" witness tests/refused-10/second.aag
    refuses "refused 8 at 2" check tests/refused-08/above-a-cycle.aag
    refuses "refused 9 at 15" draw tests/refused-09/second-too-large.aig
    refuses "refused 1 at 13" words tests/refused-01/no-new-line.aag
    misuses "/dev/full: No space left on device" draw examples/guard.aag -o /dev/full
    command=$checked
}

# The same files as the command's.
own_program() {
    command=target/desk/reduce
    accepts examples/toggle.aig examples/toggle.aag
    { printf 'aig 6 3 0 2 3\n13\n13\n\4\2\4\3\1\2' && sed -n '/^i0/,$p' examples/drafted.aag; } >"$room/reduced"
    accepts "$room/reduced" examples/drafted.aag
    refuses "refused 8 at 1" tests/refused-08/two-gates.aag
    head -c 1048576 /dev/zero >"$room/plan"
    try "$room/plan"
    expect "a file that is longer than the room for it" 2 /dev/null ""
    $command examples/toggle.aag >/dev/full
    holds "an example to a full device" test 2 = $?
    command=$checked
}

if [ -z "$emulator" ]; then
    valgrind_on_small
    own_program
fi
