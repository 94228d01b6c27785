# shellcheck shell=bash disable=SC2154 # of run, which sources this
# Refusals: number and place are those beside the worked examples, and these are the sentences.

# A file of the room named "plan" with these bytes, as printf writes them.
plan() {
    # shellcheck disable=SC2059 # the bytes are given in a format
    printf "$1" >"$room/plan"
}

# Every refused example, but for those that are lent tables too short, which never happens here.
worked_refusals() {
    local plan
    for plan in tests/refused-*/*.a?g; do
        [[ $plan == tests/refused-04/* ]] && continue
        try check "$plan"
        expect "check $plan" 1 /dev/null ": $(head -n 1 "${plan%.a?g}.expected"): "
    done
}

in_lines() {
    plan 'aag 3 2 0 2 1\n2\n4\n6\n9\n6 2 4\ni0 x\no0 sum\no1 carry out\n'
    says check "$room/plan" <<END
$room/plan:5:1: refused 5 at 20: output 1 ("carry out") is literal 9, above 2M + 1 = 7
      5 | 9
        | ^
END
    plan 'aag 3 1 1 0 1\n2\n4 6\n4 2 2\ni0 x\nl0 held\n'
    says check "$room/plan" <<END
$room/plan:4:1: refused 6 at 20: variable 2 is defined a second time, by gate 0
      4 | 4 2 2
        | ^
$room/plan:3:1: note: it is defined first by latch 0 ("held")
      3 | 4 6
        | ^
END
    plan 'aag 9 1 0 1 2\n2\n12\n4 2 13\n6 13 12\no0 lamp\n'
    says check "$room/plan" <<END
$room/plan:3:1: refused 7 at 6: variable 6 is used as output 0 ("lamp"), but nothing defines it
      3 | 12
        | ^~
note: 2 more lines use it
END
    plan 'aag 5 1 0 0 4\n2\n10 4 2\n4 6 2\n6 3 9\n8 4 1\n'
    says check "$room/plan" <<END
$room/plan:3:1: refused 8 at 5: variable 5 depends on a gate that depends on itself
      3 | 10 4 2
        | ^~
$room/plan:4:3: note: variable 2 takes variable 3
      4 | 4 6 2
        |   ^
$room/plan:5:5: note: variable 3 takes variable 4
      5 | 6 3 9
        |     ^
$room/plan:6:3: note: variable 4 takes variable 2 again
      6 | 8 4 1
        |   ^
END
}

# As editors of other systems write them.
other_line_ends() {
    sed 's/$/\r/' examples/toggle.aag >"$room/plan"
    says check "$room/plan" <<END
$room/plan:1:14: refused 1 at 13: in the header a space or a new line must stand here, not a carriage return
      1 | aag 7 2 1 2 4.
        |              ^
note: lines end in CR LF here, as on Windows; a new line is LF alone: "plan mend $room/plan" takes the CR off
END
    plan 'aag 1 1 0 0 0\n2\r\n'
    refuses "plan:2:2: refused 1 at 15: in input 0 a new line must stand here, not a carriage return" check "$room/plan"
    plan 'aag 1 1 0 0 0\n2\t\n'
    refuses "plan:2:2: refused 1 at 15: in input 0 a new line must stand here, not a tab" check "$room/plan"
    plan 'aig 0 0 0 0 0\r\n'
    says check "$room/plan" <<END
$room/plan:1:14: refused 1 at 13: in the header a space or a new line must stand here, not a carriage return
      1 | aig 0 0 0 0 0.
        |              ^
note: lines end in CR LF here, as on Windows; a new line is LF alone: "plan mend $room/plan" takes the CR off
END
}

in_other_places() {
    plan 'aig 3 1 0 0 2\n\2\0\11\0'
    says check "$room/plan" <<END
$room/plan:byte 16: refused 9 at 16: the first difference of gate 1 (variable 3) is 9, above literal 6, which it is taken from
        | 02 00 09 00
        |       ^~
END
    plan 'aig 2 1 0 0 1\n\2\0i0 pedal\ni0 p\n'
    says check "$room/plan" <<END
$room/plan:byte 25: refused 10 at 25: input 0 is given a second name
        | i0 p
        | ^~
$room/plan:byte 16: note: it is named first here
        | i0 pedal
        | ^~
END
    plan 'aag 1 1 0 1 0\n2\n2\nc\nremark'
    says check "$room/plan" <<END
$room/plan:5:7: refused 1 at 26: in the symbols and comments a new line must stand here, not the end of the file
      5 | remark
        |       ^
note: the last line has no end: "plan mend $room/plan" puts a new line there
END
    plan 'aag 2 2 0 0 0\n2\n\33[31m\n'
    says check "$room/plan" <<END
$room/plan:3:1: refused 1 at 16: in input 1 a number must stand here, not byte 1B
      3 | .[31m
        | ^
END
}

# A binary file that ends before its gates has lines alone.
before_gates() {
    plan 'aig 3 1 0 1 2\n'
    says check "$room/plan" <<END
$room/plan:2:1: refused 1 at 14: in output 0 a number must stand here, not the end of the file
      2 | 
        | ^
END
    plan 'aig 3 1 0 1 2\n6'
    says check "$room/plan" <<END
$room/plan:2:2: refused 1 at 15: in output 0 a new line must stand here, not the end of the file
      2 | 6
        |  ^
END
    plan 'aig 3 1 0 1 2\n6\n'
    says check "$room/plan" <<END
$room/plan:3:1: refused 1 at 16: the file ends before the first difference of gate 0, and A is 2
      3 | 
        | ^
END
    plan 'aig 3 1 0 1 2\n6\n\2\202'
    says check "$room/plan" <<END
$room/plan:byte 18: refused 1 at 18: the file ends in the second difference of gate 0, and A is 2
        | 02 82
        |       ^~
END
}

# What is wrong has its everyday name.
everyday_names() {
    refuses "leading-zero.aag:1:6: refused 1 at 5: in the header a number has a leading zero" check tests/refused-01/leading-zero.aag
    plan 'aag 10 01 0 0 0\n'
    refuses "refused 1 at 8: in the header a number has a leading zero" check "$room/plan"
    plan 'aag 1 1 0 1 0\n2\n02\n'
    refuses "plan:3:2: refused 1 at 17: in output 0 a number has a leading zero" check "$room/plan"
    plan 'aag 1 1 0 1 0\n2\n2\ni00 a\n'
    refuses "plan:4:3: refused 1 at 20: in the symbols and comments a number has a leading zero" check "$room/plan"
    plan 'aag 100 1 0 1 0\n20 \n'
    refuses "refused 1 at 18: in input 0 a new line must stand here, not a space" check "$room/plan"
    plan 'aag 1 1 0 1 0\n\n2\n'
    refuses "plan:2:1: refused 1 at 14: in input 0 a number must stand here, but the line is empty" check "$room/plan"
    plan 'aag 1 1 0 1 0\n2\n2\n\n'
    refuses "plan:4:1: refused 1 at 18: in the symbols and comments \"i\", \"l\", \"o\", \"b\", \"c\" or the end of the file must stand here, but the line is empty" \
        check "$room/plan"
    plan 'aig 10 1 0 0 2\n'
    refuses "plan:1:5: refused 3 at 0: I + L + A = 1 + 0 + 2 = 3, but in binary form it must be M = 10" check "$room/plan"
    plan 'aag 1 1 0 0 2\n'
    refuses "refused 3 at 0: I + L + A = 1 + 0 + 2 = 3 is above M = 1" check "$room/plan"
}

# Lines and bytes of worked examples, those of AIGER 1.9 among them; a binary file has lines until its gates.
places() {
    refuses "no-new-line.aag:1:14: refused 1 at 13: " words tests/refused-01/no-new-line.aag
    refuses "too-many.aag:1:5: refused 3 at 0: " words tests/refused-03/too-many.aag
    refuses "b.aag:1:15: refused 2 at 14: B is 1048576" words tests/refused-02/b.aag
    refuses "justice.aag:1:19: refused 21 at 18: J is above 0" trace tests/refused-21/justice.aag /dev/null
    refuses "fairness.aag:1:21: refused 21 at 20: F is above 0" convert tests/refused-21/fairness.aag
    refuses "reset-of-another.aag:3:5: refused 5 at 22: the reset of latch 1 is 2" convert tests/refused-05/reset-of-another.aag
    refuses "constraint.aig:2:1: refused 5 at 18: constraint 0 is literal 2" convert tests/refused-05/constraint.aig
    refuses "second-constraint.aag:4:1: refused 10 at 25: constraint 0" convert tests/refused-10/second-constraint.aag
    refuses "after-a-bad-state.aig:byte 18: refused 9 at 18: " convert tests/refused-09/after-a-bad-state.aig
    refuses "below-output.aag:4:1: refused 7 at 2: variable 2 is used as constraint 0" convert tests/refused-07/constraint-below-output.aag
    plan 'aag 2 0 1 0 1 1 1\n2 2 2\n4\n5\n4 4 2\n'
    refuses "plan:5:1: refused 8 at 2: variable 2 depends on itself" convert "$room/plan"
}

# Those of the vectors come after those of the plan, and name their own file.
in_vectors() {
    printf '11\n1\n' >"$room/vectors"
    says trace examples/toggle.aag "$room/vectors" <<END
$room/vectors:2:1: refused 12 at 2: 1 value, but the plan has 2 inputs
      2 | 1
        | ^
END
    printf '11\n1y\n' >"$room/vectors"
    says witness examples/toggle.aag "$room/vectors" <<END
$room/vectors:2:2: refused 12 at 2: "y" is no value: 0, 1 or x
      2 | 1y
        |  ^
END
    printf '1y\n11' >"$room/vectors"
    says trace examples/toggle.aag "$room/vectors" <<END
$room/vectors:2:3: refused 1 at 5: a new line must stand here, not the end of the file
      2 | 11
        |   ^
END
    printf '11\r\n' >"$room/vectors"
    says rows examples/toggle.aag "$room/vectors" <<END
$room/vectors:1:3: refused 12 at 2: a carriage return is no value: 0, 1 or x
      1 | 11.
        |   ^
note: lines end in CR LF here, as on Windows; a new line is LF alone: "tr -d '\r'" takes the CR away
END
    refuses "output.aag:3:1: refused 5 at 16: " trace tests/refused-05/output.aag "$room/vectors"
    refuses "standard input:3:1: refused 5 at 16: " convert - <tests/refused-05/output.aag
}

# Nothing, and bytes that are no plan.
no_plans() {
    says check /dev/null <<END
/dev/null: refused 1 at 0: the file is empty; a plan starts with "aag " or "aig "
END
    plan '\0\0\0'
    says convert "$room/plan" <<END
$room/plan:1:1: refused 1 at 0: a file starts with "aag " or "aig "; here stands byte 00
      1 | ...
        | ^
END
}

# The first bytes and the header are judged before the rest is read: of a pipe that never ends, and of 4 GB without any on the disk.
first_bytes() {
    local before=$command
    command="timeout 60 $command"
    refuses "/dev/zero:1:1: refused 1 at 0: a file starts with" check /dev/zero
    refuses "refused 1 at 13: in the header" convert - < <(yes 'aag 0 0 0 0 0x')
    refuses "refused 2 at 4: M is 1048576" words - < <(yes 'aag 1048576 0 0 0 0')
    refuses "refused 3 at 0" trace - /dev/null < <(yes 'aag 1 1 1 0 0')
    refuses "refused 21 at 18" draw - < <(yes 'aag 0 0 0 0 0 0 0 1')
    refuses "/dev/zero:byte 22: refused 1 at 22: its counts ask for 22 bytes, it has more" file /dev/zero
    # a file's first bytes may come one by one
    accepts examples/toggle.aig convert - < <(for k in a a g; do printf %s $k; sleep 0.1; done; tail -c +4 examples/toggle.aag)
    refuses "refused 1 at 3: a file starts with" convert - < <(printf aag; sleep 0.1)
    command=$before
    truncate -s 4G "$room/holes"
    (ulimit -v 1000000 && $plain check "$room/holes" >"$room/out" 2>"$room/error"; echo $? >"$room/status")
    expect "4 GB" 1 /dev/null "holes:1:1: refused 1 at 0: a file starts with"
    rm "$room/holes"
}

# What can't be read: not there, a folder, closed, failing after it was opened.
unreadable() {
    says check "$room/none" <<END
$room/none: refused 14 at 0: it can't be read: No such file or directory
END
    refuses "$room: refused 14 at 0: " words "$room"
    refuses "none: refused 14 at 0: " trace examples/toggle.aag "$room/none"
    refuses "standard input: refused 14 at 0: " convert - <&-
    refuses "/proc/self/mem: refused 14 at 0: " reduce /proc/self/mem
}

# A terminal is shown colours, and nothing else is. Who is to type vectors is told so.
colours() {
    local line=$'\33[1m'
    need bsdutils script
    script -qec "$command check tests/refused-05/output.aag" /dev/null >"$room/screen" </dev/null
    holds "colours on a terminal" grep -qF "$line" "$room/screen"
    script -qec "NO_COLOR=1 $command check tests/refused-05/output.aag" /dev/null >"$room/screen" </dev/null
    holds "no colours where none are wanted" test 0 = "$(grep -cF $'\33' "$room/screen")"
    script -qec "NO_COLOR= $command check tests/refused-05/output.aag" /dev/null >"$room/screen" </dev/null
    holds "colours where NO_COLOR is empty" grep -qF "$line" "$room/screen"
    script -qec "TERM=dumb $command check tests/refused-05/output.aag" /dev/null >"$room/screen" </dev/null
    holds "no colours on a terminal that has none" test 0 = "$(grep -cF $'\33' "$room/screen")"
    printf '11\n\4' | script -qec "$command trace examples/toggle.aag" /dev/null >"$room/screen"
    holds "vectors from the keyboard" grep -q "vectors are read from the keyboard, a line of 2 values for each step; Ctrl-D ends" "$room/screen"
}

# The transcript of docs/REFUSALS.md: each line after "$ " is run, and what it says must stand there.
transcript() {
    local line
    sed -n '/^    \$ /,/^$/p' docs/REFUSALS.md | sed 's/^    //' >"$room/told"
    while read -r line; do
        echo "\$ ./plan $line"
        # shellcheck disable=SC2086 # the words of a line
        $command $line 2>&1
        echo
    done < <(sed -n 's/^\$ \.\/plan //p' "$room/told") >"$room/transcript"
    holds "docs/REFUSALS.md has eight refusals" test 8 = "$(grep -c '^\$ ' "$room/told")"
    holds "docs/REFUSALS.md has what the command says" diff "$room/told" "$room/transcript"
}

worked_refusals
in_lines
other_line_ends
in_other_places
before_gates
everyday_names
places
in_vectors
no_plans
first_bytes
unreadable
colours
transcript
