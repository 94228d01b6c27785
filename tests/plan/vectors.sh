# shellcheck shell=bash disable=SC2154 # of run, which sources this
# Vectors: what is none is told why, and those of standard input are stepped as they come.

no_vectors() {
    printf '11\n\n11\n' >"$room/vectors"
    says trace examples/toggle.aag "$room/vectors" <<END
$room/vectors:2:1: refused 12 at 2: an empty line is no vector: a line has 2 values
      2 | 
        | ^
END
    printf '# both pressed\n11\n' >"$room/vectors"
    says rows examples/toggle.aag "$room/vectors" <<END
$room/vectors:1:1: refused 12 at 2: a comment is no vector: every line is a step, so that none may be left out
      1 | # both pressed
        | ^~~~~~~~~~~~~~
END
    refuses "vectors:1:1: refused 12 at 2: a comment is no vector" report examples/toggle.aag "$room/vectors"
    refuses "standard input:1:1: refused 12 at 2: a comment is no vector" trace examples/toggle.aag - <"$room/vectors"
    printf '11 # no\n' >"$room/vectors"
    refuses "vectors:1:3: refused 12 at 2: a space is no value: 0, 1 or x" witness examples/toggle.aag "$room/vectors"
    # without inputs every vector is an empty line
    printf 'aag 0 0 0 1 0\n1\n' >"$room/plan"
    printf '  1 \n  1 \n' >"$room/lines"
    accepts "$room/lines" trace "$room/plan" - < <(printf '\n\n')
    refuses "standard input:2:1: refused 12 at 2: 1 value, but the plan has 0 inputs" trace -o "$room/none" "$room/plan" - < <(printf '\n1\n')
}

# at_once WORD..: each line is answered before the next is written.
at_once() {
    local line answer
    # shellcheck disable=SC2086 # the words that start it
    coproc ASKED { timeout 60 $command "$@" examples/toggle.aag - 2>"$room/error"; }
    for line in 11 x1 00; do
        echo $line >&"${ASKED[1]}"
        IFS= read -r -t 50 answer <&"${ASKED[0]}"
        while [[ ${2-} == --vcd && $answer != \#* ]] && IFS= read -r -t 50 answer <&"${ASKED[0]}"; do :; done
        printf '%s\n' "$answer"
    done >"$room/answers"
    # shellcheck disable=SC1083,SC2093 # the descriptor is closed
    exec {ASKED[1]}>&-
    wait "$ASKED_PID"
}

streams() {
    local verb
    printf '11\nx1\n00\n' >"$room/vectors"
    for verb in trace plain rows; do
        at_once $verb
        $command $verb examples/toggle.aag "$room/vectors" >"$room/lines"
        holds "$verb at once" cmp -s "$room/lines" "$room/answers"
    done
    at_once trace --vcd
    holds "a waveform at once" [ "$(cat "$room/answers")" = $'#0\n#1\n#2' ]
}

# What comes before a wrong line is answered by then; with -o it is not, since a file is whole or not there.
wrong_streams() {
    local verb
    for verb in trace rows; do
        printf '11\n11\n1\n11\n' >"$room/vectors"
        $command $verb examples/toggle.aag <(printf '11\n11\n') >"$room/lines"
        try $verb examples/toggle.aag - <"$room/vectors"
        expect "$verb, a wrong line" 1 "$room/lines" "standard input:3:1: refused 12 at 2: 1 value, but the plan has 2 inputs"
        rm -f "$room/made"
        refuses "standard input:3:1: refused 12 at 2" $verb -o "$room/made" examples/toggle.aag - <"$room/vectors"
        holds "nothing is left of it" test ! -e "$room/made"
        try $verb examples/toggle.aag - < <(printf '11\n11\n1')
        expect "$verb, a last line without its end" 1 "$room/lines" "standard input:3:2: refused 1 at 7: a new line must stand here"
        refuses "standard input:1:1: refused 12 at 2: " $verb examples/toggle.aag - < <(yes 1 | tr -d '\n')
        refuses "standard input:1:1: refused 12 at 2: byte 00 is no value" $verb examples/toggle.aag - </dev/zero
        refuses "standard input: refused 14 at 0" $verb examples/toggle.aag - <&-
    done
}

# More than any buffer holds, and lines longer than one.
long_streams() {
    local verb
    yes "$(cat examples/selector.vectors)" | head -n 60000 >"$room/vectors"
    for verb in trace rows "trace --vcd"; do
        # shellcheck disable=SC2086 # a verb and its option
        {
            $plain $verb examples/selector.aag "$room/vectors" >"$room/lines"
            accepts "$room/lines" $verb examples/selector.aag - < <(cat "$room/vectors")
        }
    done
    { printf 'aag 100000 100000 0 1 0\n' && seq 2 2 200000 && echo 200001; } >"$room/plan"
    head -c 100000 /dev/zero | tr '\0' 1 >"$room/vector"
    for verb in trace rows; do
        { printf ' ' && cat "$room/vector" && printf ' 0 \n'; } >"$room/lines"
        accepts "$room/lines" $verb "$room/plan" - < <(cat "$room/vector" && echo)
        refuses "refused 12 at 2: 100001 values, but the plan has 100000 inputs" $verb "$room/plan" - < <(echo 1 | cat "$room/vector" -)
    done
}

# For people, on a terminal, a line says what the columns are.
headings() {
    local words heading
    need bsdutils script
    while IFS='|' read -r words heading; do
        script -qec "$command $words examples/toggle.aag examples/toggle.vectors" /dev/null </dev/null | tr -d '\r' >"$room/screen"
        # shellcheck disable=SC2086 # a verb and its option
        { echo "$heading" && $command $words examples/toggle.aag examples/toggle.vectors; } >"$room/lines"
        holds "$words on a terminal" cmp -s "$room/lines" "$room/screen"
    done <<'END'
report|which 0 1 x changes
report --names|which 0 1 x changes name
rows|state inputs outputs next
rows --count|which 0 1 x
END
    script -qec "$command report -o - examples/toggle.aag examples/toggle.vectors" /dev/null </dev/null | tr -d '\r' >"$room/screen"
    $command report examples/toggle.aag examples/toggle.vectors >"$room/lines"
    holds "no heading where -o - asks for the lines" cmp -s "$room/lines" "$room/screen"
}

no_vectors
streams
wrong_streams
long_streams
headings
