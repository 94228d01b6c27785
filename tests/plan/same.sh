# shellcheck shell=bash disable=SC2016,SC2154 # the dollars are for sed; of run, which sources this
# Whether two plans are the same. tests/plan/same has plans of examples/ in other numbers, worked by hand: every variable has
# another number (v becomes 9 - v in toggle and 13 - v in guard), every gate has its sides exchanged, and M is larger.

# differs FILE OTHER: they are different, as the room's file "said" has it, where A and B stand for the names of the files.
differs() {
    { echo different && sed "s|^A: |${1/#-/standard input}: |; s|^B: |${2/#-/standard input}: |" "$room/said"; } >"$room/expected"
    try same "$1" "$2"
    expect "same $1 $2" 1 "$room/expected" ""
}

# edited SCRIPT: guard in other numbers, edited by sed, differs from the guard of examples/ as standard input says.
edited() {
    sed "$1" tests/plan/same/guard.aag >"$room/edited"
    cat >"$room/said"
    differs examples/guard.aag "$room/edited"
}

# written BYTES OTHER: two files with these bytes, as printf writes them, differ as standard input says.
written() {
    # shellcheck disable=SC2059 # the bytes are given in a format
    printf "$1" >"$room/plan"
    # shellcheck disable=SC2059
    printf "$2" >"$room/edited"
    cat >"$room/said"
    differs "$room/plan" "$room/edited"
}

same_plans() {
    local plan
    echo same >"$room/same"
    for plan in toggle guard; do
        accepts "$room/same" same "examples/$plan.aag" "tests/plan/same/$plan.aag"
        accepts "$room/same" same "tests/plan/same/$plan.aag" "examples/$plan.aig"
        accepts "$room/same" same "examples/$plan.aig" "examples/$plan.aig"
    done
    for plan in tests/accepted/*.converts; do
        [ ! -f "${plan%.converts}.aag" ] || accepts "$room/same" same "$plan" "${plan%.converts}.aag"
    done
    accepts "$room/same" same - examples/toggle.aig <tests/plan/same/toggle.aag
    accepts "$room/same" same examples/toggle.aig - < <(cat tests/plan/same/toggle.aag)
    printf 'aag 1 0 1 1 0\n2 3\n2\n' >"$room/plan"
    printf 'aag 4 0 1 1 0 0 0\n8 9 0\n8\n' >"$room/edited"
    accepts "$room/same" same "$room/plan" "$room/edited"
}

# Gates in the order that conversion would give them are numbered the same, independent gates in another order are not.
orders_of_gates() {
    { sed '/^10 8/,$d' tests/plan/same/toggle.aag && printf '6 12 16\n4 13 17\n8 5 7\n10 8 14\n' &&
        sed -n '/^i0/,$p' tests/plan/same/toggle.aag; } >"$room/plan"
    accepts "$room/same" same examples/toggle.aag "$room/plan"
    edited '/^16 24 20$/{h;d}; /^14 24 18$/G' <<'END'
every output, next state, bad state and constraint takes the same gates: they stand in another order, or are used by nothing.
"same" can't see through that; "plan alike" asks whether two plans do the same
END
    # one gate more, which nothing uses, and one sign in it
    edited '1s/.*/aag 13 2 2 1 7 1 1/; /^6 11 9$/a 26 24 7' <<'END'
A: the number of gates is 6
B: the number of gates is 7
B: gate 6 (variable 11) takes literal 21, gate 5 negated, and literal 2, input 0 ("lift")
every output, next state, bad state and constraint takes the same gates: they stand in another order, or are used by nothing.
"same" can't see through that; "plan alike" asks whether two plans do the same
END
    # of the gates in another order one has another sign: the entries that take it are told, and no others
    edited '/^16 24 20$/{h;d}; /^14 24 18$/G; s/^12 24 22$/12 24 23/' <<'END'
both: constraint 0 ("no turn while lifting") is literal 15, gate 2 negated, which takes other gates
A: gate 2 (variable 7) takes literal 4, input 1 ("turn"), and literal 2, input 0 ("lift")
B: gate 2 (variable 7) takes literal 5, input 1 ("turn") negated, and literal 2, input 0 ("lift")
END
}

# All counts in the order of the header; M is not one of them. Lists that are as long in both are compared.
different_counts() {
    edited '1s/.*/aag 13 3 2 1 6 1 1/; /^22$/a 26' <<'END'
A: the number of inputs is 2
B: the number of inputs is 3
END
    edited '1s/.*/aag 13 2 3 1 6 1 1/; /^18 24 18$/a 26 26' <<'END'
A: the number of latches is 2
B: the number of latches is 3
END
    edited '1s/.*/aag 12 2 2 2 6 0 1/; /^b0/d' <<'END'
A: the number of outputs is 1
B: the number of outputs is 2
A: the number of bad states is 1
B: the number of bad states is 0
A: symbol 5 names bad state 0 "lifted twice"
B: symbol 5 names constraint 0 "no turn while lifting"
END
    edited '1s/.*/aag 12 2 2 1 5 1 1/; /^16 24 20$/d; s/^16$/0/' <<'END'
A: the number of gates is 6
B: the number of gates is 5
A: output 0 ("needle") is literal 10, gate 0
B: output 0 ("needle") is constant 0
A: gate 0 (variable 5) takes literal 6, latch 0 ("right"), and literal 2, input 0 ("lift")
END
    edited '1s/.*/aag 12 2 2 1 6 0 1/; /^14$/d; /^b0/d' <<'END'
A: the number of bad states is 1
B: the number of bad states is 0
A: symbol 5 names bad state 0 "lifted twice"
B: symbol 5 names constraint 0 "no turn while lifting"
END
    edited '1s/.*/aag 12 2 2 1 6 1 2/; /^13$/a 1' <<'END'
A: the number of constraints is 1
B: the number of constraints is 2
END
}

different_latches() {
    edited 's/^20 7 1$/20 6 1/' <<'END'
A: the next state of latch 0 ("right") is literal 21, gate 5 negated
B: the next state of latch 0 ("right") is literal 20, gate 5
END
    edited 's/^18 24 18$/18 25 18/; s/^i0 .*/i0 up/; s/^16$/17/' <<'END'
A: the next state of latch 1 ("lifted") is literal 2, input 0 ("lift")
B: the next state of latch 1 ("lifted") is literal 3, input 0 ("up") negated
A: output 0 ("needle") is literal 10, gate 0
B: output 0 ("needle") is literal 11, gate 0 negated
A: symbol 0 names input 0 "lift"
B: symbol 0 names input 0 "up"
END
    edited 's/^20 7 1$/20 7/; s/^18 24 18$/18 25 18/' <<'END'
A: the next state of latch 1 ("lifted") is literal 2, input 0 ("lift")
B: the next state of latch 1 ("lifted") is literal 3, input 0 ("lift") negated
A: the reset of latch 0 ("right") is 1
B: the reset of latch 0 ("right") is 0
END
    edited 's/^18 24 18$/18 24 1/; /^l1/d' <<'END'
A: the reset of latch 1 ("lifted") is x
B: the reset of latch 1 is 1
A: symbol 3 names latch 1 "lifted"
B: symbol 3 names output 0 "needle"
END
    edited 's/^20 7 1$/20 7 20/; s/^18 24 18$/18 24/' <<'END'
A: the reset of latch 0 ("right") is 1
B: the reset of latch 0 ("right") is x
A: the reset of latch 1 ("lifted") is x
B: the reset of latch 1 ("lifted") is 0
END
}

different_literals() {
    edited 's/^16$/0/; s/^o0 .*/o0 pen/' <<'END'
A: output 0 ("needle") is literal 10, gate 0
B: output 0 ("pen") is constant 0
A: symbol 4 names output 0 "needle"
B: symbol 4 names output 0 "pen"
END
    edited 's/^14$/21/; s/^13$/12/' <<'END'
A: bad state 0 ("lifted twice") is literal 12, gate 1
B: bad state 0 ("lifted twice") is literal 7, latch 0 ("right") negated
A: constraint 0 ("no turn while lifting") is literal 15, gate 2 negated
B: constraint 0 ("no turn while lifting") is literal 14, gate 2
END
    edited 's/^13$/22/; s/^12 24 22$/12 1 22/' <<'END'
A: constraint 0 ("no turn while lifting") is literal 15, gate 2 negated
B: constraint 0 ("no turn while lifting") is literal 4, input 1 ("turn")
A: gate 2 (variable 7) takes literal 4, input 1 ("turn"), and literal 2, input 0 ("lift")
B: gate 2 (variable 7) takes literal 4, input 1 ("turn"), and constant 1
END
    edited 's/^12 24 22$/12 24 23/; s/^8 22 21/8 22 20/' <<'END'
both: the next state of latch 0 ("right") is literal 21, gate 5 negated, which takes other gates
both: constraint 0 ("no turn while lifting") is literal 15, gate 2 negated, which takes other gates
A: gate 2 (variable 7) takes literal 4, input 1 ("turn"), and literal 2, input 0 ("lift"); it is the first of 3 gates that only this plan has
B: gate 2 (variable 7) takes literal 5, input 1 ("turn") negated, and literal 2, input 0 ("lift"); it is the first of 3 gates that only this plan has
END
    edited 's/^6 11 9$/6 11 1/; s/^l0 .*/l0 left/' <<'END'
both: the next state of latch 0 ("right") is literal 21, gate 5 negated, which takes other gates
A: gate 5 (variable 10) takes literal 19, gate 4 negated, and literal 17, gate 3 negated
B: gate 5 (variable 10) takes literal 17, gate 3 negated, and constant 1
A: symbol 2 names latch 0 "right"
B: symbol 2 names latch 0 "left"
END
}

different_symbols() {
    edited 's/^l1 lifted/l1 raised/' <<'END'
A: symbol 3 names latch 1 "lifted"
B: symbol 3 names latch 1 "raised"
the plans are the same but for names and comments, which --plan leaves out
END
    edited '/^b0/{h;d}; /^c0/G' <<'END'
A: symbol 5 names bad state 0 "lifted twice"
B: symbol 5 names constraint 0 "no turn while lifting"
the plans are the same but for names and comments, which --plan leaves out
END
    edited '/^c0/d' <<'END'
A: symbol 6 names constraint 0 "no turn while lifting"
B: there is no symbol 6, but a comment
the plans are the same but for names and comments, which --plan leaves out
END
    edited '/^i0/,$d' <<'END'
A: symbol 0 names input 0 "lift"
B: there is no symbol 0, and no comment
the plans are the same but for names and comments, which --plan leaves out
END
}

different_comments() {
    edited '/^c$/,$d' <<'END'
A: there is no symbol 7, but a comment
B: there is no symbol 7, and no comment
the plans are the same but for names and comments, which --plan leaves out
END
    edited 's/ is not known/ is known/' <<'END'
A: line 1 of the comment has "n" at column 96: "...s lifted in the row before the first is not known."
B: line 1 of the comment has "k" at column 96: "...s lifted in the row before the first is known."
the plans are the same but for names and comments, which --plan leaves out
END
    written 'aag 0 0 0 0 0\nc\ni0 a\n\n' 'aag 0 0 0 0 0\nc\ni0 a\n' <<'END'
A: line 2 of the comment has a new line at column 1: ""
B: the comment has no line 2
the plans are the same but for names and comments, which --plan leaves out
END
    written 'aag 0 0 0 0 0\nc\n' 'aig 0 0 0 0 0\nc\na\n' <<'END'
A: the comment has no line 1
B: line 1 of the comment has "a" at column 1: "a"
the plans are the same but for names and comments, which --plan leaves out
END
    written 'aag 0 0 0 0 0\nc\na\0\n' 'aag 0 0 0 0 0\nc\na\33\n' <<'END'
A: line 1 of the comment has byte 00 at column 2: "a."
B: line 1 of the comment has byte 1B at column 2: "a."
the plans are the same but for names and comments, which --plan leaves out
END
    written "aag 0 0 0 0 0\nc\n%0200d\n" "aag 0 0 0 0 0\nc\n%099d1%0100d\n" <<END
A: line 1 of the comment has "0" at column 100: "...$(printf '%080d' 0)..."
B: line 1 of the comment has "1" at column 100: "...$(printf '%040d1%039d' 0 0)..."
the plans are the same but for names and comments, which --plan leaves out
END
}

# How many lines of a text file stand before its symbols and comments.
lines_of_literals() {
    awk '{ print 1 + $3 + $4 + $5 + $6 + $7 + $8; exit }' "$1"
}

# with_literals PROGRAM FILE: the file with its lines of literals changed by awk.
with_literals() {
    local lines
    lines=$(lines_of_literals "$2")
    head -n "$lines" "$2" | awk "$1"
    tail -n "+$((lines + 1))" "$2"
}

# A text file with its variables counted from the other end, and the sides of every gate exchanged.
renamed() {
    with_literals '
        function other(l) { return l < 2 ? l : 2 * (most + 1 - int(l / 2)) + l % 2 }
        NR == 1 { most = $2; gates = 2 + $3 + $4 + $5 + $7 + $8; print; next }
        { for (k = 1; k <= NF; k++) $k = other($k) }
        NR >= gates { side = $2; $2 = $3; $3 = side }
        { print }' "$1"
}

# The numbers of a text file that may be odd: line, field, and where it stands.
signed_literals() {
    head -n "$(lines_of_literals "$1")" "$1" | awk '
        NR == 1 { I = $3; L = $4; O = $5; A = $6; B = $7; C = $8; next }
        { k = NR - 2 - I }
        k < 0 { next }
        k < L { print NR, 2, "the next state of latch " k; next }
        (k -= L) < O { print NR, 1, "output " k; next }
        (k -= O) < B { print NR, 1, "bad state " k; next }
        (k -= B) < C { print NR, 1, "constraint " k; next }
        { for (field = 2; field <= 3; field++) print NR, field, "gate" }'
}

# told FILE OTHER WHERE: the last answer was that they are different, there alone, and it does not say the same of both.
told() {
    local said
    mapfile -t said <"$room/out"
    [[ $(cat "$room/status") = 1 && ${#said[@]} = 3 && ${said[0]} = different && ! -s "$room/error" &&
        ${said[1]} = "$1: $3 "* && ${said[2]} = "$2: $3 "* && ${said[1]#"$1"} != "${said[2]#"$2"}" ]]
}

# cone LINE: the entries of a text file's lines that reach the gate on a line, in the order of a binary file.
cone() {
    awk -v gate="$1" '
        NR == 1 { I = $3; L = $4; O = $5; A = $6; B = $7; C = $8; next }
        { k = NR - 2 - I }
        k < 0 { next }
        k < L { last[++n] = $2; where[n] = "the next state of latch " k; next }
        (k -= L) < O { last[++n] = $1; where[n] = "output " k; next }
        (k -= O) < B { last[++n] = $1; where[n] = "bad state " k; next }
        (k -= B) < C { last[++n] = $1; where[n] = "constraint " k; next }
        (k -= C) < A { of[int($1 / 2)] = $2 " " $3 }
        NR == gate { reaches[int($1 / 2)] = 1 }
        function reach(v, sides) {
            if (v in reaches || !(v in of)) return reaches[v] + 0
            split(of[v], sides, " ")
            return reaches[v] = reach(int(sides[1] / 2)) || reach(int(sides[2] / 2))
        }
        END { for (k = 1; k <= n; k++) if (reach(int(last[k] / 2))) print where[k] }'
}

# told_gate FILE OTHER LINE: the last answer was that they are different, in the entries that take the gate on a line.
told_gate() {
    head -n "$(lines_of_literals "$1")" "$1" | cone "$3" >"$room/cone"
    sed -nE 's/^both: ((the next state of )?(latch|output|bad state|constraint) [0-9]+).*, which takes other gates$/\1/p' \
        "$room/out" >"$room/said"
    [[ $(cat "$room/status") = 1 && $(head -n 1 "$room/out") = different && ! -s "$room/error" ]] &&
        cmp -s "$room/cone" "$room/said" && [ "$(grep -vcE '^both: |: gate [0-9]+ |^every output|^"same" can' "$room/out")" = 1 ]
}

# Each literal with the other sign in turn.
every_sign() {
    local line field where
    while read -r line field where; do
        with_literals "NR == $line { \$$field += 1 - 2 * (\$$field % 2) } { print }" "$1" >"$room/edited"
        try same "$1" "$room/edited"
        if [ "$where" = gate ]; then
            holds "$1: the sign of a gate, line $line" told_gate "$1" "$room/edited" "$line"
        else
            holds "$1: the sign of $where, line $line" told "$1" "$room/edited" "$where"
        fi
    done < <(signed_literals "$1")
}

every_text_plan() {
    local plan
    for plan in examples/*.aag tests/accepted/*.aag; do
        renamed "$plan" >"$room/edited"
        accepts "$room/same" same "$plan" "$room/edited"
        every_sign "$plan"
    done
}

# Nothing is said of a plan that is refused but why; of two, the first is said. The status is 2, since 1 is a difference.
refused_plans() {
    misuses "output.aag:3:1: refused 5 at 16: " same tests/refused-05/output.aag examples/toggle.aag
    misuses "output.aag:3:1: refused 5 at 16: " same examples/toggle.aag tests/refused-05/output.aag
    misuses "output.aag:3:1: refused 5 at 16: " same tests/refused-05/output.aag tests/refused-08/two-gates.aag
    holds "the second plan is not looked at" test 0 = "$(grep -c two-gates "$room/error")"
    misuses "standard input:3:1: refused 5 at 16: " same examples/toggle.aag - <tests/refused-05/output.aag
    misuses "$room/none: refused 14 at 0: " same examples/toggle.aag "$room/none"
    misuses "$room/none: refused 14 at 0: " same "$room/none" examples/toggle.aag
}

same_words() {
    local usage="plan same [-o OUT] [--plan] [--json] [-q] FILE FILE"
    misuses "$usage" same examples/toggle.aag
    misuses "$usage" same - - <examples/toggle.aag
    misuses "$usage" same examples/toggle.aag examples/toggle.aig -
    sed '/^i0/,$d' examples/toggle.aag >"$room/plan"
    { cat "$room/plan" && printf 'i0 other\nc\nother\n'; } >"$room/edited"
    accepts "$room/same" same --plan "$room/plan" "$room/edited"
    accepts "$room/same" same --plan examples/toggle.aig "$room/edited"
    accepts /dev/null same -q --plan examples/toggle.aig "$room/edited"
    printf 'A: the number of latches is 1\nB: the number of latches is 2\nA: the number of outputs is 2\nB: the number of outputs is 1\n' >"$room/said"
    printf 'A: the number of gates is 4\nB: the number of gates is 6\nA: the number of bad states is 0\nB: the number of bad states is 1\n' >>"$room/said"
    printf 'A: the number of constraints is 0\nB: the number of constraints is 1\n' >>"$room/said"
    printf 'A: symbol 0 names input 0 "enable"\nB: symbol 0 names input 0 "lift"\n' >>"$room/said"
    differs - examples/guard.aag <examples/toggle.aag
    differs examples/toggle.aag - <tests/plan/same/guard.aag
    try same -o "$room/told" -q examples/toggle.aag - <tests/plan/same/guard.aag
    expect "same -o" 1 /dev/null ""
    holds "same -o writes the file" cmp -s "$room/expected" "$room/told"
}

same_plans
orders_of_gates
different_counts
different_latches
different_literals
different_symbols
different_comments
every_text_plan
refused_plans
same_words
