# shellcheck shell=bash disable=SC2154 # of run, which sources this
# On a terminal: no binary plan unless -o - asks for it, and nothing that it would obey.

# screen WORDS: what the command shows on a terminal, its new lines as a file has them, and its status as the last line.
screen() {
    script -qec "NO_COLOR=1 $command $*; echo status \$?" /dev/null </dev/null | tr -d '\r' >"$room/screen"
}

no_binary() {
    local words
    printf 'PH\3\0\0\0\2\0\0\0\0\0\0\0\1\0\0\0\1\0\0\0PO\6\0\0\0PA\4\0\0\0\2\0\0\0' >"$room/and.cards"
    printf 'aig 3 2 0 1 1\n6\n\2\2' >"$room/and.aig"
    for words in "convert examples/toggle.aag" "reduce examples/toggle.aag" "drop examples/toggle.aag" \
        "rewire examples/toggle.aig 0 2 4" "card $room/and.aig" "file $room/and.cards"; do
        screen "$words"
        printf 'plan: binary is not written to a terminal: "-o FILE" writes it to a file, "-o -" here all the same\nstatus 2\n' >"$room/told"
        holds "$words to a terminal" cmp -s "$room/told" "$room/screen"
    done
    screen convert -o - examples/toggle.aag
    holds "convert -o - to a terminal" test "status 0" = "$(tail -n 1 "$room/screen" | tail -c 9)"
    holds "convert -o - to a terminal writes the plan" grep -qa '^aig 7 2 1 2 4$' "$room/screen"
    screen convert examples/toggle.aig
    { $command convert examples/toggle.aig && echo status 0; } >"$room/told"
    holds "text to a terminal" cmp -s "$room/told" "$room/screen"
}

no_escapes() {
    printf 'aig 0 0 0 0 0\nc\n\33[31mred\7\n\ttab m\303\274hle\n' >"$room/plan"
    screen convert "$room/plan"
    printf 'aag 0 0 0 0 0\nc\n\\x1b[31mred\\x07\n\\ttab m\303\274hle\nstatus 0\n' >"$room/told"
    holds "comments on a terminal" cmp -s "$room/told" "$room/screen"
    printf 'aag 0 0 0 0 0\nc\n\33[31mred\7\n\ttab m\303\274hle\n' >"$room/told"
    accepts "$room/told" convert "$room/plan"
    screen convert -o - "$room/plan"
    holds "comments on a terminal that is asked for" grep -qF $'\33[31mred' "$room/screen"
}

need bsdutils script
no_binary
no_escapes
