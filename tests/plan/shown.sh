# shellcheck shell=bash disable=SC2154 # of run, which sources this
# What comes from a file or from the command line is shown with its control bytes spelled out: no terminal obeys it, and a line is
# a line.

# What the last try wrote has no control bytes but new lines, and so many of these.
is_plain() {
    holds "$1 is plain" test 0 = "$(cat "$room/out" "$room/error" | tr -d '\n\40-\176\200-\377' | wc -c)"
    holds "$1 has $2 lines" test "$2" = "$(cat "$room/out" "$room/error" | wc -l)"
}

file_names() {
    local name=$'\e[31mred\nroll\r\t\177 \233 m\303\274hle'
    local shown='\x1b[31mred\nroll\r\t\x7f \x9b m'$'\303\274'hle
    mkdir "$room/shown-names"
    cp examples/toggle.aag "$room/shown-names/$name"
    cp tests/refused-05/output.aag "$room/shown-names/wrong $name"
    refuses "$room/shown-names/none $shown: refused 14 at 0: it can't be read" check "$room/shown-names/none $name"
    is_plain "a file that is not there" 1
    refuses "$room/shown-names/wrong $shown:3:1: refused 5 at 16" check "$room/shown-names/wrong $name"
    is_plain "a refused file" 3
    misuses "plan: $room/$shown/made: No such file or directory" convert -o "$room/$name/made" examples/toggle.aag
    is_plain "a folder that is not there" 1
    printf '%s\n' different "$room/shown-names/$shown: the number of inputs is 2" 'examples/selector.aag: the number of inputs is 3' \
        "$room/shown-names/$shown: the number of gates is 4" 'examples/selector.aag: the number of gates is 6' \
        "$room/shown-names/$shown: symbol 0 names input 0 \"enable\"" 'examples/selector.aag: symbol 0 names input 0 "left border"' >"$room/told"
    try same "$room/shown-names/$name" examples/selector.aag
    expect "same of such a name" 1 "$room/told" ""
    is_plain "same of such a name" "$(wc -l <"$room/out")"
    printf '%s\n' "$room/shown-names/$shown: refused 15 at 0: " "$room/shown-names/wrong $shown:3:1: refused 5 at 16: " '0 of 2 written' >"$room/told"
    try card -o "$room/names-cards" "$room/shown-names"
    holds "a folder of such names" test 2 = "$(head -n 2 "$room/told" | grep -cFf - "$room/out")"
    is_plain "a folder of such names" 3
    rm -r "$room/shown-names"
}

words() {
    local word=$'\e]0;owned\a\n'
    misuses 'there is no command "\x1b]0;owned\x07\n"' "$word"
    is_plain "a command" 2
    misuses 'is one word too many' draw examples/toggle.aag "$word"
    is_plain "a word too many" 3
    misuses 'convert has no option --\x1b]0;owned' convert "--$word" examples/toggle.aag
    is_plain "an option" 3
    refuses 'there is no output "\x1b]0;owned' explain --output "$word" --step 0 examples/toggle.aag examples/toggle.vectors
    is_plain "an output" 1
    misuses 'not "\x1b]0;owned' explain --output 0 --step "$word" examples/toggle.aag examples/toggle.vectors
    is_plain "a step" 1
    misuses '"\x1b]0;owned\x07\n" is no number, input, latch or variable' rewire examples/toggle.aig 0 "$word" 2
    is_plain "a right side" 1
}

file_names
words
