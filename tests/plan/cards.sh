# shellcheck shell=bash disable=SC2154 # of run, which sources this
# Plan cards, worked by hand: one And of two inputs, in cards and in binary, single files and folders.

single_cards() {
    printf 'PH\3\0\0\0\2\0\0\0\0\0\0\0\1\0\0\0\1\0\0\0PO\6\0\0\0PA\4\0\0\0\2\0\0\0' >"$room/and.cards"
    printf 'aig 3 2 0 1 1\n6\n\2\2' >"$room/and.aig"
    accepts "$room/and.aig" file "$room/and.cards"
    accepts "$room/and.cards" card "$room/and.aig"
    printf 'aag 3 2 0 1 1\n2\n4\n6\n6 4 2\n' >"$room/and.aag"
    accepts "$room/and.cards" card "$room/and.aag"
    printf 'aag 3 2 0 1 1\n2\n4\n6\n6 2 4\n' >"$room/plan"
    refuses "refused 15 at 0: the plan is not in binary order: convert it first" card "$room/plan"
    refuses 'refused 19 at 0: cards hold no symbols and no comment, which the plan has: "plan strip examples/toggle.aig" takes them off' card examples/toggle.aig
    printf 'aig 0 0 0 0 0\nc\nremark\n' >"$room/plan"
    refuses "refused 19 at 0: cards hold no comment, which the plan has: \"plan strip $room/plan\" takes it off" card "$room/plan"
    printf 'aig 1 1 0 0 0\ni0 a\nc\n' >"$room/plan"
    refuses "refused 19 at 0: cards hold no symbols and no comment, which the plan has: \"plan strip $room/plan\" takes them off" card "$room/plan"
    printf 'aig 2 0 2 0 0\n2 0\n4 1\n' >"$room/plan"
    refuses "refused 19 at 0: cards hold no resets that are not 0, which the plan has: it can't be put on cards as it is" card "$room/plan"
    printf 'aig 1 1 0 0 0 1\n2\n' >"$room/plan"
    refuses "refused 19 at 0: cards hold no bad states, which the plan has: it can't be put on cards as it is" card "$room/plan"
    printf 'aig 2 1 1 0 0 1 1\n2 4\n2\n2\ni0 a\n' >"$room/plan"
    refuses "refused 19 at 0: cards hold no symbols, no resets that are not 0, no bad states and no constraints, which the plan has: it can't be" \
        card "$room/plan"
    refuses "refused 1 at 0: " card /dev/null
}

# refused_cards BYTES BYTE NUMBER PLACE WHY: the command names the byte, the number and the place are the library's.
refused_cards() {
    # shellcheck disable=SC2059 # the bytes are a format
    printf "$1" >"$room/wrong.cards"
    refuses "wrong.cards:byte $2: refused $3 at $4: $5" file "$room/wrong.cards"
}

wrong_cards() {
    refused_cards '' 0 1 0 "a file of plan cards has 22 bytes or more, this one 0"
    refused_cards 'PH' 2 1 2 "a file of plan cards has 22 bytes or more, this one 2"
    refused_cards 'PH\3\0\0\0\2\0\0\0\0\0\0\0\1\0\0\0\1\0\0\0PO\6\0\0\0' 28 1 28 "its counts ask for 38 bytes, it has 28"
    refused_cards 'PH\0\0\0\0\0\0\0\0\0\0\0\0\0\0\0\0\0\0\0\0P' 22 1 22 "its counts ask for 22 bytes, it has more"
    refused_cards 'PI\0\0\0\0\0\0\0\0\0\0\0\0\0\0\0\0\0\0\0\0' 0 18 0 'the mark "PH" must stand here, not "PI"'
    refused_cards 'PH\1\0\0\0\0\0\0\0\1\0\0\0\0\0\0\0\0\0\0\0PO\2\0\0\0' 22 18 22 'the mark "PL" must stand here, not "PO"'
    refused_cards 'PH\2\0\0\0\1\0\0\0\0\0\0\0\1\0\0\0\1\0\0\0PO\2\0\0\0PO\2\0\0\0\2\0\0\0' 28 18 28 'the mark "PA" must stand'
    refused_cards 'PH\0\0\20\0\0\0\0\0\0\0\0\0\0\0\0\0\0\0\0\0' 2 2 2 "M is 1048576, and no count may be above 1048575"
    refused_cards 'PH\2\0\0\0\1\0\0\0\0\0\0\0\0\0\0\0\0\0\0\0' 2 3 0 "I + L + A = 1 + 0 + 0 = 1, but on plan cards it must be M = 2"
    refused_cards 'PH\2\0\0\0\0\0\0\0\2\0\0\0\0\0\0\0\0\0\0\0PL\5\0\0\0PL\6\0\0\0' 30 5 2 \
        "the next state of latch 1 is literal 6, above 2M + 1 = 5"
    refused_cards 'PH\1\0\0\0\1\0\0\0\0\0\0\0\1\0\0\0\0\0\0\0PO\4\0\0\0' 24 5 3 "output 0 is literal 4, above 2M + 1 = 3"
    refused_cards 'PH\2\0\0\0\0\0\0\0\0\0\0\0\0\0\0\0\2\0\0\0PA\1\0\0\0\1\0\0\0PA\2\0\0\0\6\0\0\0' 38 5 4 \
        "a right side of gate 1 is literal 6, above 2M + 1 = 5"
    refused_cards 'PH\2\0\0\0\0\0\0\0\0\0\0\0\0\0\0\0\2\0\0\0PA\1\0\0\0\1\0\0\0PA\4\0\0\0\2\0\0\0' 34 15 0 \
        "right side 4 of gate 1 is not below 4, its left side"
    printf 'PH\3\0\0\0\2\0\0\0\0\0\0\0\0\0\0\0\1\0\0\0PA\2\0\0\0\4\0\0\0' >"$room/wrong.cards"
    says file "$room/wrong.cards" <<END
$room/wrong.cards:byte 24: refused 15 at 0: the right sides of gate 0 are 2 and 4: the larger must stand first
        | 00 00 01 00 00 00 50 41 02 00 00 00 04 00 00 00
        |                         ^~~~~~~~~~~~~~~~~~~~~~~
END
    refuses 'note: this looks like an AIGER file, not like plan cards: "plan card" makes cards of it' file examples/toggle.aig
    refuses 'note: this looks like plan cards: "plan file" makes a plan of them' check "$room/and.cards"
}

# Every file has one line on standard output. Whatever is refused leaves nothing behind, and the others alone.
folders() {
    local from=$room/from to=$room/written back=$room/back
    mkdir "$from" "$from/more"
    cp "$room/and.cards" "$from/a.cards"
    cp "$room/and.cards" "$from/c"
    printf 'PX' >"$from/b.cards"
    mkfifo "$from/pipe"
    printf '%s: %s\n%s:byte 2: refused 1 at 2: %s\n%s: %s\n%s: refused 14 at 0: %s\n%s: refused 14 at 0: %s\n2 of 5 written\n' \
        "$from/a.cards" "$to/a.aig" "$from/b.cards" "a file of plan cards has 22 bytes or more, this one 2" "$from/c" "$to/c.aig" \
        "$from/more" "it can't be read: it is a folder, which is given by itself" "$from/pipe" "it can't be read: it is no file" \
        >"$room/lines"
    try file -o "$to" "$from"
    expect "a folder of cards" 1 "$room/lines" ""
    holds "only the written" [ "$(ls -A "$to")" = "$(printf 'a.aig\nc.aig')" ]
    holds "written whole" cmp -s "$to/a.aig" "$room/and.aig"
    printf '%s: %s\n%s: %s\n2 of 2 written\n' "$to/a.aig" "$back/a.cards" "$to/c.aig" "$back/c.cards" >"$room/lines"
    accepts "$room/lines" card -o "$back" "$to"
    holds "written back" cmp -s "$back/c.cards" "$room/and.cards"
    # those that are there are replaced; of two that would become one file the second stays
    : >"$back/a.cards"
    cp "$room/and.aag" "$to/a.aag"
    cp tests/refused-05/output.aag "$to/d.aag"
    printf '%s: %s\n%s: not written: %s\n%s: %s\n%s: %s\n2 of 4 written\n' "$to/a.aag" "$back/a.cards" "$to/a.aig" \
        "a.aag comes first, with the same name but for the ending" "$to/c.aig" "$back/c.cards" \
        "$to/d.aag:3:1: refused 5 at 16" "output 0 is literal 4, above 2M + 1 = 3" >"$room/lines"
    try card -o "$back" "$to"
    expect "a folder of plans" 2 "$room/lines" ""
    holds "replaced" cmp -s "$back/a.cards" "$room/and.cards"
}

# A file that is refused leaves its name to the next; and 20,000 names are looked up in no time, not each against all.
names_taken() {
    local from=$room/taken to=$room/taken-plans seconds
    mkdir "$from"
    printf 'PX' >"$from/a.card"
    cp "$room/and.cards" "$from/a.cards"
    cp "$room/and.cards" "$from/a"
    printf '%s: %s\n%s: not written: %s\n%s: not written: %s\n1 of 3 written\n' "$from/a" "$to/a.aig" \
        "$from/a.card" "a comes first, with the same name but for the ending" \
        "$from/a.cards" "a comes first, with the same name but for the ending" >"$room/lines"
    try file -o "$to" "$from"
    expect "a name that is taken" 2 "$room/lines" ""
    rm "$from/a"
    printf '%s:byte 2: refused 1 at 2: %s\n%s: %s\n1 of 2 written\n' "$from/a.card" \
        "a file of plan cards has 22 bytes or more, this one 2" "$from/a.cards" "$to/a.aig" >"$room/lines"
    try file -o "$to" "$from"
    expect "a refused file takes no name" 1 "$room/lines" ""
    (cd "$from" && seq -f 'pattern-%05g.cards' 20000 | xargs touch)
    seconds=$(TIMEFORMAT=%U; { time $plain file -o "$to" "$from" >"$room/lines"; } 2>&1)
    holds "20,000 names" [ "$(tail -n 1 "$room/lines")" = "1 of 20002 written" ]
    holds "20,000 names in $seconds s" test "${seconds%.*}" -lt 1
    rm -r "$from" "$to"
}

wrong_folders() {
    local from=$room/from to=$room/written
    misuses "is a folder: -o must name the folder" file "$from"
    misuses "is a folder: -o must name the folder" file -o - "$from"
    misuses "$from/.: -o must name another folder" file -o "$from/." "$from"
    misuses "$room/and.aig: Not a directory" file -o "$room/and.aig" "$from"
    misuses "$room/none/more: No such file or directory" file -o "$room/none/more" "$from"
    $command card -o "$room/back" "$to" >/dev/full 2>"$room/error"
    holds "lines to a full device" [ "$? $(cat "$room/error")" = "2 plan: standard output: No space left on device" ]
    mkdir "$room/empty"
    echo "0 of 0 written" >"$room/lines"
    accepts "$room/lines" file -o "$room/empty-plans" "$room/empty"
}

# Four hundred patterns, of which every fortieth is cut short.
four_hundred() {
    local from=$room/patterns to=$room/plans k
    mkdir "$from"
    for k in {100..499}; do
        if ((k % 40 == 0)); then head -c 30 "$room/and.cards"; else cat "$room/and.cards"; fi >"$from/pattern-$k.cards"
    done
    try file -o "$to" "$from"
    holds "four hundred patterns" [ "$(cat "$room/status") $(tail -n 1 "$room/out")" = "1 390 of 400 written" ]
    holds "a line for each of them" [ "$(wc -l <"$room/out") $(cut -d : -f 1 "$room/out" | sort -u | wc -l)" = "401 401" ]
    holds "ten lines of refusals" [ "$(grep -c ':byte 30: refused 1 at 30: its counts ask for 38 bytes, it has 30$' "$room/out")" = 10 ]
    holds "390 plans" [ "$(find "$to" -name 'pattern-*.aig' -size 18c | wc -l) $(find "$to" -type f | wc -l)" = "390 390" ]
}

single_cards
wrong_cards
folders
names_taken
wrong_folders
four_hundred
