# shellcheck shell=bash disable=SC2154 # of run, which sources this
# What suppliers' files get wrong, mended: the file that comes out is the one that they should have written, and each change is said.

# mends WANTED: the room's file "bad" becomes the file WANTED, with what standard input says of it; check says what mend does about it.
mends() {
    cat >"$room/said"
    rm -f "$room/good"
    try mend -o "$room/good" "$room/bad"
    holds "mend says $(tail -n 1 "$room/said")" [ "$(cat "$room/status" "$room/out")" = 0 ]
    holds "mend says so: $(cat "$room/error")" cmp -s "$room/said" "$room/error"
    holds "mended as $1" cmp -s "$1" "$room/good"
    try check "$room/good"
    holds "what is mended is read" test 0 = "$(cat "$room/status")"
    refuses "\"plan mend $room/bad\"" check "$room/bad"
}

marks_and_ends() {
    { printf '\357\273\277' && cat examples/toggle.aag; } >"$room/bad"
    mends examples/toggle.aag <<END
$room/bad:1:1: the file starts with a byte order mark, as some editors write it: mend takes it off
END
    sed 's/$/\r/' examples/guard.aag >"$room/bad"
    mends examples/guard.aag <<END
$room/bad:1:$(head -n 1 examples/guard.aag | wc -c): lines end in CR LF here, as on Windows; a new line is LF alone: mend takes the CR off, here and on the next $(($(wc -l <examples/guard.aag) - 1)) lines
END
    # two lines that don't follow each other; a comment that opens without CR keeps its own
    printf 'aag 1 1 0 1 0\n2\r\n2\ni0 a\r\nc\nremark\r\n' >"$room/bad"
    printf 'aag 1 1 0 1 0\n2\n2\ni0 a\nc\nremark\r\n' >"$room/wanted"
    mends "$room/wanted" <<END
$room/bad:2:2: lines end in CR LF here, as on Windows; a new line is LF alone: mend takes the CR off
$room/bad:4:5: lines end in CR LF here, as on Windows; a new line is LF alone: mend takes the CR off
END
    head -c -1 examples/toggle.aag >"$room/bad"
    mends examples/toggle.aag <<END
$room/bad:$(wc -l <examples/toggle.aag):$(($(tail -n 1 examples/toggle.aag | wc -c))): the last line has no end: mend puts a new line there
END
    printf '\357\273\277aag 1 1 0 1 0\r\n2\r\n2' >"$room/bad"
    printf 'aag 1 1 0 1 0\n2\n2\n' >"$room/wanted"
    mends "$room/wanted" <<END
$room/bad:1:1: the file starts with a byte order mark, as some editors write it: mend takes it off
$room/bad:1:17: lines end in CR LF here, as on Windows; a new line is LF alone: mend takes the CR off, here and on the next 1 line
$room/bad:3:2: the last line has no end: mend puts a new line there
END
}

# Differences may be 13 and 10: no byte of the gates is taken for an end of a line. A last "c" in a comment is a line of it.
in_binary() {
    printf 'aig 16 14 0 1 2\r\n16\r\n\15\12\15\12i0 a\r\nc\r\nx\r\n' >"$room/bad"
    printf 'aig 16 14 0 1 2\n16\n\15\12\15\12i0 a\nc\nx\n' >"$room/wanted"
    mends "$room/wanted" <<END
$room/bad:1:16: lines end in CR LF here, as on Windows; a new line is LF alone: mend takes the CR off, here and on the next 1 line
$room/bad:byte 29: lines end in CR LF here, as on Windows; a new line is LF alone: mend takes the CR off, here and on the next 2 lines
END
    printf 'aig 3 2 0 1 1\n6\n\2\2c' >"$room/bad"
    printf 'aig 3 2 0 1 1\n6\n\2\2' >"$room/wanted"
    mends "$room/wanted" <<END
$room/bad:byte 18: a "c" alone opens no comment: mend takes it off
END
    printf 'aag 0 0 0 0 0\nc' >"$room/bad"
    printf 'aag 0 0 0 0 0\n' >"$room/wanted"
    mends "$room/wanted" <<END
$room/bad:2:1: a "c" alone opens no comment: mend takes it off
END
    printf 'aag 0 0 0 0 0\nc\nc' >"$room/bad"
    printf 'aag 0 0 0 0 0\nc\nc\n' >"$room/wanted"
    mends "$room/wanted" <<END
$room/bad:3:2: the last line has no end: mend puts a new line there
END
}

# As ABC's &w writes it, with a name's section and one whose bytes hold CR LF: everything stays but for the new line.
from_abc() {
    printf 'aig 3 2 0 1 1\n6\n\2\2i0 a\ncn\0\0\0\4abc\0z\0\0\0\2\r\n\nThis file was produced by the GIA package in ABC\n' >"$room/bad"
    printf 'aig 3 2 0 1 1\n6\n\2\2i0 a\nc\nn\0\0\0\4abc\0z\0\0\0\2\r\n\nThis file was produced by the GIA package in ABC\n' >"$room/wanted"
    mends "$room/wanted" <<END
$room/bad:byte 24: ABC's &w writes no new line after "c": mend puts it there
END
}

# A file that has none of these stays as it is, and what is refused for anything else stays refused.
not_mended() {
    local plan
    for plan in examples/toggle.aag examples/guard.aig tests/accepted/*.a?g; do
        try mend "$plan"
        expect "mend $plan" 0 "$plan" "note: $plan: there is nothing to mend"
    done
    printf 'aag 1 1 0 1 0\r\n2\r\n4\r\n' >"$room/bad"
    echo kept >"$room/good"
    refuses "$room/bad, mended:3:1: refused 5 at 16: output 0 is literal 4" mend -o "$room/good" "$room/bad"
    holds "nothing is written of it" test kept = "$(cat "$room/good")"
    for plan in 'aag 0 0 0 0 0\nccc\n' 'aag 1 1 0 1 0\n2 \n2\n' 'aag 1 1 0 1 0\n2\n' 'aig 3 2 0 1 1\n6\n\2' 'aig 3 2 0 1 1\n6\n\2\2cn\0\0\1\0ab\0\n' \
        'aag 0 0 0 0 0\rc\r' '\357\273aag 0 0 0 0 0\n' 'aag 01 1 0 0 0\n2\n' ''; do
        # shellcheck disable=SC2059 # bytes in a format
        printf "$plan" >"$room/bad"
        refuses "refused 1 at " mend "$room/bad"
        try check "$room/bad"
        holds "no mending is promised of $plan" test 0 = "$(grep -c 'plan mend' "$room/error")"
    done
    refuses "none: refused 14 at 0" mend "$room/none"
    sed 's/$/\r/' examples/toggle.aag >"$room/bad"
    try mend - <"$room/bad"
    expect "mend -" 0 examples/toggle.aag "standard input:1:14: "
    refuses '"plan mend -" takes the CR off' check - <"$room/bad"
    # the first bytes of a large file are all that is read of it
    { printf 'aag 0 0 0 0 0\r\nc\r\n' && yes remark | head -n 100000 | sed 's/$/\r/'; } >"$room/bad"
    refuses "\"plan mend $room/bad\" takes the CR off" check "$room/bad"
    { printf 'aag 0 0 0 0 0\nc\n' && yes remark | head -n 100000; } >"$room/wanted"
    try mend "$room/bad"
    expect "mend of a large file" 0 "$room/wanted" "here and on the next 100001 lines"
}

marks_and_ends
in_binary
from_abc
not_mended
