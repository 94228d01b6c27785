# shellcheck shell=bash disable=SC2034,SC2154 # of run, which sources this
# Many files and folders: one line a file, a last line that counts, the worst status; files that are written mirror the tree.

# A folder as a supplier sends it: plans of both forms, cards, a wrong plan, and what is no plan. Names are in the order of bytes.
make_supplier() {
    supplier=$room/supplier
    mkdir -p "$supplier/deep/er" "$supplier/empty" "$supplier/.hidden"
    cp examples/toggle.aag "$supplier/b.aag"
    cp examples/guard.aig "$supplier/B.aig"
    cp examples/selector.aag "$supplier/deep/er/selector.aag"
    cp tests/refused-05/output.aag "$supplier/deep/wrong.aag"
    printf 'PH\3\0\0\0\2\0\0\0\0\0\0\0\1\0\0\0\1\0\0\0PO\6\0\0\0PA\4\0\0\0\2\0\0\0' >"$supplier/deep/and.cards"
    printf 'no plan\n' >"$supplier/notes.txt"
    cp examples/toggle.aag "$supplier/.hidden/toggle.aag"
    cp examples/toggle.aag "$supplier/.toggle.aag"
    toggle="text M 7 I 2 L 1 O 2 A 4 B 0 C 0"
    guard="binary M 10 I 2 L 2 O 1 A 6 B 1 C 1"
    selector="text M 10 I 3 L 1 O 2 A 6 B 0 C 0"
    wrong="wrong.aag:3:1: refused 5 at 16: output 0 is literal 4, above 2M + 1 = 3"
}

checked_folder() {
    printf '%s\n' "$supplier/B.aig: $guard" "$supplier/b.aag: $toggle" "$supplier/deep/and.cards: cards M 3 I 2 L 0 O 1 A 1 B 0 C 0" \
        "$supplier/deep/er/selector.aag: $selector" "$supplier/deep/$wrong" "4 of 5 accepted; 1 other file passed over" >"$room/lines"
    try check "$supplier"
    expect "check of a folder" 1 "$room/lines" ""
    try check "$supplier/"
    holds "check of a folder with a slash" [ "$(cat "$room/status") $(tail -n 1 "$room/out")" = "1 4 of 5 accepted; 1 other file passed over" ]
    printf '%s\n' "$supplier/deep/$wrong" >"$room/lines"
    try check -q "$supplier"
    expect "check -q of a folder" 1 "$room/lines" ""
    rm "$supplier/deep/wrong.aag"
    accepts /dev/null check -q "$supplier"
    accepts /dev/null check -q examples/toggle.aag
    cp tests/refused-05/output.aag "$supplier/deep/wrong.aag"
    echo "0 of 0 accepted" >"$room/lines"
    accepts "$room/lines" check "$supplier/empty"
    # words in their order, whatever their names are; one that is not there leaves the others alone
    printf '%s\n' "examples/toggle.aag: $toggle" "$room/none: refused 14 at 0: it can't be read: No such file or directory" \
        "$supplier/notes.txt:1:1: refused 1 at 0: a file starts with \"aag \" or \"aig \"; here stands \"n\"" \
        "$supplier/deep/and.cards: cards M 3 I 2 L 0 O 1 A 1 B 0 C 0" "examples/toggle.aag: $toggle" "3 of 5 accepted" >"$room/lines"
    try check examples/toggle.aag "$room/none" "$supplier/notes.txt" "$supplier/deep/and.cards" examples/toggle.aag
    expect "check of several files" 1 "$room/lines" ""
}

# What is no file, and links: around, to nowhere, to a file.
odd_entries() {
    mkdir "$room/odd" "$room/odd/in"
    mkfifo "$room/odd/pipe.aig"
    ln -s nowhere "$room/odd/lost.aag"
    ln -s "$top/examples/toggle.aag" "$room/odd/linked.aag"
    ln -s .. "$room/odd/in/around"
    printf '%s\n' "$room/odd/in/around: refused 14 at 0: it can't be read: it leads back to a folder above it" \
        "$room/odd/linked.aag: $toggle" "$room/odd/lost.aag: refused 14 at 0: it can't be read: No such file or directory" \
        "$room/odd/pipe.aig: refused 14 at 0: it can't be read: it is no file" "1 of 4 accepted" >"$room/lines"
    try check "$room/odd"
    expect "odd entries" 1 "$room/lines" ""
    rm -r "$room/odd"
}

# A folder that is written to has the same folders and names, with the endings of the forms.
written_folder() {
    local to=$room/mirror
    printf '%s\n' "$supplier/B.aig: $to/B.aag" "$supplier/b.aag: $to/b.aig" "$supplier/deep/er/selector.aag: $to/deep/er/selector.aig" \
        "$supplier/deep/$wrong" "3 of 4 written; 2 other files passed over" >"$room/lines"
    try convert -o "$to" "$supplier"
    expect "convert of a folder" 1 "$room/lines" ""
    holds "the mirror" [ "$(cd "$to" && find . -type f | sort | tr '\n' ' ')" = "./B.aag ./b.aig ./deep/er/selector.aig " ]
    holds "a mirrored plan" cmp -s "$to/b.aig" examples/toggle.aig
    holds "a mirrored plan below" cmp -s "$to/deep/er/selector.aig" examples/selector.aig
    try convert -o "$to" "$supplier"
    expect "convert of a folder again" 1 "$room/lines" ""
    try convert -q -o "$to" "$supplier"
    printf '%s\n' "$supplier/deep/$wrong" >"$room/lines"
    expect "convert -q of a folder" 1 "$room/lines" ""
    # several words: each has its own name there
    printf '%s\n' "examples/toggle.aag: $room/both/toggle.aig" "$supplier/deep/er/selector.aag: $room/both/er/selector.aig" "2 of 2 written" >"$room/lines"
    accepts "$room/lines" reduce -o "$room/both" examples/toggle.aag "$supplier/deep/er/"
    accepts "$room/lines" drop -o "$room/both" examples/toggle.aag "$supplier/deep/er/"
    holds "a reduced plan" cmp -s "$room/both/toggle.aig" examples/toggle.aig
    # a last part that is no name is none there either
    printf '%s\n' "examples/toggle.aag: $room/above/toggle.aig" "$supplier/deep/er/./selector.aag: $room/above/selector.aig" \
        "2 of 2 written" >"$room/lines"
    accepts "$room/lines" drop -o "$room/above" examples/toggle.aag "$supplier/deep/er/."
    printf '%s\n' "examples/toggle.aag: $room/above/toggle.aig" "$supplier/deep/er/../er/selector.aag: $room/above/er/selector.aig" \
        "2 of 2 written" >"$room/lines"
    accepts "$room/lines" drop -o "$room/above" examples/toggle.aag "$supplier/deep/er/.."/er
    mkdir "$supplier/empty/in"
    cp examples/selector.aag "$supplier/empty"
    printf '%s\n' "examples/toggle.aag: $room/above/toggle.aig" "$supplier/empty/in/../selector.aag: $room/above/selector.aig" \
        "2 of 2 written" >"$room/lines"
    accepts "$room/lines" drop -o "$room/above" examples/toggle.aag "$supplier/empty/in/.."
    rm -r "$supplier"/empty/*
    rm -r "$room/both" "$room/above" "$to"
}

# Of two that would have one name the first that is written has it; one that is refused takes none.
one_name() {
    mkdir "$room/twice"
    cp examples/toggle.aag "$room/twice/a.aag"
    cp examples/guard.aig "$room/twice/a.aig"
    cp tests/refused-05/output.aag "$room/twice/b.aag"
    cp examples/guard.aig "$room/twice/b.aig"
    try reduce -o "$room/once" "$room/twice"
    holds "one name" [ "$(cat "$room/status") $(wc -l <"$room/out") $(tail -n 1 "$room/out")" = "2 5 2 of 4 written" ]
    holds "the second is told" grep -qF "$room/twice/a.aig: not " "$room/out"
    holds "why" grep -qF ": another file was written to $room/once/a.aig before" "$room/out"
    holds "the first stays" cmp -s "$room/once/a.aig" examples/toggle.aig
    try reduce -o "$room/guard.aig" examples/guard.aig
    holds "a refused file takes no name" cmp -s "$room/once/b.aig" "$room/guard.aig"
    # what is read is not written over
    cp examples/toggle.aag "$room/twice/c.aag"
    cp examples/toggle.aig "$room/twice/c.aig"
    try convert -o "$room/twice" "$room/twice/c.aag" "$room/twice/c.aig"
    holds "what is read stays" [ "$(cat "$room/status") $(tail -n 1 "$room/out")" = "2 0 of 2 written" ]
    holds "it is told so" grep -qF "$room/twice/c.aig is one of the files that are read" "$room/out"
    holds "as it was" cmp -s "$room/twice/c.aag" examples/toggle.aag
    rm -r "$room/once" "$room/twice"
}

wrong_many() {
    misuses "several files or a folder: -o must name the folder to write to" convert "$supplier"
    misuses "several files or a folder: -o must name the folder to write to" reduce -o - "$supplier"
    misuses "several files or a folder: -o must name the folder to write to" drop examples/toggle.aag examples/guard.aag
    misuses "the lines of several files go to standard output, without -o" check -o "$room/lines" "$supplier"
    misuses "standard input can't be one of several files" check - examples/toggle.aag </dev/null
    misuses "-o must name another folder than one that is read" convert -o "$supplier/." "$supplier"
    misuses "$supplier/b.aag: Not a directory" convert -o "$supplier/b.aag" "$supplier/deep"
    misuses "$room/none/more: No such file or directory" convert -o "$room/none/more" "$supplier"
    misuses "$supplier/none" check -o "$supplier/none/lines" examples/toggle.aag
    # a folder to write to that is below the one that is read is not read
    try convert -q -o "$supplier/made" "$supplier"
    try convert -o "$supplier/made" "$supplier"
    holds "the folder that is written to is not read" [ "$(tail -n 1 "$room/out")" = "3 of 4 written; 2 other files passed over" ]
    rm -r "$supplier/made"
    $command check "$supplier" >/dev/full 2>"$room/error"
    holds "lines to a full device" [ "$? $(cat "$room/error")" = "2 plan: standard output: No space left on device" ]
    mkdir "$room/locked"
    : >"$room/locked/deep"
    try convert -o "$room/locked" "$supplier"
    holds "a file where a folder must be" grep -qF ": $room/locked/deep/er: Not a directory" "$room/out"
    holds "the others are written" [ "$(cat "$room/status") $(find "$room/locked" -name '*.a?g' | wc -l)" = "2 2" ]
    rm -r "$room/locked"
}

# Names that a terminal would obey stay one line.
odd_names() {
    mkdir "$room/odd-names"
    cp examples/toggle.aag "$room/odd-names/"$'new\nline\e[31m.aag'
    printf '%s\n' "$room/odd-names/new"'\nline\x1b[31m.aag: '"$toggle" "1 of 1 accepted" >"$room/lines"
    accepts "$room/lines" check "$room/odd-names"
    rm -r "$room/odd-names"
}

# Pairs: text beside binary, and the same name in two folders.
pairs() {
    local one=$room/first-folder two=$room/second-folder
    mkdir -p "$one/deep" "$two/deep"
    cp examples/toggle.aag "$one/a.aag"
    cp examples/toggle.aig "$one/a.aig"
    sed 's/^7$/6/' examples/toggle.aag >"$one/deep/b.aag"
    cp examples/toggle.aig "$one/deep/b.aig"
    cp examples/guard.aag "$one/c.aag"
    cp tests/refused-05/output.aag "$one/d.aag"
    cp examples/guard.aig "$one/d.aig"
    echo >"$one/notes"
    printf '%s\n' "$one/a.aag, $one/a.aig: same" "$one/c.aag: it has no partner" \
        "$one/d.aag:3:1: refused 5 at 16: output 0 is literal 4, above 2M + 1 = 3" \
        "$one/deep/b.aag, $one/deep/b.aig: different: 1 output" \
        "1 of 3 pairs are the same, 1 different, 1 not read; 1 file has no partner; 1 other file passed over" >"$room/lines"
    try same "$one"
    expect "same of a folder" 2 "$room/lines" ""
    sed -i '1d; $d' "$room/lines"
    try same -q "$one"
    expect "same -q of a folder" 2 "$room/lines" ""
    rm "$one"/d.a?g "$one/notes"
    try same "$one"
    holds "same of a folder that differs" [ "$(cat "$room/status")" = 1 ]
    # the same name comes before the other form; what the second folder alone has is told last
    cp tests/plan/same/toggle.aag "$two/a.aag"
    cp examples/guard.aig "$two/c.aig"
    cp examples/guard.aig "$two/deep/e.aig"
    sed '/^i0/,$d' "$one/deep/b.aag" >"$two/deep/b.aag"
    printf '%s\n' "$one/a.aag, $two/a.aag: same" "$one/a.aig, $two/a.aag: same" "$one/c.aag, $two/c.aig: same" \
        "$one/deep/b.aag, $two/deep/b.aag: different: names or comments" "$one/deep/b.aig, $two/deep/b.aag: different: 1 output, names or comments" \
        "$two/deep/e.aig: it has no partner" "3 of 5 pairs are the same, 2 different; 1 file has no partner" >"$room/lines"
    try same "$one" "$two"
    expect "same of two folders" 1 "$room/lines" ""
    rm "$two/deep/e.aig" "$one/deep/b.aig"
    printf '%s\n' "$one/a.aag, $two/a.aag: same" "$one/a.aig, $two/a.aag: same" "$one/c.aag, $two/c.aig: same" \
        "$one/deep/b.aag, $two/deep/b.aag: same" "4 of 4 pairs are the same" >"$room/lines"
    accepts "$room/lines" same --plan "$one" "$two"
    accepts /dev/null same -q --plan "$one" "$two"
    printf '%s\n' "examples/toggle.aag, examples/toggle.aig: same" "examples/guard.aag: it has no partner" "1 of 1 pair is the same; 1 file has no partner" >"$room/lines"
    try same examples/toggle.aag examples/guard.aag examples/toggle.aig
    expect "same of several files" 1 "$room/lines" ""
    # gates in another order, and what stands for every kind that differs
    sed '/^16 24 20$/{h;d}; /^14 24 18$/G' tests/plan/same/guard.aag >"$one/f.aag"
    cp examples/guard.aig "$one/f.aig"
    sed 's/^20 7 1$/20 6/; s/^16$/17/; s/^14$/15/; s/^13$/12/' tests/plan/same/guard.aag >"$one/g.aag"
    cp examples/guard.aig "$one/g.aig"
    try same "$one/f.aag" "$one/f.aig" "$one/g.aag" "$one/g.aig"
    printf '%s\n' "$one/f.aag, $one/f.aig: different: gates in another order or unused, which \"plan alike\" sees through" \
        "$one/g.aag, $one/g.aig: different: 1 next state, 1 reset, 1 output, 1 bad state, 1 constraint" "0 of 2 pairs are the same, 2 different" >"$room/lines"
    expect "same of what differs" 1 "$room/lines" ""
    rm -r "$one" "$two"
}

# 10,000 plans of 100 gates in less than two seconds.
ten_thousand() {
    local TIMEFORMAT=%R taken
    mkdir "$room/ten"
    awk -v to="$room/ten" 'BEGIN {
        text = "aag 110 10 0 1 100\n"
        for (v = 1; v <= 10; v++) text = text 2 * v "\n"
        text = text "220\n"
        for (v = 11; v <= 110; v++) text = text 2 * v " " 2 * v - 2 " " 2 * (v % 10) + 3 "\n"
        for (k = 0; k < 10000; k++) { name = sprintf("%s/%05d.aag", to, k); printf "%s", text >name; close(name) }
    }'
    taken=$({ time $plain check "$room/ten" >"$room/out"; } 2>&1)
    holds "10,000 plans are accepted" [ "$(tail -n 1 "$room/out")" = "10000 of 10000 accepted" ]
    holds "10,000 plans in $taken s" awk -v taken="$taken" 'BEGIN { exit !(taken < 2) }'
    rm -r "$room/ten"
}

# A file that comes late, on a terminal: after a second it is said how far the work is, and then no longer.
progress() {
    command -v script >/dev/null || give_up "script, of util-linux, is not there"
    mkfifo "$room/late"
    { sleep 1.3 && cat examples/toggle.aag; } >"$room/late" &
    script -qec "$command check examples/toggle.aag $room/late examples/guard.aag" /dev/null >"$room/screen" </dev/null
    wait $!
    holds "how far the work is" grep -qF "3 of 3: examples/guard.aag"$'\r\e[K' "$room/screen"
    holds "it is said once" test 1 = "$(grep -cF ' of 3: ' "$room/screen")"
    holds "it is gone" test "3 of 3 accepted" = "$(tail -n 1 "$room/screen" | tr -d '\r')"
    { sleep 1.3 && cat examples/toggle.aag; } >"$room/late" &
    TERM=dumb script -qec "$command check examples/toggle.aag $room/late examples/guard.aag" /dev/null >"$room/screen" </dev/null
    wait $!
    holds "not on a terminal that can't" test 0 = "$(grep -cF ' of 3: ' "$room/screen")"
    { sleep 1.3 && cat examples/toggle.aag; } >"$room/late" &
    try check examples/toggle.aag "$room/late" examples/guard.aag
    wait $!
    holds "nor elsewhere" [ "$(grep -c . "$room/out") $(wc -c <"$room/error")" = "4 0" ]
    rm "$room/late"
}

make_supplier
checked_folder
odd_entries
written_folder
one_name
wrong_many
odd_names
pairs
ten_thousand
progress
rm -r "$supplier"
