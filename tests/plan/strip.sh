# shellcheck shell=bash disable=SC2154 # of run, which sources this
# Names and comments taken off, against files written by hand; all else stays, also the numbers and the order of gates.

stripped() {
    local head='aag 9 2 1 1 2 1\n2\n4\n6 12 6\n12\n7\n12 2 10\n10 4 6\n' names='i1 pedal\nl0 row\nb0 c\n' comment='c\ni0 is no name\n\nc\n'
    # shellcheck disable=SC2059 # bytes in a format
    {
        printf "$head$names$comment" >"$room/plan"
        printf "$head" >"$room/bare"
        printf "$head$names" >"$room/named"
        printf "$head$comment" >"$room/remarked"
    }
    accepts "$room/bare" strip "$room/plan"
    accepts "$room/bare" strip --names --comments "$room/plan"
    accepts "$room/named" strip --comments "$room/plan"
    accepts "$room/remarked" strip --names "$room/plan"
    accepts "$room/bare" strip "$room/bare"
    accepts "$room/bare" strip --names "$room/named"
    accepts "$room/named" strip --comments "$room/named"
    accepts "$room/named" strip --comments - <"$room/plan"
    printf 'aig 7 2 1 2 4\n14\n6\n7\n\2\4\3\4\1\2\2\10' >"$room/bare"
    accepts "$room/bare" strip examples/toggle.aig
    accepts /dev/null strip -o "$room/made" examples/toggle.aig
    holds "-o writes the stripped plan" cmp -s "$room/bare" "$room/made"
    try card "$room/made"
    holds "what is stripped goes on cards" test 0 = "$(cat "$room/status")"
    refuses "refused 5 at 16" strip tests/refused-05/output.aag
}

# All below a folder, in their own forms.
folder() {
    mkdir "$room/shelf" "$room/shelf/more"
    cp examples/toggle.aig "$room/shelf/a.aig"
    cp "$room/plan" "$room/shelf/more/b.aag"
    try strip -o "$room/stripped" "$room/shelf"
    holds "strip of a folder" test 0 = "$(cat "$room/status")"
    holds "a binary plan of a folder" cmp -s "$room/bare" "$room/stripped/a.aig"
    holds "a text plan of a folder" test 1 = "$(grep -c '^aag' "$room/stripped/more/b.aag")"
    holds "its names are gone" test 0 = "$(grep -c '^i1' "$room/stripped/more/b.aag")"
}

stripped
folder
