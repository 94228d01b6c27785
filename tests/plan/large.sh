# shellcheck shell=bash disable=SC2034,SC2154 # of run, which sources this
# Plans larger than the programs take, against the baseline of bench/, and files made to be too much.

# How many edges the drawing of a text file has: two for a gate, one for a next state and an output.
edges() {
    awk 'NR == 1 { print 2 * $6 + $4 + $5 }' "$1"
}

# large GATES: every verb on a plan of so many gates.
large() {
    local folder=$room/large-$1
    mkdir "$folder"
    $make large "$1" "$folder" || give_up "no plan of $1 gates"
    accepts "$folder/plan.aag" convert "$folder/plan.aig"
    accepts "$folder/plan.aig" convert "$folder/plan.aag"
    accepts "$folder/converted.aig" convert "$folder/mixed.aag"
    accepts "$folder/reduced.aig" reduce "$folder/plan.aig"
    accepts "$folder/mixed-reduced.aig" reduce "$folder/mixed.aag"
    accepts "$folder/trace" trace "$folder/plan.aig" "$folder/vectors"
    accepts "$room/same" same "$folder/plan.aag" "$folder/plan.aig"
    accepts "$room/same" same "$folder/converted.aig" "$folder/mixed.aag"
    try check "$folder/plan.aig"
    holds "check of $1 gates" grep -q "^binary M .* A $1 B 0 C 0$" "$room/out"
    misuses "; a drawing of more than 300 is hardly read: --large draws it" draw "$folder/plan.aig"
    try draw --large "$folder/plan.aig"
    holds "edges of $1 gates" test "$(edges "$folder/plan.aag")" = "$(grep -c -- '->' "$room/out")"
    accepts /dev/null convert -o "$room/made.aag" "$folder/plan.aig"
    holds "a file of $1 gates" cmp -s "$folder/plan.aag" "$room/made.aag"
    rm -r "$folder"
}

# The gates of the longest cycle are not said one by one, and a file may ask for all that a header can.
too_much() {
    $make cycle 1000000 "$room/cycle"
    refuses ":2:1: refused 8 at 1: variable 1 depends on itself" check "$room/cycle"
    holds "a cycle of 1,000,000 gates is said in part" grep -q "^note: and so on through 999988 more gates$" "$room/error"
    echo "aag 1048575 1048575 0 1048575 0 1048575 1048575" >"$room/plan"
    refuses "refused 1 at 48: in input 0 a number must stand here, not the end of the file" check "$room/plan"
    { printf 'aag 0 0 0 0 0\nc\n' && head -c 20000000 /dev/zero && echo; } >"$room/plan"
    { printf 'aig 0 0 0 0 0\nc\n' && head -c 20000000 /dev/zero && echo; } >"$room/other"
    accepts "$room/other" convert "$room/plan"
    { printf 'aag 1 1 0 0 0\n' && head -c 20000000 /dev/zero | tr '\0' 9; } >"$room/plan"
    refuses "refused 1 at 20000014: in input 0 a new line must stand here, not the end of the file" check "$room/plan"
    { printf 'aag 1 1 0 0 0\n' && head -c 20000000 /dev/zero | tr '\0' 9 && echo; } >"$room/plan"
    refuses "refused 5 at 14: input 0 is literal 9999999999999999999999999999999999999999..., above 2M = 2" check "$room/plan"
    rm -f "$room/plan" "$room/other" "$room/cycle"
}

echo same >"$room/same"
command=$plain
large 100000
large 1000000
command=$checked
large 100000
too_much
