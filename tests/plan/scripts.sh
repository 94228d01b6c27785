# shellcheck shell=bash disable=SC2154 # of run, which sources this
# For scripts: objects a line, by hand and by jq, the version, the manual page, completion, and what a refusal means.

objects() {
    local plan=examples/guard.aag vectors=examples/guard.vectors
    echo '{"file":"examples/toggle.aag","status":"accepted","form":"text","M":7,"I":2,"L":1,"O":2,"A":4,"B":0,"C":0,"names":[{"list":"input","position":0,"name":"enable"},{"list":"input","position":1,"name":"run"},{"list":"latch","position":0,"name":"q"},{"list":"output","position":0,"name":"q"},{"list":"output","position":1,"name":"not q"}]}' >"$room/object"
    accepts "$room/object" check --json examples/toggle.aag
    echo '{"files":["examples/toggle.aag","examples/toggle.aig"],"status":"same"}' >"$room/object"
    accepts "$room/object" same --json examples/toggle.aag examples/toggle.aig
    sed 's/^20 7 1$/20 6/; s/^o0 .*/o0 pen/' tests/plan/same/guard.aag >"$room/edited"
    echo '{"files":["examples/guard.aag","'"$room"'/edited"],"status":"different","counts":[],"differs":[{"what":"next state","list":"latch","position":0,"name":"right","literals":[21,20]},{"what":"reset","list":"latch","position":0,"name":"right","resets":["1","0"]}],"own_gates":[0,0],"names_or_comments":true,"only_gates":false}' >"$room/object"
    try same --json $plan "$room/edited"
    expect "same --json" 1 "$room/object" ""
    echo '{"files":["examples/guard.aag","examples/toggle.aag"],"status":"different","counts":["L","O","A","B","C"],"differs":[],"own_gates":[0,0],"names_or_comments":false,"only_gates":false}' >"$room/object"
    try same --json --plan $plan examples/toggle.aag
    expect "same --json of other counts" 1 "$room/object" ""
    echo '{"file":"examples/guard.aag","status":"explained","list":"bad state","position":0,"name":"lifted twice","step":2,"value":"0","because":[{"list":"latch","position":1,"name":"lifted","value":"0"}]}' >"$room/object"
    accepts "$room/object" explain --json --bad 0 --step 2 $plan $vectors
    echo '{"file":"examples/guard.aag","list":"output","position":0,"name":"needle","zeros":3,"ones":1,"unknown":1,"changes":2}' >"$room/object"
    try report --json $plan $vectors
    holds "report --json" [ "$(head -n 1 "$room/out") $(wc -l <"$room/out")" = "$(cat "$room/object") 3" ]
    echo '{"file":"examples/guard.aag","list":"output","position":0,"name":"needle","zeros":2,"ones":2,"unknown":1}' >"$room/object"
    accepts "$room/object" rows --count --json $plan $vectors
    misuses_in_objects
    echo '{"file":"examples/guard.aag","table":1,"name":"inputs","words":2}' >"$room/object"
    try words --json $plan
    holds "words --json" [ "$(head -n 1 "$room/out") $(wc -l <"$room/out")" = "$(cat "$room/object") 8" ]
}

# What is wrong is an object too, on standard output.
misuses_in_objects() {
    echo '{"status":"failed","says":"--json is for rows that are counted, by --count"}' >"$room/object"
    try rows --json examples/guard.aag examples/guard.vectors
    expect "rows --json" 2 "$room/object" ""
}

witness_objects() {
    printf 'aag 2 1 1 1 0\n2\n4 0 4\n5\n' >"$room/plan"
    printf 'x\n' >"$room/vectors"
    echo '{"file":"'"$room"'/plan","status":"no","tried":2,"filling":[{"list":"latch","position":0,"value":"1"},{"list":"input","position":0,"value":"0","step":0}]}' >"$room/object"
    accepts "$room/object" witness --json "$room/plan" "$room/vectors"
    echo '{"file":"'"$room"'/plan","status":"undecided","tried":1}' >"$room/object"
    accepts "$room/object" witness --json --allow 1 "$room/plan" "$room/vectors"
    echo '{"file":"'"$room"'/plan","status":"no"}' >"$room/object"
    accepts "$room/object" witness --json --three "$room/plan" "$room/vectors"
    printf 'x\nx\n' >"$room/vectors"
    echo '{"file":"'"$room"'/plan","status":"yes","tried":8,"shown":{"list":"output","position":0,"step":1}}' >"$room/object"
    accepts "$room/object" witness --json "$room/plan" "$room/vectors"
    printf '11\n' >"$room/vectors"
    echo '{"file":"examples/guard.aag","status":"no","tried":1,"broken":{"list":"constraint","position":0,"name":"no turn while lifting","step":0},"filling":[{"list":"latch","position":1,"name":"lifted","value":"0"}]}' >"$room/object"
    accepts "$room/object" witness --json examples/guard.aag "$room/vectors"
}

# Refusals: with a line, with a byte, without a place; notes are left out. Of many files each has one.
refusal_objects() {
    local from=$room/objects
    echo '{"file":"tests/refused-06/latch.aag","status":"refused","number":6,"place":16,"line":3,"column":1,"says":"variable 1 is defined a second time, by latch 0"}' >"$room/object"
    try check --json tests/refused-06/latch.aag
    expect "check --json of a refused plan" 1 "$room/object" ""
    echo '{"file":"tests/refused-09/second-too-large.aig","status":"refused","number":9,"place":15,"byte":15,"says":"the second difference of gate 0 (variable 1) is 1, above literal 0, which it is taken from"}' >"$room/object"
    try words --json tests/refused-09/second-too-large.aig
    try check --json tests/refused-09/second-too-large.aig
    expect "check --json of a refused binary plan" 1 "$room/object" ""
    echo '{"file":"'"$room"'/none","status":"refused","number":14,"place":0,"says":"it can'"'"'t be read: No such file or directory"}' >"$room/object"
    try report --json "$room/none" examples/guard.vectors
    expect "report --json of no plan" 1 "$room/object" ""
    try same --json examples/toggle.aag "$room/none"
    expect "same --json of no plan" 2 "$room/object" ""
    mkdir "$from"
    cp examples/toggle.aag "$from/a.aag"
    cp tests/refused-05/output.aag "$from/b.aag"
    printf '%s\n' '{"file":"'"$from"'/a.aag","status":"accepted","form":"text","M":7,"I":2,"L":1,"O":2,"A":4,"B":0,"C":0}' \
        '{"file":"'"$from"'/b.aag","status":"refused","number":5,"place":16,"line":3,"column":1,"says":"output 0 is literal 4, above 2M + 1 = 3"}' >"$room/object"
    try check --json "$from"
    expect "check --json of a folder" 1 "$room/object" ""
    printf '%s\n' '{"file":"'"$from"'/a.aag","status":"no partner"}' '{"file":"'"$from"'/b.aag","status":"no partner"}' >"$room/object"
    try same --json "$from"
    expect "same --json of a folder" 1 "$room/object" ""
    rm -r "$from"
}

# Every object is one by another program's reading, whatever names there are: control bytes, no UTF-8, quotes.
odd_objects() {
    local from=$room/objects name
    need jq jq
    mkdir "$from"
    for name in $'new\nline' $'\377\300\200' $'m\303\274hle' 'a"b\c' $'\355\240\200\177\e'; do
        printf 'aag 1 1 0 0 0\n2\ni0 "\\/\n' >"$from/$name.aag"
        cp tests/refused-05/output.aag "$from/$name wrong.aag"
    done
    try check --json "$from"
    holds "ten objects" [ "$(jq -r .status <"$room/out" | sort | uniq -c | tr -s ' \n' ' ')" = " 5 accepted 5 refused " ]
    holds "a new line in a name" jq -e -s 'any(.[]; .file | endswith("new\nline.aag"))' "$room/out" >/dev/null
    holds "UTF-8 in a name" jq -e -s 'any(.[]; .file | endswith("/mühle.aag"))' "$room/out" >/dev/null
    holds "what is no UTF-8" jq -e -s 'any(.[]; .file | endswith("/\ufffd\ufffd\ufffd.aag"))' "$room/out" >/dev/null
    holds "a surrogate is none" jq -e -s 'any(.[]; .file | endswith("/\ufffd\ufffd\ufffd\u007f\u001b.aag"))' "$room/out" >/dev/null
    holds "quotes in a name" jq -e -s 'any(.[]; .file | endswith("/a\"b\\c.aag"))' "$room/out" >/dev/null
    try check --json "$from/"'a"b\c.aag'
    holds "a name of an input" [ "$(jq -r '.names[0].name' <"$room/out")" = '"\/' ]
    for name in tests/refused-*/*.a?g; do
        [[ $name == tests/refused-04/* ]] && continue
        try check --json "$name"
        holds "the object of $name" [ "$(jq -r '"refused \(.number) at \(.place)"' <"$room/out")" = "$(head -n 1 "${name%.a?g}.expected")" ]
    done
    rm -r "$from"
}

about() {
    echo "plan $(cat VERSION)" >"$room/said"
    accepts "$room/said" --version
    misuses "--completion is for bash, zsh or fish" --completion
    misuses "--completion is for bash, zsh or fish" --completion csh
    misuses 'there is no refusal 28: "plan help refusals" has them all' help 28
    misuses 'there is no refusal 0' help 0
    misuses 'there is no refusal 99999999999999999999' help 99999999999999999999
    misuses 'there is no command "9x"' help 9x
    misuses 'there is no command ""' help ""
}

# docs/REFUSALS.md and the command say the same of each: its meaning, and what to do.
meanings() {
    local number
    sed -n 's/^| \([0-9]*\) | \([^|]*\) | [^|]* | [^|]* | [^|]* |$/\1 \2/p' docs/REFUSALS.md | tr -d '`' >"$room/means"
    sed -n '/^## What to do/,/^## As/s/^| \([0-9]*\) | \([^|]*\) |$/\1 \2/p' docs/REFUSALS.md | tr -d '`' >"$room/do"
    holds "27 refusals" [ "$(wc -l <"$room/means") $(wc -l <"$room/do")" = "27 27" ]
    : >"$room/all"
    for number in {1..27}; do
        echo "refusal $number: $(sed -n "s/^$number //p" "$room/means")" >"$room/said"
        echo "What to do: $(sed -n "s/^$number //p" "$room/do")" >>"$room/said"
        accepts "$room/said" help "$number"
        cat "$room/said" >>"$room/all"
    done
    accepts "$room/all" help refusals
}

# The manual page has every command, option and refusal, and roff has nothing to say of it.
manual() {
    local verb
    try --man
    holds "--man" [ "$(cat "$room/status") $(head -c 9 "$room/out")" = "0 .TH PLAN " ]
    cp "$room/out" "$room/plan.1"
    while read -r verb; do
        holds "$verb in the manual" grep -q "^.fBplan $verb.fR " "$room/plan.1"
    done < <(sed -n 's/^  \([a-z]*\) .*/\1/p' "$room/help")
    holds "16 commands" [ "$(grep -c '^.fBplan ' "$room/plan.1")" -ge 16 ]
    holds "--vcd in the manual" grep -qF '\fB\-\-vcd\fR' "$room/plan.1"
    need groff-base groff
    groff -man -Tascii -ww "$room/plan.1" >"$room/page" 2>"$room/error"
    holds "roff takes the manual" [ "$? $(wc -c <"$room/error")" = "0 0" ]
    holds "it has pages" [ "$(wc -l <"$room/page")" -gt 100 ]
}

# completed WORD..: what bash completes the last of these words to.
completed() {
    bash -c 'eval "$1"; shift; COMP_WORDS=(plan "$@"); COMP_CWORD=$#; _plan; printf "%s\n" "${COMPREPLY[@]}"' - "$(cat "$room/bash")" "$@"
}

completions() {
    local shell verb
    try --completion bash
    cp "$room/out" "$room/bash"
    holds "bash takes its completion" bash -n "$room/bash"
    holds "a command" [ "$(completed con)" = convert ]
    holds "two commands" [ "$(completed re | tr '\n' ' ')" = "reduce rewire report " ]
    holds "an option" [ "$(completed trace --v)" = --vcd ]
    holds "options of a command alone" [ "$(completed convert --v)" = "" ]
    holds "a file" [ "$(completed check examples/toggle.aa)" = examples/toggle.aag ]
    holds "help of a command" [ "$(completed help ref)" = refusals ]
    for shell in zsh fish; do
        try --completion $shell
        holds "completion for $shell" [ "$(cat "$room/status")" = 0 ]
        while read -r verb; do
            holds "$verb for $shell" grep -q "[' ]${verb}[: ]" "$room/out"
        done < <(sed -n 's/^  \([a-z]*\) .*/\1/p' "$room/help")
    done
}

objects
witness_objects
refusal_objects
odd_objects
about
meanings
manual
completions
