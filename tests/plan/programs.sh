# shellcheck shell=bash disable=SC2154 # of run, which sources this
# The verbs against the programs, byte for byte, on plans and cards below their sizes, whole and damaged.

# program NAME FILE VECTORS: runs a program in a folder where FILE is plan.in.
program() {
    cp "$2" "$room/in/plan.in"
    (cd "$room/in" && ${emulator}"$top/target/bin/$1") <"$3" >"$room/program" 2>/dev/null
}

# agrees NAME FILE VECTORS WORD..: the command writes what the program writes, or refuses with its number and place. What a
# program refuses for its sizes alone (4, 11, 13) is left out.
agrees() {
    local name=$1 file=$2 vectors=$3 said
    shift 3
    program "$name" "$file" "$vectors"
    said=$(head -c 8 "$room/program" | tr -d '\0')
    [ "$said" = "refused " ] && said=$(cat "$room/program")
    case $said in "refused 4 "* | "refused 11 "* | "refused 13 "*) return ;; esac
    try "$@" <"$vectors"
    case $said in
        "refused "*) expect "$* as $name" 1 /dev/null ": $said: " ;;
        *) expect "$* as $name" 0 "$room/program" "" ;;
    esac
}

agree() {
    agrees converter "$1" /dev/null convert "$1"
    agrees reducer "$1" /dev/null reduce "$1"
    agrees tracer "$1" "$2" trace "$1" "$2"
    agrees comparer "$1" "$2" plain "$1" "$2"
    agrees reporter "$1" "$2" report "$1" "$2"
    agrees carder "$1" /dev/null card "$1"
}

on_whole() {
    local plan
    for plan in tests/accepted/*.a?g tests/refused-*/*.a?g; do
        [[ $plan == tests/refused-04/* ]] && continue
        agree "$plan" /dev/null
    done
    for plan in examples/*.a?g; do
        agree "$plan" "${plan%.a?g}.vectors"
        agree "$plan" "$plan"
    done
}

# Each example 8 times, with its vectors; every other one of the worked examples once.
on_damaged() {
    local plan vectors
    for plan in examples/*.a?g; do
        mkdir "$room/damaged"
        $make damaged 8 "$room/damaged" "$plan"
        for damaged in "$room/damaged"/*; do agree "$damaged" "${plan%.a?g}.vectors"; done
        rm -r "$room/damaged"
    done
    mkdir "$room/damaged" "$room/streams"
    $make damaged 2 "$room/damaged" tests/accepted/*.a?g
    for damaged in "$room/damaged"/*; do agrees converter "$damaged" /dev/null convert "$damaged"; done
    $make damaged 20 "$room/streams" examples/*.vectors
    for vectors in "$room/streams"/*; do agrees tracer examples/toggle.aag "$vectors" trace examples/toggle.aag "$vectors"; done
}

# As many gates as the comparer takes, and one more: each is the And of the one below and itself.
on_few_gates() {
    local gates
    printf '1\nx\n' >"$room/vectors"
    for gates in 24 25; do
        {
            printf 'aig %d 1 0 1 %d\n%d\n' $((gates + 1)) $gates $((2 * gates + 2))
            printf '\2\0%.0s' $(seq $gates)
        } >"$room/plan"
        agree "$room/plan" "$room/vectors"
    done
}

# The cards of every plan that they can hold.
on_cards() {
    local plan cards=$room/cards
    mkdir "$cards"
    for plan in tests/accepted/*.aig; do
        # shellcheck disable=SC2086 # the words that start it
        $command card -o "$cards/${plan##*/}" "$plan" 2>"$room/error" || rm -f "$cards/${plan##*/}"
    done
    holds "cards of five plans at least" [ "$(find "$cards" -type f | wc -l)" -ge 5 ]
    for plan in "$cards"/*; do agrees filer "$plan" /dev/null file "$plan"; done
    rm -rf "$room/damaged"
    mkdir "$room/damaged"
    $make damaged 8 "$room/damaged" "$cards"/*
    for damaged in "$room/damaged"/*; do agrees filer "$damaged" /dev/null file "$damaged"; done
}

mkdir "$room/in"
build_programs converter reducer tracer comparer reporter filer carder
on_whole
on_damaged
on_few_gates
on_cards
