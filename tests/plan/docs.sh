# shellcheck shell=bash disable=SC2154 # of run, which sources this
# What README.md, examples/README.md and docs/LESSON.md tell people to type is typed, in a folder of its own, and what stands below it
# must appear. (docs/REFUSALS.md is held by refusals.sh.)

# Lines that only name a command: each of them ends well.
named() {
    local line
    while IFS= read -r line <&3; do
        (
            cd "$room/school" || exit 1
            eval "$line"
        ) >"$room/out" 2>"$room/error" 3<&-
        echo $? >"$room/status"
        holds "$1: $line" test 0 = "$(cat "$room/status")"
    done 3< <(sed -n 's/^    \(\.\/plan .*\|gcc .*\|\.\/reduce .*\)$/\1/p' "$2")
}

# The last part of the lesson breaks the engine, which takes minutes to prove: its names are those of the crate and its edits.
broken() {
    local lesson=$room/broken engine=crates/plain/src/lib.rt
    sed -n '/^## Break it/,$p' docs/LESSON.md >"$lesson"
    holds "the line that is broken" test 1 = "$(grep -cF 'gates[row + 2]' $engine)"
    sed -n 's/^    fn plain::\([a-z_]*\):.*/\1/p' "$lesson" | sort >"$room/said"
    sed -n 's/^\(pub \)\{0,1\}fn \([a-z_]*\).*/\2/p' $engine | sort >"$room/functions"
    holds "the lesson names every function" diff "$room/said" "$room/functions"
    sed -n '/^They are/,$p' "$lesson" | grep -o '`[a-z_]*`' | tr -d '`' >"$room/said"
    holds "the lesson names every edit" diff "$room/said" <(basename -s .edit tests/edits/gate/plain/*.edit)
}

pages() {
    [ -z "$emulator" ] || return
    need graphviz dot
    build_programs converter comparer
    school
    sed '/^## Break it/,$d' docs/LESSON.md >"$room/lesson.md"
    page docs/LESSON.md "$room/lesson.md"
    broken
    page README.md README.md
    page examples/README.md examples/README.md
    named README.md README.md
    named examples/README.md examples/README.md
}

pages
