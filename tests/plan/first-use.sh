# shellcheck shell=bash disable=SC2154 # of run, which sources this
# The first use, later ones, and the proof, in a folder of its own where rt and the compiler behind it are scripts: they
# say what those say and hand over the proved archive, the same marked as not proved, or that with one function changed.

project=$room/project
kit=$room/kit
compilers=$kit/on/$(uname -m)
unproved="plan: the library is built from sources that are not proved on this machine; \"./plan prove\" proves them"
not_proved="plan $(cat VERSION), library not proved on this machine: ./plan prove"
proved_here="plan $(cat VERSION), library proved here"

# The archives that are handed over.
make_archives() {
    local objcopy=${compiler%gcc}objcopy
    cp target/staticlib/libdesk.a "$room/proved.a"
    printf '\0rattle unproved\0' >"$room/comment"
    "$objcopy" --update-section .comment="$room/comment" "$room/proved.a" "$room/unproved.a"
    "$objcopy" --dump-section .text.golvanzo_words="$room/words" "$room/unproved.a" "$room/different.a"
    printf '\xcc' | dd of="$room/words" conv=notrunc status=none
    "$objcopy" --update-section .text.golvanzo_words="$room/words" "$room/unproved.a" "$room/different.a"
}

# rt is silent of a crate that is unchanged, proves another, and then desk; the compiler, which today's kit lacks, wants
# nothing but where its archive goes.
make_kit() {
    mkdir -p "$compilers/bin" "$room/bin"
    cat >"$room/bin/rt" <<END_OF_RT
#!/bin/sh
case "\${PWD##*/} \$*" in
*" doc") echo "$kit/docs/START-HERE.md" ;;
"plan lib") ;;
"room lib")
    echo "fn room::write: proved"
    [ ! -f src/unproved ] || { echo "fn room::read: not proved"; exit 1; }
    [ ! -f "$room/meddle" ] || touch src/lib.rt
    echo "logic=proved functions=1"
    ;;
"desk lib")
    mkdir -p out
    cp "$room/proved.a" out/libdesk.a
    echo "logic=proved functions=1"
    ;;
*) exit 2 ;;
esac
END_OF_RT
    cat >"$compilers/bin/rattle-cases" <<END_OF_CASES
#!/bin/sh
[ "\$1 \$2 \$3" = "--toolchain $compilers/toolchain --staticlib" ] || exit 2
[ \$# -gt 3 ] || { echo "usage: rattle-cases --toolchain DIR --staticlib OUT WORDS..." >&2; exit 2; }
[ ! -f crates/room/src/wrong ] || { echo "rattle-cases: the library is not compiled" >&2; exit 2; }
shift 3
[ "\${*#* }" = "crates/desk/src/lib.rt --crate-name desk --lib std=$kit/libs/std/src/lib.rt \
--lib plan=\$PWD/crates/plan/src/lib.rt --lib room=\$PWD/crates/room/src/lib.rt" ] || exit 2
cp "$room/quick.a" "\$1"
END_OF_CASES
    chmod +x "$room/bin/rt" "$compilers/bin/rattle-cases"
}

# A clean copy of the project, with crates that hold nothing.
copy_project() {
    local name
    rm -rf "$project"
    mkdir -p "$project/tests"
    cp -r plan c command tools VERSION "$project"
    cp tests/common.sh "$project/tests"
    for name in plan room unused desk program; do
        mkdir -p "$project/crates/$name/src"
        echo "// $name" >"$project/crates/$name/src/lib.rt"
    done
    printf '%s\n' '# Leaves' plan: 'room: plan' '# Others' 'unused: plan room' \
        'desk staticlib: room # and not unused' 'program: desk unused' >"$project/crates.txt"
    cp "$room/unproved.a" "$room/quick.a"
}

# run_plan WORD..: what is tried here, by the stand-ins. How long the rest takes depends on the machine.
run_plan() {
    (cd "$room" && PATH="$room/bin:$PATH" project/plan "$@" >"$room/out" 2>"$room/error")
    echo $? >"$room/status"
    sed -i 's/about [0-9]* s left/about some s left/; s/room, [0-9]* s/room, some s/; s/[0-9]* s$/some s/' "$room/error"
}

# used NAME ERROR: the command answers, and this is all that is said beside.
used() {
    run_plan convert "$top/examples/toggle.aag"
    expect "$1" 0 examples/toggle.aig "$2"
    holds "$1: nothing more" test "$2" = "$(cat "$room/error")"
}

# versions NAME LINE: what --version says.
versions() {
    run_plan --version
    expect "$1: --version" 0 <(echo "$2") ""
}

# changed FILE: a source is edited.
changed() {
    echo "// edited" >>"$project/crates/$1/src/lib.rt"
}

# Compiled without a proof at first and after every change, which is said each time and once.
without_proof() {
    copy_project
    versions "a clean copy" "$not_proved"
    used "first use" "$unproved"
    used "second use" ""
    versions "after the first use" "$not_proved"
    ln -sf "$project/plan" "$room/bin/linked"
    (cd / && PATH="$room/bin:$PATH" linked convert - <"$top/examples/toggle.aag" >"$room/out" 2>"$room/error")
    echo $? >"$room/status"
    expect "use through a link" 0 examples/toggle.aig ""
    changed room
    beside_another
    used "use after that" ""
    touch "$project/crates/room/src/wrong"
    run_plan convert "$top/examples/toggle.aag"
    expect "use after a wrong change" 2 /dev/null "rattle-cases: the library is not compiled
tools/quick: the sources are refused
plan: the library isn't built"
    rm "$project/crates/room/src/wrong"
    used "use after it is put right" "$unproved"
    touch "$project/command/main.c"
    used "use after a change of the command" "$unproved"
}

# While another use builds, this one waits.
beside_another() {
    exec 8>"$project/target/desk/lock"
    flock 8
    {
        for _ in {1..600}; do
            if grep -q "is waited for" "$room/error"; then break; fi
            sleep 0.1
        done
        flock -u 8
    } &
    run_plan convert "$top/examples/toggle.aag"
    exec 8>&-
    expect "use after a change, and beside another" 0 examples/toggle.aig \
        "plan: another use is building the library, and is waited for
$unproved"
}

proving="plan: proving the library, which takes some minutes
plan: 1 of 3, plan, unchanged, about some s left
plan: 2 of 3, room, some s, about some s left
plan: 3 of 3, desk, some s
plan: the library is proved: some s"

# Proved on demand, until a source changes.
with_proof() {
    copy_project
    run_plan prove
    expect "prove" 0 /dev/null "$proving
plan: compiled without a proof its code is the same: "
    holds "prove counts" grep -q 'same: [1-9][0-9]* functions, [1-9][0-9]* relocations, no differences$' "$room/error"
    versions "after the proof" "$proved_here"
    used "use of what is proved" ""
    changed room
    versions "after a change" "$not_proved"
    used "use after a change of what is proved" "$unproved"
    run_plan prove
    expect "prove again" 0 /dev/null "plan: proving the library, which takes some minutes; the last time it took "
    used "use of what is proved again" ""
    touch "$project/crates/room/src/unproved"
    run_plan prove
    expect "prove after a wrong change" 2 /dev/null "fn room::read: not proved
plan: the library isn't proved"
    versions "after a wrong change" "$not_proved"
    used "use after a wrong change of what is proved" "$unproved"
    run_plan prove now
    expect "prove now" 2 /dev/null "plan: prove takes no words"
}

# A library that isn't the proved one, though it looks like it.
with_deceit() {
    copy_project
    cp "$room/different.a" "$room/quick.a"
    run_plan prove
    expect "prove with other code" 2 /dev/null "plan: the library is proved: some s
desk.o: .text.golvanzo_words: 1 of "
    holds "other code is said" grep -q "plan: compiled without a proof its code is not the same" "$room/error"
    holds "the proved one is kept" grep -q "plan: the proved library is kept" "$room/error"
    versions "after other code" "$proved_here"
    used "use after other code" ""
    touch "$room/meddle"
    changed room
    run_plan prove
    rm "$room/meddle"
    expect "a change while it is proved" 2 /dev/null \
        "plan: a source changed while the library was proved: prove it again"
    versions "after a change while it was proved" "$not_proved"
    cp "$room/unproved.a" "$project/target/staticlib/libdesk.a"
    versions "with an archive that isn't proved in the place of the proved one" "$not_proved"
}

# A toolchain that can't compile without proving.
without_quick_mode() {
    local cases=$compilers/bin/rattle-cases
    local no_mode="plan: this toolchain can't compile the library without proving it, so that"
    copy_project
    printf '#!/bin/sh\necho "usage: rattle-cases --toolchain DIR WORDS..." >&2\nexit 2\n' >"$cases"
    used "first use without a quick mode" "$no_mode the first use takes long
$proving"
    versions "without a quick mode" "$proved_here"
    used "second use without a quick mode" ""
    changed room
    rm "$cases"
    run_plan prove
    expect "prove without a compiler" 0 /dev/null "$no_mode there is no other code to compare
plan: proving the library"
    used "use of what is proved without a quick mode" ""
}

# The commit, where there is one.
with_commit() {
    local git=(git -C "$project" -c user.name=x -c user.email=x@example.com) commit
    "${git[@]}" init -q && "${git[@]}" add VERSION crates && "${git[@]}" commit -qm x
    commit=$("${git[@]}" rev-parse --short HEAD)
    versions "a commit" "plan $(cat VERSION) (commit $commit), library proved here"
    changed unused
    versions "a commit and a change" \
        "plan $(cat VERSION) (commit $commit and changes), library not proved on this machine: ./plan prove"
}

make_archives
make_kit
without_proof
with_proof
with_deceit
without_quick_mode
with_commit
holds "help has what the script can do" test "$(cat "$room/helped")" = "$(cat "$room/help")
\"./plan prove\" proves the library on this machine. \"./plan --version\" says whether it is proved."
