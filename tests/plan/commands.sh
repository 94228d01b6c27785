# shellcheck shell=bash disable=SC2154 # of run, which sources this
# docs/COMMANDS.md: its runs are run, and what stands below them must appear, the morning at the office too; every command and every
# option has its place there.

commands() {
    local verb option
    [ -z "$emulator" ] || return
    school
    page docs/COMMANDS.md docs/COMMANDS.md
    while read -r verb; do
        holds "$verb in docs/COMMANDS.md" grep -qE "^## (.*, )?$verb(,.*)?$" docs/COMMANDS.md
        holds "a run of $verb in docs/COMMANDS.md" grep -qE "^    \\$ .*\./plan $verb " docs/COMMANDS.md
    done < <(sed -n 's/^  \([a-z]*\) .*/\1/p' "$room/help")
    while read -r option; do
        holds "$option in docs/COMMANDS.md" grep -qF -- "$option" docs/COMMANDS.md
    done < <(./plan --man | sed -n '/^.SH OPTIONS/,/^.SH EXIT/s/^.fB\(.*\).fR.*/\1/p' | tr -d '\\')
    holds "the morning at the office" [ "$(sed -n '/^## A morning/,/^## For/p' docs/COMMANDS.md | grep -c '^    \$ ')" -ge 10 ]
}

commands
