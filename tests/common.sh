# shellcheck shell=bash disable=SC2034 # what is set here is used where it is sourced
# For scripts that build C programs over the desk or run the proved programs; sourced by bash from the project's root.

give_up() {
    echo "$0: $1"
    echo "0 passed, 1 failed"
    exit 1
}

# need 'PACKAGE..' COMMAND..: installs the packages unless all the commands are there.
need() {
    local packages=$1 missing=() name
    shift
    for name in "$@"; do
        command -v "$name" >/dev/null || missing+=("$name")
    done
    [ ${#missing[@]} -eq 0 ] || install_packages "$packages" "${missing[*]}"
}

# install_packages 'PACKAGE..' WHAT: for what is missing.
install_packages() {
    export DEBIAN_FRONTEND=noninteractive
    # shellcheck disable=SC2086 # a list of packages
    apt-get install -qq -y $1 >/dev/null || {
        apt-get update -qq && apt-get install -qq -y $1 >/dev/null
    } || give_up "$2 missing, and '$1' can't be installed"
}

# What tools/compare is written in.
need_compare() {
    need "binutils python3" ar /usr/bin/python3
    /usr/bin/python3 -c 'import elftools' 2>/dev/null || install_packages python3-pyelftools elftools
}

# Sets `emulator`, with a space after it, or empty: the archive's code is x86-64's.
choose_emulator() {
    if [ "$(uname -m)" = x86_64 ]; then emulator=; else emulator="qemu-x86_64 "; fi
}

# Sets `compiler` too: a machine that needs the emulator needs a cross compiler.
choose_compiler() {
    choose_emulator
    if [ -z "$emulator" ]; then
        need "gcc libc6-dev" gcc
        compiler=gcc
    else
        need "gcc-x86-64-linux-gnu libc6-dev-amd64-cross qemu-user" x86_64-linux-gnu-gcc qemu-x86_64
        compiler=x86_64-linux-gnu-gcc
    fi
}

# is_younger FILE SOURCE..: whether a file is there, and nothing that it is built from changed since.
is_younger() {
    local file=$1
    shift
    [ -f "$file" ] && [ -z "$(find "$@" -newer "$file" -print -quit)" ]
}

# of_crates FILE: the same of what is built from the crates. What rt keeps in a crate's out/ is left out, and so is the
# date of a crate's own folder, which says when out/ came; what is moved into that counts from then on.
of_crates() {
    [ -f "$1" ] && [ -z "$(find crates.txt crates/*/* -regex 'crates/[^/]*/out' -prune -o -cnewer "$1" -print -quit)" ]
}

# The proved archive, which serves all; where what is built over it goes. `./plan` alone may choose another.
proved=target/staticlib/libdesk.a
archive=$proved
built=target/desk

# dated FILE COMMAND..: makes a file, and dates it by when that began: what changes meanwhile has changed since.
dated() {
    local file=$1 began status
    shift
    began=$(mktemp -p target) || return 2
    "$@"
    status=$?
    [ $status -ne 0 ] || touch -r "$began" "$file"
    rm -f "$began"
    return $status
}

# An archive's .comment names the logic in which it is proved: "rattle logic=..".
is_proved() {
    grep -qa 'rattle logic=' "$1"
}

# The archive is built again only where something of the crates changed since.
archive_is_built() {
    of_crates "$proved" && is_proved "$proved"
}

# crates_under NAME [CHANGED]: what a crate is made of, by crates.txt, itself last and each after what it needs; with a
# second word, a list, those that are in it or need one that is.
crates_under() {
    awk -v top="$1" -v list="${2-}" -v all="$((2 - $#))" '
        function visit(name,    of, k) {
            if (name in seen) return
            seen[name] = 1
            for (k = split(needs[name], of, " "); k > 0; k--) {
                visit(of[k])
                if (of[k] in changed) changed[name] = 1
            }
            if (all || name in changed) print name
        }
        { sub(/#.*/, "") }
        split($0, part, ":") == 2 && split(part[1], word, " ") { needs[word[1]] = part[2] }
        END {
            for (k = split(list, given, " "); k > 0; k--) changed[given[k]] = 1
            visit(top)
        }' crates.txt
}

# Proves crate desk and all that it needs, and puts the archive in its place.
prove_archive() {
    (cd crates/desk && rt lib) && place crates/desk/out/libdesk.a "$proved"
}

# place FILE TO: a copy, which is there whole or not at all.
place() {
    mkdir -p "${2%/*}" && cp "$1" "$2.new" && mv "$2.new" "$2"
}

build_archive() {
    mkdir -p target/desk
    archive_is_built && return
    dated "$proved" prove_archive >target/desk/archive.log 2>&1 || {
        cat target/desk/archive.log
        give_up "the archive isn't built"
    }
}

# build_over_desk NAME SOURCE FLAG..: target/desk/NAME from a C source and the archive; the file VERSION says its version.
build_over_desk() {
    local name=$1 source=$2 version
    shift 2
    version=$(cat VERSION 2>/dev/null || echo unknown)
    "$compiler" -std=c11 -Wall -Wextra -Werror "$@" "-DGOLVANZO_VERSION=\"$version\"" -I c -o "$built/$name" "$source" "$archive" ||
        give_up "$source isn't built"
}

# build_programs NAME..: target/bin/NAME, proved unless nothing changed since it was.
build_programs() {
    local name
    mkdir -p target
    for name in "$@"; do
        of_crates "target/bin/$name" && continue
        dated "target/bin/$name" prove_program "$name" >target/programs.log 2>&1 || {
            cat target/programs.log
            give_up "$name isn't built"
        }
    done
}

# prove_program NAME: `rt run` proves a program, builds it, and runs it, which is not asked for here: what it makes of
# nothing, and how it ends, is thrown away. It has a stamp if no source changed meanwhile, and rt says when it starts it.
prove_program() {
    local said
    said=$(cd "crates/$1" && rt run </dev/null 2>&1 >/dev/null)
    printf '%s\n' "$said"
    grep -q "^rt: running out/$1;" <<<"$said" && [ -f "crates/$1/out/$1.stamp" ] && place "crates/$1/out/$1" "target/bin/$1"
}
