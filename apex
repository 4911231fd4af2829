#!/usr/bin/env bash
# Runs the program with these words in the caller's folder, and ends with the program's status.
# First builds and proves it, where it isn't built yet or a source is newer than the last build; where
# another call is building already, waits for that one.
# Status 70: it couldn't be built, and nothing was run.
set -u

top="$(dirname "$(readlink -f "${BASH_SOURCE[0]}")")"
program="$top/crates/apex/out/apex"
built="$top/out/apex.built"
log="$top/out/apex.log"
lock="$top/out/apex.lock"
commands="check plan mean sim run gen trace audit"

say() { printf './apex: %s\n' "$*" >&2; }

# Whether the program is there and no source is newer than this mark.
is_built_since() {
    [ -x "$program" ] && [ -e "$1" ] &&
        [ -z "$(find "$top/crates.txt" "$top"/crates/*/{src,specs,proofs} -newer "$1" -print -quit 2>/dev/null)" ]
}

# Whether the program is of the sources as they stand: this script built it, or the gate did, which links it
# only once it is proved.
is_current() { is_built_since "$built" || is_built_since "$program"; }

# Whether the first word is the name of a command.
is_command() { [ $# -gt 0 ] && [[ " $commands " == *" $1 "* ]]; }

# `rt run` proves, compiles and links the program as far as that isn't done, and then runs it: without
# words, so that it only says that this is no command. The line that it prints before that shows that
# the rest was done.
build() {
    local started="$built.$$" since=$SECONDS
    touch "$started"
    say "proving and building the program, which takes a quarter of an hour the first time (see $log)"
    (cd "$top/crates/apex" && rt run) >"$log" 2>&1 </dev/null
    if ! grep -q '^rt: running out/apex' "$log" || [ ! -x "$program" ]; then
        rm -f "$started"
        tail -n 20 "$log" >&2
        say "the program isn't proved or isn't built; all of the checker's output is in $log"
        return 1
    fi
    mv -f "$started" "$built"
    say "built in $((SECONDS - since)) seconds"
}

# Builds, unless another call has done so while this one waited.
build_once() {
    if ! command -v rt >/dev/null; then
        say "rt, the toolchain's command, isn't found"
        return 1
    fi
    mkdir -p "$top/out" || return 1
    (
        flock 9 || exit 1
        is_current || build
    ) 9>"$lock"
}

if ! is_current; then
    # What is no command needs no program to say so.
    if ! is_command "$@"; then
        printf 'apex: not a command\n' >&2
        say "the commands are $commands; docs/MANUAL.md tells their words"
        exit 1
    fi
    build_once || exit 70
fi
exec "$program" "$@"
