# The program dromdump, for the bench's scripts: sourced by dump, read-dumps and test, which set `bench` to this folder.
# shellcheck shell=sh disable=SC2154
root=$(CDPATH='' cd -- "$bench/.." && pwd -P)

say() {
    printf 'bench/%s: %s\n' "${0##*/}" "$*" >&2
}

stop() { # STATUS WORDS
    status=$1
    shift
    say "$*"
    exit "$status"
}

# Proves and builds the program, where that was not done yet. If it is not proved the script ends with STATUS; if the
# toolchain is missing, with 2.
prepare_program() { # STATUS
    command -v rt >/dev/null || stop 2 "rt, the Rattle toolchain, is missing"
    program=$root/crates/dromdump/out/dromdump
    log=$root/target/bench-program.log
    [ -x "$program" ] || say "proving and building the program, which takes minutes"
    mkdir -p "$root/target" || stop 2 "cannot write to $root"
    # Builds it, and then runs it on nothing, which is no dump: what it says of that goes into the log.
    (cd "$root/crates/dromdump" && rt run) </dev/null >"$log" 2>&1 || stop "$1" "the program was not proved: see $log"
    [ -x "$program" ] || stop 2 "the built program is gone: remove $root/crates/dromdump/out and run this again"
}

# What the program says of the dump on standard input.
run_program() {
    "$program"
}
