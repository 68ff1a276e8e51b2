#!/usr/bin/env bash
# Runs the command for people, rust/cli. Where its program is missing, or older than what it is made of, it is built first: the crates
# are proved and those that C calls joined (./library), and cargo makes the program. One build serves all commands.
set -u
unset CDPATH CDF_LIB_DIR CARGO_TARGET_DIR
self=$(readlink -f -- "${BASH_SOURCE[0]}") || exit 2
root=${self%/*}
program=$root/rust/target/release/cdf
log=$root/rust/target/build.log
kit='rattle-kit-13f logic dac8208d650f15bf' # what it was proved with

fail() {
    printf 'cdf: %s\n' "$1" >&2
    exit 2
}

# Something that the program is made of and that is newer, or the program itself if it is not there.
newer() {
    [ -x "$program" ] || { printf '%s\n' "$program" && return; }
    find "$root/crates" "$root/crates.txt" "$root/library" "$root/include" "$root/rust" \( -path "$root/rust/target" -o -path "$root/crates/*/out" -o -path '*/tests' \) -prune -o -type f \
        \( -name '*.rt' -o -name '*.antt' -o -name '*.rs' -o -name '*.toml' -o -name '*.lock' -o -name '*.h' -o -name crates.txt -o -name library \) \
        -newer "$program" -print -quit
}

# How many crates are proved.
count_crates() {
    awk '{ sub(/#.*/, "") } /:/ { found++ } END { print found + 0 }' "$root/crates.txt"
}

make_all() {
    cd "$root" || return 1
    ./library && cargo build --quiet --offline --release --manifest-path rust/Cargo.toml -p cdf-cli && touch "$program"
}

# What is said while it is built: on a terminal one line that changes, else a line now and then.
tell_progress() { # PID TOTAL
    local proved last=-1 waited=0
    while kill -0 "$1" 2>/dev/null; do
        proved=$(grep -c '^library: checked ' "$log" 2>/dev/null)
        if [ -t 2 ]; then
            printf '\rcdf: proved %s of %s ' "${proved:-0}" "$2" >&2
        elif [ "${proved:-0}" -ne "$last" ] && [ $((waited % 50)) -eq 0 ]; then
            printf 'cdf: proved %s of %s\n' "${proved:-0}" "$2" >&2
            last=${proved:-0}
        fi
        sleep 0.2
        waited=$((waited + 1))
    done
    if [ -t 2 ]; then printf '\r\033[K' >&2; fi
}

build() {
    local why="the program is not built yet" pid status
    [ ! -x "$program" ] || why="the program is older than what it is made of, and is not run"
    command -v rt >/dev/null || fail "$why; to build it the Rattle kit's command 'rt' must be on the PATH: $kit"
    command -v cargo >/dev/null || fail "$why; to build it 'cargo' must be on the PATH"
    mkdir -p "$root/target" "${log%/*}" 2>/dev/null && : 2>/dev/null >"$log" && [ -w "$root/target" ] ||
        fail "$why; $root/target and ${log%/*} cannot be written"
    printf 'cdf: building the program: every function is proved first, in some minutes on four cores\n' >&2
    # A session of its own, so that all of it can be ended.
    export -f make_all
    root=$root program=$program setsid bash -c make_all >"$log" 2>&1 </dev/null 9<&- &
    pid=$!
    # What proves may be deaf to a first signal.
    trap 'kill -- "-$pid" 2>/dev/null; sleep 0.2; kill -KILL -- "-$pid" 2>/dev/null; printf "cdf: the build was ended\n" >&2; exit 2' INT TERM HUP
    tell_progress "$pid" "$(count_crates)"
    wait "$pid"
    status=$?
    trap - INT TERM HUP
    if [ "$status" -ne 0 ]; then
        kill -- "-$pid" 2>/dev/null # what a failed part left running
        [ -d "$root/target" ] || fail "$why; target/ was removed while it was built: call again"
        tail -n 5 "$log" >&2
        [ "$(rt version 2>/dev/null)" = "$kit" ] || printf 'cdf: this kit is %s; proved it was with %s\n' "$(rt version 2>&1)" "$kit" >&2
        fail "$why; it could not be built, and the whole account is in $log"
    fi
    printf 'cdf: built in %s seconds\n' "$SECONDS" >&2
}

if [ -n "$(newer)" ]; then
    exec 9<"$self"
    if ! flock -n 9; then
        printf 'cdf: another call is building, waiting\n' >&2
        flock 9
    fi
    [ -z "$(newer)" ] || build
    exec 9<&-
fi
exec "$program" "$@"
