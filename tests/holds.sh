# For a test of programs, read in by its script: goes to the project's root, and makes a folder, $room, that goes when the script ends.
# shellcheck shell=sh
cd "$(dirname "$(realpath "$0")")/../.." || exit 1
room=$(mktemp -d) || exit 1
trap 'rm -rf "$room"' EXIT
trap 'exit 1' HUP INT PIPE TERM

# Runs a program on this call's standard input and holds what it prints to a file; names the try where that differs, and fails.
holds() { # PROGRAM LABEL FILE
    tools/run-program "$1" >"$room/printed" || { echo "$1 on $2: it did not run to its end"; return 1; }
    cmp -s "$room/printed" "$3" && return
    echo "$1 on $2: not what is expected"
    diff "$room/printed" "$3" | head -n 5
    return 1
}
