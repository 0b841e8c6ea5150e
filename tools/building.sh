# For a script that runs a proved program, read in by it: builds and proves the program where that has to be. The script has the repository's folder in $root,
# its own name in $me, and a function `fail` that says why it ends.
# shellcheck shell=sh disable=SC2154

# Whether a program is there and no source is newer. What `rt` makes in the crates' out/ is no source, and neither is a crate's folder, which is newer once it has one.
is_built() { # PROGRAM
    built=$root/crates/$1/out/$1
    [ -s "$built" ] && [ -z "$({ find "$root/crates.txt" -newer "$built" && find "$root/crates" -mindepth 2 -name out -prune -o -newer "$built" -print; } | head -n 1)" ]
}

# Builds a program where it isn't there yet, or where a source is newer: one call at a time, since they share the crates' out/.
build() { # PROGRAM
    is_built "$1" && return
    command -v rt >/dev/null || fail 'the Rattle kit is not here: no command rt'
    { mkdir -p "$root/target" && [ -w "$root/target" ]; } 2>/dev/null || fail "cannot write to $root/target"
    echo "$me: building and proving the program '$1'; this takes a minute or more" >&2
    (flock 9 && { is_built "$1" || prove "$1"; }) 9>"$root/target/building" || exit 2
}

# `rt run` proves, builds and runs a program; this run's input is empty.
prove() { # PROGRAM
    log=$root/target/build-$1.log
    (cd "$root/crates/$1" && rt run) </dev/null >"$log" 2>&1 || fail "the build failed; $log says why"
    [ -f "$built" ] || fail "the build made no $built; $log says more, and without the folders $root/crates/*/out everything is built anew"
    touch "$built" # rt leaves a program that it finds unchanged as it was
}
