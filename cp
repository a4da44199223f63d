#!/bin/bash
# Runs the program with these words. Where `rt ci` or ./prove has proved it in this checkout, and no source is newer, that is the proved
# program. Else it is built by `rt try`, once, in a minute or two: that proves nothing, and checks while the program runs. One line on
# standard error says so, unless CP_QUIET is set. Standard output and the status are always the program's own.
top="$(cd "$(dirname "${BASH_SOURCE[0]}")" && pwd)" || exit 1
. "$top/tools/programs"
proved="$top/crates/cp_tool/out/cp_tool"
is_fresh cp_tool "$proved" && exec "$proved" "$@"

say() { [ -n "${CP_QUIET-}" ] || echo "cp: $1" >&2; }
checked="$top/out/cp_tool"
if is_fresh cp_tool "$checked"; then
    say "nothing is proved here yet, so this build checks while it runs (./prove proves it)"
else
    say "nothing is proved here yet, so a build that checks while it runs is made first, in a minute or two (./prove proves it) .."
    mkdir -p "$top/out" || exit 1
    exec 9> "$top/out/lock" && flock 9
    rm -rf "$top/out/building-"* # of a build that was killed
    if ! is_fresh cp_tool "$checked" && ! "$top/tools/checked_build" "$top" "$checked"; then
        # What is wrong, or the output where only the build could not be kept.
        cd "$top/crates/cp_tool" && exec rt try -- "$@" 9>&-
    fi
    exec 9>&-
fi
exec "$checked" "$@"
