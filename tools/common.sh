# shellcheck shell=bash
# Sourced by the tools that run rt, at the top of the repository.

# Two tools at once would prove the same crates, and write the same logs and the same archive, so one waits for the other. What a tool that has the
# lock calls has it too.
if [ -z "${BARKPADDLE_LOCKED:-}" ]; then
    mkdir -p target && exec 8>target/tools.lock || exit 2
    if ! flock -n 8; then
        echo "tools/${0##*/}: waits for another tool that uses target/" >&2
        flock 8 || exit 2
    fi
    export BARKPADDLE_LOCKED=1
fi

tell() { # tell LINE: how far it is, on a terminal in the place of the line before
    if [ -t 2 ]; then printf '\r\033[K%s' "$1" >&2; else echo "$1" >&2; fi
}

told() { # there is no more to tell
    [ ! -t 2 ] || printf '\r\033[K' >&2
}
