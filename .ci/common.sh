# shellcheck shell=bash
# Sourced first by the scripts of .ci/checks and .ci/tests: goes to the top of the repository and gives them
#   $room          a folder of their own, removed when they end
#   fail WORDS     says what is wrong; the script ends with `exit "$failed"`
#   make_library   makes the static library, or ends the check
#   build_oracle   builds the original, where its sources are at hand
#   skip WHAT WHY  says what of the check can't be run on this machine, and why. The gate counts such a check neither way, and knows it by
#                  this line.
set -u -o pipefail
cd "$(dirname "${BASH_SOURCE[0]}")/.." || exit 2
failed=0
room=$(mktemp -d) || exit 2
trap 'rm -rf "$room"' EXIT

fail() {
    echo "${0##*/}: $*"
    failed=1
}

skip() {
    echo "SKIPPED $1 (${2//$'\n'/ })"
}

# Makes target/staticlib/libbarkpaddle.a where it isn't there yet, or ends the check.
make_library() {
    if ! tools/staticlib >"$room/said" 2>&1; then
        tail -n 20 "$room/said"
        fail "tools/staticlib fails"
        exit 1
    fi
    tail -n 1 "$room/said"
}

# Builds the oracle, whose path is then $oracle. Where there is none, WHAT can't be compared with the original, and this fails.
build_oracle() { # build_oracle WHAT
    oracle=$(oracle/build 2>"$room/why")
    case $? in
    0) return ;;
    3) skip "$1 beside the original" "$(cat "$room/why")" ;;
    *) cat "$room/why"; fail "the oracle can't be built" ;;
    esac
    return 1
}
