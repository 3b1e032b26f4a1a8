# shellcheck shell=bash disable=SC2034
# Sourced by a suite, tests/NAME/run, and by the gate. It goes to the repository's root (root; here is the suite's own folder from
# there), makes a folder for what is written meanwhile (work) and counts checks. A suite closes with `finish`; one that ends in any
# other way, or that checked nothing, has failed and says so. The last line is always 'N passed, M failed'.
suite=$(cd "$(dirname "$0")" && pwd)/$(basename "$0")
cd "$(dirname "${BASH_SOURCE[0]}")/.." || exit 1
root=$PWD
suite=${suite#"$root"/}
here=${suite%/*}
passed=0
failed=0
finished=
work=$(mktemp -d) || exit 1

ended() {
    local status=$?
    [ -n "$finished" ] || not_ok "$suite ended before its last check, with status $status"
    [ $((passed + failed)) -gt 0 ] || not_ok "$suite checked nothing"
    rm -rf "$work"
    printf '%d passed, %d failed\n' "$passed" "$failed"
    # Said in full: exit alone would end with the status that there was before the trap.
    if [ "$failed" -eq 0 ]; then exit 0; else exit 1; fi
}
trap ended EXIT

finish() {
    finished=yes
    exit
}

# stop WHY: the suite cannot go on.
stop() {
    not_ok "$suite: $1"
    finish
}

# The first lines of a file, and of each the first letters.
first_lines() {
    head -n 16 "$1" | cut -c 1-300 | sed 's/^/    /'
}

ok() {
    passed=$((passed + 1))
    printf 'ok %s\n' "$1"
}

# not_ok WHAT [FILE]: FILE tells more.
not_ok() {
    failed=$((failed + 1))
    printf 'not ok %s\n' "$1"
    [ -z "${2:-}" ] || first_lines "$2"
}

# check WHAT COMMAND..: one check, that the command ends well; what it says is shown where it does not.
check() {
    local what=$1 status
    shift
    "$@" >"$work/.said" 2>&1
    status=$?
    if [ "$status" -eq 0 ]; then ok "$what"; else not_ok "$what: ${1##*/} ended with status $status" "$work/.said"; fi
}

# differ WANTED GIVEN: two files are not the same bytes; then it shows the first different lines of each, in hexadecimal if they are
# no text.
differ() {
    local view=(cat)
    cmp -s "$1" "$2" && return 1
    ! LC_ALL=C grep -qsaP '[^\s -~]' "$1" "$2" || view=(od -A d -t x1 -v)
    diff -a -U 0 --label wanted --label given <("${view[@]}" "$1" 2>&1) <("${view[@]}" "$2" 2>&1) |
        awk '/^-/ ? wanted++ < 6 : /^[+]/ ? given++ < 6 : 1'
    return 0
}

# same WHAT WANTED GIVEN: one check, that two files are the same bytes.
same() {
    if differ "$2" "$3" >"$work/.said"; then not_ok "$1" "$work/.said"; else ok "$1"; fi
}

# add WHAT STATUS LOG: the checks of a command that counts them itself, in the last line of its log: '.. N passed, M failed'.
add() {
    local last
    last=$(grep -v '^[[:space:]]*$' "$3" | tail -n 1)
    if ! [[ $last =~ (^|\ )([0-9]+)\ passed,\ ([0-9]+)\ failed$ ]]; then
        not_ok "$1 ended early, with status $2; its last line: ${last:-none}"
        return
    fi
    passed=$((passed + BASH_REMATCH[2]))
    failed=$((failed + BASH_REMATCH[3]))
    if [ "${BASH_REMATCH[3]}" -eq 0 ] && [ "${BASH_REMATCH[2]}" -eq 0 ]; then
        not_ok "$1 checked nothing"
    elif [ "${BASH_REMATCH[3]}" -eq 0 ] && [ "$2" -ne 0 ]; then
        not_ok "$1 ended with status $2, though no check of it failed"
    fi
}

# counted WHAT COMMAND..: runs such a command and shows what it says.
counted() {
    local what=$1 status
    shift
    "$@" >"$work/.counted" 2>&1
    status=$?
    cat "$work/.counted"
    add "$what" "$status" "$work/.counted"
}
