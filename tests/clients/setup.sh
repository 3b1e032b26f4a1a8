# shellcheck shell=bash disable=SC2034
# Sourced by run and on-board: builds the preload library from the board's archive, and runs one client with it.
#
# On x86_64 the clients are run as they are installed. The board's archive is x86-64 code, so elsewhere the clients for x86-64, which
# tools/packages unpacks into a folder of their own, are run under an emulator.
project=$(cd "$(dirname "${BASH_SOURCE[0]}")/../.." && pwd)
# shellcheck source=../../tools/kit.sh
. "$project/tools/kit.sh"
clients=$project/tests/clients
build=${PIONGSEUT_CLIENT_BUILD:-$project/target/clients}
preload=$build/board.so
unpacked=$project/target/packages/amd64
limit=()

# A client's path: below the unpacked folder, or on this machine.
path_of() {
    local top="" folder
    [ ${#kit_run[@]} -eq 0 ] || top=$unpacked
    for folder in usr/sbin usr/bin sbin bin usr/lib/udev lib/udev; do
        if [ -x "$top/$folder/$1" ]; then
            echo "$top/$folder/$1"
            return
        fi
    done
    return 1
}

# Makes everything ready, or says in kit_problem what is missing.
prepare() {
    case $build in *[[:space:]:,]*) kit_problem="LD_PRELOAD cannot name a file in '$build'"; return 1 ;; esac
    kit_prepare clients && kit_does "cannot write to $build" mkdir -p "$build" &&
        kit_does 'the preload library cannot be built' "$kit_cc" -std=c11 -O2 -g -Wall -Wextra -Werror -fPIC -shared \
            -I "$kit_include" -o "$preload" "$clients"/{preload,sg,bridge,drive}.c "$kit_archive" -Wl,-z,defs -Wl,--exclude-libs,ALL ||
        return
    export PIONGSEUT_DATA=$project/data/identify LC_ALL=C
}

# enter FOLDER: goes there, where the drives, the log of the board's answers and that of the orders then are.
enter() {
    cp "$clients"/drives/* "$1" && cd "$1" || return
    export PIONGSEUT_LOG=$1/log PIONGSEUT_ORDERS=$1/orders
    : >"$PIONGSEUT_LOG"
    : >"$PIONGSEUT_ORDERS"
}

# Runs a client with the board under it.
client() {
    local program
    program=$(path_of "$1") || { echo "no client is called $1" >&2; return 127; }
    shift
    if [ ${#kit_run[@]} -gt 0 ]; then
        "${limit[@]}" "${kit_run[@]}" -L "$unpacked" -E LD_PRELOAD="$preload" "$program" "$@"
    else
        "${limit[@]}" env LD_PRELOAD="$preload" "$program" "$@"
    fi
}
