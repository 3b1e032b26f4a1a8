# shellcheck shell=sh
# Sourced by what runs a program of ours, also by the installed ones: compiled PROGRAM [WORD ..] runs it with these words, in the folder
# and with the standard input, output and error that it is called with. Programs are compiled for x86-64-v2; elsewhere Debian has an
# emulator, qemu-x86_64, and the toolchain the C library. It is asked for that once; where one is missing, that is told, and the status
# is 127.
compiled_libraries=
compiled() {
    if [ "$(uname -m)" = x86_64 ]; then
        "$@"
        return
    fi
    [ -n "$compiled_libraries" ] || compiled_libraries=$(dirname "$(rt doc 2>/dev/null)")/toolchain/lib
    if ! command -v qemu-x86_64 >/dev/null || [ ! -e "$compiled_libraries/ld-linux-x86-64.so.2" ]; then
        printf '%s: compiled for x86-64, and this processor is %s: the emulator qemu-x86_64 and the C library of the Rattle %s\n' \
            "${1##*/}" "$(uname -m)" 'toolchain (rt) are needed, and are not here' >&2
        return 127
    fi
    qemu-x86_64 -cpu max "$compiled_libraries/ld-linux-x86-64.so.2" --library-path "$compiled_libraries" "$@"
}
