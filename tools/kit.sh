# shellcheck shell=bash disable=SC2034
# Sourced by what compiles C code against the board's library. kit_prepare makes ready what that takes and sets
#   kit_cc        the C compiler for x86-64, the processor that the library is for
#   kit_cxx       the C++ compiler for it
#   kit_archive   the library, made anew where it is not that of the sources at hand
#   kit_include   the folder of its header
#   kit_version   the version that the header tells, which the programs have too
#   kit_run       how an x86-64 program is run: by Debian's emulator, or as it is where the machine is one
# Where it cannot, kit_problem says why. The variables PIONGSEUT_ARCHIVE, PIONGSEUT_INCLUDE and PIONGSEUT_EMULATOR name others.
kit_root=$(cd "$(dirname "${BASH_SOURCE[0]}")/.." && pwd)
kit_include=${PIONGSEUT_INCLUDE:-$kit_root/include}
kit_version=$(sed -n 's/^#define PIONGSEUT_VERSION_STRING "\(.*\)"$/\1/p' "$kit_include/piongseut.h" 2>/dev/null)
kit_problem=
kit_run=()

# kit_does WHAT COMMAND..: runs a step; where it fails, the end of what it said is the problem.
kit_does() {
    local what=$1 log
    shift
    log=$("$@" 2>&1) && return
    kit_problem="$what: $(tail -n 5 <<<"$log")"
    return 1
}

kit_compiler() {
    kit_cc=gcc
    [ "$(uname -m)" = x86_64 ] || kit_cc=x86_64-linux-gnu-gcc
    kit_cxx=${kit_cc%gcc}g++
}

kit_emulator() {
    local emulator=${PIONGSEUT_EMULATOR:-qemu-x86_64}
    [ "$(uname -m)" = x86_64 ] && return
    kit_run=("$emulator")
    command -v "$emulator" >/dev/null || { kit_problem="no emulator $emulator"; return 1; }
}

# kit_programs NAME..: these programs in target/bin, made anew where they are not those of the sources at hand.
kit_programs() {
    kit_does "tools/build $* fails" "$kit_root/tools/build" "$@"
}

kit_library() {
    kit_archive=${PIONGSEUT_ARCHIVE:-$kit_root/target/staticlib/libpiongseut.a}
    [ -n "${PIONGSEUT_ARCHIVE:-}" ] || kit_programs piongseut || return
    [ -f "$kit_archive" ] || { kit_problem="no library $kit_archive"; return 1; }
    [ -f "$kit_include/piongseut.h" ] || { kit_problem="no piongseut.h in $kit_include"; return 1; }
}

# kit_prepare [GROUP..]: with the packages of these groups of tools/packages besides those that compiling takes.
kit_prepare() {
    kit_does 'packages are missing' "$kit_root/tools/packages" board "$@" && kit_compiler && kit_emulator && kit_library
}
