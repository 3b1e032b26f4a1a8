# shellcheck shell=bash
# Sourced by what runs a built program: program NAME [WORD ..] runs target/bin/NAME of this repository with these words, in the folder
# and with the standard input, output and error that it is called with.
program_root=$(CDPATH='' cd -- "$(dirname -- "${BASH_SOURCE[0]}")/.." && pwd)
# shellcheck source=compiled.sh
. "$program_root/tools/compiled.sh"
program() {
    compiled "$program_root/target/bin/$1" "${@:2}"
}
