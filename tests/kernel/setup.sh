# shellcheck shell=bash disable=SC2034
# Sourced by run and shell: a machine in QEMU with Debian's kernel, before a shelf of bays that the board's process serves.
#
# There are two ways from QEMU to the bays: `adapter`, a host adapter beside it, and `generic`, its own disks by a preload library. All
# three are for this machine; the board's process is a program for x86-64, and so is what is inside.
project=$(cd "$(dirname "${BASH_SOURCE[0]}")/../.." && pwd)
# shellcheck source=../../tools/kit.sh
. "$project/tools/kit.sh"
kernel=$project/tests/kernel
build=$project/target/kernel
amd64=$project/target/packages/amd64
image=$project/target/packages/kernel
modules=(virtio_pci virtio_scsi virtio_blk crct10dif_generic crc64_rocksoft_generic sd_mod sg crc32c_generic ext4)
sectors=2048 # at once, as many as fit into MOST bytes of data
adapter=
preload=()
limit=0

# Makes ready what does not depend on the shelf, or says in kit_problem what is missing.
prepare() {
    local clients=$project/tests/clients flags=(-std=c11 -O2 -g -Wall -Wextra -Werror -I "$kit_include")
    case $build in *[[:space:]:,]*) kit_problem="LD_PRELOAD cannot name a file in '$build'"; return 1 ;; esac
    kit_prepare kernel && kit_does "cannot write to $build" mkdir -p "$build" &&
        kit_does "the board's process cannot be built" "$kit_cc" "${flags[@]}" -static -o "$build/board" \
            "$kernel/board.c" "$clients"/{bridge,drive}.c "$kit_archive" &&
        kit_does 'the host adapter cannot be built' gcc "${flags[@]}" -o "$build/adapter" \
            "$kernel"/{adapter,vhost,host,blocks}.c &&
        kit_does "QEMU's preload library cannot be built" gcc "${flags[@]}" -fPIC -shared -fvisibility=hidden -Wl,-z,defs \
            -o "$build/generic.so" "$kernel"/{generic,host,blocks}.c "$clients/sg.c"
}

# The libraries of a program for x86-64, by the loader that is unpacked with them.
libraries_of() {
    "${kit_run[@]}" "$amd64/lib64/ld-linux-x86-64.so.2" --library-path "$amd64/lib/x86_64-linux-gnu:$amd64/usr/lib/x86_64-linux-gnu" \
        --list "$1" | sed -nE 's,.* => (/.*) \(0x[0-9a-f]+\)$,\1,p'
}

# fill_root FOLDER INSIDE: what the machine has inside: busybox, the clients with their libraries, the modules, and the script that is to
# be run there.
fill_root() {
    local program module number=100
    mkdir -p "$1"/{bin,usr/sbin,lib,lib64,modules,proc,sys,dev} || return
    cp "$amd64/bin/busybox" "$1/bin/" && cp "$kernel/init" "$1/init" && chmod +x "$1/init" && cp "$2" "$1/inside" || return
    cp -L "$amd64/lib64/ld-linux-x86-64.so.2" "$1/lib64/" && cp "$amd64"/usr/sbin/smartctl "$amd64"/sbin/hdparm "$1/usr/sbin/" || return
    for program in "$1"/usr/sbin/*; do
        libraries_of "$program" | xargs -d '\n' cp -Lt "$1/lib" || return
    done
    python3 "$kernel/modules.py" "$image/lib/modules" "${modules[@]}" >"$1.modules" || return
    while read -r module; do
        number=$((number + 1))
        cp "$module" "$1/modules/$number-$(basename "$module")" || return
    done <"$1.modules"
}

# fill FOLDER INSIDE [FILE..]: the shelf, and the machine's first file system, with these files.
fill() {
    mkdir -p "$1/shelf" && python3 "$kernel/shelf.py" "$project/data/identify" "$1/shelf" && fill_root "$1/root" "$2" || return
    [ $# -eq 2 ] || cp "${@:3}" "$1/root/" || return
    wc -l <"$1/shelf/bays" >"$1/root/bays"
    (cd "$1/root" && find . | cpio -o -H newc --quiet) >"$1/root.cpio"
}

# Starts the host adapter, which starts the board, and waits until it listens.
start_adapter() {
    local tries=0
    PIONGSEUT_DATA=$1/shelf PIONGSEUT_LOG=$1/board.log \
        "$build/adapter" "$1/socket" "$1/shelf" "$1/host.log" "${kit_run[@]}" "$build/board" "$1/shelf" 2>"$1/adapter.err" &
    adapter=$!
    until [ -S "$1/socket" ] || [ "$tries" -ge 100 ]; do
        sleep 0.1
        tries=$((tries + 1))
    done
    [ -S "$1/socket" ] || { kit_problem="the host adapter does not listen: $(cat "$1/adapter.err")"; return 1; }
}

# machine FOLDER WORD..: from power on to power off. The words tell QEMU of the disks and of what else it is to have.
machine() {
    local folder=$1
    shift
    timeout --foreground "$limit" "${preload[@]}" qemu-system-x86_64 -accel tcg -nodefaults -display none -no-reboot \
        -pidfile "$folder/pid" -m 256 -object memory-backend-memfd,id=memory,size=256M,share=on -machine memory-backend=memory \
        -kernel "$image"/boot/vmlinuz-* -initrd "$folder/root.cpio" -append 'console=ttyS0 panic=1 quiet' "$@"
}

# boot_adapter FOLDER WORD..: the machine with the adapter's disks, once the adapter is there.
boot_adapter() {
    machine "$@" -chardev "socket,id=adapter,path=$1/socket" -device "vhost-user-scsi-pci,chardev=adapter,max_sectors=$sectors"
}

# boot_generic FOLDER WORD..: the machine with every bay a disk of QEMU's own.
boot_generic() {
    local bay disks=(-device "virtio-scsi-pci,id=bus,max_sectors=$sectors") preload=(env "LD_PRELOAD=$build/generic.so"
        "PIONGSEUT_SHELF=$1/shelf" "PIONGSEUT_HOST_LOG=$1/host.log" "PIONGSEUT_BOARD=exec ${kit_run[*]@Q} ${build@Q}/board ${1@Q}/shelf"
        "PIONGSEUT_DATA=$1/shelf" "PIONGSEUT_LOG=$1/board.log")
    while read -r bay _; do
        disks+=(-drive "file=$1/shelf/$bay.disk,if=none,id=bay$bay,format=raw"
            -device "scsi-generic,drive=bay$bay,bus=bus.0,scsi-id=$((10#$bay))")
    done <"$1/shelf/bays"
    machine "$@" "${disks[@]}"
}

# end_machine FOLDER: ends QEMU where it still runs.
end_machine() {
    [ ! -s "$1/pid" ] || kill "$(cat "$1/pid")" 2>/dev/null
}

# The adapter ends when QEMU has, and the board with it; where QEMU never was, it is ended.
end_adapter() {
    [ -n "$adapter" ] || return 0
    kill "$adapter" 2>/dev/null
    wait "$adapter" 2>/dev/null
    adapter=
}
