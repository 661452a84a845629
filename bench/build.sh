# The programs that are timed are built first: `build CRATE WORD..` says so, and runs the program of the crate once with
# these words and no input, which proves and builds what has changed.
crates="$(cd "$(dirname "${BASH_SOURCE[0]}")/../crates" && pwd)"

build() {
    local crate=$1
    shift
    echo "building $crate" >&2
    (cd "$crates/$crate" && rt run -- "$@" </dev/null >/dev/null 2>&1) || { echo "$crate can't be built" >&2; exit 1; }
}

# what the program `bench` answers to a command of these words
bench() {
    "$crates/bench/out/bench" <<<"$*"
}

# FILE.c PROGRAM: builds a program for the guest, where it stands alone
cross=riscv64-unknown-elf-gcc
for_guest() {
    "$cross" -march=rv32ima -mabi=ilp32 -O2 -g -gdwarf-5 -ffreestanding -nostdlib -static \
        -Wl,--no-relax -Wl,--build-id=none -o "$2" "$1"
}
