#!/bin/sh
# build.sh [-v] [FLAGS] [FILE..]: builds each file as a program for cgprof, beside it; this folder's three where none is
# named. build.sh [-v] [FLAGS] -o PROG FILE..: builds one program of these files.
#
# A file is C (.c), C++ without exceptions and run-time types (.cc .cpp .cxx), assembly (.s .S), an object or an
# archive. FLAGS go to the compiler, a word each (-O3 -flto -Idir), behind those of $CFLAGS: by themselves these are
# -O1 -fno-inline, so that each function stands in the report by itself. -march is rv32ima, rv32ia, rv32im or rv32i.
# -v prints the compiler's whole lines. Names of source files are kept as they are seen from the folder in which it is
# called.
#
# It takes the Debian packages gcc-riscv64-unknown-elf and picolibc-riscv64-unknown-elf.
set -e
here=$(dirname "$0")

stop() {
    echo "build.sh: $*" >&2
    exit 1
}

# The word as the shell reads it
word() {
    case $1 in
    '' | *[!A-Za-z0-9_./,:=+@%-]*) printf " '%s'" "$(printf %s "$1" | sed "s/'/'\\\\''/g")" ;;
    *) printf ' %s' "$1" ;;
    esac
}

# Does these words as a command, and prints them where that is asked for
step() {
    line=
    for one in "$@"; do
        line="$line$(word "$one")"
    done
    [ -z "$said" ] || echo "${line# }"
    "$@"
}

said= program= march=rv32ima flags= c_flags= cplusplus_flags= files= libraries=
while [ $# -gt 0 ]; do
    case $1 in
    -v) said=yes ;;
    -o) [ $# -gt 1 ] || stop "-o takes the program's name"; program=$2; shift ;;
    -o*) program=${1#-o} ;;
    -march=*) march=${1#-march=} ;;
    -std=*++*) cplusplus_flags="$cplusplus_flags$(word "$1")" ;;
    -std=*) c_flags="$c_flags$(word "$1")" ;;
    -l*) libraries="$libraries$(word "$1")" ;;
    -*) flags="$flags$(word "$1")" ;;
    *.c | *.cc | *.cpp | *.cxx | *.s | *.S | *.o | *.a)
        [ -f "$1" ] || stop "there is no file $1"
        files="$files$(word "$1")"
        ;;
    *) stop "$1 is no flag of one word, and no file .c, .cc, .cpp, .cxx, .s, .S, .o or .a" ;;
    esac
    shift
done
case $march in
rv32i | rv32im | rv32ia | rv32ima) ;;
*) stop "cgprof runs rv32ima, rv32ia, rv32im and rv32i, and not $march" ;;
esac
eval "set -- $files"
if [ $# = 0 ]; then
    [ -z "$program" ] || stop "-o takes the files of the program"
    set -- "$here/sort.c" "$here/threads.c" "$here/recurse.c"
fi
case "$CFLAGS$flags" in
*-flto*) lto=yes ;;
*) lto= ;;
esac
objects=$(mktemp -d)
trap 'rm -rf "$objects"' EXIT

# compiler gcc WORD.., compiler g++ WORD..: with what all files are compiled with
compiler() {
    name=$1
    shift
    step "riscv64-unknown-elf-$name" --specs=picolibc.specs -march="$march" -mabi=ilp32 ${CFLAGS:--O1 -fno-inline} \
        -g -gdwarf-5 -ffile-prefix-map="$PWD=." -ffile-prefix-map="$PWD/=" -ffunction-sections -fdata-sections \
        -I "$here/system" "$@"
}

c() {
    eval "compiler gcc $flags $c_flags \"\$@\""
}

cplusplus() {
    eval "compiler g++ $flags $cplusplus_flags -fno-exceptions -fno-rtti \"\$@\""
}

# build PROGRAM FILE..
build() {
    built=$1 number=0
    shift
    set -- "$here"/system/*.c "$@"
    case " $* " in
    *.cc\ * | *.cpp\ * | *.cxx\ *) set -- "$here/system/cplusplus.cc" "$@" ;;
    esac
    # C++ files by themselves, since their flags are none of C's. Where the program is optimized as a whole, those of
    # the system too: the compiler doesn't see yet what the C library will need of them.
    for one in "$@"; do
        shift
        number=$((number + 1)) object=$objects/$number.o whole=
        case $one in
        "$here"/system/*) whole=$lto ;;
        esac
        case $one in
        *.cc | *.cpp | *.cxx) cplusplus ${whole:+-fno-lto} -c -o "$object" "$one" ;;
        *)
            if [ -n "$whole" ]; then
                c -fno-lto -c -o "$object" "$one"
            else
                object=$one
            fi
            ;;
        esac
        set -- "$@" "$object"
    done
    eval "set -- \"\$@\" $libraries"
    c -nostartfiles -static -T "$here/guest.ld" -Wl,--build-id=none,--gc-sections,--wrap=vfprintf,--wrap=vfscanf \
        -o "$built" "$@"
    echo "$built"
}

if [ -n "$program" ]; then
    build "$program" "$@"
else
    for source in "$@"; do
        build "${source%.*}" "$source"
    done
fi
