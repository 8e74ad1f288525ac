# How this machine builds and runs a C or C++ program over an x86-64 archive: read by tests/c.sh and bench/run, which set `top` (the
# checkout) and `build` (a folder of their own).
#
# On x86-64 the system's C compiler builds, and the programs run as they are. Elsewhere, or where C_BY_KIT is set, the kit's own
# compiler and linker build for x86-64 and the programs run under the kit's loader and C library, and an emulator where it has one.
# shellcheck shell=sh disable=SC2154

kit=''
emulator=''
cxx=${CXX:-c++}
if [ "$(uname -m)" != x86_64 ] || [ -n "${C_BY_KIT:-}" ] || ! command -v cc >/dev/null; then
    kit=$(rt doc) || { echo "$0: no C compiler for x86-64, and no rt to find the kit by" >&2; exit 2; }
    case $kit in
    /*) ;;
    *) echo "$0: rt doc says '$kit', which is no absolute path" >&2; exit 2 ;;
    esac
    kit=$(dirname "$kit")
    tools=$kit/toolchain
    emulator=$tools/bin/qemu-x86_64
    [ -x "$emulator" ] || emulator=''
    # as rt does: the emulator takes orders from the environment too
    for word in $(env | sed -n 's/^\(QEMU_[A-Za-z0-9_]*\)=.*/\1/p'); do unset "$word"; done
    mkdir -p "$build/headers" || exit 2
    for header in errno stddef stdint stdio stdlib string time; do
        cp "$top/tests/libc.h" "$build/headers/$header.h" || exit 2
    done
fi

object() { # COMPILER SOURCE OBJECT FLAGS...: the compiler is the system's
    x86_compiler=$1
    x86_source=$2
    x86_object=$3
    shift 3
    set -- -O2 -Wall -Wextra "$@" -I "$top/include" -I "$top/tests" -c "$x86_source" -o "$x86_object"
    if [ -n "$kit" ]; then
        "$tools/bin/clang" --target=x86_64-unknown-linux-gnu -fPIE -nostdinc -isystem "$build/headers" "$@"
    else
        "$x86_compiler" "$@"
    fi
}

linked() { # COMPILER PROGRAM OBJECTS AND ARCHIVES...
    x86_compiler=$1
    x86_program=$2
    shift 2
    if [ -n "$kit" ]; then
        "$kit/bin/rattle-link" --target x86_64-unknown-linux-gnu --toolchain "$tools" -o "$x86_program" "$@"
    else
        "$x86_compiler" "$@" -o "$x86_program"
    fi
}

compile() { # ARCHIVE C-FILE PROGRAM FLAGS...
    x86_archive=$1
    x86_file=$2
    x86_name=$3
    shift 3
    if object cc "$x86_file" "$x86_name.o" -std=c99 "$@" && linked cc "$x86_name" "$x86_name.o" "$x86_archive"; then
        return
    fi >"$x86_name.log" 2>&1
    cat "$x86_name.log"
    return 1
}

# Of one file in C++, once with OTHER and once without. The kit has no library of C++, so what needs one is switched off.
compile_twice() { # ARCHIVE C++-FILE PROGRAM FLAGS...
    x86_archive=$1
    x86_file=$2
    x86_name=$3
    shift 3
    [ -z "$kit" ] || set -- -fno-exceptions -fno-rtti "$@"
    if object "$cxx" "$x86_file" "$x86_name.o" -std=c++11 "$@" && object "$cxx" "$x86_file" "$x86_name.other.o" -std=c++11 -DOTHER "$@" &&
        linked "$cxx" "$x86_name" "$x86_name.o" "$x86_name.other.o" "$x86_archive"; then
        return
    fi >"$x86_name.log" 2>&1
    cat "$x86_name.log"
    return 1
}

run() { # PROGRAM WORDS...
    if [ -n "$kit" ]; then
        ${emulator:+"$emulator"} "$tools/lib/ld-linux-x86-64.so.2" --library-path "$tools/lib" "$@"
    else
        "$@"
    fi
}
