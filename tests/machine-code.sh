# What include/towerplank.h and docs/INTEGRATOR.md say of the library's machine code, looked up in the archive: registers, red zone,
# alignment, variables, what it takes from outside, and the stack. Sourced by .ci/run, or run by itself.
type holds >/dev/null 2>&1 || . "$(dirname "${BASH_SOURCE[0]}")/alone"

room=$(mktemp -d)
archive=$(tools/library)

tools/machine-code "$archive" >"$room/code"
looked=$?

says() { grep -qx "$1" "$room/code" || { grep "^${1%%:*}:" "$room/code"; return 1; }; }

# Two sorts of relocation, in whatever order they come.
anywhere() {
    grep -qxE 'relocations: R_X86_64_(PC32 R_X86_64_PLT32|PLT32 R_X86_64_PC32)' "$room/code" || { grep '^relocations:' "$room/code"; return 1; }
}

# The deepest stack, with a quarter of TOWERPLANK_STACK left over: for memset, and for a compiler that does otherwise.
leaves_room() {
    stack=$(sed -n 's/^#define TOWERPLANK_STACK //p' include/towerplank.h)
    deepest=$(sed -n 's/^deepest stack of towerplank_.*: \([0-9]*\) bytes$/\1/p' "$room/code" | sort -n | tail -n 1)
    [ -n "$stack" ] && [ -n "$deepest" ] && [ "$deepest" -le $((stack / 4 * 3)) ] || { echo "$deepest of $stack bytes"; return 1; }
}

look_at() { # NAME FLAGS..: what tools/machine-code tells of tests/c/NAME.c
    name=$1
    shift
    toolchain=$(dirname "$(rt doc)")/toolchain/bin
    "$toolchain/clang" --target=x86_64-unknown-linux-gnu -O3 "$@" -nostdinc -isystem tools/c -c -o "$room/$name.o" "tests/c/$name.c" &&
        "$toolchain/llvm-ar" rcs "$room/$name.a" "$room/$name.o" && tools/machine-code "$room/$name.a"
}

# A function that does what the library must not: each of its sins has to be seen. Its frame is what the red zone has, and its return.
sees_greed() {
    look_at greedy -mavx2 >"$room/greed" || return 1
    grep -qx 'deepest stack of greedy: 136 bytes' "$room/greed" || { grep 'deepest' "$room/greed"; return 1; }
    for clean in 'variables outside the stack: none' 'AVX, x87 and MMX registers: none' 'instructions that not every x86-64 has: none' \
        'system calls, segments, privileged instructions: none' 'red zone: not used'; do
        grep -q "^${clean%%:*}:" "$room/greed" && ! grep -qx "$clean" "$room/greed" || { echo "not seen: $clean"; return 1; }
    done
}

sees_no_red_zone() { look_at counted >"$room/counted" && grep -qx 'red zone: not used' "$room/counted"; }

if [ "$looked" -eq 3 ]; then
    echo "not looked at: the library's machine code"
else
    holds "the library's machine code can be counted" test "$looked" -eq 0
    holds "the library has no variables" says 'variables outside the stack: none'
    holds "the library uses the general and the xmm registers" says 'registers: general, xmm'
    holds "the library uses no AVX, x87 and MMX registers" says 'AVX, x87 and MMX registers: none'
    holds "the library uses instructions that every x86-64 has" says 'instructions that not every x86-64 has: none'
    holds "of what not every x86-64 has, the library has tzcnt alone, which the others run as bsf" says 'instructions that some x86-64 run as bsf: tzcnt'
    holds "the library makes no system call and does nothing privileged" says 'system calls, segments, privileged instructions: none'
    holds "the library uses no red zone" says 'red zone: not used'
    holds "the library needs an aligned stack, as its header asks" says 'accesses that need an aligned stack: some'
    holds "the library calls nothing through a pointer" says 'calls through pointers: none'
    holds "the library can be put anywhere in memory" anywhere
    holds "the library takes nothing from outside but memset" says 'taken from outside: memset'
    holds "no function of the library calls itself" says 'functions that call themselves: none'
    holds "the frames of a call fit TOWERPLANK_STACK, and a quarter is left" leaves_room
    holds "a function that does all that is seen to" sees_greed
    holds "a row of the frame, counted from above 0, is taken for no red zone" sees_no_red_zone
fi
rm -rf "$room"
