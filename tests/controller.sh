# The library as a program in C meets it: the examples are built against it as it is installed and print what is stored, and it
# takes nothing from outside but C's memset. Sourced by .ci/run, or run by itself.
type holds >/dev/null 2>&1 || . "$(dirname "${BASH_SOURCE[0]}")/alone"

# Builds the example with the kit's own compiler and linker, the archive with its prover, and runs it.
example_prints() { # NAME
    mkdir -p target && "examples/$1/run" >"target/$1.out" && diff "target/$1.out" "examples/$1/expected.txt"
}

# The names that the archive takes from outside, by what the kit's linker misses where it is given nothing else.
taken_from_outside() {
    "$(dirname "$(rt doc)")/toolchain/bin/ld.lld" -e towerplank_request --whole-archive "$1" -o target/alone 2>&1 |
        sed -n 's/.*undefined symbol: //p' | sort -u
}

only_memset() {
    archive=$(tools/library) && [ "$(taken_from_outside "$archive")" = memset ]
}

holds "the smallest program in C prints what is stored" example_prints smallest
holds "the example controller in C prints what is stored" example_prints controller
holds "the library calls nothing outside but memset" only_memset
