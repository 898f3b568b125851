# tools/install: what it puts where, that programs in C and C++ build against it with the compilers there are, that it refuses bad
# usage, and that it leaves nothing behind where it fails or is stopped. And tools/library: when it proves and builds.
# Sourced by .ci/run, or run by itself.
type holds >/dev/null 2>&1 || . "$(dirname "${BASH_SOURCE[0]}")/alone"

room=$(mktemp -d)
installed=$room/installed

# ---- what it puts where

puts_three_files() {
    tools/install "$installed" >"$room/told" &&
        [ "$(cd "$installed" && find . -type f | sort | tr '\n' ' ')" = './include/towerplank.h ./lib/libtowerplank.a ./lib/pkgconfig/towerplank.pc ' ] &&
        cmp "$installed/include/towerplank.h" include/towerplank.h && cmp "$installed/lib/libtowerplank.a" "$(tools/library)"
}
holds "tools/install puts the header, the archive and the pkg-config file into a folder, and nothing else" puts_three_files
holds "it does so again over what stands there" puts_three_files
mv "$installed" "$room/moved"
installed=$room/moved

# ---- programs against it, after it was moved

if command -v pkg-config >/dev/null; then
    flags=$(PKG_CONFIG_PATH=$installed/lib/pkgconfig pkg-config --cflags --libs towerplank)
    version=$(PKG_CONFIG_PATH=$installed/lib/pkgconfig pkg-config --modversion towerplank)
    holds "pkg-config gives the version of the header" grep -qx "towerplank $version" examples/smallest/expected.txt
else
    echo "not looked at: towerplank.pc, as there is no pkg-config here"
    flags="-I$installed/include -L$installed/lib -ltowerplank"
fi

cp examples/smallest/smallest.c "$room/smallest.cpp"
prints_stored() { "$@" | diff - examples/smallest/expected.txt; }

kit_builds() { # SOURCE
    # shellcheck disable=SC2086
    tools/link-c "$room/program" "$1" $flags && prints_stored tools/run-program "$room/program"
}
holds "a program in C builds against it with the kit's compiler" kit_builds examples/smallest/smallest.c
holds "a program in C++ builds against it with the kit's compiler" kit_builds "$room/smallest.cpp"

strict='-Wall -Wextra -Wpedantic -Wconversion -Werror'
# A compiler for x86-64 makes the program, and it is run.
system_builds() { # SOURCE COMPILER
    # shellcheck disable=SC2086
    "$2" $strict -o "$room/program" "$1" $flags && prints_stored "$room/program"
}

# Clang on another machine compiles for x86-64 too; the kit has the rest of the program and runs it.
system_compiles() { # SOURCE COMPILER
    # shellcheck disable=SC2086
    "$2" --target=x86_64-linux-gnu -fPIE -nostdinc -isystem tools/c $strict -c -o "$room/program.o" "$1" ${flags%%-L*} &&
        tools/link-c "$room/program" "$room/program.o" $flags && prints_stored tools/run-program "$room/program"
}

for pair in "C:gcc:examples/smallest/smallest.c" "C++:g++:$room/smallest.cpp" "C:clang:examples/smallest/smallest.c" "C++:clang++:$room/smallest.cpp"; do
    language=${pair%%:*} source=${pair##*:} compiler=${pair#*:}
    compiler=${compiler%%:*}
    case $(command -v "$compiler" >/dev/null && "$compiler" -dumpmachine) in
    '') echo "not looked at: a program with $compiler, which is not here" ;;
    x86_64-*linux*) holds "a program in $language builds against it with $compiler and runs" system_builds "$source" "$compiler" ;;
    *)
        case $compiler in
        clang*) holds "a program in $language is compiled against it for x86-64 with $compiler and runs" system_compiles "$source" "$compiler" ;;
        *) echo "not looked at: a program with $compiler, which is for $("$compiler" -dumpmachine); the library is for x86-64" ;;
        esac
        ;;
    esac
done

# ---- bad usage

refuses() { # WORDS..: status 2, a message that says how it is used, and nothing on standard output
    tools/install "$@" >"$room/out" 2>"$room/message"
    [ $? -eq 2 ] && [ ! -s "$room/out" ] && grep -q '^usage: tools/install DIR$' "$room/message"
}
: >"$room/file"
holds "no folder is refused" refuses
holds "two folders are refused" refuses "$room/one" "$room/two"
holds "an empty name is refused" refuses ''
holds "an unknown option is refused" refuses --prefix
holds "a file in place of the folder is refused" refuses "$room/file"
holds "a folder below a file is refused" refuses "$room/file/below"
holds "--help helps" grep -q 'usage: tools/install DIR' <(tools/install --help)

# ---- nothing left behind

# A repository of stand-ins, whose library is what the test says.
mkdir -p "$room/repo/tools" "$room/repo/include"
cp tools/install "$room/repo/tools"
cp include/towerplank.h "$room/repo/include"
: >"$room/archive"
library_is() { # COMMANDS
    printf '#!/bin/sh\n%s\n' "$1" >"$room/repo/tools/library"
    chmod +x "$room/repo/tools/library"
}

unproved_leaves_nothing() {
    library_is 'exit 1'
    ! "$room/repo/tools/install" "$room/new/deep" 2>"$room/message" && [ ! -e "$room/new" ]
}
failed_leaves_nothing() {
    library_is "echo '$room/missing'"
    ! "$room/repo/tools/install" "$room/new/deep" 2>"$room/message" && [ ! -e "$room/new" ]
}
failed_keeps_what_was() {
    library_is "echo '$room/missing'"
    mkdir -p "$room/old/lib" && echo kept >"$room/old/lib/libtowerplank.a"
    ! "$room/repo/tools/install" "$room/old" 2>"$room/message" &&
        [ "$(cd "$room/old" && find . | sort | tr '\n' ' ')" = '. ./lib ./lib/libtowerplank.a ' ] && [ "$(cat "$room/old/lib/libtowerplank.a")" = kept ]
}
# Stopped while it copies, by a cp that stops it.
stopped_leaves_nothing() {
    library_is "echo '$room/archive'"
    mkdir -p "$room/shims"
    # shellcheck disable=SC2016
    printf '#!/bin/sh\nkill -TERM "$PPID"\nexec /bin/cp "$@"\n' >"$room/shims/cp"
    chmod +x "$room/shims/cp"
    PATH=$room/shims:$PATH "$room/repo/tools/install" "$room/new/deep" >"$room/out" 2>"$room/message"
    [ $? -eq 143 ] && [ ! -e "$room/new" ]
}
holds "where the library isn't proved the folder is not touched" unproved_leaves_nothing
holds "where a file can't be copied, what it had made is gone again" failed_leaves_nothing
holds ".. and what stood there before is as it was" failed_keeps_what_was
holds "stopped in the middle, what it had made is gone again" stopped_leaves_nothing

# ---- when the library is proved and built

# A repository with one file, and an rt that says in the file `asked` that it was asked, and then does as it is told.
mkdir -p "$room/one/tools" "$room/one/crates/book/src" "$room/one/crates/towerplank_c/src" "$room/kit"
cp tools/library "$room/one/tools"
: >"$room/one/crates.txt"
: >"$room/one/crates/book/src/lib.rt"
rt_does() { # COMMANDS
    printf '#!/bin/sh\necho "$@" >>asked\n%s\n' "$1" >"$room/kit/rt"
    chmod +x "$room/kit/rt"
}
asks_rt() { # yes|no: tools/library asks rt or doesn't, and prints the path of the archive
    rm -f "$room/one/crates/towerplank_c/asked"
    printed=$(PATH=$room/kit:$PATH "$room/one/tools/library" 2>"$room/message") && [ "$printed" = "$room/one/target/staticlib/libtowerplank.a" ] &&
        case $1 in
        yes) grep -qx 'lib --cpu=x86-64' "$room/one/crates/towerplank_c/asked" && [ "$(cat "$printed")" = archive ] ;;
        *) [ ! -e "$room/one/crates/towerplank_c/asked" ] ;;
        esac
}
fails_with_rt() { ! asks_rt yes 2>/dev/null && grep -q 'the library is not built' "$room/message"; }
# Times are compared to the second in places: what is to be newer is made so.
newer() { touch -d '+2 seconds' "$1"; }
builds='mkdir -p out; echo archive >out/libtowerplank_c.a'

rt_does "$builds"
holds "tools/library builds the archive where there is none" asks_rt yes
holds "it builds nothing where nothing has changed" asks_rt no
newer "$room/one/crates/book/src/lib.rt"
rt_does 'mkdir -p out; echo half >out/libtowerplank_c.a; exit 1'
holds "a build that fails is told" fails_with_rt
holds "what it left is not trusted" fails_with_rt
rt_does "$builds"
holds "a file of a crate that is newer has it built again" asks_rt yes
find "$room/one/crates" "$room/one/crates.txt" -exec touch -d '-1 hour' {} +
holds ".. and then no more" asks_rt no
rm "$room/one/crates/book/src/lib.rt"
newer "$room/one/crates/book/src"
holds "a file that is gone has it built again" asks_rt yes
rm -rf "$room"
