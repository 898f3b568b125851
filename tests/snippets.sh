# The pieces of C on the pages: each block marked `c` stands, line for line, in a file of include/ or examples/, which the gate
# compiles. Sourced by .ci/run, or run by itself.
type holds >/dev/null 2>&1 || . "$(dirname "${BASH_SOURCE[0]}")/alone"

room=$(mktemp -d)
for page in docs/*.md *.md; do
    awk -v room="$room/$(basename "$page" .md)" '
        /^```c$/ { file = sprintf("%s-%02d.c", room, ++n); next }
        /^```$/ { if (file) close(file); file = ""; next }
        file { print >file }' "$page"
done

stands_in_a_file() { # BLOCK
    block=$'\n'$(cat "$1")$'\n'
    for source in include/*.h examples/*/*.[ch]; do
        text=$'\n'$(cat "$source")$'\n'
        [ "$text" = "${text/"$block"/}" ] || return 0
    done
    return 1
}

for block in "$room"/*.c; do
    holds "the piece of C $(basename "$block" .c) is taken from a file" stands_in_a_file "$block"
done
sed 's/count/number/' "$room/INTEGRATOR-02.c" >"$room/changed"
not_in_a_file() { ! stands_in_a_file "$1"; }
holds "a piece of C that is not is seen" not_in_a_file "$room/changed"
rm -rf "$room"
