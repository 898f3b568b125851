# The examples of the pages. A block marked `shift` is played at the panel, with the options that stand behind that word, one marked
# `stream` by the program replay, and the block marked `answer` or `answers` after it is what it prints.
# Sourced by .ci/run, or called alone.
type holds >/dev/null 2>&1 || . "$(dirname "${BASH_SOURCE[0]}")/alone"
built panel replay

examples=$(mktemp -d)
for page in docs/*.md README.md; do
    awk -v room="$examples/$(basename "$page" .md)" '
        /^```(shift|stream)( --[a-z]+)*$/ {
            base = sprintf("%s-%02d", room, ++n)
            file = base "." substr($1, 4)
            printf "" >file
            $1 = ""
            print >(base ".options")
            close(base ".options")
            next
        }
        /^```answers?$/ { file = sprintf("%s-%02d.out", room, n); printf "" >file; next }
        /^```$/ { if (file) close(file); file = ""; next }
        file { print >file }' "$page"
done

plays() { # PROGRAM EXAMPLE
    # shellcheck disable=SC2046
    tools/run-program "crates/$1/out/$1" $(cat "${2%.*}.options") <"$2" | diff - "${2%.*}.out"
}

for example in "$examples"/*.shift "$examples"/*.stream; do
    [ -f "$example" ] || continue
    case $example in *.shift) program=panel ;; *) program=replay ;; esac
    holds "the example $(basename "${example%.*}") prints what its page says" plays "$program" "$example"
done
rm -rf "$examples"
