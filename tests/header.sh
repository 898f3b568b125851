# The header: it compiles as C and C++ with the compilers there are, and its lists of kinds, answers and rules are those of the
# Rattle side. Sourced by .ci/run, or run by itself.
#
# What it reads of the Rattle side, and in what form; where it finds nothing it fails and says so:
#   crates/rules/specs/Book.antt      the line `book_words = COUNT`
#   crates/answers/src/lib.rt         the arms `Refusal::CASE .. => (NUMBER, ..` of the conversion to a Reply; Ok is 0
#   crates/rules/specs/Requests.antt  the rows `asks DEED NEED NEED NEED` of `table`
#   crates/rules/specs/Audit.antt     the rows of `rules`, after the one that is no rule
# Which kinds the library knows is asked of the library, and what the panel's words mean is asked of the panel.
type holds >/dev/null 2>&1 || . "$(dirname "${BASH_SOURCE[0]}")/alone"

room=$(mktemp -d)

# ---- it compiles

strict='-Wall -Wextra -Wpedantic -Wconversion -Wsign-conversion -Werror'
kit_clang=$(dirname "$(rt doc)")/toolchain/bin/clang

takes_header() { # LANGUAGE STANDARDS COMPILER..: hosted, and freestanding
    language=$1 standards=$2
    shift 2
    for standard in $standards; do
        # shellcheck disable=SC2086
        "$@" -x "$language" -std="$standard" $strict -Iinclude -c -o "$room/object" tests/c/lists.c &&
            "$@" -x "$language" -std="$standard" $strict -Iinclude -ffreestanding -c -o "$room/object" tests/c/freestanding.c || return 1
    done
}

try_compiler() { # NAME LANGUAGE STANDARDS COMPILER..
    name=$1
    shift
    if command -v "$3" >/dev/null; then
        holds "the header compiles as $2 with $name, hosted and freestanding" takes_header "$@"
    else
        echo "not looked at: the header with $name, which is not here"
    fi
}

try_compiler gcc c 'c99 c11 c17' gcc
try_compiler clang c 'c99 c11 c17' clang
try_compiler g++ c++ 'c++11 c++14 c++17 c++20' g++
try_compiler clang++ c++ 'c++11 c++14 c++17 c++20' clang++
for language in 'c c99 c11 c17' 'c++ c++11 c++14 c++17 c++20'; do
    try_compiler "the kit's compiler" "${language%% *}" "${language#* }" "$kit_clang" --target=x86_64-unknown-linux-gnu -nostdinc -isystem tools/c
done

# ---- its lists are those of the Rattle side

prints() { # SOURCE: what the program prints, built against the library as it is installed
    tools/install "$room/install" >"$room/told" &&
        tools/link-c "$room/program" "$1" "-I$room/install/include" "-L$room/install/lib" -ltowerplank &&
        tools/run-program "$room/program"
}

same_list() { # the files header and rattle of the room
    [ -s "$room/rattle" ] || { echo "nothing was read of the Rattle side; the head of this test says what it looks for"; return 1; }
    diff "$room/header" "$room/rattle" | sed -n 's/^< /only the header: /p; s/^> /only the Rattle side: /p'
    cmp -s "$room/header" "$room/rattle"
}

has_rows() { prints tests/c/lists.c >"$room/lists" && ! grep 'DIFFER' "$room/lists" && grep -q '^kind 1 ' "$room/lists"; }

prints_same_lists() { # LANGUAGE COMPILER: the lists, compiled for this machine; they need no library
    "$2" -x "$1" -Iinclude -o "$room/native" tests/c/lists.c && "$room/native" | diff - "$room/lists"
}

same_words() {
    sed -n 's/^words //p' "$room/lists" >"$room/header"
    sed -n 's/^book_words = //p' crates/rules/specs/Book.antt >"$room/rattle"
    same_list
}

same_answers_listed() {
    sed -nE 's/^answer ([0-9]+ [A-Z_]+) .*/\1/p' "$room/lists" >"$room/header"
    # As one line, since the layout may break an arm. A case's name in capitals, with a _ before each but the first. Ok is number 0.
    {
        grep -q 'Ok(()) => Reply::default(),' crates/answers/src/lib.rt && echo 0 ACCEPTED
        tr '\n' ' ' <crates/answers/src/lib.rt | grep -oE 'Refusal::[A-Za-z]+(\([^)]*\))? *=> *\( *[0-9]+' |
            sed -E 's/Refusal::([A-Za-z]+).*[^0-9]([0-9]+)$/\2 \1/; s/([a-z])([A-Z])/\1_\2/g' | tr '[:lower:]' '[:upper:]'
    } >"$room/rattle"
    same_list
}

same_rules_listed() {
    sed -n 's/^finding \([0-9]*\) .*/\1/p' "$room/lists" >"$room/header"
    sed -n '/^rules =/,/\[\]/p' crates/rules/specs/Audit.antt | awk '/^ *∷/ && !/\[\]/ { print 40 + ++n }' >"$room/rattle"
    same_list
}

# A kind's text names the arguments that its row of the table uses, each as what it must be: task a, order b, ..
same_kinds_listed() {
    awk '$1 == "kind" { for (i = 4; i < NF; i++) if ($(i + 1) ~ /^[abc]$/ && $i ~ /^(task|role|person|order|mask)$/) print $2, $(i + 1), $i }' "$room/lists" |
        sort -k 1,1n -k 2 >"$room/header"
    sed -n '/^table =/,/\[\]/p' crates/rules/specs/Requests.antt | awk '
        BEGIN { is["a_task"] = "task"; is["a_role"] = "role"; is["a_subject"] = "person"; is["an_open_order"] = "order"; is["a_task_mask"] = "mask" }
        sub(/.*asks /, "") {
            kind++
            # Where only the range is asked, the deed says what it is that is not there yet.
            is["in_range"] = /^open_order/ ? "order" : /^\(define 0\)/ ? "task" : /^\(define 1\)/ ? "role" : "person"
            for (i = 0; i < 3; i++) if ($(NF - i) != "unused") print kind, substr("cba", i + 1, 1), is[$(NF - i)]
        }' | sort -k 1,1n -k 2 >"$room/rattle"
    same_list
}

knows_kinds() { prints tests/c/known_kinds.c >"$room/known" && [ "$(cat "$room/known")" = '1055 numbers asked' ] || { cat "$room/known"; return 1; }; }

holds "each row of the header's lists has its enumerator and its text" has_rows
for pair in c:gcc c:clang c++:g++ c++:clang++; do
    ! command -v "${pair#*:}" >/dev/null || holds "${pair#*:} makes the same lists of it" prints_same_lists "${pair%:*}" "${pair#*:}"
done
holds "the header's book has as many words as the rules say" same_words
holds "the header's answers have the numbers and the names of crate answers" same_answers_listed
holds "the header's kinds use what the table of the rules says" same_kinds_listed
holds "the header's rules are those of the audit" same_rules_listed
holds "the library knows the header's kinds and no others" knows_kinds

# A row more or less, or another number, has to be seen.
sees() { # COMMAND-OF-SED CHECK: with the list changed so, the check fails
    sed "$1" "$room/lists" >"$room/changed"
    mv "$room/lists" "$room/kept"
    mv "$room/changed" "$room/lists"
    "$2" >"$room/told"
    seen=$?
    mv "$room/kept" "$room/lists"
    [ "$seen" -ne 0 ] && [ -s "$room/told" ]
}
holds "an answer that only the Rattle side has is seen" sees '/^answer 27 /d' same_answers_listed
holds "an answer with another number is seen" sees 's/^answer 11 /answer 12 /' same_answers_listed
holds "a kind that only the header has is seen" sees '$a kind 22 LEND lend role a to person b' same_kinds_listed
holds "a rule that only the Rattle side has is seen" sees '/^finding 50 /d' same_rules_listed

# ---- its names are the panel's words

# Each kind, and all accepted. Played with the header's numbers in place of the words the panel has to print the same.
cat >"$room/words" <<'SHIFT'
define-task 0
define-task 1
define-task 2
define-task 3
define-role 0
define-role 1
define-subject 0
sme 0 1
dme 2 3
rb 0 2
sb 0 2
assign-task 0 0
assign-task 2 0
junior 0 1
assign-role 1 0
activate 0 0
open 0 5
allocate 0 0 0
close 0
take-task 2 0
take-junior 0 1
take-role 1 0
take-sme 0 1
take-dme 2 3
take-rb 0 2
take-sb 0 2
SHIFT

panel_words() {
    built panel
    awk 'FNR == NR && $1 == "kind" { word = tolower($3); gsub("_", "-", word); number[word] = $2; next }
        FNR == NR { next }
        !($1 in number) { print "no kind of the header: " $1 >"/dev/stderr"; exit 1 }
        { left[$1] = 1; $1 = number[$1]; print }
        END { for (word in number) if (!(word in left)) { print "not played: " word >"/dev/stderr"; exit 1 } }' "$room/lists" "$room/words" >"$room/numbers" &&
        tools/run-program crates/panel/out/panel <"$room/words" >"$room/by-word" &&
        tools/run-program crates/panel/out/panel <"$room/numbers" >"$room/by-number" &&
        [ "$(grep -c '^[0-9]*: 0 0 0 0  accepted' "$room/by-word")" -eq "$(wc -l <"$room/words")" ] &&
        diff "$room/by-word" "$room/by-number"
}
holds "the header's names are the panel's words, and mean the same kinds" panel_words

# ---- its version is that of the pages and of the panel

version=$(sed -nE 's/^version [0-9.]+ is ([0-9.]+) is .*/\1/p' "$room/lists")
newest_is() { [ "$(sed -nE 's/^## \[([0-9][0-9.]*)\].*/\1/p' CHANGELOG.md | head -n 1)" = "$1" ]; }
holds "the newest version of CHANGELOG.md is the header's, $version" newest_is "$version"
holds "docs/INTEGRATOR.md speaks of version $version" grep -q "version $version" docs/INTEGRATOR.md
holds "the panel greets as version $version" grep -q "\"Towerplank $version:" crates/panel/src/main.rt
rm -rf "$room"
