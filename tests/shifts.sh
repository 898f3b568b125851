# The worked shifts: each is played at the panel, and what it prints is what stands beside it. Sourced by .ci/run, or called alone.
type holds >/dev/null 2>&1 || . "$(dirname "${BASH_SOURCE[0]}")/alone"
built panel
mkdir -p target

for shift in shifts/*.txt; do
    tools/run-program crates/panel/out/panel <"$shift" >target/printed
    holds "the shift $(basename "$shift" .txt) prints what stands beside it" cmp target/printed "${shift%.txt}.out"
done
# Where the comment behind a request begins with an answer, its number or all four or the word accepted, that is what the line is answered. A
# word and a colon may stand before it: `P6: 32 0 1 0`. In the shift digits a comment is only more bytes.
told_as_commented() { # SHIFT ..
    for shift in "$@"; do
        [ "$shift" != shifts/digits.txt ] || continue
        awk '
            FNR == NR { if ($1 ~ /^[0-9]+:$/ && $2 ~ /^[0-9]+$/) told[$1 + 0] = $2 " " $3 " " $4 " " $5 " "; next }
            !/^[^#]*[^# ][^#]*#/ { next }
            { sub(/^[^#]*# */, ""); sub(/^[A-Za-z][A-Za-z0-9 ]*: +/, ""); said = "" }
            /^accepted/ { said = "0" }
            match($0, /^[0-9]+( [0-9]+ [0-9]+ [0-9]+)?($|[:, ])/) { said = substr($0, 1, RLENGTH); sub(/[:, ]$/, "", said) }
            said != "" && index(told[FNR], said " ") != 1 { print FILENAME ", line " FNR ": " said ", and told is " told[FNR]; wrong = 1 }
            END { exit wrong }' "${shift%.txt}.out" "$shift" || return 1
    done
}
sees_a_wrong_comment() {
    sed 's/P6: 32 0 1 0/P6: 32 0 0 0/' shifts/p1-p12.txt >target/commented.txt && ! cmp -s shifts/p1-p12.txt target/commented.txt || return 1
    cp shifts/p1-p12.out target/commented.out
    ! told_as_commented target/commented.txt >target/printed && grep -q '32 0 0 0, and told is 32 0 1 0' target/printed
}
holds "what the comments of the shifts say of an answer is what is told" told_as_commented shifts/*.txt
holds ".. and a comment that says something else is seen" sees_a_wrong_comment
rm -f target/commented.txt target/commented.out

# The two foremen of M-102, as the shift foremen shows them: one list in two orders, with `show` before and after each, and between the two
# all of the first is taken back.
between_shows() { # N: the requests between the Nth `show` and the next, in their order
    awk -v n="$1" '{ sub(/#.*/, ""); $1 = $1 } $0 == "show" { shown++; next } shown == n && NF' shifts/foremen.txt
}
shown_table() { # N: the tables that the Nth of them prints
    awk -v n="$1" '/^([0-9]+|end): / { inside = 0 } /^[0-9]+: the book$/ { seen++; inside = seen == n; next } inside' shifts/foremen.out
}
one_list_in_two_orders() {
    [ -n "$(between_shows 1)" ] && [ "$(between_shows 1)" != "$(between_shows 3)" ] &&
        [ "$(between_shows 1 | sort)" = "$(between_shows 3 | sort)" ]
}
one_book() { [ "$(shown_table 2)" = "$(shown_table 4)" ] && [ "$(shown_table 1)" = "$(shown_table 3)" ] && [ "$(shown_table 1)" != "$(shown_table 2)" ]; }
holds "the two foremen click one list, each in an order of their own" one_list_in_two_orders
holds "their books are the same, and taken back the list leaves no trace" one_book

sh shifts/megabyte.sh | tools/run-program crates/panel/out/panel >target/printed
holds "lines of a megabyte are told, and the shift goes on" cmp target/printed shifts/megabyte.out
rm -f target/printed
