# Document 01's "Edges to run as tests", with the kinds of M-100, and the orders of M-104 from 0 to 63, each with the answer that the
# documents give. Sourced by .ci/run, or called alone.
type holds >/dev/null 2>&1 || . "$(dirname "${BASH_SOURCE[0]}")/alone"
built replay

edge() { # SENTENCE STREAM EXPECTED: the engine answers the stream so
    holds "$1" test "$(printf '%b' "$2" | tools/run-program crates/replay/out/replay)" = "$(printf '%b' "$3")"
}

most=18446744073709551615
edge "id 63 is accepted and 64 refused" \
    'n 4676\nr 1 63 0 0\nr 1 64 0 0\nr 2 63 0 0\nr 2 64 0 0\nr 3 63 0 0\nr 3 64 0 0\n' \
    'r 0 0 0 0 0 9223372036854775808\nr 4 1 0 0\nr 0 0 0 0 1 9223372036854775808\nr 4 1 0 0\nr 0 0 0 0 2 9223372036854775808\nr 4 1 0 0'
edge "4,675, 4,677 and 0 words are no book" \
    'n 4675\nr 1 0 0 0\na\nn 4677\nr 1 0 0 0\na\nn 0\nr 1 0 0 0\na\n' \
    'r 1 0 0 0\na 1 0 0\nr 1 0 0 0\na 1 0 0\nr 1 0 0 0\na 1 0 0'
edge "an order with mask 0 is refused, and so is one with an undefined task" \
    'n 4676\nr 1 0 0 0\nr 12 0 0 0\nr 12 0 0 3\nr 12 0 0 1\nr 12 0 0 2\n' \
    'r 0 0 0 0 0 1\nr 4 3 0 0\nr 4 3 0 0\nr 0 0 0 0 516 1\nr 4 3 0 0'
edge "kinds 0 and 22 are refused" 'n 4676\nr 0 0 0 0\nr 22 0 0 0\n' 'r 3 0 0 0\nr 3 0 0 0'
edge "a cell of 8,256 is well formed where role 63 and subject 63 are defined, 8,257 is not" \
    'n 4676\nw 0 1\nw 1 9223372036854775808\nw 2 9223372036854775808\nw 516 1\nw 580 8256\na\nr 0 0 0 0\nw 580 8257\na\nr 0 0 0 0\n' \
    'a 0 0 0\nr 3 0 0 0\na 2 580 0\nr 2 580 0 0'
every=''
told=''
for kind in 1 2 3 4 5 6 7 8 9 10 11 12 13 14 15 16 17 18 19 20 21; do
    every="${every}r $kind $most $most $most\n"
    told="${told}r 4 1 0 0\n"
done
edge "the largest u64 as every argument is refused" "n 4676\n${every}r $most $most $most $most\na\n" "${told}r 3 0 0 0\na 0 0 0"
edge "the largest u64 as an unused argument changes nothing" \
    "n 4676\nr 1 0 $most $most\nr 1 1 0 0\nr 7 0 1 $most\nr 21 0 1 $most\n" \
    'r 0 0 0 0 0 1\nr 0 0 0 0 0 3\nr 0 0 0 0 196 2 197 1\nr 0 0 0 0 196 0 197 0'
# Subject 0 owns task 1 by role 0, and holds task 0: in order 63, or in 0 as well. The two exclude each other, and task 1 is asked for in order 1.
holding='n 4676\nw 0 3\nw 1 1\nw 2 1\nw 324 2\nw 388 1\nw 452 1\nw 517 2\nw 579 1\nw 4612 129\n'
edge "an SME task that is held in order 63 is told in order 1, and one in order 0 before it" \
    "${holding}w 4 2\nw 5 1\na\nr 13 1 1 0\nw 516 1\nw 580 129\na\nr 13 1 1 0\n" \
    'a 0 0 0\nr 33 0 1 63\na 0 0 0\nr 33 0 1 0'
edge "a DME task that is held in another order is not" "${holding}w 68 2\nw 69 1\nr 13 1 1 0\na\n" 'r 0 0 0 0 645 129\na 0 0 0'
edge "tasks of two orders in one hand break rule 9 where they are SME, and not where they are DME" \
    "${holding}w 645 129\nw 68 2\nw 69 1\na\nw 68 0\nw 69 0\nw 4 2\nw 5 1\na\n" 'a 0 0 0\na 49 0 0'
