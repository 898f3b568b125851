# The run agreement: the proved engine, run by the program replay, and the independent program in witness/ get the same
# stream of cases, and each answer and each changed word has to be the same. Sourced by .ci/run, or called alone.
# The stream is a new one each time; TOWERPLANK_SEED=N plays that of seed N again.
type holds >/dev/null 2>&1 || . "$(dirname "${BASH_SOURCE[0]}")/alone"
built replay

agree_seed=${TOWERPLANK_SEED:-$(date +%s)}
agree_count=20000

same_answers() { # CASES EXPECTED ANSWERED: goes along all three, and tells of the first difference
    awk -v cases="$1" -v answered="$3" '
        {
            while ((getline question < cases) > 0) {
                place++
                if (question ~ /^[ra]/) break
            }
            if ((getline answer < answered) <= 0) answer = "nothing"
            if (answer "" != $0 "") {
                differ = 1
                printf "line %d of the cases: %s\n  the independent program: %s\n  the proved engine: %s\n", place, question, $0, answer
                exit
            }
            same[substr($0, 1, 1)]++
        }
        END {
            printf "%d requests and %d audits agreed\n", same["r"], same["a"]
            if (!differ && (getline answer < answered) > 0) {
                differ = 1
                print "the proved engine goes on: " answer
            }
            exit differ || !same["r"]
        }' "$2"
}

agrees_on() { # SEED COUNT ROOM
    tools/witness cases "$1" "$2" >"$3/cases" &&
        tools/witness answers <"$3/cases" >"$3/expected" &&
        tools/run-program crates/replay/out/replay <"$3/cases" >"$3/answered" &&
        same_answers "$3/cases" "$3/expected" "$3/answered"
}

# An answer changed in the middle has to be seen, else the comparison above says nothing.
notices() { # ROOM
    sed '10000s/$/ 4675 1/' "$1/expected" >"$1/changed"
    ! same_answers "$1/cases" "$1/expected" "$1/changed" >"$1/told" && grep -q '^line ' "$1/told"
}

# Lines that are no command, or cannot be carried out, are told; the rest of the stream is played all the same.
passes_over() { # ROOM
    printf '%s\n' 'n 4701' 'n 4676' 'w 4676 1' 'r 1 0 0' 'r 1 5 0 0' 'r  1 5 0 0' 'a 1' '' 'r 1 5 0 18446744073709551616' 'a' >"$1/lines"
    printf 'r 1 6 %01000d 0\nr 1 6 0 0' 0 >>"$1/lines"
    {
        printf '%s\n' '? n 4701' '? w 4676 1' '? r 1 0 0' 'r 0 0 0 0 0 32' '? r  1 5 0 0' '? a 1' '? ' '? r 1 5 0 18446744073709551616' 'a 0 0 0'
        printf '? r 1 6 %0250d\nr 0 0 0 0 0 96\n' 0
    } >"$1/told"
    tools/run-program crates/replay/out/replay <"$1/lines" | cmp - "$1/told"
}

stored_is_expected() { tools/witness answers <crates/replay/stdin | cmp - crates/replay/stdout; }

agree_room=$(mktemp -d)
holds "the engine and the independent program agree on $agree_count cases and more of seed $agree_seed" agrees_on "$agree_seed" "$agree_count" "$agree_room"
holds "one changed answer among them is noticed" notices "$agree_room"
holds "what is no command is told, and the stream goes on" passes_over "$agree_room"
holds "the stored answers of replay are the independent program's" stored_is_expected
rm -rf "$agree_room"
