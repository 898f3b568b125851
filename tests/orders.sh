# The order of clicking does not matter (M-102), played through the library: tests/c/orders.c plays lists of requests on sound books in
# many orders. And that it would see an order that matters: there are such where M-102 doesn't speak, and where requests are carried out
# wrongly. Sourced by .ci/run, or called alone.
type holds >/dev/null 2>&1 || . "$(dirname "${BASH_SOURCE[0]}")/alone"

room=$(mktemp -d)
archive=$(tools/library)

build() { # PROGRAM SOURCE
    tools/link-c "$1" "$2" bench/books.c -Ibench -Iinclude "$archive"
}

build target/orders tests/c/orders.c && tools/run-program target/orders >"$room/printed"
ended=$?

# The program found nothing wrong, and this is one of its lines.
tells() { # LINE
    [ "$ended" -eq 0 ] && ! grep '^WRONG: ' "$room/printed" && grep -Eqx "$1" "$room/printed" || { cat "$room/printed"; return 1; }
}

# With these lines of C before and after the call of the library, the program fails, and tells each of these wrongs.
bend_is_seen() { # BEFORE AFTER WRONG ..
    before=$1 after=$2 awk '/^    towerplank_request\(/ { print ENVIRON["before"]; print; print ENVIRON["after"]; bent++; next } { print }
        END { exit bent != 1 }' tests/c/orders.c >"$room/bent.c" || { echo "not one call of the library to bend"; return 1; }
    shift 2
    build "$room/bent" "$room/bent.c" || return 1
    if tools/run-program "$room/bent" >"$room/found"; then echo "nothing wrong is found"; return 1; fi
    for wrong in "$@"; do
        grep -Eq "^WRONG: $wrong: [0-9]+ times" "$room/found" || { cat "$room/found"; return 1; }
    done
}

holds "lists of requests of kinds 4 to 10 end in one book, in whatever order they are played" tells \
    '[0-9]+ lists of 2 to [0-9]+ requests, [0-9]+ in all, played in [0-9]+ orders: [0-9]+ requests put'
holds "what is taken back at once leaves no trace" tells '[0-9]+ requests taken back at once'
holds "where one of a list is refused, its order is seen to matter" tells \
    'a list with a refused one \(audit 0\): 0 0 0 0 and 32 0 1 0; the other way round 0 0 0 0 and 32 0 2 0; the lowest word that differs is 388'
holds "with kind 11 in a list, its order is seen to matter" tells \
    'a list with kind 11 \(audit 0\): 0 0 0 0 and 0 0 0 0; the other way round 0 0 0 0 and 0 0 0 0; the lowest word that differs is 457'
holds "on a book that fails the audit, the order of a list is seen to matter" tells \
    'a book with SME in one direction \(audit 42\): 0 0 0 0 and 0 0 0 0; the other way round 0 0 0 0 and 32 0 1 0; the lowest word that differs is 388'
grep -E '^[0-9]|^kinds ' "$room/printed"

trace='what is taken back at once leaves a trace'
refused='a list is accepted in one order and not in another'
different='a list ends in different books in different orders'
holds "a role that switches itself on, as before M-101, is seen" bend_is_seen '' \
    'if (answer[0] == 0 && kind == TOWERPLANK_ASSIGN_ROLE && on[ACTIVE_OF + b] == 0) on[ACTIVE_OF + b] = a + 1;' "$trace" "$different"
holds "a pair that is added in one direction only is seen" bend_is_seen '' \
    'if (answer[0] == 0 && kind >= TOWERPLANK_SME && kind <= TOWERPLANK_SB) on[forms[kind].rows + b] &= ~(UINT64_C(1) << a);' "$refused" "$different"
# Document 01's third slip: a task is given to a role as if nobody were above it.
holds "a task that is given without a look at the seniors of its role is seen" bend_is_seen \
    'uint64_t juniors[NUMBERS];
     for (int i = 0; i < NUMBERS; i++) juniors[i] = on[JUNIORS_OF + i];
     for (int i = 0; i < NUMBERS && kind == TOWERPLANK_ASSIGN_TASK; i++) on[JUNIORS_OF + i] = 0;' \
    'for (int i = 0; i < NUMBERS && kind == TOWERPLANK_ASSIGN_TASK; i++) on[JUNIORS_OF + i] = juniors[i];' "$refused" "$different"
holds "a taking back that takes a whole row is seen" bend_is_seen '' \
    'if (answer[0] == 0 && kind == TOWERPLANK_TAKE_JUNIOR) on[JUNIORS_OF + b] = 0;' "$trace"
rm -rf "$room"
