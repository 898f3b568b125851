# The two copies of examples/two-copies: whatever store the power is cut at, what is loaded is the old book or the new one. And that
# the program which tries this would see it: with a step of the code left out or turned round it must find something wrong.
# Sourced by .ci/run, or run by itself.
type holds >/dev/null 2>&1 || . "$(dirname "${BASH_SOURCE[0]}")/alone"

room=$(mktemp -d)

survives_cuts() { examples/two-copies/run >"$room/printed" && diff "$room/printed" examples/two-copies/expected.txt; }

# With the edit of sed made in two_copies.c, the cuts are not survived.
edit_is_seen() { # EDIT
    cp examples/two-copies/*.[ch] "$room"
    sed -i "$1" "$room/two_copies.c"
    ! cmp -s "$room/two_copies.c" examples/two-copies/two_copies.c || { echo "the edit changes nothing: $1"; return 1; }
    tools/link-c "$room/power" "$room"/{two_copies,failing_store,power}.c -Itarget/install/include -Ltarget/install/lib -ltowerplank || return 1
    ! tools/run-program "$room/power" >"$room/printed" && grep -q '^WRONG: ' "$room/printed"
}

holds "power cut at every store of a request leaves the old book or the new one" survives_cuts
holds "a save over the newest copy is seen" edit_is_seen 's/copies->spare = 1u - copy;/copies->spare = copy;/'
holds "a last count written before the words is seen" edit_is_seen 's/^    put(place(copy, FIRST_COUNT), count);/&\n    put(place(copy, LAST_COUNT), count);/'
holds "a barrier left out before the last count is seen" edit_is_seen '/put(place(copy, CHECKSUM), sum);/{n;d;}'
holds "a first count written after the words is seen" edit_is_seen \
    '/^    put(place(copy, FIRST_COUNT), count);/d; s/^    put(place(copy, CHECKSUM), sum);/    put(place(copy, FIRST_COUNT), count);\n&/'
holds "a checksum that isn't compared is seen" edit_is_seen 's/(store_read(place(copy, CHECKSUM)) == checksum(book, count))/true/'
holds "a load that doesn't fall back is seen" edit_is_seen 's/else if (fetch(copies->spare, book))/else if (false)/'
holds "a load that doesn't ask the audit is seen" edit_is_seen 's/towerplank_audit(book, TOWERPLANK_WORDS, finding);/finding[0] = 0u;/'
holds "a count given twice is seen" edit_is_seen 's/loaded = TWO_COPIES_OLDER;/&\n        copies->count--;/'
holds "a load of the older copy is seen" edit_is_seen 's/copies->spare = (of_0 > of_1)/copies->spare = (of_0 < of_1)/'
rm -rf "$room"
