# The measurements: every request that is timed, and every one that makes a book for it, is answered and carried out alike by the library
# and by the plain C; what bench/run would make of times; and the picture is that of the tables beside it.
# Whether a target is met is for bench/run to say, not for the gate: it may run on a busy machine.
# Sourced by .ci/run, or called alone.
type holds >/dev/null 2>&1 || . "$(dirname "${BASH_SOURCE[0]}")/alone"

measured=$(mktemp -d)
bench/run --answers >"$measured/answers" 2>&1
holds "the library and hand-written C agree on every request that is measured or makes a book" \
    grep -q 'were put to both: 0 were answered or carried out differently' "$measured/answers"
grep -E '^- ' "$measured/answers"

# A processor without tzcnt runs the library's as bsf. Where there is an emulator, that can be one.
if command -v qemu-x86_64 >/dev/null; then
    libraries=$(dirname "$(rt doc)")/toolchain/lib
    QEMU_CPU=qemu64 qemu-x86_64 "$libraries/ld-linux-x86-64.so.2" --library-path "$libraries" target/measure answers >"$measured/older" 2>&1
    holds "and they do so on a processor without tzcnt" \
        grep -q 'were put to both: 0 were answered or carried out differently' "$measured/older"
else
    echo "not tried: the library on a processor without tzcnt"
fi

made_up() { # TIMES: a turn that meets each target, but for one path, which takes these: the library's, plain C's, and plain C's once more
    printf 'reading\t-\t0\t0 0 0\t0\t1\t1\t1\t-\n'
    for book in B cell dense long; do
        printf 'path\t%s\t1\t0 0 0\t0\t1\t1\t1\t-\n' "$book"
        printf 'path\t%s\t1\t64 0 0\t4\t1\t1\t1\t-\n' "$book"
        printf 'path\t%s\taudit\t0 0 0\t0\t0.1\t1\t1\t-\n' "$book"
    done
    # the three times are three words
    # shellcheck disable=SC2086
    printf 'path\tcell\t13\t0 0 0\t0\t%s\t%s\t%s\t-\n' $1
}

# Of turns with these times, and without the lines that are left out, these targets are told as missed, and no others; and the status
# says so. A target is told with the book on which nothing was measured, where that is why.
judged() { # MISSED BYTES LEFT_OUT TIMES ..
    rm -f "$measured"/turn.*
    for times in "${@:4}"; do made_up "$times" | grep -Ev "$3" >"$(mktemp "$measured/turn.XXXX")"; done
    awk -f bench/judge.awk -v show=tables -v stack="$2" -v code="$2" bench/targets "$measured"/turn.* >"$measured/judged"
    judged_status=$?
    told=$(sed -En -e 's/^- ([a-z]+).*: nothing measured on ([A-Za-z]+),.*: MISSED$/\1-\2/p; t' -e 's/^- ([a-z]+).*: MISSED$/\1/p' \
        "$measured/judged" | paste -sd ' ')
    [ "$told" = "$1" ] && [ "$judged_status" -eq "$([ -z "$1" ]; echo $?)" ] || { grep -E '^- ' "$measured/judged"; return 1; }
}
nothing='^$'
holds "a time above its target is told as missed" judged request 1 "$nothing" '1.2 1 1'
holds "of several turns the least time counts" judged '' 1 "$nothing" '1.2 1 1' '1.05 1 1'
holds "what two programs that are the same lie apart is allowed for" judged '' 1 "$nothing" '1.19 1 1.09'
holds "with too much of that, nothing passes" judged noise 1 "$nothing" '1 1 1.2'
holds "a target of which nothing was measured is told as missed" \
    judged 'audit-B audit-cell audit-dense audit-long stack code' '' audit '1 1 1'
holds "a book that is missing is told as missed" judged 'request-dense audit-dense' 1 dense '1 1 1'

drawn() { bench/picture docs/measured/M-103-before.tsv docs/measured/M-103-after.tsv | cmp - docs/performance.svg; }
holds "the picture of docs/PERFORMANCE.md is drawn of the tables in docs/measured" drawn
rm -rf "$measured"
