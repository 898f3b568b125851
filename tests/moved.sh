# tools/moved: on the two commits of a small repository, in the older spelling (tests/moved/book.txt) and in today's (tests/moved/today.txt),
# between a commit and itself, and called wrongly; and on the pages of docs/changes that show what it prints. Sourced by .ci/run, or called alone.
type holds >/dev/null 2>&1 || . "$(dirname "${BASH_SOURCE[0]}")/alone"

room=$(mktemp -d)
mkdir "$room/book" "$room/today" "$room/none" "$room/pages"
moved=$PWD/tools/moved

at() { # FOLDER COMMAND ..: in a folder of the room, with a git that sees no other repository and no settings of the machine
    (
        unset GIT_DIR GIT_WORK_TREE GIT_INDEX_FILE
        export HOME=$room GIT_CONFIG_GLOBAL=/dev/null GIT_CONFIG_NOSYSTEM=1 GIT_CEILING_DIRECTORIES=$room
        cd "$room/$1" && shift && "$@"
    )
}
write() { # FOLDER MARK: the files of the small repository, of the lines that have this mark or none
    rm -rf "${room:?}/$1/crates"
    awk -v room="$room/$1/" -v mark="$2" '
        !/^[ ]|^$/ && substr($0, 1, 1) != mark { next }
        { $0 = substr($0, 2) }
        /^==== / { file = room $2; folder = file; sub(/[^\/]*$/, "", folder); system("mkdir -p " folder); printf "" >file; next }
        { print >file }' "tests/moved/$1.txt"
}
commit() { # FOLDER NAME: what stands there, under this name
    at "$1" git add -A
    at "$1" git -c user.name=nobody -c user.email=nobody@localhost commit -q --allow-empty -m "$2"
    at "$1" git tag "$2"
}
for folder in book today; do
    at "$folder" git init -q
    commit "$folder" empty
    write "$folder" -
    commit "$folder" before
    write "$folder" +
    commit "$folder" after
done

tells() { # FOLDER FROM TO FILE: what is printed there is what stands in the file
    at "$1" "$moved" "$2" "$3" | diff - "$4"
}
holds "each sort of change is told" tells book before after tests/moved/expected.txt
holds "and so it is in today's spelling" tells today before after tests/moved/today-expected.txt
write book -
holds "what is not committed does not count, and any folder of the repository will do" tells book/crates before after tests/moved/expected.txt

cat >"$room/nothing" <<'END'
definitions: no change
contracts: no change
code without a contract: no change
laws: no change
proofs of functions: no change
must-fail edits: no change
crates: 4 with no change
  with no change
    sets, book, new, talk
in all: no change; of the sentences before, others now: 0, gone: 0
END
holds "between a commit and itself nothing moved" tells book after HEAD "$room/nothing"

all_told() { # FROM TO
    for folder in book today; do
        [ "$(at "$folder" "$moved" --check "$1" "$2")" = "whatever is not told is the same in both" ] || return 1
    done
}
holds "every change is told, there and back" eval "all_told before after && all_told after before"

refuses() { # FOLDER ARGUMENTS ..: status 2, a sentence on standard error, nothing else
    status=0
    at "$1" "$moved" "${@:2}" >"$room/printed" 2>"$room/said" || status=$?
    [ "$status" -eq 2 ] && [ ! -s "$room/printed" ] && grep -q '^moved: ' "$room/said" && [ "$(wc -l <"$room/said")" -eq 1 ]
}
holds "no commit, one and three are refused" eval "refuses book && refuses book before && refuses book before after HEAD"
holds "what is no commit is refused" eval "refuses book before nowhere && refuses book --all after && refuses book --check before"
holds "a commit without crates is refused" refuses book empty after
holds "a folder that is no repository is refused" refuses none before after

# The pages: a block ```moved FROM shows what is printed for FROM and the commit that added its page, where the repository has both.
if [ "$(git rev-parse --is-shallow-repository 2>&1)" = false ]; then
    for page in docs/changes/M-*.md; do
        [ -f "$page" ] && added=$(git log -n 1 --diff-filter=A --format=%H -- "$page") && [ -n "$added" ] || continue
        awk -v room="$room/pages/$(basename "$page" .md)" -v added="$added" '
            /^```moved [^ ]+$/ { file = sprintf("%s-%02d", room, ++n); print $2, added >(file ".commits"); printf "" >file; next }
            /^```$/ { file = ""; next }
            file { print >file }' "$page"
    done
fi
shows() { # BLOCK FROM TO: and every change is told
    "$moved" "$2" "$3" | diff - "$1" && "$moved" --check "$2" "$3" >/dev/null
}
for commits in "$room"/pages/*.commits; do
    [ -f "$commits" ] && read -r from to <"$commits" && git rev-parse --verify --quiet "$from^{commit}" >/dev/null || continue
    holds "the page $(basename "${commits%-*}") shows what moved" shows "${commits%.commits}" "$from" "$to"
done
rm -rf "$room"
