# The panel as a person and a script meet it: tools/panel with its options and statuses, when it proves, names, try, show, help, quit,
# what is no request, JSON, and a terminal. The worked shifts and the pages' examples are in tests/shifts.sh and tests/pages.sh.
# Sourced by .ci/run, or run by itself.
type holds >/dev/null 2>&1 || . "$(dirname "${BASH_SOURCE[0]}")/alone"

room=$(mktemp -d)

# ---- tools/panel alone: a repository of stand-ins. rt says in the file `asked` of the crate that it was asked and then does as it is
# ---- told; the program ends with the status that its shift consists of.

repo=$room/repo
asked=$repo/crates/panel/asked
mkdir -p "$repo/tools" "$repo/crates/panel/src" "$repo/crates/book/src" "$repo/crates/other/src" "$room/kit"
cp tools/panel "$repo/tools"
printf '# Crates.\nbook:\nother: book\npanel: book io\n' >"$repo/crates.txt"
touch "$repo/crates/panel/src/main.rt" "$repo/crates/book/src/lib.rt" "$repo/crates/book/src/more.rt" "$repo/crates/other/src/lib.rt"
# shellcheck disable=SC2016
printf '#!/bin/sh\nshift\necho "played $*"\nstatus=$(cat)\nexit ${status:-0}\n' >"$repo/tools/run-program"
chmod +x "$repo/tools/run-program"
rt_does() { # COMMANDS
    printf '#!/bin/sh\necho "$@" >>asked\n%s\n' "$1" >"$room/kit/rt"
    chmod +x "$room/kit/rt"
}
stand_in() { PATH=$room/kit:$PATH "$repo/tools/panel" "$@" >"$room/out" 2>"$room/message"; } # WORDS..
builds='mkdir -p out; : >out/panel; chmod +x out/panel'

asks_rt() { # yes|no
    rm -f "$asked"
    stand_in </dev/null && grep -qx 'played ' "$room/out" || return 1
    case $1 in yes) grep -qx 'run' "$asked" ;; *) [ ! -e "$asked" ] && [ ! -s "$room/message" ] ;; esac
}
# Times are compared to the second in places: what is to be newer is made so.
newer() { touch -d '+2 seconds' "$1"; }
settled() { find "$repo/crates" "$repo/crates.txt" -exec touch -d '-1 hour' {} +; }

isnt_proved() { # status 4, a message, and no program that is trusted afterwards
    stand_in </dev/null
    [ $? -eq 4 ] && [ ! -s "$room/out" ] && grep -q "the panel isn't proved" "$room/message" &&
        grep -q 'rt: the library book did not build' "$room/message"
}

refuses() { # MESSAGE WORDS..: status 2, the message and the usage on standard error, nothing else, and rt is not asked
    message=$1
    shift
    rm -f "$asked"
    stand_in "$@" </dev/null
    [ $? -eq 2 ] && [ ! -s "$room/out" ] && [ ! -e "$asked" ] &&
        [ "$(cat "$room/message")" = "tools/panel: $message
usage: tools/panel [--json] [--strict] [--help] [SHIFT ..]" ]
}
helps() {
    rm -f "$asked"
    stand_in --json --help && [ ! -s "$room/message" ] && grep -q '^usage: tools/panel' "$room/out" && [ ! -e "$asked" ]
}

rt_does 'exit 1'
settled
holds "an unknown option is refused before anything is proved" refuses '--jsn is no option (for a file of that name write ./--jsn)' --jsn
holds "a file that isn't there is refused" refuses "there is no file $room/none" --json "$room/none"
holds "a folder is refused" refuses "$room is a folder, not a file" "$room"
holds "an empty name is refused" refuses 'there is no file ' ''
holds "--help helps, and proves nothing" helps

rt_does "$builds; echo 'rt: the library book did not build, so nothing above it was checked'; exit 1"
holds "a panel that isn't proved is not played, status 4" isnt_proved
holds "what it left is not trusted" isnt_proved
rt_does "$builds"
holds "the panel is proved and built where there is none" asks_rt yes
holds "nothing is proved where nothing has changed" asks_rt no
newer "$repo/crates/other/src/lib.rt"
newer "$repo/crates/other/src"
holds ".. nor where a crate has changed that the panel does not need" asks_rt no
settled
newer "$repo/crates/book/src/lib.rt"
holds "a newer file of a crate that it needs is noticed" asks_rt yes
settled
holds ".. once" asks_rt no
rm "$repo/crates/book/src/more.rt"
newer "$repo/crates/book/src"
holds "a file that is gone is noticed" asks_rt yes
settled
newer "$repo/crates.txt"
holds "a newer crates.txt is noticed" asks_rt yes
settled
rm "$repo/crates/panel/out/panel"
holds "a program that is gone is noticed" asks_rt yes

# While it proves: how far it is, a line for some ten crates where nobody sits before it.
tells_progress() {
    rm "$repo/crates/panel/out/panel"
    rt_does "for i in 1 2 3 4 5 6 7 8 9 10 11 12; do echo \"logic=proved functions=\$i\"; done; sleep 2; $builds"
    stand_in </dev/null && grep -qE '^proving the panel: 12 of 2 crates, [0-9]+ s$' "$room/message"
}
# Stopped while it proves: the prover and what it began end, no stamp is left.
stops() {
    prover=$repo/crates/panel/prover
    rm -f "$repo/crates/panel/out/panel" "$asked" "$prover"
    rt_does 'sleep 300 & echo "$$ $!" >prover; wait'
    PATH=$room/kit:$PATH "$repo/tools/panel" </dev/null >"$room/out" 2>"$room/message" &
    script=$!
    for _ in $(seq 40); do [ -s "$prover" ] || sleep 0.5; done
    read -r one two <"$prover" || one='' two=''
    kill -TERM "$script"
    wait "$script"
    [ $? -eq 143 ] && grep -q 'stopped while proving' "$room/message" && [ ! -e "$repo/target/panel/built.began" ] || return 1
    [ -n "$two" ] && is_gone "$one" && is_gone "$two"
}
# It has ended, though nobody may have asked for its status yet.
is_gone() { case $(ps -o stat= -p "$1") in '' | Z*) true ;; *) false ;; esac; } # PROCESS
holds "while it proves it tells how far it is" tells_progress
holds "stopped while it proves, all that it began ends" stops
rt_does "$builds"
settled
stand_in </dev/null

worst_is() { # STATUS SHIFT..: shifts of one digit each
    expected=$1
    shift
    stand_in "$@"
    [ $? -eq "$expected" ]
}
for status in 0 1 3 143; do echo $status >"$room/$status"; done
announces() { stand_in "$room/0" "$room/1"; printf '== %s\nplayed \n' "$room/0" "$room/1" | cmp - "$room/out"; }
announces_json() {
    cp "$room/0" "$room/a \"b\\é"
    stand_in --json "$room/a \"b\\é" -- "$room/0"
    printf '{"shift":"%s"}\nplayed --json\n' "$room/a \\\"b\\\\\\u00c3\\u00a9" "$room/0" | cmp - "$room/out"
}
says_nothing_of_one() { stand_in --strict --json "$room/0"; echo 'played --strict --json' | cmp - "$room/out"; }
stops_at_a_signal() { worst_is 143 "$room/143" "$room/0" && ! grep -q "$room/0" "$room/out"; }
holds "the status is that of the worst shift" worst_is 3 "$room/0" "$room/3" "$room/1"
holds ".. refused is worse than well" worst_is 1 "$room/1" "$room/0"
holds "several shifts are announced" announces
holds ".. in JSON too, whatever their names are" announces_json
holds "one shift is not announced, and the options reach the program" says_nothing_of_one
holds "a shift that a signal ended ends the rest" stops_at_a_signal

# ---- the panel itself

tools/panel </dev/null >"$room/out"
panel() { tools/run-program crates/panel/out/panel "$@"; }

says() { # SENTENCE SHIFT EXPECTED: what is printed for the shift, the audit at its end not counted
    holds "$1" test "$(printf '%b' "$2" | panel)" = "$(printf '%b' "$3\nend: 0 0 0  audit: all ten rules hold")"
}

says "define-person and define-subject are one" 'define-person 1\ndefine-subject 1' \
    '1: 0 0 0 0  accepted: person 1 is defined\n2: 5 0 0 0  refused: person 1 is already defined'
says "the long words of exclusions and bindings are known" \
    'define-task 0\ndefine-task 1\nexclude-static 0 0\nexclude-dynamic 0 0\nbind-role 0 1\nbind-subject 0 1' \
    "1: 0 0 0 0  accepted: task 0 is defined\n2: 0 0 0 0  accepted: task 1 is defined
3: 20 0 0 0  conflict: task 0 can neither exclude nor be bound to itself; to resolve: name two different tasks
4: 20 0 0 0  conflict: task 0 can neither exclude nor be bound to itself; to resolve: name two different tasks
5: 0 0 0 0  accepted: in one order, task 0 and task 1 are done in one role (RB)
6: 0 0 0 0  accepted: in one order, task 0 and task 1 are done by one person (SB)"
says "a byte order mark at the start is passed over" '\xef\xbb\xbfdefine-task 0\n' '1: 0 0 0 0  accepted: task 0 is defined'
says "blanks, tabs, carriage returns and comments part words or end the line" '\tdefine-task \t 0\r\n  # nothing\n\ndefine-task 1#2\n' \
    '1: 0 0 0 0  accepted: task 0 is defined\n4: 0 0 0 0  accepted: task 1 is defined'

says "an unknown word is told with the nearest" 'alocate 0 0 0' "1: no request: 'alocate' is no kind of request; did you mean allocate?"
says "help on a word that the panel does not know" 'help alocate\nhelp 13' \
    "1: no request: 'alocate' is no word of the panel; did you mean allocate?\n2: no request: '13' is no word of the panel"
says "a word of the panel is not offered in its own place" 'try show' "1: no request: 'show' is no kind of request"
says "nothing is offered where nothing is near" 'frobnicate' "1: no request: 'frobnicate' is no kind of request"

# Names, in all four sorts: before the thing is there, given anew, by the old name, taken, unknown, none.
says "names stand for numbers in all four sorts" \
    'name task 0 wake\nname role 1 hand\nname person 2 otto\nname order 3 morning\ndefine-task wake\ndefine-role hand\ndefine-person otto
assign-task wake hand\nassign-role hand otto\nactivate hand otto\nopen morning tasks wake\nallocate wake morning otto\nallocate 0 3 2' \
    '1: task 0 is called wake\n2: role 1 is called hand\n3: person 2 is called otto\n4: order 3 is called morning
5: 0 0 0 0  accepted: task 0 (wake) is defined\n6: 0 0 0 0  accepted: role 1 (hand) is defined
7: 0 0 0 0  accepted: person 2 (otto) is defined\n8: 0 0 0 0  accepted: role 1 (hand) has task 0 (wake)
9: 0 0 0 0  accepted: person 2 (otto) has role 1 (hand)\n10: 0 0 0 0  accepted: person 2 (otto) now acts in role 1 (hand)
11: 0 0 0 0  accepted: order 3 (morning) is open, with tasks 0 (wake)
12: 0 0 0 0  accepted: person 2 (otto) does task 0 (wake) in order 3 (morning), and what is bound to it
13: 9 2 0 0  refused: task 0 (wake) of order 3 (morning) is in the hands of person 2 (otto); to resolve: leave it with them, or close '\
'the order and open it anew'
says "a name given anew replaces the old one" 'name task 0 wake\nname task wake start\ndefine-task start\nname task 0 start' \
    '1: task 0 is called wake\n2: task 0 is called start\n3: 0 0 0 0  accepted: task 0 (start) is defined\n4: task 0 is called start'
says "one name may stand in two sorts" 'name task 0 wake\nname role 0 wake\ndefine-role wake' \
    '1: task 0 is called wake\n2: role 0 is called wake\n3: 0 0 0 0  accepted: role 0 (wake) is defined'

for sort in task role person order; do
    says "a name of a $sort that is taken, unknown or none is told" \
        "name $sort 0 one\nname $sort 1 one\nname $sort 0 one\nname $sort two three\nshow $sort two\nname $sort 1 a.b\nname $sort 64 last\nname $sort 1" \
        "1: $sort 0 is called one\n2: no request: $sort 0 is called one already\n3: $sort 0 is called one
4: no request: no $sort is called two\n5: no request: no $sort is called two
6: no request: 'a.b' can't be a name: letters, digits, - and _, not beginning with a digit, 24 at most
7: no request: word 3 is no $sort's number: 0 to 63\n8: no request: word 4 is missing"
done
says "subject is another word for person" 'name subject 0 otto\nname person otto ida\nshow subject ida' \
    '1: person 0 is called otto\n2: person 0 is called ida\n3: there is no person 0 (ida)'

says "open takes tasks one by one, or a mask" 'define-task 0\ndefine-task 2\nopen 0 tasks 2 0 2\nopen 1 5' \
    '1: 0 0 0 0  accepted: task 0 is defined\n2: 0 0 0 0  accepted: task 2 is defined
3: 0 0 0 0  accepted: order 0 is open, with tasks 0 2\n4: 0 0 0 0  accepted: order 1 is open, with tasks 0 2'
says "try changes nothing" 'try define-task 0\ndefine-task 0\ntry define-task 0\ntry' \
    '1: 0 0 0 0  tried, the book is as it was: accepted: task 0 is defined\n2: 0 0 0 0  accepted: task 0 is defined
3: 5 0 0 0  tried, the book is as it was: refused: task 0 is already defined\n4: no request: word 2 is missing'
says "quit ends the shift" 'define-task 0\nquit\ndefine-task 1' '1: 0 0 0 0  accepted: task 0 is defined'

# An allocation for a person who acts in no role that they own now: what is said goes by how they stand.
printf '%b' 'name role 0 hand\nname person 63 otto\ndefine-task 2\ndefine-role 0\ndefine-role 5\ndefine-person 63\nassign-task 2 0\nopen 3 4
allocate 2 3 63\nassign-role 0 63\ntry allocate 2 3 63\nactivate 0 63\nassign-role 5 63\ntake-role 0 63\nallocate 2 3 63
take-role 5 63\nallocate 2 3 63\n' >"$room/stands"
tells_standing() {
    panel <"$room/stands" | grep ': 8 ' >"$room/out"
    printf '%s\n' '9: 8 0 0 0  refused: person 63 (otto) has no role; assign one to them and activate it first' \
        '11: 8 0 0 0  tried, the book is as it was: refused: person 63 (otto) acts in no role; activate one of theirs first' \
        '15: 8 0 0 0  refused: person 63 (otto) acts in role 0 (hand), which they do not own now; activate one of theirs first' \
        '17: 8 0 0 0  refused: person 63 (otto) acts in role 0 (hand), which they do not own now; assign that role or a senior of it to them '\
'first, or another role and activate it' | cmp - "$room/out"
}
holds "8 of an allocation is told by how the person stands" tells_standing

# Who holds the one task of an SME pair is told the lowest order of it, by number and by name, in whatever order the other is asked for.
printf '%b' 'name order 5 late\ndefine-task 0\ndefine-task 1\ndefine-role 0\ndefine-role 1\ndefine-person 2\nsme 0 1\nassign-task 0 0\nassign-task 1 1
assign-role 0 2\nactivate 0 2\nopen 63 1\nopen 5 1\nopen 4 2\nallocate 0 63 2\nallocate 0 5 2\ntake-role 0 2\nassign-role 1 2\nactivate 1 2
allocate 1 4 2\nclose 5\nallocate 1 4 2\n' >"$room/holds"
tells_order() {
    panel <"$room/holds" | grep ': 33 ' >"$room/out"
    sentence='%s  conflict: person 2 already holds task 0 in order %s, which excludes task 1 in every open order (SME); to resolve: give task 1 '\
'to someone else, or close order %s and, if it is opened anew, give task 0 there to someone else\n'
    # shellcheck disable=SC2059
    printf "$sentence" '20: 33 0 1 5' '5 (late)' '5 (late)' '22: 33 0 1 63' 63 63 | cmp - "$room/out"
}
holds "33 is told with the order that stands in the way" tells_order

# Who owns tasks that exclude what they would gain is told all of them, with and without a name, task 63 and what a junior brings among them.
printf '%b' 'name task 0 cut\nname task 9 sign\nname role 2 smith\nname person 63 otto\ndefine-task 0\ndefine-task 7\ndefine-task 9\ndefine-task 63
define-role 2\ndefine-role 3\ndefine-role 4\ndefine-person 63\nsme 0 9\nsme 7 9\nsme 63 9\nassign-task 0 2\nassign-task 7 2\nassign-task 63 3\njunior 3 2
assign-task 9 4\nassign-role 2 63\nassign-task 9 2\njunior 4 2\nassign-role 4 63\ntake-junior 3 2\ntake-task 0 2\ntry assign-task 9 2\n' >"$room/clashes"
tells_all_tasks() {
    three='3 tasks, each of which excludes' all='(SME): tasks 0 (cut) 7 63; to resolve, for each of these tasks' mask=9223372036854775937
    panel <"$room/clashes" | sed -n 's/\(: 3[12] .*; to resolve[^:]*\):.*/\1/p' >"$room/out"
    printf '%s\n' \
        "22: 31 2 $mask 0  conflict: role 2 (smith) owns $three task 9 (sign), which it would gain $all" \
        "23: 31 2 $mask 0  conflict: role 2 (smith) owns $three a task of role 4, which it would gain $all" \
        "24: 32 63 $mask 0  conflict: person 63 (otto) owns $three a task of role 4, which they would gain $all" \
        "27: 31 2 128 0  tried, the book is as it was: conflict: role 2 (smith) owns 1 task that excludes task 9 (sign), which it would gain \
(SME): task 7; to resolve, for that task" | cmp - "$room/out"
}
holds "31 and 32 are told with the number of tasks that stand in the way, and each of them" tells_all_tasks

lists_every_word() {
    printf 'help\n' | panel >"$room/help" || return 1
    for word in define-task define-role define-subject sme dme rb sb assign-task junior assign-role activate open allocate close \
        take-task take-junior take-role take-sme take-dme take-rb take-sb show audit help quit name try; do
        grep -qE "^ +([0-9]+ +)?$word " "$room/help" || { echo "help does not tell of $word"; return 1; }
        printf 'help %s\n' "$word" | panel | grep -q '^1: no request' && { echo "no help on $word"; return 1; }
    done
    return 0
}
holds "help lists every word, and tells of each" lists_every_word

shows_one() { # SORT
    case $1 in order) none='order %s is not open' ;; *) none="there is no $1 %s" ;; esac
    printf 'define-task 0\ndefine-role 0\ndefine-person 0\nopen 0 1\nshow %s 0\nshow %s 7\nshow %s 18446744073709551615\n' "$1" "$1" "$1" |
        panel >"$room/out" && grep -q "^5: $1 0" "$room/out" && grep -qx "6: $(printf "$none" 7)" "$room/out" &&
        grep -qx "7: $(printf "$none" 18446744073709551615)" "$room/out"
}
for sort in task role person order; do holds "show $sort tells of one, and of none" shows_one $sort; done

# ---- statuses

ends_with() { # STATUS SHIFT OPTIONS..
    expected=$1 shift_text=$2
    shift 2
    printf '%b' "$shift_text" | panel "$@" >"$room/out" 2>"$room/message"
    [ "${PIPESTATUS[1]}" -eq "$expected" ] && [ ! -s "$room/message" ]
}
holds "a refusal is an answer like any other" ends_with 0 'define-task 64\nfrobnicate\n'
holds "--strict: a refusal gives status 1" ends_with 1 'define-task 64\n' --strict
holds "--strict: a conflict gives status 1" ends_with 1 'define-task 0\nsme 0 0\ndefine-task 1\n' --strict
holds "--strict: a line that is no request gives status 1" ends_with 1 'define-tusk 0\n' --strict
holds "--strict: a trial that is refused does not count" ends_with 0 'try define-task 64\n' --strict
holds "--strict: where all is accepted the status is 0" ends_with 0 '# all well\ndefine-task 0\nname task 0 wake\nshow\naudit\nquit\n' --strict
holds "--strict and --json go together" ends_with 1 'define-task 64\n' --strict --json

cannot_read() { # status 3, told, and no audit is claimed
    tools/panel <&- >"$room/out" 2>"$room/message"
    [ $? -eq 3 ] && [ "$(cat "$room/message")" = "panel: the input can't be read" ] && ! grep -q '^end:' "$room/out"
}
cannot_write() {
    tools/panel shifts/seed.txt >/dev/full 2>"$room/message"
    [ $? -eq 3 ] && [ "$(cat "$room/message")" = "panel: the output can't be written" ]
}
cannot_write_two() {
    tools/panel shifts/seed.txt shifts/empty.txt >/dev/full 2>"$room/message"
    [ $? -eq 3 ] && [ -s "$room/message" ]
}
cannot_write_at_all() {
    tools/panel shifts/seed.txt >&- 2>"$room/message"
    [ $? -eq 3 ] && [ "$(cat "$room/message")" = "tools/panel: the output can't be written" ]
}
# Whether a program that writes to a closed pipe is ended by that here; where the signal is ignored, it sees a write that fails.
pipes_end() {
    yes 2>/dev/null | head -n 1 >/dev/null
    [ "${PIPESTATUS[0]}" -eq 141 ]
}
ends_quietly() { # a reader that has had enough
    { tools/panel shifts/day.txt shifts/day.txt 2>"$room/message"; } | head -n 1 >"$room/out"
    [ ! -s "$room/message" ] && [ "$(cat "$room/out")" = '== shifts/day.txt' ]
}
holds "closed input is told, status 3" cannot_read
holds "a full disk is told, status 3" cannot_write
holds ".. and with several shifts" cannot_write_two
holds "closed output is told, status 3" cannot_write_at_all
if pipes_end; then
    holds "a pipe that its reader closes ends the panel quietly" ends_quietly
else
    echo "not looked at: a pipe that its reader closes, since the signal of that is ignored here"
fi

# ---- JSON, and a terminal

json_agrees() { # SHIFT
    panel <"$1" >"$room/plain" && panel --json <"$1" >"$room/json" && tests/panel/json_agrees "$room/plain" "$room/json"
}
for shift in shifts/*.txt; do holds "the shift $(basename "$shift" .txt) as JSON has the same facts" json_agrees "$shift"; done
holds "8 of an allocation as JSON has the same facts" json_agrees "$room/stands"
holds "33 over several orders as JSON has the same facts" json_agrees "$room/holds"
printf 'define-task 0\n"\\\x01\xff\xc3\xa9\x7f" 1\nname task 0 "x\\\n%0200d\n' 0 >"$room/bytes"
holds "bytes of every sort break no JSON" json_agrees "$room/bytes"
sees_a_difference() {
    sed 's/accepted: task 0/accepted: task 1/' "$room/plain" >"$room/changed"
    ! tests/panel/json_agrees "$room/changed" "$room/json" 2>"$room/message" && grep -q '^plain otherwise' "$room/message"
}
sees_in_json() { # MESSAGE COMMAND-OF-SED: with the JSON changed so, that is said
    sed "$2" "$room/json" >"$room/changed"
    ! cmp -s "$room/json" "$room/changed" && ! tests/panel/json_agrees "$room/plain" "$room/changed" 2>"$room/message" && grep -q "^$1:" "$room/message"
}
sees_in_both() { # MESSAGE COMMAND-OF-SED: with the two changed alike, that is said
    sed -i "$2" "$room/plain" && sees_in_json "$1" "$2"
}
holds "a difference between the two would be seen" sees_a_difference
holds ".. and a z where nothing is said" sees_in_json 'z is 0 where nothing is said' 's/"z":0,/"z":1,/'
holds "31 and 32 with several tasks as JSON have the same facts" json_agrees "$room/clashes"
holds ".. and another count would be seen" sees_in_json 'the count of the tasks' 's/"count":3,/"count":2,/'
holds ".. and a task left out of the list" sees_in_json 'the tasks of y' 's/,{"task":63,"name":null}//'
holds ".. and one left out of the sentence" sees_in_both 'the sentence of the tasks' 's/ 63; to resolve/; to resolve/'
holds "on a terminal there are a greeting, prompts and an end by quit and by Ctrl-D, elsewhere none" tests/panel/terminal
rm -rf "$room"
