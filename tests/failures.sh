# Input that can't be read and output that can't be written: a program says so on standard error and ends with status 3. A pipe that
# its reader has closed ends it quietly. Sourced by .ci/run, or called alone.
type holds >/dev/null 2>&1 || . "$(dirname "${BASH_SOURCE[0]}")/alone"

failures_room=$(mktemp -d)

# Whether a program that writes to a closed pipe is ended by that here; where the signal is ignored, it sees a write that fails.
pipes_end() {
    yes 2>/dev/null | head -n 1 >/dev/null
    [ "${PIPESTATUS[0]}" -eq 141 ]
}

told() { # STATUS MESSAGE: the program ended with that status, and said that alone on standard error; no message: it said nothing
    [ "$failures_status" -eq "$1" ] && printf "${2:+%s\n}" "$2" | cmp - "$failures_room/errors"
}

reads_directory() { # PROGRAM
    tools/run-program "crates/$1/out/$1" <. >"$failures_room/output" 2>"$failures_room/errors"
    failures_status=$?
    told 3 "$1: the input can't be read"
}

reads_closed() { # PROGRAM
    tools/run-program "crates/$1/out/$1" <&- >"$failures_room/output" 2>"$failures_room/errors"
    failures_status=$?
    told 3 "$1: the input can't be read"
}

fills_up() { # PROGRAM LINE COUNT: the line so many times, to a device that is full
    yes "$2" 2>/dev/null | head -n "$3" | tools/run-program "crates/$1/out/$1" >/dev/full 2>"$failures_room/errors"
    failures_status=${PIPESTATUS[2]}
    told 3 "$1: the output can't be written"
}

writes_closed() { # PROGRAM LINE
    echo "$2" | tools/run-program "crates/$1/out/$1" 2>"$failures_room/errors" >&-
    failures_status=${PIPESTATUS[1]}
    told 3 "$1: the output can't be written"
}

# The input has no end, so that nothing but the closed pipe ends the program.
ends_quietly() { # PROGRAM LINE
    yes "$2" 2>/dev/null | timeout 300 tools/run-program "crates/$1/out/$1" 2>"$failures_room/errors" | head -n 1 >"$failures_room/output"
    failures_status=${PIPESTATUS[1]}
    told 141 '' && [ -s "$failures_room/output" ]
}

goes_well() { # PROGRAM LINE
    echo "$2" | tools/run-program "crates/$1/out/$1" >"$failures_room/output" 2>"$failures_room/errors"
    failures_status=${PIPESTATUS[1]}
    told 0 '' && [ -s "$failures_room/output" ]
}

fails_aloud() { # PROGRAM LINE: all of that; the line is one that the program answers
    built "$1"
    holds "$1 ends with status 0 and no message where nothing fails" goes_well "$1" "$2"
    holds "$1 tells that a directory can't be read" reads_directory "$1"
    holds "$1 tells that closed input can't be read" reads_closed "$1"
    holds "$1 tells that a short output does not fit a full device" fills_up "$1" "$2" 1
    holds "$1 tells that a long output does not fit a full device" fills_up "$1" "$2" 5000
    holds "$1 tells that closed output can't be written" writes_closed "$1" "$2"
    if pipes_end; then
        holds "$1 ends quietly where its reader closes the pipe" ends_quietly "$1" "$2"
    else
        echo "not looked at: a pipe that its reader closes, since the signal of that is ignored here"
    fi
}

fails_aloud replay a
fails_aloud panel audit
rm -rf "$failures_room"
