# Judges what the program of bench/measure.c printed in some turns: the least time of each program on each path counts, over all turns.
#   awk -f bench/judge.awk -v show=tables|data -v stack=BYTES -v code=BYTES bench/targets TURN ..
# With the tables it ends with status 1 where a target is missed. What was not measured is missed, too: it must not pass unseen.

BEGIN {
    FS = "\t"
    LIBRARY = 1; PLAIN = 2; AGAIN = 3; OTHER = 4
    books = split("B cell dense long", book_name, " ")
}

FILENAME ~ /targets$/ {
    if (/^#/) next
    split($0, word, / +/)
    targets++
    asked[targets] = word[1]
    on[targets] = word[2]
    most[targets] = word[3]
    of[targets] = word[4]
    for (i = 5; i in word; i++) of[targets] = of[targets] " " word[i]
    next
}

# what is measured, on which book, the kind, its three numbers, the number it is answered; then a time for each program
{
    key = $1 FS $2 FS $3 FS $4 FS $5
    if (!(key in seen)) { seen[key] = 1; keys[++count] = key }
    for (i = LIBRARY; i <= OTHER; i++) {
        time = $(5 + i)
        if (time != "-" && (!((key, i) in least) || time + 0 < least[key, i])) least[key, i] = time + 0
    }
    if ($1 == "path" && $9 != "-") beside = 1
    if ($1 == "path" && $3 + 0 > last_kind) last_kind = $3 + 0
    if ($1 == "reading") reading = least[key, LIBRARY]
}

function over(key, i, k) { return (key, i) in least && (key, k) in least ? least[key, i] / least[key, k] : 0 }

# How far apart two programs that are the same were found, on a path: the calls of the mixed stream are timed one by one, which is no
# measure for the paths, and no target is held against it.
function find_noise(  i, r) {
    for (i = 1; i <= count; i++) {
        r = keys[i] ~ /^path/ ? over(keys[i], PLAIN, AGAIN) : 0
        if (r == 0) continue
        if (r < 1) r = 1 / r
        if (noisiest == "" || r - 1 > noise) { noise = r - 1; noisiest = keys[i] }
    }
}

# ---- the row of the tables that a path belongs to, and the highest there

function row_of(part) {
    if (part[1] != "path") return "mixed stream"
    if (part[5] == 2) return "bad word"
    return part[3] == "unknown" ? "unknown kind" : part[3]
}

function note(what, part, r,  row) {
    row = row_of(part)
    if (r == 0 || ((what, part[2], row) in worst && r <= worst[what, part[2], row])) return
    worst[what, part[2], row] = r
    answered[what, part[2], row] = part[5]
}

function gather(  i, key, part) {
    for (i = 1; i <= count; i++) {
        key = keys[i]
        split(key, part, FS)
        if (part[1] !~ /^(path|stream|known)$/) continue
        note("plain/other", part, over(key, PLAIN, OTHER))
        note("library/other", part, over(key, LIBRARY, OTHER))
        if (part[1] == "known") continue # the stream without the kinds that the other program does not know
        note("library/plain", part, over(key, LIBRARY, PLAIN))
        note("library", part, least[key, LIBRARY] / reading)
        note("plain", part, least[key, PLAIN] / reading)
    }
}

# ---- verdicts

# what a target asks of a path; 0 where it asks nothing
function found_on(n, key, part,  row) {
    if (part[1] != "path" || index("," on[n] ",", "," part[2] ",") == 0) return 0
    row = row_of(part)
    if (asked[n] == "request") return row == "audit" ? 0 : over(key, LIBRARY, PLAIN)
    if (asked[n] == "audit") return row == "audit" ? over(key, LIBRARY, PLAIN) : 0
    if (asked[n] == "refusal") return part[5] >= 2 && part[5] <= 4 ? least[key, LIBRARY] / reading : 0
    return asked[n] == "plain" && row != "audit" ? over(key, PLAIN, OTHER) : 0
}

function path_name(part) {
    return (part[3] == "audit" ? "the audit" : "kind " part[3] " (" part[4] ")") " on " part[2] ", answered " part[5]
}

function tell(n, text, said) {
    if (said == "MISSED") missed++
    printf "- %s%s: %s, at most %s asked: %s\n", asked[n], on[n] == "-" ? "" : " on " on[n], text, most[n], said
}

# A target is missed where what is found is above it by more than the noise. Bytes are the same in every run.
function verdict(n, found, text, allowed) {
    tell(n, text, found <= most[n] ? "met" : found <= most[n] * (1 + allowed) ? "met, within the noise" : "MISSED")
}

function judge_bytes(n, bytes) {
    if (bytes + 0 > 0) verdict(n, bytes + 0, bytes " bytes", 0)
    else tell(n, "not measured", "MISSED")
}

function judge_noise(n,  part) {
    split(noisiest, part, FS)
    if (noisiest == "") tell(n, "not measured", "MISSED")
    else verdict(n, 1 + noise, sprintf("%.2f times %s (%s)", 1 + noise, of[n], path_name(part)), 0)
}

# Each book that a target names has to have a path that it speaks of.
function judge_books(n,  i, part, book, named, measured) {
    for (i = 1; i <= count; i++) {
        split(keys[i], part, FS)
        if (found_on(n, keys[i], part) > 0) measured[part[2]] = 1
    }
    named = split(on[n], book, ",")
    for (i = 1; i <= named; i++)
        if (!(book[i] in measured)) tell(n, "nothing measured on " book[i], "MISSED")
}

# the path that is furthest above a target, of those not told yet; 0 where there is none
function furthest(n,  i, part, r, highest, found) {
    for (i = 1; i <= count; i++) {
        split(keys[i], part, FS)
        r = (n, i) in told ? 0 : found_on(n, keys[i], part)
        if (r > highest) { highest = r; found = i }
    }
    return found
}

# The furthest path, and, where that misses the target, up to nine more that do.
function judge(n,  more, i, part, r) {
    while (more < 10 && (i = furthest(n))) {
        split(keys[i], part, FS)
        r = found_on(n, keys[i], part)
        if (more == 0) verdict(n, r, sprintf("%.2f times %s (%s)", r, of[n], path_name(part)), noise)
        else if (r > most[n] * (1 + noise)) printf "    %.2f: %s\n", r, path_name(part)
        told[n, i] = 1
        if (r <= most[n] * (1 + noise)) return
        more++
    }
}

function judge_all(  n) {
    for (n = 1; n <= targets; n++) {
        if (asked[n] == "stack") judge_bytes(n, stack)
        else if (asked[n] == "code") judge_bytes(n, code)
        else if (asked[n] == "noise") judge_noise(n)
        else if (asked[n] != "plain" || beside) { judge(n); judge_books(n) }
    }
}

# ---- what is printed

function cells(what, row, with_number,  n, line, book) {
    for (n = 1; n <= books; n++) {
        book = book_name[n]
        if (!((what, book, row) in worst)) line = line " – |"
        else line = line sprintf(" %.2f%s |", worst[what, book, row], with_number && row != "mixed stream" ? " (" answered[what, book, row] ")" : "")
    }
    return line
}

function print_table(title, first, second, with_number,  i, n, line, rule, row, rows) {
    rows = split("unknown kind,bad word,audit,mixed stream", row, ",")
    line = "| kind |"
    rule = "|---|"
    for (i = 1; i <= (second == "" ? 1 : 2); i++)
        for (n = 1; n <= books; n++) { line = line " " book_name[n] " |"; rule = rule "---|" }
    print title "\n\n" line "\n" rule
    for (i = 1; i <= last_kind + rows; i++) {
        line = i <= last_kind ? i : row[i - last_kind]
        print "| " line " |" cells(first, line, with_number) (second == "" ? "" : cells(second, line, with_number))
    }
    print ""
}

function print_tables() {
    print_table("The library's time over plain C's, on the path of each kind where that is highest (the number it is answered in brackets):", \
        "library/plain", "", 1)
    print_table("The costliest path of each kind, over reading the 4,676 words once: the library in four columns, then plain C:", "library", "plain", 0)
    if (beside)
        print_table("The times over the other program's, on the path of each kind where that is highest: plain C in four columns, then the library:", \
            "plain/other", "library/other", 0)
}

# every path, in multiples of reading the words once
function print_data(  i, k, line) {
    print "what\ton\tkind\tnumbers\tanswered\tlibrary\tplain C" (beside ? "\tother" : "")
    for (i = 1; i <= count; i++) {
        if (keys[i] ~ /^reading/) continue
        line = keys[i]
        for (k = LIBRARY; k <= OTHER; k++)
            if (k == LIBRARY || k == PLAIN || (k == OTHER && beside))
                line = line FS ((keys[i], k) in least ? sprintf("%.3f", least[keys[i], k] / reading) : "-")
        print line
    }
}

END {
    if (show == "data") { print_data(); exit 0 }
    find_noise()
    gather()
    print_tables()
    judge_all()
    exit missed > 0
}
