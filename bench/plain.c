/*
 * The duty book in plain C, written by hand from document 01 with M-100, M-101, M-104 and M-105: sets are masks, a loop visits only the
 * members of a mask, a closure reads each row once, and what the answer does not need is not looked for. It proves nothing; bench/run
 * holds the library to its answers and to its speed.
 */
#include "plain.h"

enum {
    WORDS = 4676,
    TASKS = 0,
    ROLES = 1,
    SUBJECTS = 2,
    SME = 4,
    DME = 68,
    RB = 132,
    SB = 196,
    JUNIORS = 260,
    TASKS_OF = 324,
    ROLES_OF = 388,
    ACTIVE = 452,
    ORDERS = 516,
    CELLS = 580
};

typedef uint64_t u64;
typedef struct { u64 number, x, y, z; } reply;

/* what is said of an order, z */
static reply say_of(u64 number, u64 x, u64 y, u64 z)
{
    reply r = {number, x, y, z};
    return r;
}

static reply say(u64 number, u64 x, u64 y) { return say_of(number, x, y, 0); }

static u64 one(u64 i) { return (u64)1 << i; }
static int has(u64 set, u64 i) { return set >> i & 1; }
static u64 lowest(u64 set) { return (u64)__builtin_ctzll(set); }

/* Takes the lowest member out of a set; 0 where there is none. A loop over a set takes them out of a copy, until nothing is left. */
static int take(u64 *set, u64 *member)
{
    if (*set == 0) return 0;
    *member = lowest(*set);
    *set &= *set - 1;
    return 1;
}

/* ---- bad words */

/* the lowest bad row of a table, or WORDS: a row may not name what is unknown, and that of an owner who is not defined may name nothing */
static u64 bad_row(const u64 *book, u64 table, u64 owners, u64 known)
{
    for (u64 r = 0; r < 64; r++) {
        u64 barred = ~known | ((owners >> r & 1) - 1);
        if (book[table + r] & barred) return table + r;
    }
    return WORDS;
}

/* 0, or one more than a member */
static int names(u64 set, u64 v) { return v == 0 || (v <= 64 && has(set, v - 1)); }

static u64 bad_active(const u64 *book)
{
    for (u64 s = 0; s < 64; s++) {
        u64 v = book[ACTIVE + s];
        if (v && !(has(book[SUBJECTS], s) && names(book[ROLES], v))) return ACTIVE + s;
    }
    return WORDS;
}

/* the 64 cells of an order that is not open: no test between them, so that the compiler reads several at a time */
static int all_empty(const u64 *cells)
{
    u64 any = 0;
    for (u64 t = 0; t < 64; t++) any |= cells[t];
    return any == 0;
}

static u64 bad_cell(const u64 *book)
{
    u64 roles = book[ROLES], subjects = book[SUBJECTS];
    for (u64 p = 0; p < 64; p++) {
        u64 tasks = book[ORDERS + p], first = CELLS + 64 * p;
        if (tasks == 0 && all_empty(book + first)) continue;
        for (u64 t = 0; t < 64; t++) {
            u64 v = book[first + t];
            if (v == 0) continue;
            if (!has(tasks, t) || v < 128 || !names(roles, v >> 7) || !names(subjects, v & 127)) return first + t;
        }
    }
    return WORDS;
}

static u64 first_bad(const u64 *book)
{
    u64 i;
    if (book[3]) return 3;
    for (u64 table = SME; table <= SB; table += 64)
        if ((i = bad_row(book, table, book[TASKS], book[TASKS])) != WORDS) return i;
    if ((i = bad_row(book, JUNIORS, book[ROLES], book[ROLES])) != WORDS) return i;
    if ((i = bad_row(book, TASKS_OF, book[ROLES], book[TASKS])) != WORDS) return i;
    if ((i = bad_row(book, ROLES_OF, book[SUBJECTS], book[ROLES])) != WORDS) return i;
    if ((i = bad_active(book)) != WORDS) return i;
    if ((i = bad_row(book, ORDERS, ~(u64)0, book[TASKS])) != WORDS) return i;
    return bad_cell(book);
}

/* ---- words of the trade */

/* the set and all that chains along the rows of two tables lead to from it */
static u64 spread(const u64 *book, u64 first, u64 second, u64 set)
{
    u64 fresh = set;
    while (fresh) {
        u64 r = lowest(fresh);
        u64 more = (book[first + r] | book[second + r]) & ~set;
        set |= more;
        fresh = (fresh & (fresh - 1)) | more;
    }
    return set;
}

static u64 below(const u64 *book, u64 roles) { return spread(book, JUNIORS, JUNIORS, roles); }
static u64 reach(const u64 *book, u64 r) { return below(book, book[JUNIORS + r]); }
static u64 subject_group(const u64 *book, u64 t) { return spread(book, SB, SB, one(t)); }
static u64 role_group(const u64 *book, u64 t) { return spread(book, SB, RB, one(t)); }

static u64 tasks_of(const u64 *book, u64 roles)
{
    u64 tasks = 0;
    for (u64 left = roles, r; take(&left, &r);) tasks |= book[TASKS_OF + r];
    return tasks;
}

static u64 owned_tasks(const u64 *book, u64 roles) { return tasks_of(book, below(book, roles)); }

/* ---- refusals 4 to 8 */

enum { UNUSED, RANGE, TASK, ROLE, SUBJECT, OPEN, MASK };

static const unsigned char asked[22][3] = {
    {UNUSED, UNUSED, UNUSED}, {RANGE, UNUSED, UNUSED}, {RANGE, UNUSED, UNUSED}, {RANGE, UNUSED, UNUSED}, {TASK, TASK, UNUSED},
    {TASK, TASK, UNUSED},     {TASK, TASK, UNUSED},    {TASK, TASK, UNUSED},    {TASK, ROLE, UNUSED},    {ROLE, ROLE, UNUSED},
    {ROLE, SUBJECT, UNUSED},  {ROLE, SUBJECT, UNUSED}, {RANGE, UNUSED, MASK},   {TASK, OPEN, SUBJECT},   {OPEN, UNUSED, UNUSED},
    {TASK, ROLE, UNUSED},     {ROLE, ROLE, UNUSED},    {ROLE, SUBJECT, UNUSED}, {TASK, TASK, UNUSED},    {TASK, TASK, UNUSED},
    {TASK, TASK, UNUSED},     {TASK, TASK, UNUSED}};

static int fits(const u64 *book, int what, u64 v)
{
    switch (what) {
    case UNUSED: return 1;
    case MASK: return v != 0 && !(v & ~book[TASKS]);
    case RANGE: return v < 64;
    case TASK: return v < 64 && has(book[TASKS], v);
    case ROLE: return v < 64 && has(book[ROLES], v);
    case SUBJECT: return v < 64 && has(book[SUBJECTS], v);
    default: return v < 64 && book[ORDERS + v] != 0;
    }
}

static u64 argument_fault(const u64 *book, u64 kind, u64 a, u64 b, u64 c)
{
    if (!fits(book, asked[kind][0], a)) return 1;
    if (!fits(book, asked[kind][1], b)) return 2;
    if (!fits(book, asked[kind][2], c)) return 3;
    return kind == 13 && !has(book[ORDERS + b], a);
}

/* 7 with the lowest open order */
static reply open_order(const u64 *book)
{
    for (u64 p = 0; p < 64; p++)
        if (book[ORDERS + p]) return say(7, p, 0);
    return say(0, 0, 0);
}

/* where kinds 4 to 7 and 18 to 21 have their bits */
static u64 pair_table(u64 place) { return SME + 64 * place; }

/* where kinds 8, 9, 10 and 15, 16, 17 have their bit */
static u64 staff_table(u64 place) { return place == 0 ? TASKS_OF : place == 1 ? JUNIORS : ROLES_OF; }

/* 5 to 8, of all kinds but 13 */
static reply refusal(const u64 *book, u64 kind, u64 a, u64 b)
{
    switch (kind) {
    case 1: case 2: case 3:
        return say(has(book[kind - 1], a) ? 5 : 0, 0, 0);
    case 4: case 5: case 6: case 7:
        return has(book[pair_table(kind - 4) + a], b) ? say(5, 0, 0) : open_order(book);
    case 8: case 9: case 10:
        return say(has(book[staff_table(kind - 8) + b], a) ? 5 : 0, 0, 0);
    case 11:
        return say(has(below(book, book[ROLES_OF + b]), a) ? 0 : 8, 0, 0);
    case 12:
        return say(book[ORDERS + a] ? 5 : 0, 0, 0);
    case 15: case 16: case 17:
        return say(has(book[staff_table(kind - 15) + b], a) ? 0 : 6, 0, 0);
    case 18: case 19: case 20: case 21:
        return has(book[pair_table(kind - 18) + a], b) ? open_order(book) : say(6, 0, 0);
    default:
        return say(0, 0, 0);
    }
}

/* ---- conflicts */

/* x of xs the lowest that has a partner among ys, then y its lowest partner */
static reply pair_between(const u64 *book, u64 number, u64 table, u64 xs, u64 ys)
{
    for (u64 left = xs, x; take(&left, &x);) {
        u64 partners = book[table + x] & ys;
        if (partners) return say(number, x, lowest(partners));
    }
    return say(0, 0, 0);
}

static reply sme_conflict(const u64 *book, u64 a, u64 b)
{
    u64 both = one(a) | one(b);
    if (a == b) return say(20, 0, 0);
    if (has(book[DME + a], b)) return say(21, 0, 0);
    if (has(subject_group(book, a), b)) return say(23, 0, 0);
    if (has(role_group(book, a), b)) return say(24, 0, 0);
    for (u64 left = book[ROLES], r; take(&left, &r);)
        if ((owned_tasks(book, one(r)) & both) == both) return say(25, r, 0);
    for (u64 left = book[SUBJECTS], s; take(&left, &s);)
        if ((owned_tasks(book, book[ROLES_OF + s]) & both) == both) return say(26, s, 0);
    return say(0, 0, 0);
}

static reply dme_conflict(const u64 *book, u64 a, u64 b)
{
    if (a == b) return say(20, 0, 0);
    if (has(book[SME + a], b)) return say(22, 0, 0);
    if (has(subject_group(book, a), b)) return say(23, 0, 0);
    return say(0, 0, 0);
}

static reply binding_conflict(const u64 *book, u64 kind, u64 a, u64 b)
{
    if (a == b) return say(20, 0, 0);
    if (kind == 7 && has(book[DME + a], b)) return say(21, 0, 0);
    if (has(book[SME + a], b)) return say(22, 0, 0);
    reply r = pair_between(book, 27, SME, role_group(book, a), role_group(book, b));
    if (r.number || kind == 6) return r;
    return pair_between(book, 28, DME, subject_group(book, a), subject_group(book, b));
}

/* the tasks of a set that exclude one of the others by a table */
static u64 excluding(const u64 *book, u64 table, u64 tasks, u64 others)
{
    u64 set = 0;
    for (u64 left = tasks, t; take(&left, &t);)
        if (book[table + t] & others) set |= one(t);
    return set;
}

/* 31 of the roles, 32 of the subjects: the lowest that owns role b and a rival of what is gained, and all rivals that it owns */
static reply owner_clash(const u64 *book, u64 number, u64 b, u64 rivals)
{
    for (u64 left = book[number == 31 ? ROLES : SUBJECTS], o; take(&left, &o);) {
        u64 roles = below(book, number == 31 ? one(o) : book[ROLES_OF + o]);
        if (!has(roles, b)) continue;
        u64 clash = tasks_of(book, roles) & rivals;
        if (clash) return say(number, o, clash);
    }
    return say(0, 0, 0);
}

/* What is SME to a gained task is the same for every owner, so it is found once, and often there is nothing to look for. */
static reply gain_conflict(const u64 *book, u64 b, u64 gain)
{
    u64 rivals = excluding(book, SME, book[TASKS], gain);
    if (rivals == 0) return say(0, 0, 0);
    reply r = owner_clash(book, 31, b, rivals);
    return r.number ? r : owner_clash(book, 32, b, rivals);
}

static reply conflict(const u64 *book, u64 kind, u64 a, u64 b)
{
    u64 clash;
    switch (kind) {
    case 4: return sme_conflict(book, a, b);
    case 5: return dme_conflict(book, a, b);
    case 6: case 7: return binding_conflict(book, kind, a, b);
    case 8: return gain_conflict(book, b, one(a));
    case 9:
        if (a == b) return say(29, 0, 0);
        if (has(reach(book, a), b)) return say(30, 0, 0);
        return gain_conflict(book, b, owned_tasks(book, one(a)));
    case 10:
        clash = excluding(book, SME, owned_tasks(book, book[ROLES_OF + b]), owned_tasks(book, one(a)));
        return clash ? say(32, b, clash) : say(0, 0, 0);
    default: return say(0, 0, 0);
    }
}

/* ---- changes */

static void set_order(u64 *book, u64 p, u64 tasks)
{
    book[ORDERS + p] = tasks;
    for (u64 t = 0; t < 64; t++) book[CELLS + 64 * p + t] = 0;
}

static void change(u64 *book, u64 kind, u64 a, u64 b, u64 c)
{
    switch (kind) {
    case 1: case 2: case 3:
        book[kind - 1] |= one(a);
        break;
    case 4: case 5: case 6: case 7:
        book[pair_table(kind - 4) + a] |= one(b);
        book[pair_table(kind - 4) + b] |= one(a);
        break;
    case 8: case 9: case 10: book[staff_table(kind - 8) + b] |= one(a); break;
    case 11: book[ACTIVE + b] = a + 1; break;
    case 12: set_order(book, a, c); break;
    case 14: set_order(book, a, 0); break;
    case 15: case 16: case 17: book[staff_table(kind - 15) + b] &= ~one(a); break;
    default:
        book[pair_table(kind - 18) + b] &= ~one(a);
        book[pair_table(kind - 18) + a] &= ~one(b);
    }
}

/* ---- kind 13: refusals, conflicts and change go by the same two groups, which are found once */

/* the tasks of an order in the two groups of a task: those that get the role, and those that get the subject as well */
typedef struct { u64 roles, subjects; } share;

/* 8 to 10 */
static reply hand_fault(const u64 *book, u64 cell, u64 c)
{
    u64 e = book[ACTIVE + c];
    if (e == 0 || !has(below(book, book[ROLES_OF + c]), e - 1)) return say(8, 0, 0);
    if (cell & 127) return say(9, (cell & 127) - 1, 0);
    if (cell && cell >> 7 != e) return say(10, (cell >> 7) - 1, 0);
    return say(0, 0, 0);
}

/* the conflict with the lowest task of a set that subject c holds in order p */
static reply held_conflict(const u64 *book, u64 number, u64 table, u64 set, u64 hand, u64 p, u64 c)
{
    for (u64 left = set, x; take(&left, &x);)
        if ((book[CELLS + 64 * p + x] & 127) == c + 1) return say_of(number, x, lowest(book[table + x] & hand), p);
    return say(0, 0, 0);
}

/* 33: what excludes the hand is the same in every order, so it is found once, and mostly there is nothing to look for */
static reply static_conflict(const u64 *book, u64 hand, u64 c)
{
    u64 rivals = excluding(book, SME, book[TASKS], hand);
    if (rivals == 0) return say(0, 0, 0);
    for (u64 p = 0; p < 64; p++) {
        reply r = held_conflict(book, 33, SME, book[ORDERS + p] & rivals, hand, p, c);
        if (r.number) return r;
    }
    return say(0, 0, 0);
}

/* 34, in order b alone */
static reply dynamic_conflict(const u64 *book, u64 hand, u64 b, u64 c)
{
    return held_conflict(book, 34, DME, excluding(book, DME, book[ORDERS + b], hand), hand, b, c);
}

/* 11, then the conflicts 33 and 34 */
static reply share_fault(const u64 *book, share given, u64 b, u64 c)
{
    u64 unowned = given.roles & ~owned_tasks(book, one(book[ACTIVE + c] - 1));
    if (unowned) return say(11, lowest(unowned), 0);
    reply r = static_conflict(book, given.subjects, c);
    return r.number ? r : dynamic_conflict(book, given.subjects, b, c);
}

static reply allocate(u64 *book, u64 a, u64 b, u64 c)
{
    u64 *cells = book + CELLS + 64 * b, e = book[ACTIVE + c];
    reply r = hand_fault(book, cells[a], c);
    if (r.number) return r;
    share given = {role_group(book, a) & book[ORDERS + b], subject_group(book, a) & book[ORDERS + b]};
    r = share_fault(book, given, b, c);
    if (r.number) return r;
    for (u64 left = given.roles, t; take(&left, &t);) cells[t] = e << 7 | (has(given.subjects, t) ? c + 1 : cells[t] & 127);
    return r;
}

/* ---- the audit */

/* rule 1 */
static int pairs_with_itself(const u64 *book)
{
    for (u64 table = SME; table <= SB; table += 64)
        for (u64 left = book[TASKS], u; take(&left, &u);)
            if (has(book[table + u], u)) return 1;
    return 0;
}

/* rule 2 */
static int pairs_one_way(const u64 *book)
{
    for (u64 table = SME; table <= SB; table += 64)
        for (u64 left = book[TASKS], u; take(&left, &u);)
            for (u64 partners = book[table + u], v; take(&partners, &v);)
                if (!has(book[table + v], u)) return 1;
    return 0;
}

/* rules 3 to 5; a task that excludes nothing needs no group */
static int bound_and_excluded(const u64 *book, int rule)
{
    for (u64 left = book[TASKS], u; take(&left, &u);) {
        u64 excluded = book[(rule == 5 ? DME : SME) + u];
        if (excluded == 0) continue;
        if (excluded & (rule == 3 ? book[DME + u] : rule == 4 ? role_group(book, u) : subject_group(book, u))) return 1;
    }
    return 0;
}

/* rule 6 */
static int reaches_itself(const u64 *book)
{
    for (u64 left = book[ROLES], r; take(&left, &r);)
        if (has(reach(book, r), r)) return 1;
    return 0;
}

/* whether a task of a set excludes another of it by a table, or itself */
static int clashes(const u64 *book, u64 table, u64 tasks)
{
    for (u64 left = tasks, t; take(&left, &t);)
        if (book[table + t] & tasks) return 1;
    return 0;
}

/* rule 7 of the roles, rule 8 of the subjects */
static int owns_excluding(const u64 *book, int rule)
{
    for (u64 left = book[rule == 7 ? ROLES : SUBJECTS], o; take(&left, &o);)
        if (clashes(book, SME, owned_tasks(book, rule == 7 ? one(o) : book[ROLES_OF + o]))) return 1;
    return 0;
}

/* Adds the tasks of an order to what each subject holds, and returns the subjects that hold one. */
static u64 gather(u64 held[64], const u64 *cells, u64 tasks)
{
    u64 holders = 0;
    for (u64 left = tasks, t; take(&left, &t);) {
        u64 s = cells[t] & 127;
        if (s == 0) continue;
        held[s - 1] |= one(t);
        holders |= one(s - 1);
    }
    return holders;
}

/*
 * Rule 9 by what each subject holds: in one order for DME, in all of them together for SME. Only those who hold something are looked at,
 * and what they hold in one order is cleared for the next one. Nobody who is undefined holds anything, so their words are never read.
 */
static int holds_excluding(const u64 *book)
{
    u64 here[64], anywhere[64], everyone = 0, s;
    for (u64 left = book[SUBJECTS]; take(&left, &s);) here[s] = anywhere[s] = 0;
    for (u64 p = 0; p < 64; p++) {
        u64 holders = gather(here, book + CELLS + 64 * p, book[ORDERS + p]);
        everyone |= holders;
        while (take(&holders, &s)) {
            if (clashes(book, DME, here[s])) return 1;
            anywhere[s] |= here[s];
            here[s] = 0;
        }
    }
    while (take(&everyone, &s))
        if (clashes(book, SME, anywhere[s])) return 1;
    return 0;
}

/* rule 10, in one order */
static int hands_part(const u64 *book, const u64 *cells, u64 tasks)
{
    for (u64 left = tasks, u; take(&left, &u);) {
        for (u64 bound = subject_group(book, u) & tasks, v; take(&bound, &v);)
            if ((cells[v] & 127) != (cells[u] & 127)) return 1;
        for (u64 bound = role_group(book, u) & tasks, v; take(&bound, &v);)
            if (cells[v] >> 7 != cells[u] >> 7) return 1;
    }
    return 0;
}

/* rule 10, order by order and task by task, as document 01 words it */
static int bound_apart(const u64 *book)
{
    for (u64 p = 0; p < 64; p++)
        if (hands_part(book, book + CELLS + 64 * p, book[ORDERS + p])) return 1;
    return 0;
}

static int broken(const u64 *book, int rule)
{
    switch (rule) {
    case 1: return pairs_with_itself(book);
    case 2: return pairs_one_way(book);
    case 3: case 4: case 5: return bound_and_excluded(book, rule);
    case 6: return reaches_itself(book);
    case 7: case 8: return owns_excluding(book, rule);
    case 9: return holds_excluding(book);
    default: return bound_apart(book);
    }
}

/* ---- the two entries */

/* 1 to 4 */
static reply unfit(const u64 *book, size_t words, u64 kind, u64 a, u64 b, u64 c)
{
    if (words != WORDS) return say(1, 0, 0);
    u64 bad = first_bad(book);
    if (bad < WORDS) return say(2, bad, 0);
    if (kind < 1 || kind > 21) return say(3, 0, 0);
    u64 fault = argument_fault(book, kind, a, b, c);
    return say(fault ? 4 : 0, fault, 0);
}

static reply carry_out(u64 *book, u64 kind, u64 a, u64 b, u64 c)
{
    if (kind == 13) return allocate(book, a, b, c);
    reply r = refusal(book, kind, a, b);
    if (r.number == 0) r = conflict(book, kind, a, b);
    if (r.number == 0) change(book, kind, a, b, c);
    return r;
}

static reply audit(const u64 *book, size_t words)
{
    if (words != WORDS) return say(1, 0, 0);
    u64 bad = first_bad(book);
    if (bad < WORDS) return say(2, bad, 0);
    for (int rule = 1; rule <= 10; rule++)
        if (broken(book, rule)) return say(40 + (u64)rule, 0, 0);
    return say(0, 0, 0);
}

static void put(u64 answer[4], reply r)
{
    answer[0] = r.number;
    answer[1] = r.x;
    answer[2] = r.y;
    answer[3] = r.z;
}

void plain_request(u64 *book, size_t words, u64 kind, u64 a, u64 b, u64 c, u64 answer[4])
{
    reply r = unfit(book, words, kind, a, b, c);
    put(answer, r.number ? r : carry_out(book, kind, a, b, c));
}

void plain_audit(const u64 *book, size_t words, u64 answer[4]) { put(answer, audit(book, words)); }
