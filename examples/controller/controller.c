/*
 * An example controller: a code sequencer that has to be woken, a code list that has to be signed, and the rule that nobody may
 * own both. It keeps the book in static memory, asks before it acts, and prints what it was told.
 * examples/controller/run builds it with the library and runs it; expected.txt has what it must print.
 */
#include <inttypes.h>
#include <stdint.h>
#include <stdio.h>

#include "towerplank.h"

enum { WAKE, SIGN, CUT, GAUGE };   /* tasks */
enum { SEQUENCER, OFFICE, BENCH }; /* roles, and the people who start with them */
enum { REPAIR = 2, MORNING = 3 };  /* orders */

/* All zeros: a blank book. One word more on each side, to see that nothing outside is touched. */
static uint64_t memory[TOWERPLANK_WORDS + 2];
static uint64_t *const book = memory + 1;
static uint64_t before[TOWERPLANK_WORDS];
static uint64_t second[TOWERPLANK_WORDS]; /* the book of a second panel */
static const uint64_t beside = 0x5ca1ab1e;

/* The mask of one task. The one that is shifted has 64 bits: an int has too few for tasks above 30. */
static uint64_t mask_of(uint64_t task) { return UINT64_C(1) << task; }

/* The tasks of a mask, and how many they are. */
static void list_tasks(uint64_t mask)
{
    int count = 0;
    for (uint64_t task = 0; task < 64; task++) count += (mask & mask_of(task)) != 0;
    printf("%d in the way:", count);
    for (uint64_t task = 0; task < 64; task++)
        if (mask & mask_of(task)) printf(" task %" PRIu64, task);
    printf("\n");
}

/* Puts a request, prints the answer, and returns whether it was accepted. */
static int ask(const char *what, uint64_t kind, uint64_t a, uint64_t b, uint64_t c)
{
    uint64_t answer[4];
    towerplank_request(book, TOWERPLANK_WORDS, kind, a, b, c, answer);
    printf("%s: (%" PRIu64 ", %" PRIu64 ", %" PRIu64 ", %" PRIu64 ") ", what, answer[0], answer[1], answer[2], answer[3]);
    printf("%s\n", towerplank_answer_text(answer[0]));
    /* All tasks that stand in the way are told at once. */
    if (answer[0] == TOWERPLANK_TASK_ASSIGNMENT || answer[0] == TOWERPLANK_ROLE_ASSIGNMENT) list_tasks(answer[2]);
    /* The order that stands in the way may be another than the one that was asked for. */
    if (answer[0] == TOWERPLANK_HOLDS_SME || answer[0] == TOWERPLANK_HOLDS_DME) printf("order %" PRIu64 " stands in the way\n", answer[3]);
    return answer[0] == TOWERPLANK_ACCEPTED;
}

/* The audit has no z. */
static void audit(void)
{
    uint64_t answer[4];
    towerplank_audit(book, TOWERPLANK_WORDS, answer);
    printf("audit: (%" PRIu64 ", %" PRIu64 ", %" PRIu64 ") %s\n", answer[0], answer[1], answer[2], towerplank_finding_text(answer[0]));
}

/* What the cell is set up with: requests of kinds 4 to 10. All are accepted, so their order does not matter. */
static const struct {
    const char *what;
    uint64_t kind, a, b;
} list[] = {
    {"nobody owns both waking and signing", TOWERPLANK_SME, WAKE, SIGN},
    {"nobody owns both cutting and signing", TOWERPLANK_SME, CUT, SIGN},
    {"nobody owns both gauging and signing", TOWERPLANK_SME, GAUGE, SIGN},
    {"who cuts does not gauge in one order", TOWERPLANK_DME, CUT, GAUGE},
    {"the sequencer hand wakes", TOWERPLANK_ASSIGN_TASK, WAKE, SEQUENCER},
    {"the office signs", TOWERPLANK_ASSIGN_TASK, SIGN, OFFICE},
    {"the bench cuts", TOWERPLANK_ASSIGN_TASK, CUT, BENCH},
    {"the bench gauges", TOWERPLANK_ASSIGN_TASK, GAUGE, BENCH},
    {"give a person their role", TOWERPLANK_ASSIGN_ROLE, SEQUENCER, SEQUENCER},
    {"give a person their role", TOWERPLANK_ASSIGN_ROLE, OFFICE, OFFICE},
    {"give a person their role", TOWERPLANK_ASSIGN_ROLE, BENCH, BENCH},
};
enum { LISTED = sizeof list / sizeof list[0] };

static void define_the_cell(void)
{
    int accepted = 1;
    for (uint64_t task = WAKE; task <= GAUGE; task++) accepted &= ask("define a task", TOWERPLANK_DEFINE_TASK, task, 0, 0);
    for (uint64_t role = SEQUENCER; role <= BENCH; role++) accepted &= ask("define a role", TOWERPLANK_DEFINE_ROLE, role, 0, 0);
    for (uint64_t who = SEQUENCER; who <= BENCH; who++) accepted &= ask("define a person", TOWERPLANK_DEFINE_SUBJECT, who, 0, 0);
    for (int i = 0; i < TOWERPLANK_WORDS; i++) second[i] = book[i];
    for (int i = 0; i < LISTED; i++) accepted &= ask(list[i].what, list[i].kind, list[i].a, list[i].b, 0);
    printf("the cell is %s\n", accepted ? "defined" : "not as it should be");
}

/* A second panel has the same list and works from its end: all of it is accepted there too, and the book is the same in every word. */
static void define_it_again(void)
{
    int accepted = 0, differing = 0;
    for (int i = LISTED - 1; i >= 0; i--) {
        uint64_t answer[4];
        towerplank_request(second, TOWERPLANK_WORDS, list[i].kind, list[i].a, list[i].b, 0, answer);
        accepted += answer[0] == TOWERPLANK_ACCEPTED;
    }
    for (int i = 0; i < TOWERPLANK_WORDS; i++) differing += second[i] != book[i];
    printf("the list from its end: %d of %d accepted, words that differ: %d\n", accepted, LISTED, differing);
}

/* Having a role is not acting in it: at the start of a day each person says which of their roles they act in. */
static void start_the_day(void)
{
    int accepted = 1;
    for (uint64_t who = SEQUENCER; who <= BENCH; who++) accepted &= ask("a person acts in their role", TOWERPLANK_ACTIVATE, who, who, 0);
    printf("the day %s\n", accepted ? "begins" : "cannot begin");
}

static void run_an_order(void)
{
    ask("the sequencer hand as office too", TOWERPLANK_ASSIGN_ROLE, OFFICE, SEQUENCER, 0);
    ask("one role for waking and signing", TOWERPLANK_ASSIGN_TASK, SIGN, SEQUENCER, 0);
    ask("the bench signs too", TOWERPLANK_ASSIGN_TASK, SIGN, BENCH, 0);
    ask("open order 3", TOWERPLANK_OPEN, MORNING, 0, mask_of(WAKE) | mask_of(SIGN) | mask_of(CUT) | mask_of(GAUGE));
    if (ask("may person 0 wake?", TOWERPLANK_ALLOCATE, WAKE, MORNING, SEQUENCER)) printf("the sequencer is woken\n");
    if (!ask("may person 2 sign?", TOWERPLANK_ALLOCATE, SIGN, MORNING, BENCH)) printf("the list is not signed\n");
    ask("may person 2 cut?", TOWERPLANK_ALLOCATE, CUT, MORNING, BENCH);
    ask("may person 2 gauge?", TOWERPLANK_ALLOCATE, GAUGE, MORNING, BENCH);
    ask("a rule while the order runs", TOWERPLANK_DME, WAKE, CUT, 0);
    audit();
    ask("person 0 is sequencer hand no more", TOWERPLANK_TAKE_ROLE, SEQUENCER, SEQUENCER, 0);
    ask("and moves to the office", TOWERPLANK_ASSIGN_ROLE, OFFICE, SEQUENCER, 0);
    ask("may person 0 sign?", TOWERPLANK_ALLOCATE, SIGN, MORNING, SEQUENCER);
    ask("person 0 acts as office", TOWERPLANK_ACTIVATE, OFFICE, SEQUENCER, 0);
    if (!ask("may person 0 sign?", TOWERPLANK_ALLOCATE, SIGN, MORNING, SEQUENCER)) printf("the list is not signed\n");
    if (ask("may person 1 sign?", TOWERPLANK_ALLOCATE, SIGN, MORNING, OFFICE)) printf("the list is signed\n");
    audit();
}

/* A second order while the first is open: an SME looks at all open orders together, a DME at each by itself. */
static void run_another_beside_it(void)
{
    ask("open order 2", TOWERPLANK_OPEN, REPAIR, 0, mask_of(SIGN) | mask_of(GAUGE));
    ask("may person 2 gauge in order 2?", TOWERPLANK_ALLOCATE, GAUGE, REPAIR, BENCH);
    if (!ask("may person 0 sign in order 2?", TOWERPLANK_ALLOCATE, SIGN, REPAIR, SEQUENCER)) printf("the list is not signed\n");
    ask("who cuts may gauge from now on", TOWERPLANK_TAKE_DME, CUT, GAUGE, 0);
    ask("close order 3", TOWERPLANK_CLOSE, MORNING, 0, 0);
    if (ask("may person 0 sign in order 2?", TOWERPLANK_ALLOCATE, SIGN, REPAIR, SEQUENCER)) printf("the list is signed\n");
    audit();
    ask("close order 2", TOWERPLANK_CLOSE, REPAIR, 0, 0);
    ask("who cuts may gauge from now on", TOWERPLANK_TAKE_DME, CUT, GAUGE, 0);
}

/* The words of the book that are not what they were. */
static int changed(void)
{
    int count = 0;
    for (int i = 0; i < TOWERPLANK_WORDS; i++) count += book[i] != before[i];
    return count;
}

/* A call with any count of words: the four words of the answer, those of the audit, and how much of the book is changed. */
static void ask_with(const char *what, size_t words, uint64_t kind, uint64_t a, uint64_t b, uint64_t c)
{
    uint64_t answer[4] = {77, 77, 77, 77}, audited[4] = {77, 77, 77, 77};
    towerplank_request(book, words, kind, a, b, c, answer);
    towerplank_audit(book, words, audited);
    printf("kind %" PRIu64 ", %s:", kind, what);
    for (int i = 0; i < 4; i++) printf(" %" PRIu64, answer[i]);
    printf(", audit");
    for (int i = 0; i < 4; i++) printf(" %" PRIu64, audited[i]);
    printf(", words changed: %d\n", changed());
}

/* What a faulty controller, or a damaged memory, might send. */
static void be_hostile(void)
{
    const uint64_t most = UINT64_MAX;
    for (int i = 0; i < TOWERPLANK_WORDS; i++) before[i] = book[i];
    ask_with("no words", 0, TOWERPLANK_DEFINE_TASK, 9, 0, 0);
    ask_with("a word too few", TOWERPLANK_WORDS - 1, TOWERPLANK_DEFINE_TASK, 9, 0, 0);
    ask_with("a word too many", TOWERPLANK_WORDS + 1, TOWERPLANK_DEFINE_TASK, 9, 0, 0);
    ask_with("no such kind", TOWERPLANK_WORDS, 0, 0, 0, 0);
    ask_with("no such kind", TOWERPLANK_WORDS, TOWERPLANK_KIND_COUNT + 1, 0, 0, 0);
    ask_with("no such kind", TOWERPLANK_WORDS, most, 0, 0, 0);
    for (uint64_t kind = 1; kind <= TOWERPLANK_KIND_COUNT; kind++) ask_with("the largest numbers", TOWERPLANK_WORDS, kind, most, most, most);
    book[3] = before[3] = 1;
    ask_with("word 3 is damaged", TOWERPLANK_WORDS, TOWERPLANK_DEFINE_TASK, 9, 0, 0);
    book[3] = before[3] = 0;
    book[TOWERPLANK_WORDS - 1] = before[TOWERPLANK_WORDS - 1] = most;
    ask_with("the last word is damaged", TOWERPLANK_WORDS, TOWERPLANK_DEFINE_TASK, 9, 0, 0);
    book[TOWERPLANK_WORDS - 1] = before[TOWERPLANK_WORDS - 1] = 0;
    ask_with("all is well again", TOWERPLANK_WORDS, TOWERPLANK_DEFINE_TASK, 9, 0, 0);
}

int main(void)
{
    memory[0] = memory[TOWERPLANK_WORDS + 1] = beside;
    printf("towerplank %s\n", TOWERPLANK_VERSION);
    define_the_cell();
    define_it_again();
    start_the_day();
    run_an_order();
    run_another_beside_it();
    be_hostile();
    printf("the words beside the book are %s\n", memory[0] == beside && memory[TOWERPLANK_WORDS + 1] == beside ? "untouched" : "overwritten");
    return 0;
}
