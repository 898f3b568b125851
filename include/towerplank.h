/*
 * towerplank.h - the duty book for a controller in C or C++.
 *
 * tools/install DIR proves the library and puts this header, libtowerplank.a (for x86-64, System V calls) and towerplank.pc
 * into DIR; docs/INTEGRATOR.md shows the way from there. The header needs stddef.h and stdint.h alone, no C library.
 *
 * THE BOOK is 4,676 words of 64 bits that you own: static memory, a shared page, wherever you like. All zeros, it is the blank
 * book, ready for use. The words are in the machine's own byte order; document 01 says what stands in each. The library keeps
 * no copy and no state of its own between calls: the book is all there is.
 *
 * WHAT IS PROVED, for every call whose pointers are as asked below: the four words of the answer and every word of the book afterwards
 * are those of document 01 with change requests M-100 (kinds 18 to 21), M-101 (kind 10 makes no role active), M-104 (an SME is kept
 * over all open orders together, and 33 and 34 name the order) and M-105 (31 and 32 name all tasks that stand in the way), whatever
 * the words, the count, the kind and the numbers are. Nothing is asked of their values. A damaged book, a wrong count, an unknown
 * kind, numbers out of range: each has its own answer. The number 0 is told of an accepted request, and of an audit that finds
 * nothing, and of nothing else.
 *
 * Of several requests, proved as well (change request M-102) of a book whose audit answers 0: a list of requests of kinds 4 to 10 that is
 * accepted one after the other is accepted in every other order too, and the book is the same in every word afterwards; so it does not
 * matter in which order two panels put such a list. And a request of these kinds that was accepted and is taken back at once (by kinds 18 to
 * 21 for 4 to 7, 15 to 17 for 8 to 10, with the same a and b) leaves every word as it was before it, and taking it back is accepted.
 *
 * WHAT A CALL DOES AND DOESN'T DO
 *   - It ends. Each loop and each recursion is bounded, and nothing waits. That is proved of the function's run on the
 *     language's own machine, which has no stack that could run out; of the compiled code it holds where you leave it the
 *     stack asked for below.
 *   - An answer other than 0 leaves the book as it was, to the last bit.
 *   - It reads and writes the words that you lend, and its own stack, nothing else: no heap, no files, no clock, no global or
 *     thread-local variables. The one name that the archive takes from outside is C's memset, which it calls on words of the book
 *     and on its stack.
 *   - An accepted request may write several words, one after the other: they are not one atomic step (see WHAT YOU OWE).
 *     examples/two-copies/ keeps a book whole through power loss.
 *
 * WHAT YOU OWE (C can't check these, and nothing is promised where they don't hold)
 *   - `book` points to `words` words of 64 bits, aligned to 8 bytes, that stay readable (and for a request writable) during the
 *     call. With `words` = 0 nothing is read, but `book` must still be a non-null pointer aligned to 8 bytes.
 *   - `answer` points to four words of 64 bits, aligned to 8 bytes and writable. It must not overlap the book.
 *   - During a request nobody else reads or writes the book or the answer; during an audit nobody writes the book. So one book
 *     is served by one thread at a time, or under your own lock, and a signal or interrupt handler must not enter the library
 *     with a book that the interrupted code is serving.
 *   - TOWERPLANK_STACK bytes of stack below the call, and what your interrupts and signals put on the same stack besides.
 *   - The stack pointer is aligned to 16 bytes at the call instruction and the direction flag is clear, as System V's rules for
 *     x86-64 ask; a C compiler sees to both. Code that calls from assembly, or starts a coroutine on a stack of its own, has to:
 *     the library stores to its stack with instructions that fault at any other alignment.
 *   - The SSE2 registers are yours to save. The code uses the general registers and xmm0 to xmm15, as any x86-64 compiler may, and
 *     keeps those that System V's rules say (rbx, rbp, r12 to r15). A kernel or an interrupt handler that doesn't save xmm
 *     registers by itself has to do so around a call. It uses no x87, MMX, AVX or later registers, no red zone below the stack
 *     pointer, no system call and no privileged instruction. Its tzcnt is bsf on a processor that has none, with the same effect.
 *     Your memset comes on top, with what it uses.
 *
 * RE-ENTRANCY. Calls on different books, with different answers, may run at the same time in any number of threads. Audits of one
 * book may run side by side.
 *
 * SUBJECT AND PERSON are one thing: document 01 and the names below say subject, the panel and the texts below say person.
 */
#ifndef TOWERPLANK_H
#define TOWERPLANK_H

#include <stddef.h>
#include <stdint.h>

/* The version of the book and of this library; CHANGELOG.md says when which number moves. */
#define TOWERPLANK_VERSION_MAJOR 4
#define TOWERPLANK_VERSION_MINOR 0
#define TOWERPLANK_VERSION_PATCH 0

/* The same as one number, for #if, and as text. */
#define TOWERPLANK_VERSION_NUMBER (10000 * TOWERPLANK_VERSION_MAJOR + 100 * TOWERPLANK_VERSION_MINOR + TOWERPLANK_VERSION_PATCH)
#define TOWERPLANK_VERSION \
    TOWERPLANK_AS_TEXT_(TOWERPLANK_VERSION_MAJOR) \
    "." TOWERPLANK_AS_TEXT_(TOWERPLANK_VERSION_MINOR) "." TOWERPLANK_AS_TEXT_(TOWERPLANK_VERSION_PATCH)

/* The words of a book. A call with any other count answers 1 and reads none of them. */
#define TOWERPLANK_WORDS 4676

/*
 * The bytes of stack to leave for a call. It takes under 2,300 of them: no more was seen to be used (bench/run paints the stack), and
 * the frames of its machine code add up to no more (tools/machine-code); the rest is room, for memset too. No theorem says so: a
 * proof speaks of the language's machine. docs/PERFORMANCE.md has both numbers and how they are found.
 */
#define TOWERPLANK_STACK 4096

/*
 * The kinds of request: number, name, and what is asked for. a, b and c are the numbers of the request.
 * Each name is the panel's word for the kind, in capitals.
 */
#define TOWERPLANK_KINDS(ROW) \
    ROW(1, DEFINE_TASK, "define task a") \
    ROW(2, DEFINE_ROLE, "define role a") \
    ROW(3, DEFINE_SUBJECT, "define person a") \
    ROW(4, SME, "nobody may own both task a and task b nor hold both in open orders (SME)") \
    ROW(5, DME, "nobody may do both task a and task b in one order (DME)") \
    ROW(6, RB, "in one order, task a and task b are done in one role (RB)") \
    ROW(7, SB, "in one order, task a and task b are done by one person (SB)") \
    ROW(8, ASSIGN_TASK, "assign task a to role b") \
    ROW(9, JUNIOR, "make role a a direct junior of role b") \
    ROW(10, ASSIGN_ROLE, "assign role a to person b") \
    ROW(11, ACTIVATE, "let person b act in role a") \
    ROW(12, OPEN, "open order a with the tasks of mask c") \
    ROW(13, ALLOCATE, "give task a of order b to person c") \
    ROW(14, CLOSE, "close order a") \
    ROW(15, TAKE_TASK, "take task a back from role b") \
    ROW(16, TAKE_JUNIOR, "role a is a direct junior of role b no more") \
    ROW(17, TAKE_ROLE, "take role a back from person b") \
    ROW(18, TAKE_SME, "take back the exclusion of task a and task b (SME)") \
    ROW(19, TAKE_DME, "take back the exclusion of task a and task b within an order (DME)") \
    ROW(20, TAKE_RB, "take back the binding of task a and task b to one role (RB)") \
    ROW(21, TAKE_SB, "take back the binding of task a and task b to one person (SB)")

/*
 * The answers to a request: number, name, and what it says. x, y and z are the answer's further numbers; tasks, a role and a person
 * without a letter are those of the request.
 */
#define TOWERPLANK_ANSWERS(ROW) \
    ROW(0, ACCEPTED, "accepted") \
    ROW(1, WRONG_LENGTH, "the book has a wrong count of words") \
    ROW(2, BAD_WORD, "word x of the book is bad") \
    ROW(3, UNKNOWN_KIND, "there is no such kind of request") \
    ROW(4, BAD_ARGUMENT, "argument x of the request is out of range, or names what is not there") \
    ROW(5, ALREADY_SET, "this is so already") \
    ROW(6, NOT_THERE, "there is nothing to take back") \
    ROW(7, ORDER_OPEN, "order x is open, and rules between tasks stand still meanwhile") \
    ROW(8, NOT_OWNED, "the person does not own the role; or acts in no role that they own now, and has to act in one first") \
    ROW(9, HAS_SUBJECT, "the task is in the hands of person x") \
    ROW(10, HAS_ROLE, "the task is held for role x") \
    ROW(11, TASK_NOT_OWNED, "the role that the person acts in does not own task x, the task itself or one bound to it") \
    ROW(20, SELF_CONSTRAINT, "a task can neither exclude nor be bound to itself") \
    ROW(21, ALREADY_DME, "the tasks already exclude each other within an order (DME)") \
    ROW(22, ALREADY_SME, "the tasks already exclude each other (SME)") \
    ROW(23, ONE_SUBJECT_GROUP, "the tasks are bound to one person, directly or by other tasks (SB)") \
    ROW(24, ONE_ROLE_GROUP, "the tasks are bound to one role, directly or by other tasks (RB, SB)") \
    ROW(25, ROLE_OWNS_BOTH, "role x owns both tasks") \
    ROW(26, SUBJECT_OWNS_BOTH, "person x owns both tasks") \
    ROW(27, SME_BETWEEN, "this would bind task x to task y, which exclude each other (SME)") \
    ROW(28, DME_BETWEEN, "this would put task x and task y into one hand, which exclude each other within an order (DME)") \
    ROW(29, SELF_INHERITANCE, "a role cannot be its own junior") \
    ROW(30, CYCLE, "the roles would run in a circle") \
    ROW(31, TASK_ASSIGNMENT, "role x owns the tasks of mask y, each of which excludes a task that it would gain (SME)") \
    ROW(32, ROLE_ASSIGNMENT, "person x owns the tasks of mask y, each of which excludes a task that they would gain (SME)") \
    ROW(33, HOLDS_SME, "the person already holds task x in order z, which excludes task y in every open order (SME)") \
    ROW(34, HOLDS_DME, "the person already holds task x in order z, which excludes task y within an order (DME)")

/* The rules of the audit: the number n of the rule, and what is so where it is broken. The audit answers 40 + n. */
#define TOWERPLANK_RULES(ROW) \
    ROW(1, "a task excludes or is bound to itself") \
    ROW(2, "an exclusion or binding stands on one side only") \
    ROW(3, "a pair is both SME and DME") \
    ROW(4, "an SME pair is bound to one role") \
    ROW(5, "a DME pair is bound to one person") \
    ROW(6, "a role is above itself") \
    ROW(7, "a role owns both tasks of an SME pair") \
    ROW(8, "a person owns both tasks of an SME pair") \
    ROW(9, "one person holds two tasks that exclude each other, in any open orders (SME) or in one (DME)") \
    ROW(10, "in an open order bound tasks are in different hands or roles")

/* What is made of a row of these lists: an enumerator, a case with its text, one more in a count. */
#define TOWERPLANK_AS_TEXT_(value) TOWERPLANK_QUOTED_(value)
#define TOWERPLANK_QUOTED_(value) #value
#define TOWERPLANK_NAMED_(number, name, text) TOWERPLANK_##name = (number),
#define TOWERPLANK_BROKEN_(rule, text) TOWERPLANK_BROKEN_RULE_##rule = 40 + (rule),
#define TOWERPLANK_TEXT_(number, name, text) case (number): return text;
#define TOWERPLANK_BROKEN_TEXT_(rule, text) case 40 + (rule): return "rule " #rule " is broken: " text;
#define TOWERPLANK_ONE_MORE_(number, name, text) + 1

/* TOWERPLANK_DEFINE_TASK is 1, .., TOWERPLANK_TAKE_SB is 21. */
enum towerplank_kind { TOWERPLANK_KINDS(TOWERPLANK_NAMED_) };

/* How many kinds there are: they are 1 to this. */
enum { TOWERPLANK_KIND_COUNT = 0 TOWERPLANK_KINDS(TOWERPLANK_ONE_MORE_) };

/* TOWERPLANK_ACCEPTED is 0, TOWERPLANK_WRONG_LENGTH is 1, .., TOWERPLANK_HOLDS_DME is 34. */
enum towerplank_answer { TOWERPLANK_ANSWERS(TOWERPLANK_NAMED_) };

/* The audit's own: TOWERPLANK_SOUND is 0, TOWERPLANK_BROKEN_RULE_1 is 41, .. It has WRONG_LENGTH and BAD_WORD besides. */
enum towerplank_finding { TOWERPLANK_SOUND = 0, TOWERPLANK_RULES(TOWERPLANK_BROKEN_) };

#ifdef __cplusplus
extern "C" {
#endif

/*
 * One request. `kind` is one of enum towerplank_kind; a, b and c are its numbers, and those that a kind doesn't use are ignored.
 * answer[0] is the number (0: accepted, and the book is changed), answer[1] is x, answer[2] is y and answer[3] is z, each 0 where
 * nothing is said; z is said by HOLDS_SME and HOLDS_DME alone, and may be order 0 there. By TASK_ASSIGNMENT and ROLE_ASSIGNMENT y is a mask:
 * bit t of it is 1 for each task t that stands in the way, and one at least is. All four are written at every call.
 */
void towerplank_request(uint64_t *book, size_t words, uint64_t kind, uint64_t a, uint64_t b, uint64_t c, uint64_t answer[4]);

/*
 * The audit, which only reads. answer[0] is 0 (sound), 1 (wrong count), 2 (bad word, its index in answer[1]) or 40 + n for the
 * lowest broken rule n; answer[2] and answer[3] are 0.
 */
void towerplank_audit(const uint64_t *book, size_t words, uint64_t answer[4]);

#ifdef __cplusplus
}
#endif

/* What a kind asks for, in words. Any number has a text. */
static inline const char *towerplank_kind_text(uint64_t kind)
{
    switch (kind) {
        TOWERPLANK_KINDS(TOWERPLANK_TEXT_)
    default:
        return "no kind of request of version " TOWERPLANK_VERSION;
    }
}

/* What the number of a request's answer says, in words. Any number has a text. */
static inline const char *towerplank_answer_text(uint64_t number)
{
    switch (number) {
        TOWERPLANK_ANSWERS(TOWERPLANK_TEXT_)
    default:
        return "no answer of version " TOWERPLANK_VERSION;
    }
}

/* What the number of the audit's answer says, in words. Any number has a text. */
static inline const char *towerplank_finding_text(uint64_t number)
{
    switch (number) {
    case TOWERPLANK_SOUND:
        return "all rules hold";
    case TOWERPLANK_WRONG_LENGTH:
    case TOWERPLANK_BAD_WORD:
        return towerplank_answer_text(number);
        TOWERPLANK_RULES(TOWERPLANK_BROKEN_TEXT_)
    default:
        return "no finding of version " TOWERPLANK_VERSION;
    }
}

#endif
