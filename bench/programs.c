/* The programs that are compared, called alike, and how deep their stacks go. */
#include "measure.h"
#include "plain.h"
#include "towerplank.h"

/* bench/again.c: the plain C a second time */
void again_request(u64 *book, size_t words, u64 kind, u64 a, u64 b, u64 c, u64 answer[4]);
void again_audit(const u64 *book, size_t words, u64 answer[4]);

/* bench/run --beside FILE.c: another program, which says whether it accepted; without one the two names mean nothing and are null */
__attribute__((weak)) int limit_request(u64 *book, size_t words, u64 kind, u64 a, u64 b, u64 c, u64 answer[4]);
__attribute__((weak)) void limit_audit(const u64 *book, size_t words, u64 answer[4]);

int is_there(int program) { return program != OTHER || (limit_request && limit_audit); }

int knows(int program, u64 kind) { return program != OTHER || (kind <= 17 && kind != 13) || kind > LAST_KIND; }

static inline __attribute__((always_inline)) void put(int program, u64 *book, request q, u64 answer[4])
{
    switch (q.kind == AUDIT ? program + PROGRAMS : program) {
    case LIBRARY: towerplank_request(book, WORDS, q.kind, q.a, q.b, q.c, answer); break;
    case PLAIN: plain_request(book, WORDS, q.kind, q.a, q.b, q.c, answer); break;
    case AGAIN: again_request(book, WORDS, q.kind, q.a, q.b, q.c, answer); break;
    case OTHER: limit_request(book, WORDS, q.kind, q.a, q.b, q.c, answer); break;
    case PROGRAMS + LIBRARY: towerplank_audit(book, WORDS, answer); break;
    case PROGRAMS + PLAIN: plain_audit(book, WORDS, answer); break;
    case PROGRAMS + AGAIN: again_audit(book, WORDS, answer); break;
    default: limit_audit(book, WORDS, answer);
    }
}

void call(int program, u64 *book, request q, u64 answer[4]) { put(program, book, q, answer); }

static u64 stack_pointer(void)
{
    u64 at;
    __asm__ volatile("mov %%rsp, %0" : "=r"(at));
    return at;
}

/* Paints what lies below, calls, and looks how deep the paint is gone. */
__attribute__((noinline)) u64 stack_of(int program, u64 *book, request q)
{
    enum { PAINTED = 8192 };
    const u64 paint = 0x5ca1ab1e5ca1ab1e;
    u64 answer[4], here = stack_pointer() & ~(u64)7;
    volatile u64 *lowest = (volatile u64 *)(here - 8 * PAINTED);
    for (int i = 0; i < PAINTED; i++) lowest[i] = paint;
    put(program, book, q, answer);
    int clean = 0;
    while (clean < PAINTED && lowest[clean] == paint) clean++;
    return 8 * (u64)(PAINTED - clean);
}
