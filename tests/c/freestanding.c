/* A use of everything in the header without a C library, for a compiler to look at, in C and C++ alike. It is not linked or run. */
#include "towerplank.h"

#if TOWERPLANK_VERSION_NUMBER < 10000
#error "the version is below 1.0.0"
#endif

int serve(uint64_t book[TOWERPLANK_WORDS], const char **text);

int serve(uint64_t book[TOWERPLANK_WORDS], const char **text)
{
    static const char version[] = TOWERPLANK_VERSION;
    static unsigned char stack[TOWERPLANK_STACK];
    uint64_t answer[4];
    enum towerplank_kind kind = TOWERPLANK_OPEN;
    towerplank_request(book, TOWERPLANK_WORDS, kind, TOWERPLANK_KIND_COUNT, version[0] == '1', stack[0], answer);
    *text = towerplank_kind_text(kind);
    switch (answer[0]) {
    case TOWERPLANK_ACCEPTED:
        towerplank_audit(book, TOWERPLANK_WORDS, answer);
        *text = towerplank_finding_text(answer[0]);
        return answer[0] == TOWERPLANK_SOUND || answer[0] < TOWERPLANK_BROKEN_RULE_10;
    default:
        *text = towerplank_answer_text(answer[0]);
        return 0;
    }
}
