/* The duty book in plain C, with the same two entries as include/towerplank.h: what bench/measure.c compares the library with. */
#ifndef PLAIN_H
#define PLAIN_H

#include <stddef.h>
#include <stdint.h>

void plain_request(uint64_t *book, size_t words, uint64_t kind, uint64_t a, uint64_t b, uint64_t c, uint64_t answer[4]);
void plain_audit(const uint64_t *book, size_t words, uint64_t answer[4]);

#endif
