/* SHA3-256 (FIPS 202), with a state that may be copied. */
#ifndef SHA3_H
#define SHA3_H

#include <stddef.h>
#include <stdint.h>

enum { SHA3_BLOCK = 136 };

typedef struct {
    uint64_t lanes[25];
    uint8_t block[SHA3_BLOCK];
    size_t have;
} sha3_state;

void sha3_start(sha3_state *s);
void sha3_take(sha3_state *s, const uint8_t *data, size_t length);

/* Ends the message; the state is of no use afterwards. */
void sha3_end(sha3_state *s, uint8_t hash[32]);

#endif
