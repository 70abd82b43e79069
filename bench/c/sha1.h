/* SHA-1 (FIPS 180-4), with a state that may be copied. */
#ifndef SHA1_H
#define SHA1_H

#include <stddef.h>
#include <stdint.h>

typedef struct {
    uint32_t h[5];
    uint64_t length;
    uint8_t block[64];
} sha1_state;

void sha1_start(sha1_state *s);
void sha1_take(sha1_state *s, const uint8_t *data, size_t length);

/* Ends the message; the state is of no use afterwards. */
void sha1_end(sha1_state *s, uint8_t hash[20]);

#endif
