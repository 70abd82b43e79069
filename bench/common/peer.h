/* What a peer written in C provides to the measuring program: one way (forward) of one hop. */
#ifndef PEER_H
#define PEER_H

#include <stdint.h>

enum { PAYLOAD = 509, TAG_AT = 5, TAG = 4 };

typedef struct hop hop;

/* A hop of suite 1, 2 or 3 before its first cell. The seed and the key have the suite's lengths. */
hop *hop_new(int suite, const uint8_t *seed, const uint8_t *key);

/* Removes the next layer (0, 1, 2, ..) from the payload. */
void hop_remove(hop *h, uint8_t payload[PAYLOAD]);

/* The tag of the payload after all that the digest took so far. The payload has zeroes in the tag's place.
 * The digest with this payload taken is kept beside the old one until hop_take. */
void hop_trial(hop *h, const uint8_t payload[PAYLOAD], uint8_t tag[TAG]);

/* The digest of the last trial becomes the digest. */
void hop_take(hop *h);

void hop_free(hop *h);

#endif
