/* The portable peer: the suites over the AES and the hashes of this folder. */
#include "../common/peer.h"
#include "aes.h"
#include "sha1.h"
#include "sha3.h"

#include <stdlib.h>
#include <string.h>

enum { LEFT = 32, RIGHT = PAYLOAD - LEFT };

typedef union {
    sha1_state sha1;
    sha3_state sha3;
} digest;

struct hop {
    int suite;
    aes_key key; /* suites 1 and 2 */
    aes_stream stream;
    uint8_t lioness[4][32]; /* suite 3 */
    digest digest, taken;
};

hop *hop_new(int suite, const uint8_t *seed, const uint8_t *key)
{
    hop *h = calloc(1, sizeof *h);
    if (!h)
        return NULL;
    aes_tables();
    h->suite = suite;
    if (suite == 3) {
        memcpy(h->lioness, key, sizeof h->lioness);
    } else {
        aes_expand(&h->key, key, suite == 1 ? 16 : 32);
        aes_stream_start(&h->stream);
    }
    if (suite == 1) {
        sha1_start(&h->digest.sha1);
        sha1_take(&h->digest.sha1, seed, 20);
    } else {
        sha3_start(&h->digest.sha3);
        sha3_take(&h->digest.sha3, seed, 32);
    }
    return h;
}

/* The left part is added with the hash of the key and the right part. */
static void change_left(uint8_t *payload, const uint8_t key[32])
{
    sha3_state s;
    uint8_t hash[32];
    sha3_start(&s);
    sha3_take(&s, key, 32);
    sha3_take(&s, payload + LEFT, RIGHT);
    sha3_end(&s, hash);
    for (int i = 0; i < LEFT; i++)
        payload[i] ^= hash[i];
}

/* The right part is added with the key stream of the left part and the key. */
static void change_right(uint8_t *payload, const uint8_t key[32])
{
    aes_key expanded;
    aes_stream stream;
    uint8_t sum[32];
    for (int i = 0; i < LEFT; i++)
        sum[i] = payload[i] ^ key[i];
    aes_expand(&expanded, sum, 32);
    aes_stream_start(&stream);
    aes_stream_xor(&expanded, &stream, payload + LEFT, RIGHT);
}

void hop_remove(hop *h, uint8_t payload[PAYLOAD])
{
    if (h->suite == 3) {
        change_left(payload, h->lioness[3]);
        change_right(payload, h->lioness[2]);
        change_left(payload, h->lioness[1]);
        change_right(payload, h->lioness[0]);
    } else {
        aes_stream_xor(&h->key, &h->stream, payload, PAYLOAD);
    }
}

void hop_trial(hop *h, const uint8_t payload[PAYLOAD], uint8_t tag[TAG])
{
    uint8_t hash[32];
    if (h->suite == 1) {
        h->taken.sha1 = h->digest.sha1;
        sha1_take(&h->taken.sha1, payload, PAYLOAD);
        sha1_state last = h->taken.sha1;
        sha1_end(&last, hash);
    } else {
        h->taken.sha3 = h->digest.sha3;
        sha3_take(&h->taken.sha3, payload, PAYLOAD);
        sha3_state last = h->taken.sha3;
        sha3_end(&last, hash);
    }
    memcpy(tag, hash, TAG);
}

void hop_take(hop *h)
{
    h->digest = h->taken;
}

void hop_free(hop *h)
{
    free(h);
}
