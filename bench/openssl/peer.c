/* The OpenSSL peer: the suites over libcrypto's EVP, which uses the processor's instructions where it has them. */
#include "../common/peer.h"

#include <openssl/evp.h>
#include <stdio.h>
#include <stdlib.h>
#include <string.h>

enum { LEFT = 32, RIGHT = PAYLOAD - LEFT };

struct hop {
    int suite;
    EVP_CIPHER *cipher;
    EVP_MD *hash;
    EVP_CIPHER_CTX *stream;
    EVP_MD_CTX *digest, *taken, *last;
    uint8_t lioness[4][32];
};

static const uint8_t ZERO[16];

static void must(int ok)
{
    if (ok != 1) {
        fprintf(stderr, "libcrypto refused a call\n");
        exit(1);
    }
}

hop *hop_new(int suite, const uint8_t *seed, const uint8_t *key)
{
    hop *h = calloc(1, sizeof *h);
    if (!h)
        return NULL;
    h->suite = suite;
    h->cipher = EVP_CIPHER_fetch(NULL, suite == 1 ? "AES-128-CTR" : "AES-256-CTR", NULL);
    h->hash = EVP_MD_fetch(NULL, suite == 1 ? "SHA1" : "SHA3-256", NULL);
    h->stream = EVP_CIPHER_CTX_new();
    h->digest = EVP_MD_CTX_new();
    h->taken = EVP_MD_CTX_new();
    h->last = EVP_MD_CTX_new();
    must(h->cipher && h->hash && h->stream && h->digest && h->taken && h->last);
    if (suite == 3)
        memcpy(h->lioness, key, sizeof h->lioness);
    must(EVP_EncryptInit_ex(h->stream, h->cipher, NULL, key, ZERO));
    must(EVP_DigestInit_ex(h->digest, h->hash, NULL));
    must(EVP_DigestUpdate(h->digest, seed, suite == 1 ? 20 : 32));
    return h;
}

/* The left part is added with the hash of the key and the right part. */
static void change_left(hop *h, uint8_t *payload, const uint8_t key[32])
{
    uint8_t hash[32];
    must(EVP_DigestInit_ex(h->last, h->hash, NULL));
    must(EVP_DigestUpdate(h->last, key, 32));
    must(EVP_DigestUpdate(h->last, payload + LEFT, RIGHT));
    must(EVP_DigestFinal_ex(h->last, hash, NULL));
    for (int i = 0; i < LEFT; i++)
        payload[i] ^= hash[i];
}

/* The right part is added with the key stream of the left part and the key. */
static void change_right(hop *h, uint8_t *payload, const uint8_t key[32])
{
    uint8_t sum[32];
    int written;
    for (int i = 0; i < LEFT; i++)
        sum[i] = payload[i] ^ key[i];
    must(EVP_EncryptInit_ex(h->stream, NULL, NULL, sum, ZERO));
    must(EVP_EncryptUpdate(h->stream, payload + LEFT, &written, payload + LEFT, RIGHT));
}

void hop_remove(hop *h, uint8_t payload[PAYLOAD])
{
    int written;
    if (h->suite == 3) {
        change_left(h, payload, h->lioness[3]);
        change_right(h, payload, h->lioness[2]);
        change_left(h, payload, h->lioness[1]);
        change_right(h, payload, h->lioness[0]);
    } else {
        must(EVP_EncryptUpdate(h->stream, payload, &written, payload, PAYLOAD));
    }
}

void hop_trial(hop *h, const uint8_t payload[PAYLOAD], uint8_t tag[TAG])
{
    uint8_t hash[32];
    must(EVP_MD_CTX_copy_ex(h->taken, h->digest));
    must(EVP_DigestUpdate(h->taken, payload, PAYLOAD));
    must(EVP_MD_CTX_copy_ex(h->last, h->taken));
    must(EVP_DigestFinal_ex(h->last, hash, NULL));
    memcpy(tag, hash, TAG);
}

void hop_take(hop *h)
{
    EVP_MD_CTX *old = h->digest;
    h->digest = h->taken;
    h->taken = old;
}

void hop_free(hop *h)
{
    EVP_MD_CTX_free(h->last);
    EVP_MD_CTX_free(h->taken);
    EVP_MD_CTX_free(h->digest);
    EVP_CIPHER_CTX_free(h->stream);
    EVP_MD_free(h->hash);
    EVP_CIPHER_free(h->cipher);
    free(h);
}
