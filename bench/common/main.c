/* Measures a peer: checksums go to standard output, nanoseconds a cell to standard error. */
#include "peer.h"

#include <stdio.h>
#include <stdlib.h>
#include <string.h>
#include <time.h>

enum { MAX_COUNT = 100000000, LONGEST_SLIP = 320 };

/* The parts of a slip: two seeds, then two keys; the forward one is the first of each. */
static const struct {
    int suite, seed, key;
} SUITES[] = {{1, 20, 16}, {2, 32, 32}, {3, 32, 128}};

static hop *new_hop(int suite, int seed, int key)
{
    uint8_t slip[LONGEST_SLIP];
    for (int i = 0; i < 2 * seed + 2 * key; i++)
        slip[i] = (uint8_t)(i * 11 + 5);
    hop *h = hop_new(suite, slip, slip + 2 * seed);
    if (!h) {
        fprintf(stderr, "suite %d could not be set up\n", suite);
        exit(1);
    }
    return h;
}

static void start(uint8_t payload[PAYLOAD])
{
    for (int i = 0; i < PAYLOAD; i++)
        payload[i] = (uint8_t)(i * 7 + 3);
}

static uint64_t now(void)
{
    struct timespec t;
    clock_gettime(CLOCK_MONOTONIC, &t);
    return (uint64_t)t.tv_sec * 1000000000u + (uint64_t)t.tv_nsec;
}

static void report(int suite, const char *work, const uint8_t *sum, int length, uint64_t each)
{
    printf("suite=%d %s ", suite, work);
    for (int i = 0; i < length; i++)
        printf("%02x", sum[i]);
    printf("\n");
    fflush(stdout);
    fprintf(stderr, "suite=%d %s %llu\n", suite, work, (unsigned long long)each);
}

static void passing(int suite, hop *h, uint64_t count)
{
    uint8_t payload[PAYLOAD];
    start(payload);
    uint64_t began = now();
    for (uint64_t n = 0; n < count; n++)
        hop_remove(h, payload);
    uint64_t each = (now() - began) / count;
    report(suite, "passing", payload, 8, each);
}

static void delivered(int suite, hop *h, uint64_t count)
{
    uint8_t payload[PAYLOAD], untagged[PAYLOAD], tag[TAG] = {0};
    uint64_t matches = 0;
    start(payload);
    uint64_t began = now();
    for (uint64_t n = 0; n < count; n++) {
        hop_remove(h, payload);
        memcpy(untagged, payload, PAYLOAD);
        memset(untagged + TAG_AT, 0, TAG);
        hop_trial(h, untagged, tag);
        matches += memcmp(tag, payload + TAG_AT, TAG) == 0;
        hop_take(h);
    }
    uint64_t each = (now() - began) / count;
    report(suite, "delivered", tag, TAG, each);
    if (matches)
        fprintf(stderr, "%llu tags matched\n", (unsigned long long)matches);
}

int main(int argc, char **argv)
{
    char *end = NULL;
    long count = argc == 2 ? strtol(argv[1], &end, 10) : 0;
    if (count < 1 || count > MAX_COUNT || *end) {
        fprintf(stderr, "usage: %s COUNT (cells for each suite, 1 to %d)\n", argv[0], MAX_COUNT);
        return 2;
    }
    for (size_t i = 0; i < sizeof SUITES / sizeof SUITES[0]; i++) {
        int suite = SUITES[i].suite;
        hop *h = new_hop(suite, SUITES[i].seed, SUITES[i].key);
        passing(suite, h, (uint64_t)count);
        hop_free(h);
        h = new_hop(suite, SUITES[i].seed, SUITES[i].key);
        delivered(suite, h, (uint64_t)count);
        hop_free(h);
    }
    return 0;
}
