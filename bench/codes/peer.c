/* The erasure code of rs_shards as a plain table-driven C program, for comparison of speed:
   encodes 16,514 bytes into 16 shards of which 6 are data shards, and rebuilds all from the last 6. */
#include <stdint.h>
#include <stdio.h>
#include <stdlib.h>
#include <string.h>
#include <time.h>

enum { N = 16, K = 6, VALUE = 16514, BATCHES = 40, ROUNDS = 25 };

static uint8_t powers[510];
static uint8_t logarithms[256];

static void make_tables(void) {
    unsigned x = 1;
    for (int i = 0; i < 510; i++) {
        powers[i] = (uint8_t)x;
        if (i < 255) logarithms[x] = (uint8_t)i;
        x <<= 1;
        if (x & 256) x ^= 0x11D;
    }
}

static uint8_t mul(uint8_t a, uint8_t b) {
    if (a == 0 || b == 0) return 0;
    return powers[logarithms[a] + logarithms[b]];
}

static uint8_t inv(uint8_t a) { return powers[255 - logarithms[a]]; }

/* For each point the value at x of the polynomial that is 1 there and 0 at the other points. */
static void find_weights(const uint8_t *points, uint8_t x, uint8_t *weights) {
    for (int i = 0; i < K; i++) {
        uint8_t numerator = 1, denominator = 1;
        for (int j = 0; j < K; j++) {
            if (j == i) continue;
            numerator = mul(numerator, x ^ points[j]);
            denominator = mul(denominator, points[i] ^ points[j]);
        }
        weights[i] = mul(numerator, inv(denominator));
    }
}

static void add_multiple(uint8_t *sum, uint8_t weight, const uint8_t *shard, size_t width) {
    uint8_t row[256];
    for (int b = 0; b < 256; b++) row[b] = mul(weight, (uint8_t)b);
    for (size_t i = 0; i < width; i++) sum[i] ^= row[shard[i]];
}

/* All shards of the codeword that has the given ones at the points. */
static void complete(const uint8_t *points, uint8_t *const *given, size_t width, uint8_t **shards) {
    for (int m = 0; m < N; m++) {
        int place = -1;
        for (int i = 0; i < K; i++)
            if (points[i] == m) place = i;
        if (place >= 0) {
            shards[m] = malloc(width);
            memcpy(shards[m], given[place], width);
        } else {
            uint8_t weights[K];
            find_weights(points, (uint8_t)m, weights);
            shards[m] = calloc(width, 1);
            for (int i = 0; i < K; i++) add_multiple(shards[m], weights[i], given[i], width);
        }
    }
}

static size_t encode(const uint8_t *value, size_t len, uint8_t **shards) {
    size_t whole = (4 + len + K - 1) / K * K, width = whole / K;
    uint8_t *frame = calloc(whole, 1);
    frame[0] = (uint8_t)(len >> 24);
    frame[1] = (uint8_t)(len >> 16);
    frame[2] = (uint8_t)(len >> 8);
    frame[3] = (uint8_t)len;
    memcpy(frame + 4, value, len);
    uint8_t points[K], *pieces[K];
    for (int i = 0; i < K; i++) {
        points[i] = (uint8_t)i;
        pieces[i] = malloc(width);
        memcpy(pieces[i], frame + i * width, width);
    }
    complete(points, pieces, width, shards);
    for (int i = 0; i < K; i++) free(pieces[i]);
    free(frame);
    return width;
}

static void release(uint8_t **shards) {
    for (int m = 0; m < N; m++) free(shards[m]);
}

static long now(void) {
    struct timespec t;
    clock_gettime(CLOCK_MONOTONIC, &t);
    return t.tv_sec * 1000000000L + t.tv_nsec;
}

int main(void) {
    make_tables();
    uint8_t *value = malloc(VALUE);
    for (int i = 0; i < VALUE; i++) value[i] = (uint8_t)(i * 7);
    uint8_t *whole[N], *shards[N], points[K], *given[K];
    size_t width = encode(value, VALUE, whole);
    for (int i = 0; i < K; i++) {
        points[i] = (uint8_t)(N - K + i);
        given[i] = whole[N - K + i];
    }
    long best_encode = 1L << 60, best_rebuild = 1L << 60;
    unsigned check = 0;
    for (int batch = 0; batch < BATCHES; batch++) {
        long start = now();
        for (int round = 0; round < ROUNDS; round++) {
            encode(value, VALUE, shards);
            check = (uint8_t)(check * 31 + shards[N - 1][round]);
            release(shards);
        }
        long middle = now();
        for (int round = 0; round < ROUNDS; round++) {
            complete(points, given, width, shards);
            check = (uint8_t)(check * 31 + shards[0][round + 4]);
            release(shards);
        }
        long end = now();
        if (middle - start < best_encode) best_encode = middle - start;
        if (end - middle < best_rebuild) best_rebuild = end - middle;
    }
    printf("encode %ld\nrebuild %ld\ncheck %u\n", best_encode / ROUNDS, best_rebuild / ROUNDS, check);
    return 0;
}
