/* SHA-256 as FIPS 180-4 has it: section 6.2, with the names that it uses. */
#include "support.h"

#include <errno.h>
#include <fcntl.h>
#include <stdio.h>
#include <string.h>
#include <unistd.h>

enum { BLOCK = 64, CHUNK = 1 << 16 };

typedef struct sha256 {
    uint32_t h[8];
    uint64_t count;       /* of bytes so far */
    uint8_t block[BLOCK]; /* the last count % BLOCK of them */
} sha256;

/* 4.2.2: the first 32 bits of the fractional parts of the cube roots of the first 64 primes. */
static const uint32_t K[64] = {
    0x428a2f98, 0x71374491, 0xb5c0fbcf, 0xe9b5dba5, 0x3956c25b, 0x59f111f1, 0x923f82a4, 0xab1c5ed5, 0xd807aa98, 0x12835b01, 0x243185be,
    0x550c7dc3, 0x72be5d74, 0x80deb1fe, 0x9bdc06a7, 0xc19bf174, 0xe49b69c1, 0xefbe4786, 0x0fc19dc6, 0x240ca1cc, 0x2de92c6f, 0x4a7484aa,
    0x5cb0a9dc, 0x76f988da, 0x983e5152, 0xa831c66d, 0xb00327c8, 0xbf597fc7, 0xc6e00bf3, 0xd5a79147, 0x06ca6351, 0x14292967, 0x27b70a85,
    0x2e1b2138, 0x4d2c6dfc, 0x53380d13, 0x650a7354, 0x766a0abb, 0x81c2c92e, 0x92722c85, 0xa2bfe8a1, 0xa81a664b, 0xc24b8b70, 0xc76c51a3,
    0xd192e819, 0xd6990624, 0xf40e3585, 0x106aa070, 0x19a4c116, 0x1e376c08, 0x2748774c, 0x34b0bcb5, 0x391c0cb3, 0x4ed8aa4a, 0x5b9cca4f,
    0x682e6ff3, 0x748f82ee, 0x78a5636f, 0x84c87814, 0x8cc70208, 0x90befffa, 0xa4506ceb, 0xbef9a3f7, 0xc67178f2,
};

/* 5.3.3: of the square roots of the first 8 primes. */
static const sha256 EMPTY = {
    .h = {0x6a09e667, 0xbb67ae85, 0x3c6ef372, 0xa54ff53a, 0x510e527f, 0x9b05688c, 0x1f83d9ab, 0x5be0cd19},
};

static uint32_t rotr(uint32_t x, unsigned n) {
    return x >> n | x << (32 - n);
}

/* The message schedule of a block. */
static void schedule(uint32_t w[64], const uint8_t *block) {
    for (size_t t = 0; t < 16; t++)
        w[t] = (uint32_t)block[4 * t] << 24 | (uint32_t)block[4 * t + 1] << 16 | (uint32_t)block[4 * t + 2] << 8 | block[4 * t + 3];
    for (size_t t = 16; t < 64; t++) {
        uint32_t sigma0 = rotr(w[t - 15], 7) ^ rotr(w[t - 15], 18) ^ w[t - 15] >> 3;
        uint32_t sigma1 = rotr(w[t - 2], 17) ^ rotr(w[t - 2], 19) ^ w[t - 2] >> 10;
        w[t] = sigma1 + w[t - 7] + sigma0 + w[t - 16];
    }
}

static void add_block(sha256 *s, const uint8_t *block) {
    uint32_t w[64], *v = s->h;
    uint32_t a = v[0], b = v[1], c = v[2], d = v[3], e = v[4], f = v[5], g = v[6], h = v[7];
    schedule(w, block);
    for (size_t t = 0; t < 64; t++) {
        uint32_t ch = (e & f) ^ (~e & g), maj = (a & b) ^ (a & c) ^ (b & c);
        uint32_t t1 = h + (rotr(e, 6) ^ rotr(e, 11) ^ rotr(e, 25)) + ch + K[t] + w[t];
        uint32_t t2 = (rotr(a, 2) ^ rotr(a, 13) ^ rotr(a, 22)) + maj;
        h = g, g = f, f = e, e = d + t1;
        d = c, c = b, b = a, a = t1 + t2;
    }
    v[0] += a, v[1] += b, v[2] += c, v[3] += d, v[4] += e, v[5] += f, v[6] += g, v[7] += h;
}

static void add(sha256 *s, const uint8_t *bytes, size_t count) {
    size_t held = s->count % BLOCK;
    s->count += count;
    while (held + count >= BLOCK) {
        size_t more = BLOCK - held;
        memcpy(s->block + held, bytes, more);
        add_block(s, s->block);
        bytes += more, count -= more, held = 0;
    }
    if (count > 0)
        memcpy(s->block + held, bytes, count);
}

/* 5.1.1: a bit, zeros, and the length in bits. */
static void finish(sha256 *s, char digits[65]) {
    static const uint8_t padding[BLOCK] = {0x80};
    uint64_t bits = 8 * s->count;
    uint8_t length[8];
    for (size_t i = 0; i < 8; i++)
        length[i] = (uint8_t)(bits >> (56 - 8 * i));
    add(s, padding, 1 + (BLOCK + 55 - s->count % BLOCK) % BLOCK);
    add(s, length, sizeof length);
    for (size_t i = 0; i < 8; i++)
        snprintf(digits + 8 * i, 9, "%08x", (unsigned)s->h[i]);
}

void icotable_sha256_(const void *bytes, size_t count, char digits[65]) {
    sha256 s = EMPTY;
    add(&s, bytes, count);
    finish(&s, digits);
}

bool icotable_sha256_file_(const char *path, char digits[65]) {
    uint8_t chunk[CHUNK];
    sha256 s = EMPTY;
    ssize_t count;
    int file = open(path, O_RDONLY | O_CLOEXEC);
    if (file < 0)
        return false;
    while ((count = read(file, chunk, sizeof chunk)) != 0) {
        if (count < 0 && errno != EINTR)
            break;
        if (count > 0)
            add(&s, chunk, (size_t)count);
    }
    int why = errno;
    close(file);
    finish(&s, digits);
    errno = why;
    return count == 0;
}
