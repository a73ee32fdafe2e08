/* BelT in plain C, to time beside ours: the same steps over tables of rotated words, one block and two blocks at a time.
   Arguments as the program speed: one, back, two or backtwo, and how many times. */
#include <stdint.h>
#include <stdio.h>
#include <stdlib.h>
#include <string.h>

static const uint8_t H[256] = {
    0xB1,0x94,0xBA,0xC8,0x0A,0x08,0xF5,0x3B,0x36,0x6D,0x00,0x8E,0x58,0x4A,0x5D,0xE4,
    0x85,0x04,0xFA,0x9D,0x1B,0xB6,0xC7,0xAC,0x25,0x2E,0x72,0xC2,0x02,0xFD,0xCE,0x0D,
    0x5B,0xE3,0xD6,0x12,0x17,0xB9,0x61,0x81,0xFE,0x67,0x86,0xAD,0x71,0x6B,0x89,0x0B,
    0x5C,0xB0,0xC0,0xFF,0x33,0xC3,0x56,0xB8,0x35,0xC4,0x05,0xAE,0xD8,0xE0,0x7F,0x99,
    0xE1,0x2B,0xDC,0x1A,0xE2,0x82,0x57,0xEC,0x70,0x3F,0xCC,0xF0,0x95,0xEE,0x8D,0xF1,
    0xC1,0xAB,0x76,0x38,0x9F,0xE6,0x78,0xCA,0xF7,0xC6,0xF8,0x60,0xD5,0xBB,0x9C,0x4F,
    0xF3,0x3C,0x65,0x7B,0x63,0x7C,0x30,0x6A,0xDD,0x4E,0xA7,0x79,0x9E,0xB2,0x3D,0x31,
    0x3E,0x98,0xB5,0x6E,0x27,0xD3,0xBC,0xCF,0x59,0x1E,0x18,0x1F,0x4C,0x5A,0xB7,0x93,
    0xE9,0xDE,0xE7,0x2C,0x8F,0x0C,0x0F,0xA6,0x2D,0xDB,0x49,0xF4,0x6F,0x73,0x96,0x47,
    0x06,0x07,0x53,0x16,0xED,0x24,0x7A,0x37,0x39,0xCB,0xA3,0x83,0x03,0xA9,0x8B,0xF6,
    0x92,0xBD,0x9B,0x1C,0xE5,0xD1,0x41,0x01,0x54,0x45,0xFB,0xC9,0x5E,0x4D,0x0E,0xF2,
    0x68,0x20,0x80,0xAA,0x22,0x7D,0x64,0x2F,0x26,0x87,0xF9,0x34,0x90,0x40,0x55,0x11,
    0xBE,0x32,0x97,0x13,0x43,0xFC,0x9A,0x48,0xA0,0x2A,0x88,0x5F,0x19,0x4B,0x09,0xA1,
    0x7E,0xCD,0xA4,0xD0,0x15,0x44,0xAF,0x8C,0xA5,0x84,0x50,0xBF,0x66,0xD2,0xE8,0x8A,
    0xA2,0xD7,0x46,0x52,0x42,0xA8,0xDF,0xB3,0x69,0x74,0xC5,0x51,0xEB,0x23,0x29,0x21,
    0xD4,0xEF,0xD9,0xB4,0x3A,0x62,0x28,0x75,0x91,0x14,0x10,0xEA,0x77,0x6C,0xDA,0x1D,
};
static uint32_t T5[256], T13[256], T21[256], T29[256];

static uint32_t rotate(uint32_t x, int r) { return x << r | x >> (32 - r); }

static void make_tables(void) {
    for (int i = 0; i < 256; i++) {
        T5[i] = rotate(H[i], 5);
        T13[i] = rotate(H[i], 13);
        T21[i] = rotate(H[i], 21);
        T29[i] = rotate(H[i], 29);
    }
}

static inline uint32_t G5(uint32_t u) { return T5[u & 255] ^ T13[u >> 8 & 255] ^ T21[u >> 16 & 255] ^ T29[u >> 24]; }
static inline uint32_t G13(uint32_t u) { return T13[u & 255] ^ T21[u >> 8 & 255] ^ T29[u >> 16 & 255] ^ T5[u >> 24]; }
static inline uint32_t G21(uint32_t u) { return T21[u & 255] ^ T29[u >> 8 & 255] ^ T5[u >> 16 & 255] ^ T13[u >> 24]; }

/* The nine steps of round i with the keys k1..k7. */
#define STEPS(a, b, c, d, i, k1, k2, k3, k4, k5, k6, k7) do { \
    uint32_t e; \
    b ^= G5(a + k1); c ^= G21(d + k2); a -= G13(b + k3); e = G21(b + c + k4) ^ (uint32_t)(i); b += e; c -= e; \
    d += G13(c + k5); b ^= G21(a + k6); c ^= G5(d + k7); \
} while (0)
#define K(i) key[((i) - 1) % 8]
#define UP(a, b, c, d, i) STEPS(a, b, c, d, i, K(7*i-6), K(7*i-5), K(7*i-4), K(7*i-3), K(7*i-2), K(7*i-1), K(7*i))
#define DOWN(a, b, c, d, i) STEPS(a, b, c, d, i, K(7*i), K(7*i-1), K(7*i-2), K(7*i-3), K(7*i-4), K(7*i-5), K(7*i-6))

typedef struct { uint32_t a, b, c, d; } quad;

static inline quad forward(const uint32_t *key, quad s) {
    uint32_t a = s.a, b = s.b, c = s.c, d = s.d;
    UP(a, b, c, d, 1); UP(b, d, a, c, 2); UP(d, c, b, a, 3); UP(c, a, d, b, 4);
    UP(a, b, c, d, 5); UP(b, d, a, c, 6); UP(d, c, b, a, 7); UP(c, a, d, b, 8);
    return (quad){b, d, a, c};
}

static inline quad backward(const uint32_t *key, quad s) {
    uint32_t a = s.a, b = s.b, c = s.c, d = s.d;
    DOWN(a, b, c, d, 8); DOWN(c, a, d, b, 7); DOWN(d, c, b, a, 6); DOWN(b, d, a, c, 5);
    DOWN(a, b, c, d, 4); DOWN(c, a, d, b, 3); DOWN(d, c, b, a, 2); DOWN(b, d, a, c, 1);
    return (quad){c, a, d, b};
}

/* Two blocks, a round of each in turn. */
#define BOTH(R, p, q, w, x, y, z, i) do { R(p.w, p.x, p.y, p.z, i); R(q.w, q.x, q.y, q.z, i); } while (0)

static inline void forward_two(const uint32_t *key, quad *s, quad *t) {
    quad p = *s, q = *t;
    BOTH(UP, p, q, a, b, c, d, 1); BOTH(UP, p, q, b, d, a, c, 2); BOTH(UP, p, q, d, c, b, a, 3); BOTH(UP, p, q, c, a, d, b, 4);
    BOTH(UP, p, q, a, b, c, d, 5); BOTH(UP, p, q, b, d, a, c, 6); BOTH(UP, p, q, d, c, b, a, 7); BOTH(UP, p, q, c, a, d, b, 8);
    *s = (quad){p.b, p.d, p.a, p.c};
    *t = (quad){q.b, q.d, q.a, q.c};
}

static inline void backward_two(const uint32_t *key, quad *s, quad *t) {
    quad p = *s, q = *t;
    BOTH(DOWN, p, q, a, b, c, d, 8); BOTH(DOWN, p, q, c, a, d, b, 7); BOTH(DOWN, p, q, d, c, b, a, 6); BOTH(DOWN, p, q, b, d, a, c, 5);
    BOTH(DOWN, p, q, a, b, c, d, 4); BOTH(DOWN, p, q, c, a, d, b, 3); BOTH(DOWN, p, q, d, c, b, a, 2); BOTH(DOWN, p, q, b, d, a, c, 1);
    *s = (quad){p.c, p.a, p.d, p.b};
    *t = (quad){q.c, q.a, q.d, q.b};
}

static void show(quad s) {
    uint8_t x[16];
    memcpy(x, &s, 16);
    for (int i = 0; i < 16; i++) printf("%02X", x[i]);
}

int main(int argc, char **argv) {
    if (argc != 3) return 2;
    uint32_t key[8];
    memcpy(key, "a key that is only for measuring", 32);
    make_tables();
    quad p = {0, 0, 0, 0}, q = {0x01010101, 0x01010101, 0x01010101, 0x01010101}, none = {0, 0, 0, 0};
    long n = atol(argv[2]);
    if (!strcmp(argv[1], "one")) { for (long i = 0; i < n; i++) p = forward(key, p); q = none; }
    else if (!strcmp(argv[1], "back")) { for (long i = 0; i < n; i++) p = backward(key, p); q = none; }
    else if (!strcmp(argv[1], "two")) for (long i = 0; i < n; i++) forward_two(key, &p, &q);
    else if (!strcmp(argv[1], "backtwo")) for (long i = 0; i < n; i++) backward_two(key, &p, &q);
    else return 2;
    show(p); printf(" "); show(q); printf("\n");
    return 0;
}
