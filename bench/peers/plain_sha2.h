/* One of the two hashes, for plain.c, which says which. */
#define BLOCK (2 * BITS)
#define R(x, n) (((x) >> (n)) | ((x) << (BITS - (n))))

struct NAME(running) {
    WORD s[8];
    uint8_t block[BLOCK];
    uint64_t n;
};

#if UNROLLED
#define ROUND(a, b, c, d, e, f, g, h, i) \
    do { \
        WORD t1 = h + S1(e) + ((e & f) ^ (~e & g)) + k[i] + w[i]; \
        WORD t2 = S0(a) + ((a & b) ^ (a & c) ^ (b & c)); \
        d += t1; \
        h = t1 + t2; \
    } while (0)

static void NAME(block)(WORD s[8], const uint8_t *x)
{
    WORD w[16], a = s[0], b = s[1], c = s[2], d = s[3], e = s[4], f = s[5], g = s[6], h = s[7];
    for (int i = 0; i < 16; i++)
        w[i] = NAME(word)(x + BITS / 8 * i);
    for (int q = 0; q < ROUNDS / 16; q++) {
        const WORD *k = NAME(k) + 16 * q;
        if (q > 0)
            for (int i = 0; i < 16; i++)
                w[i] += s1(w[(i + 14) & 15]) + w[(i + 9) & 15] + s0(w[(i + 1) & 15]);
        for (int i = 0; i < 16; i += 8) {
            ROUND(a, b, c, d, e, f, g, h, i);
            ROUND(h, a, b, c, d, e, f, g, i + 1);
            ROUND(g, h, a, b, c, d, e, f, i + 2);
            ROUND(f, g, h, a, b, c, d, e, i + 3);
            ROUND(e, f, g, h, a, b, c, d, i + 4);
            ROUND(d, e, f, g, h, a, b, c, i + 5);
            ROUND(c, d, e, f, g, h, a, b, i + 6);
            ROUND(b, c, d, e, f, g, h, a, i + 7);
        }
    }
    s[0] += a, s[1] += b, s[2] += c, s[3] += d, s[4] += e, s[5] += f, s[6] += g, s[7] += h;
}
#undef ROUND
#else
static void NAME(block)(WORD s[8], const uint8_t *x)
{
    WORD w[ROUNDS], a = s[0], b = s[1], c = s[2], d = s[3], e = s[4], f = s[5], g = s[6], h = s[7];
    for (int i = 0; i < 16; i++)
        w[i] = NAME(word)(x + BITS / 8 * i);
    for (int i = 16; i < ROUNDS; i++)
        w[i] = s1(w[i - 2]) + w[i - 7] + s0(w[i - 15]) + w[i - 16];
    for (int i = 0; i < ROUNDS; i++) {
        WORD t1 = h + S1(e) + ((e & f) ^ (~e & g)) + NAME(k)[i] + w[i];
        WORD t2 = S0(a) + ((a & b) ^ (a & c) ^ (b & c));
        h = g, g = f, f = e, e = d + t1, d = c, c = b, b = a, a = t1 + t2;
    }
    s[0] += a, s[1] += b, s[2] += c, s[3] += d, s[4] += e, s[5] += f, s[6] += g, s[7] += h;
}
#endif

static void NAME(start)(struct NAME(running) *h)
{
    memcpy(h->s, NAME(h), sizeof h->s);
    h->n = 0;
}

static void NAME(absorb)(struct NAME(running) *h, const uint8_t *x, size_t n)
{
    size_t at = h->n % BLOCK;
    h->n += n;
    if (at) {
        size_t k = n < BLOCK - at ? n : BLOCK - at;
        memcpy(h->block + at, x, k);
        if (at + k < BLOCK)
            return;
        NAME(block)(h->s, h->block);
        x += k, n -= k;
    }
    for (; n >= BLOCK; x += BLOCK, n -= BLOCK)
        NAME(block)(h->s, x);
    memcpy(h->block, x, n);
}

static void NAME(finish)(struct NAME(running) *h, uint8_t out[DIGEST])
{
    size_t at = h->n % BLOCK;
    h->block[at++] = 0x80;
    if (at > BLOCK - BLOCK / 8) {
        memset(h->block + at, 0, BLOCK - at);
        NAME(block)(h->s, h->block);
        at = 0;
    }
    memset(h->block + at, 0, BLOCK - 8 - at);
    for (int i = 0; i < 8; i++)
        h->block[BLOCK - 1 - i] = (uint8_t)(h->n * 8 >> (8 * i));
    NAME(block)(h->s, h->block);
    for (int i = 0; i < DIGEST; i++)
        out[i] = (uint8_t)(h->s[i * 8 / BITS] >> (BITS - 8 - i * 8 % BITS));
}

#undef NAME
#undef WORD
#undef BITS
#undef ROUNDS
#undef DIGEST
#undef BLOCK
#undef R
#undef S0
#undef S1
#undef s0
#undef s1
