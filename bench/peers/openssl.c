/* OpenSSL by SHA256_* and SHA384_*, deprecated in version 3, and the fastest that it has: a running hash is a
 * structure that is copied, and nothing is allocated. On inputs as short as these EVP_MAC takes about twice as long,
 * and TLS13-KDF five times. */
#define OPENSSL_SUPPRESS_DEPRECATED
#include "../schedule.h"
#include <openssl/crypto.h>
#include <openssl/sha.h>
#include <stdlib.h>
#include <string.h>

struct hash {
    union {
        SHA256_CTX a;
        SHA512_CTX b;
    };
};

INLINE void hash_start(enum hash_name w, struct hash *h)
{
    if (w == WITH_256)
        SHA256_Init(&h->a);
    else
        SHA384_Init(&h->b);
}

INLINE void hash_absorb(enum hash_name w, struct hash *h, const uint8_t *x, size_t n)
{
    if (w == WITH_256)
        SHA256_Update(&h->a, x, n);
    else
        SHA384_Update(&h->b, x, n);
}

INLINE void hash_finish(enum hash_name w, struct hash *h, uint8_t *out)
{
    if (w == WITH_256)
        SHA256_Final(out, &h->a);
    else
        SHA384_Final(out, &h->b);
}

#include "order.h"

/* Bit 29 of the second number of "OPENSSL_ia32cap=0x..:0x..". */
static int sha_instructions(void)
{
    const char *features = OPENSSL_info(OPENSSL_INFO_CPU_SETTINGS), *second = features ? strchr(features, ':') : NULL;
    return second && strtoull(second + 1, NULL, 16) >> 29 & 1;
}

PEER(peer_openssl, "OpenSSL", sha_instructions);
