/* mbedTLS by mbedtls_sha256_* and mbedtls_sha512_*. Its own HMAC hashes the key's two pads again for each message. */
#include "../schedule.h"
#include <mbedtls/sha256.h>
#include <mbedtls/sha512.h>
#include <string.h>

struct hash {
    union {
        mbedtls_sha256_context a;
        mbedtls_sha512_context b;
    };
};

INLINE void hash_start(enum hash_name w, struct hash *h)
{
    if (w == WITH_256)
        mbedtls_sha256_starts_ret(&h->a, 0);
    else
        mbedtls_sha512_starts_ret(&h->b, 1);
}

INLINE void hash_absorb(enum hash_name w, struct hash *h, const uint8_t *x, size_t n)
{
    if (w == WITH_256)
        mbedtls_sha256_update_ret(&h->a, x, n);
    else
        mbedtls_sha512_update_ret(&h->b, x, n);
}

INLINE void hash_finish(enum hash_name w, struct hash *h, uint8_t *out)
{
    uint8_t whole[64];
    if (w == WITH_256) {
        mbedtls_sha256_finish_ret(&h->a, out);
    } else {
        mbedtls_sha512_finish_ret(&h->b, whole);
        memcpy(out, whole, 48);
    }
}

#include "order.h"

PEER(peer_mbedtls, "mbedTLS", NULL);
