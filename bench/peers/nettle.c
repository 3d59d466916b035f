/* nettle by sha256_* and sha384_*, and its HMAC, which keeps prepared keys. */
#define _GNU_SOURCE
#include "../schedule.h"
#include <dlfcn.h>
#include <nettle/hmac.h>
#include <nettle/sha2.h>

struct hash {
    union {
        struct sha256_ctx a;
        struct sha384_ctx b;
    };
};

INLINE void hash_start(enum hash_name w, struct hash *h)
{
    if (w == WITH_256)
        sha256_init(&h->a);
    else
        sha384_init(&h->b);
}

INLINE void hash_absorb(enum hash_name w, struct hash *h, const uint8_t *x, size_t n)
{
    if (w == WITH_256)
        sha256_update(&h->a, n, x);
    else
        sha384_update(&h->b, n, x);
}

INLINE void hash_finish(enum hash_name w, struct hash *h, uint8_t *out)
{
    if (w == WITH_256)
        sha256_digest(&h->a, 32, out);
    else
        sha384_digest(&h->b, 48, out);
}

#define OWN_HMAC
struct key {
    union {
        struct hmac_sha256_ctx a;
        struct hmac_sha384_ctx b;
    };
};

INLINE void key_prepare(enum hash_name w, struct key *k, const uint8_t *secret, size_t n)
{
    if (w == WITH_256)
        hmac_sha256_set_key(&k->a, n, secret);
    else
        hmac_sha384_set_key(&k->b, n, secret);
}

/* The digest leaves the key as it was prepared. */
INLINE void key_mac(enum hash_name w, struct key *k, const uint8_t *x, size_t n, uint8_t *out)
{
    if (w == WITH_256) {
        hmac_sha256_update(&k->a, n, x);
        hmac_sha256_digest(&k->a, 32, out);
    } else {
        hmac_sha384_update(&k->b, n, x);
        hmac_sha384_digest(&k->b, 48, out);
    }
}

#include "order.h"

/* A build that chooses its code when it is loaded, on a processor that has them. */
static int sha_instructions(void)
{
    return dlsym(RTLD_DEFAULT, "_nettle_sha256_compress_sha_ni") && __builtin_cpu_supports("sha");
}

PEER(peer_nettle, "nettle", sha_instructions);
