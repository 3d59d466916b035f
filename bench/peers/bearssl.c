/* BearSSL by br_sha256_* and br_sha384_*, and its HMAC, which keeps prepared keys. */
#include "../schedule.h"
#include <bearssl.h>

struct hash {
    union {
        br_sha256_context a;
        br_sha384_context b;
    };
};

INLINE void hash_start(enum hash_name w, struct hash *h)
{
    if (w == WITH_256)
        br_sha256_init(&h->a);
    else
        br_sha384_init(&h->b);
}

INLINE void hash_absorb(enum hash_name w, struct hash *h, const uint8_t *x, size_t n)
{
    if (w == WITH_256)
        br_sha256_update(&h->a, x, n);
    else
        br_sha384_update(&h->b, x, n);
}

INLINE void hash_finish(enum hash_name w, struct hash *h, uint8_t *out)
{
    if (w == WITH_256)
        br_sha256_out(&h->a, out);
    else
        br_sha384_out(&h->b, out);
}

#define OWN_HMAC
struct key {
    br_hmac_key_context prepared;
};

INLINE void key_prepare(enum hash_name w, struct key *k, const uint8_t *secret, size_t n)
{
    br_hmac_key_init(&k->prepared, w == WITH_256 ? &br_sha256_vtable : &br_sha384_vtable, secret, n);
}

INLINE void key_mac(enum hash_name w, struct key *k, const uint8_t *x, size_t n, uint8_t *out)
{
    br_hmac_context c;
    (void)w;
    br_hmac_init(&c, &k->prepared, 0);
    br_hmac_update(&c, x, n);
    br_hmac_out(&c, out);
}

#include "order.h"

PEER(peer_bearssl, "BearSSL", NULL);
