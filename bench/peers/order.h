/* The work of schedule.h over one library's hash and HMAC. The library's file includes this after it has written
 *
 *     struct hash, a running hash, with hash_start, hash_absorb, hash_finish; it can be copied by assignment
 *     struct key, a prepared HMAC key, with key_prepare and key_mac, and then OWN_HMAC is defined; without, a prepared
 *     key is the two running hashes behind the key's inner and outer pad
 *
 * and puts PEER(variable, name, sha_instructions) at its end. Everything is inlined with a constant hash name. */
#include "../schedule.h"
#include <string.h>

#ifndef OWN_HMAC
struct key {
    struct hash inner, outer;
};

INLINE void key_prepare(enum hash_name w, struct key *k, const uint8_t *secret, size_t n)
{
    uint8_t pad[128];
    size_t block = w == WITH_256 ? 64 : 128;
    memset(pad, 0x36, block);
    for (size_t i = 0; i < n; i++)
        pad[i] ^= secret[i];
    hash_start(w, &k->inner);
    hash_absorb(w, &k->inner, pad, block);
    for (size_t i = 0; i < block; i++)
        pad[i] ^= 0x36 ^ 0x5c;
    hash_start(w, &k->outer);
    hash_absorb(w, &k->outer, pad, block);
}

INLINE void key_mac(enum hash_name w, struct key *k, const uint8_t *x, size_t n, uint8_t *out)
{
    struct hash h = k->inner;
    uint8_t d[48];
    hash_absorb(w, &h, x, n);
    hash_finish(w, &h, d);
    h = k->outer;
    hash_absorb(w, &h, d, w == WITH_256 ? 32 : 48);
    hash_finish(w, &h, out);
}
#endif

INLINE size_t digest(enum hash_name w) { return w == WITH_256 ? 32 : 48; }

INLINE void hash_of(enum hash_name w, const uint8_t *x, size_t n, uint8_t *out)
{
    struct hash h;
    hash_start(w, &h);
    hash_absorb(w, &h, x, n);
    hash_finish(w, &h, out);
}

INLINE void extract(enum hash_name w, const uint8_t *salt, const uint8_t *x, size_t n, uint8_t *out)
{
    struct key k;
    key_prepare(w, &k, salt, digest(w));
    key_mac(w, &k, x, n, out);
}

/* At most one block of output, as everywhere in the schedule. */
INLINE void expand_label(enum hash_name w, struct key *k, const char *label, const uint8_t *context, size_t size,
                         size_t asked, uint8_t *out)
{
    uint8_t info[80] = {0, (uint8_t)asked, (uint8_t)(6 + strlen(label)), 't', 'l', 's', '1', '3', ' '}, d[48];
    size_t n = 9 + strlen(label);
    memcpy(info + 9, label, n - 9);
    info[n++] = (uint8_t)size;
    memcpy(info + n, context, size);
    info[n + size] = 1;
    key_mac(w, k, info, n + size + 1, d);
    memcpy(out, d, asked);
}

INLINE void derive(enum hash_name w, struct key *k, const char *label, const uint8_t *context, uint8_t *out)
{
    expand_label(w, k, label, context, digest(w), digest(w), out);
}

INLINE void traffic_keys(enum hash_name w, struct key *k, uint8_t *out)
{
    size_t n = w == WITH_256 ? 16 : 32;
    expand_label(w, k, "key", out, 0, n, out);
    expand_label(w, k, "iv", out, 0, 12, out + n);
}

INLINE void finished(enum hash_name w, struct key *k, const uint8_t *context, uint8_t *out)
{
    struct key f;
    uint8_t secret[48];
    expand_label(w, k, "finished", out, 0, digest(w), secret);
    key_prepare(w, &f, secret, digest(w));
    key_mac(w, &f, context, digest(w), out);
}

INLINE void feed(enum hash_name w, struct hash *h, int from, int to)
{
    for (int i = from; i <= to; i++)
        hash_absorb(w, h, messages[i].bytes, messages[i].size);
}

INLINE void transcript(enum hash_name w, const struct hash *h, uint8_t *out)
{
    struct hash copy = *h;
    hash_finish(w, &copy, out);
}

/* Each secret's HMAC key is prepared once, and each transcript hash worked out once. */
INLINE void schedule_of(enum hash_name w, struct schedule *o)
{
    static const uint8_t zeros[48];
    struct hash running;
    struct key chain, client, server;
    uint8_t nothing[48], context[48], salt[48];
    size_t h = digest(w);

    hash_of(w, zeros, 0, nothing);
    extract(w, zeros, zeros, h, o->secret[EARLY]);
    key_prepare(w, &chain, o->secret[EARLY], h);
    derive(w, &chain, "derived", nothing, salt);

    hash_start(w, &running);
    feed(w, &running, CLIENT_HELLO, SERVER_HELLO);
    transcript(w, &running, context);
    extract(w, salt, shared_secret, 32, o->secret[HANDSHAKE]);
    key_prepare(w, &chain, o->secret[HANDSHAKE], h);
    derive(w, &chain, "c hs traffic", context, o->secret[CLIENT_HANDSHAKE]);
    derive(w, &chain, "s hs traffic", context, o->secret[SERVER_HANDSHAKE]);
    derive(w, &chain, "derived", nothing, salt);
    key_prepare(w, &client, o->secret[CLIENT_HANDSHAKE], h);
    key_prepare(w, &server, o->secret[SERVER_HANDSHAKE], h);
    traffic_keys(w, &client, o->keys[0]);
    traffic_keys(w, &server, o->keys[1]);
    feed(w, &running, EXTENSIONS, CERTIFICATE_VERIFY);
    transcript(w, &running, context);
    finished(w, &server, context, o->finished[0]);

    feed(w, &running, SERVER_FINISHED, SERVER_FINISHED);
    transcript(w, &running, context);
    extract(w, salt, zeros, h, o->secret[MASTER]);
    key_prepare(w, &chain, o->secret[MASTER], h);
    derive(w, &chain, "c ap traffic", context, o->secret[CLIENT_APPLICATION]);
    derive(w, &chain, "s ap traffic", context, o->secret[SERVER_APPLICATION]);
    derive(w, &chain, "exp master", context, o->secret[EXPORTER]);
    finished(w, &client, context, o->finished[1]);
    key_prepare(w, &client, o->secret[CLIENT_APPLICATION], h);
    key_prepare(w, &server, o->secret[SERVER_APPLICATION], h);
    traffic_keys(w, &client, o->keys[2]);
    traffic_keys(w, &server, o->keys[3]);

    feed(w, &running, CLIENT_FINISHED, CLIENT_FINISHED);
    transcript(w, &running, context);
    derive(w, &chain, "res master", context, o->secret[RESUMPTION]);
}

INLINE void derive_of(enum hash_name w, const uint8_t *secret, const uint8_t *x, size_t n, uint8_t *out)
{
    struct key k;
    uint8_t context[48];
    hash_of(w, x, n, context);
    key_prepare(w, &k, secret, digest(w));
    derive(w, &k, "c hs traffic", context, out);
}

INLINE void expand_of(enum hash_name w, const uint8_t *secret, const uint8_t *info, size_t n, size_t asked,
                      uint8_t *out)
{
    struct key k;
    uint8_t text[48 + 64 + 1], d[48];
    size_t h = digest(w), at = 0;
    key_prepare(w, &k, secret, h);
    memcpy(text + h, info, n);
    for (uint8_t i = 1; at < asked; i++) {
        size_t skip = i == 1 ? h : 0;
        text[h + n] = i;
        key_mac(w, &k, text + skip, h + n + 1 - skip, d);
        memcpy(text, d, h);
        memcpy(out + at, d, asked - at < h ? asked - at : h);
        at += h;
    }
}

#define EACH(w) \
    static void schedule##w(struct schedule *out) { schedule_of(WITH_##w, out); } \
    static void hash##w(const uint8_t *x, size_t n, uint8_t *out) { hash_of(WITH_##w, x, n, out); } \
    static void derive##w(const uint8_t *secret, const uint8_t *x, size_t n, uint8_t *out) \
    { \
        derive_of(WITH_##w, secret, x, n, out); \
    } \
    static void expand##w(const uint8_t *secret, const uint8_t *info, size_t n, size_t asked, uint8_t *out) \
    { \
        expand_of(WITH_##w, secret, info, n, asked, out); \
    }

#define PEER(variable, name, sha_instructions) \
    EACH(256) \
    EACH(384) \
    const struct peer variable = {name, sha_instructions, {schedule256, schedule384}, {hash256, hash384}, \
                                  {derive256, derive384}, {expand256, expand384}}
