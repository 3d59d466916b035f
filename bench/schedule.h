/* What each library is asked to do, in SHA-256 and in SHA-384: the whole key schedule of the 1-RTT handshake of RFC
 * 8448, section 3, and some of its parts alone. */
#ifndef SCHEDULE_H
#define SCHEDULE_H
#include <stddef.h>
#include <stdint.h>

enum hash_name { WITH_256, WITH_384, HASHES };
enum secret {
    EARLY,
    HANDSHAKE,
    MASTER,
    CLIENT_HANDSHAKE,
    SERVER_HANDSHAKE,
    CLIENT_APPLICATION,
    SERVER_APPLICATION,
    EXPORTER,
    RESUMPTION,
    SECRETS
};

/* The unused end of each place is zero. */
struct schedule {
    uint8_t secret[SECRETS][48];
    uint8_t keys[4][44];     /* key, and the IV right behind it, from CLIENT_HANDSHAKE to SERVER_APPLICATION */
    uint8_t finished[2][48]; /* the server's, the client's */
};

/* The handshake, and what RFC 8448 publishes of it (suite 1301). Written by bench/make-trace. */
enum {
    CLIENT_HELLO,
    SERVER_HELLO,
    EXTENSIONS,
    CERTIFICATE,
    CERTIFICATE_VERIFY,
    SERVER_FINISHED,
    CLIENT_FINISHED,
    MESSAGES
};
extern const struct message {
    const uint8_t *bytes;
    size_t size;
} messages[MESSAGES];
extern const uint8_t shared_secret[32];
extern const struct schedule published;

#define INLINE static inline __attribute__((always_inline))

struct peer {
    const char *name;
    int (*sha_instructions)(void); /* whether its SHA-256 runs on the processor's SHA instructions; null: never */
    void (*schedule[HASHES])(struct schedule *out);
    void (*hash[HASHES])(const uint8_t *x, size_t n, uint8_t *out);
    /* Derive-Secret, "c hs traffic", over n bytes of messages; HKDF-Expand with an info of n bytes, at most 64. */
    void (*derive[HASHES])(const uint8_t *secret, const uint8_t *x, size_t n, uint8_t *out);
    void (*expand[HASHES])(const uint8_t *secret, const uint8_t *info, size_t n, size_t asked, uint8_t *out);
};
#endif
