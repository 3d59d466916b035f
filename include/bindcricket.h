/* Bindcricket: the key schedule of TLS 1.3 (RFC 8446, section 7) and a journal of its calls, for C99 and C++. Link
 * target/staticlib/libbindcricket.a, which `tools/build-library` makes.
 *
 * Every function answers a number: 0 is done, 1 to 13 are the refusals below, 255 says that the session buffer does not
 * have BINDCRICKET_SESSION_BYTES bytes. The lowest refusal that applies is given. A call whose answer is not 0 changes no
 * byte of the session and no byte of `out`.
 *
 * The session lies in a buffer of the caller's. Its bytes may be copied and moved, and no function keeps a pointer to it;
 * what they mean is not for the caller to read. Any bytes at all are safe to pass: of a session that these functions did
 * not make, a refused call still changes nothing, and no other byte than those reported is written.
 *
 * A function that writes puts its bytes at the front of `out`, sets `*written` to their number (0 where its answer is not
 * 0), and changes no other byte of `out`. A pointer must not be null, also where its size is 0; two buffers of which one is
 * written must not overlap. The library has no variables of its own, calls memcpy and memset and nothing else, and allocates
 * nothing.
 *
 * Copies of secrets stay on the stack below the caller until something overwrites them: bindcricket_clear_stack does. */
#ifndef BINDCRICKET_H
#define BINDCRICKET_H

#include <stddef.h>
#include <stdint.h>

#ifdef __cplusplus
extern "C" {
#endif

#define BINDCRICKET_SESSION_BYTES 696

/* The most that Keys writes, the bytes of its IV (the last of what it writes), and the most that a hash has. */
#define BINDCRICKET_KEYS_BYTES 44
#define BINDCRICKET_IV_BYTES 12
#define BINDCRICKET_HASH_BYTES 48

/* Answers. */
enum {
    BINDCRICKET_DONE = 0,
    BINDCRICKET_NOT_ALLOWED_HERE = 1,   /* the call is not allowed at this point of the session */
    BINDCRICKET_UNKNOWN = 2,            /* unknown suite, PSK kind, group, side, name or record kind */
    BINDCRICKET_NOT_HELD = 3,           /* the secret asked for is not held; Early or Binder without a PSK */
    BINDCRICKET_SECRET_SIZE = 4,        /* a PSK, shared secret, HMAC key, salt or Expand secret of a wrong size */
    BINDCRICKET_ZERO_SHARED_SECRET = 5, /* a shared secret of zeros, groups 001D and 001E */
    BINDCRICKET_NO_SECRET = 6,          /* group 0 and no PSK */
    BINDCRICKET_MESSAGE_LENGTH = 7,     /* message or cut ClientHello of a wrong length, or a wrong length field */
    BINDCRICKET_MESSAGE_TYPE = 8,       /* message type not taken here; cut ClientHello that does not start with 1 */
    BINDCRICKET_INPUT_TOO_LONG = 9,     /* transcript, hash input, HMAC message or Extract input over its limit */
    BINDCRICKET_OUT_OF_RANGE = 10,      /* label, context, info or asked length outside its range; journal payload too long */
    BINDCRICKET_OUTPUT_TOO_SHORT = 11,  /* `out` too short */
    BINDCRICKET_TOO_MANY_UPDATES = 12,  /* 65,535 updates made on that side */
    BINDCRICKET_DAMAGED_RECORD = 13,    /* journal record damaged */
    BINDCRICKET_NOT_A_SESSION = 255     /* session_size is not BINDCRICKET_SESSION_BYTES */
};

/* Suites, PSK kinds, groups, sides, and the names of Keys and Export. */
enum {
    BINDCRICKET_AES_128_GCM_SHA256 = 0x1301,
    BINDCRICKET_AES_256_GCM_SHA384 = 0x1302,
    BINDCRICKET_CHACHA20_POLY1305_SHA256 = 0x1303,
    BINDCRICKET_AES_128_CCM_SHA256 = 0x1304,
    BINDCRICKET_AES_128_CCM_8_SHA256 = 0x1305
};
enum { BINDCRICKET_PSK_NONE = 0, BINDCRICKET_PSK_EXTERNAL = 1, BINDCRICKET_PSK_RESUMPTION = 2 };
enum {
    BINDCRICKET_NO_GROUP = 0,
    BINDCRICKET_SECP256R1 = 0x0017,
    BINDCRICKET_SECP384R1 = 0x0018,
    BINDCRICKET_SECP521R1 = 0x0019,
    BINDCRICKET_X25519 = 0x001D,
    BINDCRICKET_X448 = 0x001E,
    BINDCRICKET_FFDHE2048 = 0x0100,
    BINDCRICKET_FFDHE3072 = 0x0101,
    BINDCRICKET_FFDHE4096 = 0x0102,
    BINDCRICKET_FFDHE6144 = 0x0103,
    BINDCRICKET_FFDHE8192 = 0x0104
};
enum { BINDCRICKET_CLIENT = 1, BINDCRICKET_SERVER = 2 };
enum {
    BINDCRICKET_CLIENT_EARLY = 1,
    BINDCRICKET_CLIENT_HANDSHAKE = 2,
    BINDCRICKET_SERVER_HANDSHAKE = 3,
    BINDCRICKET_CLIENT_APPLICATION = 4,
    BINDCRICKET_SERVER_APPLICATION = 5
};
enum { BINDCRICKET_EXPORTER_EARLY = 1, BINDCRICKET_EXPORTER = 2 };

/* ---- The session ---- */

/* Makes the session fresh, whatever the buffer held. */
uint8_t bindcricket_fresh(uint8_t *session, size_t session_size);

/* Begin: suite, PSK kind and PSK. At Fresh; goes to Early. An external PSK has 1 to 128 bytes, a resumption PSK the hash's
 * length, none 0. Refusals 1, 2, 4. */
uint8_t bindcricket_begin(uint8_t *session, size_t session_size, uint16_t suite, uint8_t kind, const uint8_t *psk,
                          size_t psk_size);

/* Feed: one whole handshake message with its header, 4 to 65,535 bytes. Refusals 1, 7, 8, 9. */
uint8_t bindcricket_feed(uint8_t *session, size_t session_size, const uint8_t *message, size_t message_size);

/* Early: the client early traffic and early exporter secrets. At Early, with the ClientHello fed and no ServerHello, once.
 * Refusals 1, 3. */
uint8_t bindcricket_early(uint8_t *session, size_t session_size);

/* Handshake: group and shared secret, as the group's arithmetic gives it, leading zeros kept; group 0 with 0 bytes for none.
 * At Early, with the ServerHello fed; goes to Handshake. Refusals 1, 2, 4, 5, 6. */
uint8_t bindcricket_handshake(uint8_t *session, size_t session_size, uint16_t group, const uint8_t *secret,
                              size_t secret_size);

/* Application: at Handshake, with the server's Finished fed; goes to Application. Refusal 1. */
uint8_t bindcricket_application(uint8_t *session, size_t session_size);

/* Complete: at Application, with the client's Finished fed; goes to Complete. Refusal 1. */
uint8_t bindcricket_complete(uint8_t *session, size_t session_size);

/* Update: the side's next application traffic secret. At Complete. Refusals 1, 2, 12. */
uint8_t bindcricket_update(uint8_t *session, size_t session_size, uint8_t side);

/* Close: every byte becomes zero but the point, which is Closed. Never refused. */
uint8_t bindcricket_close(uint8_t *session, size_t session_size);

/* Keys: the traffic key, and the IV right behind it: 28 bytes for suites 1301, 1304 and 1305, 44 for 1302 and 1303.
 * Refusals 1, 2, 3, 11. */
uint8_t bindcricket_keys(const uint8_t *session, size_t session_size, uint8_t name, uint8_t *out, size_t out_size,
                         size_t *written);

/* Finished: the verify_data of a side, as many bytes as the hash has. The server's at Handshake before its Finished is fed, the
 * client's at Application before its own. Refusals 1, 2, 11. */
uint8_t bindcricket_finished(const uint8_t *session, size_t session_size, uint8_t side, uint8_t *out, size_t out_size,
                             size_t *written);

/* Check: `*yes` becomes 1 if the received bytes are the side's Finished value, else 0, also where the call is refused. Look at
 * `*yes`: the answer is 0 for a no too. A wrong length is a no. Refusals 1, 2. */
uint8_t bindcricket_check(const uint8_t *session, size_t session_size, uint8_t side, const uint8_t *received,
                          size_t received_size, uint8_t *yes);

/* Binder: the PSK binder over a ClientHello that is cut before its binders, 4 to 65,535 bytes. At Early.
 * Refusals 1, 3, 7, 8, 11. */
uint8_t bindcricket_binder(const uint8_t *session, size_t session_size, const uint8_t *hello, size_t hello_size,
                           uint8_t *out, size_t out_size, size_t *written);

/* Export (RFC 8446, section 7.5): label 1 to 249 bytes, context 0 to 65,535; length 0 asks for 32 bytes, the most is 255
 * times the hash's length. Refusals 1, 2, 3, 10, 11. */
uint8_t bindcricket_export(const uint8_t *session, size_t session_size, uint8_t name, const uint8_t *label,
                           size_t label_size, const uint8_t *context, size_t context_size, size_t length, uint8_t *out,
                           size_t out_size, size_t *written);

/* ---- The functions below the session, in the hash of a suite ---- */

/* The hash of at most 2,097,152 bytes. Refusals 2, 9, 11. */
uint8_t bindcricket_hash(uint16_t suite, const uint8_t *input, size_t input_size, uint8_t *out, size_t out_size,
                         size_t *written);

/* HMAC (RFC 2104): a key of at most one block (64 or 128 bytes), a message of at most 1,048,576. Refusals 2, 4, 9, 11. */
uint8_t bindcricket_hmac(uint16_t suite, const uint8_t *key, size_t key_size, const uint8_t *message,
                         size_t message_size, uint8_t *out, size_t out_size, size_t *written);

/* HKDF-Extract (RFC 5869): a salt of at most one block, an input of at most 1,048,576 bytes. Refusals 2, 4, 9, 11. */
uint8_t bindcricket_extract(uint16_t suite, const uint8_t *salt, size_t salt_size, const uint8_t *input,
                            size_t input_size, uint8_t *out, size_t out_size, size_t *written);

/* HKDF-Expand (RFC 5869): a secret from the hash's length to one block, info of at most 1,024 bytes, a length from 1 to 255
 * times the hash's. Refusals 2, 4, 10, 11. */
uint8_t bindcricket_expand(uint16_t suite, const uint8_t *secret, size_t secret_size, const uint8_t *info,
                           size_t info_size, size_t length, uint8_t *out, size_t out_size, size_t *written);

/* HKDF-Expand-Label (RFC 8446, section 7.1): a secret of the hash's length, a label of 1 to 249 bytes, a context of at most
 * 255. Refusals 2, 4, 10, 11. */
uint8_t bindcricket_expand_label(uint16_t suite, const uint8_t *secret, size_t secret_size, const uint8_t *label,
                                 size_t label_size, const uint8_t *context, size_t context_size, size_t length,
                                 uint8_t *out, size_t out_size, size_t *written);

/* Derive-Secret (RFC 8446, section 7.1) over messages of at most 2,097,152 bytes. Refusals 2, 4, 9, 10, 11. */
uint8_t bindcricket_derive_secret(uint16_t suite, const uint8_t *secret, size_t secret_size, const uint8_t *label,
                                  size_t label_size, const uint8_t *messages, size_t messages_size, uint8_t *out,
                                  size_t out_size, size_t *written);

/* ---- The journal: records of a payload length (4 bytes), a kind (2 bytes) and a payload, numbers low byte first ---- */

/* The kinds of records; 0 stands for an end. */
enum {
    BINDCRICKET_RECORD_NONE = 0,
    BINDCRICKET_RECORD_BEGIN = 1, /* payload: suite 2 bytes, PSK kind 1, PSK */
    BINDCRICKET_RECORD_FEED = 2,  /* payload: message */
    BINDCRICKET_RECORD_EARLY = 3,
    BINDCRICKET_RECORD_HANDSHAKE = 4, /* payload: group 2 bytes, shared secret */
    BINDCRICKET_RECORD_APPLICATION = 5,
    BINDCRICKET_RECORD_COMPLETE = 6,
    BINDCRICKET_RECORD_UPDATE = 7, /* payload: side 1 byte */
    BINDCRICKET_RECORD_CLOSE = 8
};

/* Writes the record of a call: its kind; the suite of a Begin or the group of a Handshake as `number`; the PSK kind of a
 * Begin or the side of an Update as `small`; and the PSK, message or shared secret as `body`. What a kind does not have is
 * not read. Any such call can be written, whether or not a session would take it. Refusals 2 (kind), 10 (a payload
 * over 65,535 bytes), 11. */
uint8_t bindcricket_journal_write(uint16_t kind, uint16_t number, uint8_t small, const uint8_t *body, size_t body_size,
                                  uint8_t *out, size_t out_size, size_t *written);

/* Reads the record at an offset of a journal: its kind, where its payload starts, the payload's size, and the offset of
 * the next record. At the end of the journal and behind it the answer is 0 and `*kind` 0. A damaged record is answered 13.
 * Where there is no good record, all four are 0. */
uint8_t bindcricket_journal_read(const uint8_t *journal, size_t journal_size, size_t place, uint16_t *kind, size_t *start,
                                 size_t *size, size_t *next);

/* ---- The stack ---- */

/* No function above uses as much stack on x86-64. */
#define BINDCRICKET_STACK_BYTES 2560

/* Makes the stack below the caller zero, BINDCRICKET_STACK_BYTES deep: to be called from the function that made the calls. */
#if defined(__GNUC__)
__attribute__((noinline, unused))
#endif
static void
bindcricket_clear_stack(void)
{
    volatile uint8_t frame[BINDCRICKET_STACK_BYTES];
    size_t i;
    for (i = 0; i < sizeof frame; i++)
        frame[i] = 0;
}

#ifdef __cplusplus
}
#endif
#endif
