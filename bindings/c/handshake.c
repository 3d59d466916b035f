/* Drives the library through bindcricket.h: the traces of RFC 8448, every call in every state of a session, each
 * refusal, the journal, sessions that are moved or that no call made, and the papers' examples. C99, and C++11 as well.
 *
 * Every session call is made with three wrong sizes too. Guard bytes stand around the session and the output, and the
 * output is filled with A5. */
#include "bindcricket.h"
#include "rfc8448.h"
#include <stdio.h>
#include <stdlib.h>
#include <string.h>

#define SIZE BINDCRICKET_SESSION_BYTES
#define GUARD 61
#define MARK 0xA5
#define LONGEST 65535
#define TEXT(s) (const uint8_t *)(s), sizeof(s) - 1
#define COUNT(a) (sizeof(a) / sizeof *(a))

/* ---- Checks: the first failure of a group is printed ---- */

static const char *group;
static int said;
static unsigned long checks, failed;

static void start_group(const char *name)
{
    group = name;
    said = 0;
}

static void expect(const char *what, unsigned long expected, unsigned long got)
{
    checks++;
    if (expected == got)
        return;
    failed++;
    if (!said)
        printf("c: %s: %s: expected %lu, got %lu\n", group, what, expected, got);
    said = 1;
}

/* The byte at an index, the first that differs. */
static void differs(const char *what, size_t i, uint8_t expected, uint8_t got)
{
    failed++;
    if (!said)
        printf("c: %s: %s: byte %lu: expected %02x, got %02x\n", group, what, (unsigned long)i, expected, got);
    said = 1;
}

static void expect_bytes(const char *what, const uint8_t *expected, const uint8_t *got, size_t size)
{
    size_t i = 0;
    checks++;
    while (i < size && got[i] == expected[i])
        i++;
    if (i < size)
        differs(what, i, expected[i], got[i]);
}

static void expect_all(const char *what, uint8_t expected, const uint8_t *got, size_t size)
{
    size_t i = 0;
    checks++;
    while (i < size && got[i] == expected)
        i++;
    if (i < size)
        differs(what, i, expected, got[i]);
}

/* ---- What is lent: the session with guards around it, and the output ---- */

enum call {
    FRESH, BEGIN, FEED, EARLY, HANDSHAKE, APPLICATION, COMPLETE, UPDATE, CLOSE, KEYS, FINISHED, CHECK, BINDER, EXPORT,
    HASH, HMAC, EXTRACT, EXPAND, EXPAND_LABEL, DERIVE_SECRET, JOURNAL_WRITE, JOURNAL_READ, CALLS
};

/* The numbers that each call can give beside 0, as the header says. */
static const struct {
    const char *name;
    uint8_t numbers[6];
} calls[CALLS] = {
    {"fresh", {0}}, {"begin", {1, 2, 4}}, {"feed", {1, 7, 8, 9}}, {"early", {1, 3}}, {"handshake", {1, 2, 4, 5, 6}},
    {"application", {1}}, {"complete", {1}}, {"update", {1, 2, 12}}, {"close", {0}}, {"keys", {1, 2, 3, 11}},
    {"finished", {1, 2, 11}}, {"check", {1, 2}}, {"binder", {1, 3, 7, 8, 11}}, {"export", {1, 2, 3, 10, 11}},
    {"hash", {2, 9, 11}}, {"hmac", {2, 4, 9, 11}}, {"extract", {2, 4, 9, 11}}, {"expand", {2, 4, 10, 11}},
    {"expand_label", {2, 4, 10, 11}}, {"derive_secret", {2, 4, 9, 10, 11}}, {"journal_write", {2, 10, 11}},
    {"journal_read", {13}}
};
static unsigned seen[CALLS]; /* bit n: the number n was given; bit 31: NOT_A_SESSION */

/* What an accepted call may change: the session, the verdict, the output, or what was read of the journal. */
enum effect { CHANGES, JUDGES, WRITES, READS };

static uint8_t arena[GUARD + 7 + SIZE + GUARD], arena_before[sizeof arena];
static uint8_t *session = arena + GUARD;
static uint8_t lent[GUARD + 70000 + GUARD], *const out = lent + GUARD;
static size_t room, written;
static uint8_t yes;
static struct {
    uint16_t kind;
    size_t start, size, next;
} reading;
static uint8_t wire[LONGEST + 2];
static uint8_t zeros[2097153];

/* Sizes of a session, the right one last. */
#define TURNS 4
static const size_t sizes[TURNS] = {0, SIZE - 1, SIZE + 1, SIZE};
static int turn;

/* Puts the session at an offset of 0 to 7, with guards around it. */
static void move_session(int offset)
{
    uint8_t copy[SIZE];
    memcpy(copy, session, SIZE);
    memset(arena, 0xC3, sizeof arena);
    session = arena + GUARD + offset;
    memcpy(session, copy, SIZE);
}

static uint8_t *lend(size_t size)
{
    room = size;
    memset(lent, MARK, GUARD + size + GUARD);
    return out;
}

static void before(void)
{
    memcpy(arena_before, arena, sizeof arena);
    written = 12345;
    yes = 77;
    reading.kind = 12345;
    reading.start = reading.size = reading.next = 12345;
}

/* Judges the call just made: its number, what it changed, and the count of bytes that it should have written. */
static void after(enum call call, enum effect effect, unsigned expected, size_t count, unsigned got)
{
    size_t front = (size_t)(session - arena), behind = front + SIZE;
    expect(calls[call].name, expected, got);
    seen[call] |= 1u << (got < 31 ? got : 31);
    if (got || effect != CHANGES) {
        expect_bytes("session", arena_before, arena, sizeof arena);
    } else {
        expect_bytes("before the session", arena_before, arena, front);
        expect_bytes("behind the session", arena_before + behind, arena + behind, sizeof arena - behind);
    }
    if (effect == JUDGES)
        expect("yes", got ? 0 : (unsigned long)count, yes);
    if (effect == WRITES) {
        expect("bytes written", got ? 0 : (unsigned long)count, (unsigned long)written);
        expect("bytes written fit", 1, written <= room);
        if (written > room)
            return;
        expect_all("before the output", MARK, lent, GUARD);
        expect_all("behind the output", MARK, out + written, room - written + GUARD);
    }
}

/* Makes a session call, which uses sizes[turn], with the wrong sizes and then with the right one. */
#define MAKE(call, effect, expected, count, made) \
    do { \
        for (turn = 0; turn < TURNS; turn++) { \
            before(); \
            after(call, effect, turn < TURNS - 1 ? 255u : (expected), count, made); \
        } \
    } while (0)

/* Makes a call below the session. */
#define MAKE_BELOW(call, expected, count, made) \
    do { \
        before(); \
        after(call, WRITES, expected, count, made); \
    } while (0)

/* ---- The calls, each with the number expected of it ---- */

static void fresh(void)
{
    MAKE(FRESH, CHANGES, 0, 0, bindcricket_fresh(session, sizes[turn]));
}

static void begin(unsigned expected, uint16_t suite, uint8_t kind, const uint8_t *psk, size_t size)
{
    MAKE(BEGIN, CHANGES, expected, 0, bindcricket_begin(session, sizes[turn], suite, kind, psk, size));
}

static void feed(unsigned expected, const uint8_t *message, size_t size)
{
    MAKE(FEED, CHANGES, expected, 0, bindcricket_feed(session, sizes[turn], message, size));
}

static void early(unsigned expected)
{
    MAKE(EARLY, CHANGES, expected, 0, bindcricket_early(session, sizes[turn]));
}

static void handshake(unsigned expected, uint16_t named, const uint8_t *secret, size_t size)
{
    MAKE(HANDSHAKE, CHANGES, expected, 0, bindcricket_handshake(session, sizes[turn], named, secret, size));
}

static void application(unsigned expected)
{
    MAKE(APPLICATION, CHANGES, expected, 0, bindcricket_application(session, sizes[turn]));
}

static void complete(unsigned expected)
{
    MAKE(COMPLETE, CHANGES, expected, 0, bindcricket_complete(session, sizes[turn]));
}

static void update(unsigned expected, uint8_t side)
{
    MAKE(UPDATE, CHANGES, expected, 0, bindcricket_update(session, sizes[turn], side));
}

/* Close, and what it leaves: zeros but for the point. */
static void close_session(void)
{
    MAKE(CLOSE, CHANGES, 0, 0, bindcricket_close(session, sizes[turn]));
    expect("the point after close", 5, session[4] + 256ul * session[5]);
    expect_all("bytes before the point after close", 0, session, 4);
    expect_all("bytes behind the point after close", 0, session + 6, SIZE - 6);
}

static void keys(unsigned expected, uint8_t name, size_t size, size_t count)
{
    MAKE(KEYS, WRITES, expected, count, bindcricket_keys(session, sizes[turn], name, lend(size), size, &written));
}

static void finished(unsigned expected, uint8_t side, size_t size, size_t count)
{
    MAKE(FINISHED, WRITES, expected, count,
         bindcricket_finished(session, sizes[turn], side, lend(size), size, &written));
}

static void check(unsigned expected, uint8_t side, const uint8_t *received, size_t size, unsigned verdict)
{
    MAKE(CHECK, JUDGES, expected, verdict, bindcricket_check(session, sizes[turn], side, received, size, &yes));
}

static void binder(unsigned expected, const uint8_t *hello, size_t hello_size, size_t size, size_t count)
{
    MAKE(BINDER, WRITES, expected, count,
         bindcricket_binder(session, sizes[turn], hello, hello_size, lend(size), size, &written));
}

static void exporter(unsigned expected, uint8_t name, const uint8_t *label, size_t label_size, const uint8_t *context,
                     size_t context_size, size_t length, size_t size, size_t count)
{
    MAKE(EXPORT, WRITES, expected, count,
         bindcricket_export(session, sizes[turn], name, label, label_size, context, context_size, length, lend(size),
                            size, &written));
}

static void hash(unsigned expected, uint16_t suite, const uint8_t *input, size_t input_size, size_t size, size_t count)
{
    MAKE_BELOW(HASH, expected, count, bindcricket_hash(suite, input, input_size, lend(size), size, &written));
}

static void hmac(unsigned expected, uint16_t suite, const uint8_t *key, size_t key_size, const uint8_t *message,
                 size_t message_size, size_t size, size_t count)
{
    MAKE_BELOW(HMAC, expected, count,
               bindcricket_hmac(suite, key, key_size, message, message_size, lend(size), size, &written));
}

static void extract(unsigned expected, uint16_t suite, const uint8_t *salt, size_t salt_size, const uint8_t *input,
                    size_t input_size, size_t size, size_t count)
{
    MAKE_BELOW(EXTRACT, expected, count,
               bindcricket_extract(suite, salt, salt_size, input, input_size, lend(size), size, &written));
}

static void expand(unsigned expected, uint16_t suite, const uint8_t *secret, size_t secret_size, const uint8_t *info,
                   size_t info_size, size_t length, size_t size)
{
    MAKE_BELOW(EXPAND, expected, length,
               bindcricket_expand(suite, secret, secret_size, info, info_size, length, lend(size), size, &written));
}

static void expand_label(unsigned expected, uint16_t suite, const uint8_t *secret, size_t secret_size,
                         const uint8_t *label, size_t label_size, const uint8_t *context, size_t context_size,
                         size_t length, size_t size)
{
    MAKE_BELOW(EXPAND_LABEL, expected, length,
               bindcricket_expand_label(suite, secret, secret_size, label, label_size, context, context_size, length,
                                        lend(size), size, &written));
}

static void derive_secret(unsigned expected, uint16_t suite, const uint8_t *secret, size_t secret_size,
                          const uint8_t *label, size_t label_size, const uint8_t *messages, size_t messages_size,
                          size_t size, size_t count)
{
    MAKE_BELOW(DERIVE_SECRET, expected, count,
               bindcricket_derive_secret(suite, secret, secret_size, label, label_size, messages, messages_size,
                                         lend(size), size, &written));
}

static void journal_write(unsigned expected, uint16_t kind, uint16_t number, uint8_t small, const uint8_t *body,
                          size_t body_size, size_t size, size_t count)
{
    MAKE_BELOW(JOURNAL_WRITE, expected, count,
               bindcricket_journal_write(kind, number, small, body, body_size, lend(size), size, &written));
}

/* Reads a journal at a place, where a record of a kind and payload size is expected, or none (kind 0). The journal ends
 * where its block does, so that valgrind sees a byte that is read behind it. */
static void journal_read(unsigned expected, const uint8_t *journal, size_t journal_size, size_t place, uint16_t kind,
                         size_t size)
{
    uint8_t *block = (uint8_t *)malloc(1 + journal_size), *lent_journal = block + 1;
    if (!block)
        abort();
    memcpy(lent_journal, journal, journal_size);
    before();
    after(JOURNAL_READ, READS, expected, 0,
          bindcricket_journal_read(lent_journal, journal_size, place, &reading.kind, &reading.start, &reading.size,
                                   &reading.next));
    expect("kind", kind, reading.kind);
    expect("start", kind ? (unsigned long)place + 6 : 0, (unsigned long)reading.start);
    expect("size", kind ? (unsigned long)size : 0, (unsigned long)reading.size);
    expect("next", kind ? (unsigned long)(place + 6 + size) : 0, (unsigned long)reading.next);
    expect_bytes("the journal", journal, lent_journal, journal_size);
    free(block);
}

/* ---- Inputs ---- */

struct bytes {
    size_t size;
    uint8_t at[1024];
};

static struct bytes unhex(const char *digits)
{
    struct bytes b;
    unsigned value;
    for (b.size = 0; digits[2 * b.size]; b.size++) {
        sscanf(digits + 2 * b.size, "%2x", &value);
        b.at[b.size] = (uint8_t)value;
    }
    return b;
}

static void expect_hex(const char *what, const char *digits)
{
    struct bytes b = unhex(digits);
    expect_bytes(what, b.at, out, b.size);
}

static size_t hash_size(uint16_t suite)
{
    return suite == BINDCRICKET_AES_256_GCM_SHA384 ? 48 : 32;
}

static size_t key_size(uint16_t suite)
{
    return suite == BINDCRICKET_AES_256_GCM_SHA384 || suite == BINDCRICKET_CHACHA20_POLY1305_SHA256 ? 32 : 16;
}

/* A message of a type and a whole size in `wire`. */
static const uint8_t *message(uint8_t type, size_t size)
{
    size_t i, body = size - 4;
    wire[0] = type;
    wire[1] = (uint8_t)(body >> 16);
    wire[2] = (uint8_t)(body >> 8);
    wire[3] = (uint8_t)body;
    for (i = 4; i < size; i++)
        wire[i] = (uint8_t)(i * 7 + type);
    return wire;
}

static uint32_t noise_state = 1;

static uint32_t noise(void)
{
    noise_state ^= noise_state << 13;
    noise_state ^= noise_state >> 17;
    noise_state ^= noise_state << 5;
    return noise_state;
}

static void fill_with_noise(uint8_t *at, size_t size)
{
    size_t i;
    for (i = 0; i < size; i++)
        at[i] = (uint8_t)(noise() >> 8);
}

/* ---- RFC 8448 ---- */

/* The Finished value of a side, which is the body of its message, and what Check says of it and of others. */
static void trace_finished(uint8_t side, const struct bytes *finish)
{
    struct bytes other = *finish;
    finished(0, side, 32, 32);
    expect_bytes("Finished", finish->at + 4, out, 32);
    check(0, side, finish->at + 4, 32, 1);
    check(0, side, finish->at + 4, 31, 0);
    check(0, side, finish->at, 36, 0);
    check(0, side, finish->at, 0, 0);
    other.at[36] = 0;
    check(0, side, other.at + 4, 33, 0);
    other.at[4] ^= 1;
    check(0, side, other.at + 4, 32, 0);
}

static void trace_keys(const struct trace *t, uint8_t name)
{
    keys(0, name, 28, 28);
    expect_hex("key and IV", t->keys[name - 1]);
}

/* Some calls on another session. */
static void disturb(void)
{
    uint8_t other[SIZE];
    unsigned answers = bindcricket_fresh(other, SIZE);
    answers |= bindcricket_begin(other, SIZE, 0x1302, BINDCRICKET_PSK_EXTERNAL, TEXT("another"));
    answers |= bindcricket_feed(other, SIZE, message(1, 200), 200);
    answers |= bindcricket_early(other, SIZE);
    answers |= bindcricket_close(other, SIZE);
    expect("another session", 0, answers);
}

/* A trace through the session's calls. If asked for, the session is moved after each message, and another one used. */
static void trace(const struct trace *t, int moves)
{
    struct bytes psk = unhex(t->psk), shared = unhex(t->shared), hello = unhex(t->cut_hello), m;
    int i, ended = 0;
    fresh();
    begin(0, BINDCRICKET_AES_128_GCM_SHA256, t->kind, psk.at, psk.size);
    if (t->kind) {
        binder(0, hello.at, hello.size, 32, 32);
        expect_hex("binder", t->binder);
    }
    for (i = 0; i < t->count; i++) {
        m = unhex(t->messages[i]);
        if (m.at[0] == 20)
            trace_finished(ended ? BINDCRICKET_CLIENT : BINDCRICKET_SERVER, &m);
        feed(0, m.at, m.size);
        if (moves) {
            move_session(1 + i % 7);
            disturb();
        }
        switch (m.at[0]) {
        case 1:
            early(t->kind ? 0 : 3);
            if (t->kind)
                trace_keys(t, BINDCRICKET_CLIENT_EARLY);
            break;
        case 2:
            handshake(0, t->group, shared.at, shared.size);
            trace_keys(t, BINDCRICKET_CLIENT_HANDSHAKE);
            trace_keys(t, BINDCRICKET_SERVER_HANDSHAKE);
            break;
        case 20:
            if (!ended++)
                application(0);
            else
                complete(0);
            trace_keys(t, BINDCRICKET_CLIENT_APPLICATION);
            trace_keys(t, BINDCRICKET_SERVER_APPLICATION);
            break;
        }
    }
    expect("Finished messages", 2, (unsigned long)ended);
    close_session();
}

/* The published secrets by the calls below the session. */
static void published_secrets(void)
{
    static uint8_t messages[10 * sizeof(struct bytes)];
    const uint16_t suite = BINDCRICKET_AES_128_GCM_SHA256;
    struct bytes secret, other;
    size_t i, size;
    int j;
    for (i = 0; i < COUNT(extractions); i++) {
        secret = unhex(extractions[i].salt);
        other = unhex(extractions[i].input);
        extract(0, suite, secret.at, secret.size, other.at, other.size, 40, 32);
        expect_hex("Extract", extractions[i].value);
    }
    for (i = 0; i < COUNT(derivations); i++) {
        for (size = 0, j = 0; j < derivations[i].messages; j++) {
            other = unhex(traces[derivations[i].trace].messages[j]);
            memcpy(messages + size, other.at, other.size);
            size += other.size;
        }
        secret = unhex(derivations[i].secret);
        derive_secret(0, suite, secret.at, secret.size, (const uint8_t *)derivations[i].label,
                      strlen(derivations[i].label), messages, size, 40, 32);
        expect_hex("Derive-Secret", derivations[i].value);
    }
    for (i = 0; i < COUNT(expansions); i++) {
        secret = unhex(expansions[i].secret);
        other = unhex(expansions[i].context);
        size = strlen(expansions[i].value) / 2;
        expand_label(0, suite, secret.at, secret.size, (const uint8_t *)expansions[i].label,
                     strlen(expansions[i].label), other.at, other.size, size, 40);
        expect_hex("Expand-Label", expansions[i].value);
    }
}

/* ---- Examples of the papers ---- */

static void examples(void)
{
    struct bytes ikm = unhex("0b0b0b0b0b0b0b0b0b0b0b0b0b0b0b0b0b0b0b0b0b0b");
    struct bytes salt = unhex("000102030405060708090a0b0c");
    struct bytes info = unhex("f0f1f2f3f4f5f6f7f8f9");
    struct bytes prk = unhex("077709362c2e32df0ddc3f0dc47bba6390b6c73bb50f9c3122ec844ad7c2b3e5");

    start_group("FIPS 180-4");
    hash(0, 0x1301, TEXT("abc"), 32, 32);
    expect_hex("SHA-256 of abc", "ba7816bf8f01cfea414140de5dae2223b00361a396177a9cb410ff61f20015ad");
    hash(0, 0x1301, TEXT("abcdbcdecdefdefgefghfghighijhijkijkljklmklmnlmnomnopnopq"), 99, 32);
    expect_hex("SHA-256 of 448 bits", "248d6a61d20638b8e5c026930c3e6039a33ce45964ff2167f6ecedd419db06c1");
    hash(0, 0x1302, TEXT("abc"), 48, 48);
    expect_hex("SHA-384 of abc", "cb00753f45a35e8bb5a03d699ac65007272c32ab0eded163"
                                 "1a8b605a43ff5bed8086072ba1e7cc2358baeca134c825a7");
    hash(0, 0x1302, TEXT(""), 60, 48);
    expect_hex("SHA-384 of nothing", "38b060a751ac96384cd9327eb1b1e36a21fdb71114be0743"
                                     "4c0cc7bf63f6e1da274edebfe76f65fbd51ad2f14898b95b");

    start_group("RFC 4231, case 2");
    hmac(0, 0x1301, TEXT("Jefe"), TEXT("what do ya want for nothing?"), 32, 32);
    expect_hex("HMAC-SHA-256", "5bdcc146bf60754e6a042426089575c75a003f089d2739839dec58b964ec3843");
    hmac(0, 0x1302, TEXT("Jefe"), TEXT("what do ya want for nothing?"), 48, 48);
    expect_hex("HMAC-SHA-384", "af45d2e376484031617f78d2b58a6b1b9c7ef464f5a01b47"
                               "e42ec3736322445e8e2240ca5e69e2c78b3239ecfab21649");

    start_group("RFC 5869, case 1");
    extract(0, 0x1301, salt.at, salt.size, ikm.at, ikm.size, 32, 32);
    expect_bytes("PRK", prk.at, out, 32);
    expand(0, 0x1301, prk.at, prk.size, info.at, info.size, 42, 42);
    expect_hex("OKM", "3cb25f25faacd57a90434f64d0362f2a2d2d0a90cf1a5a4c5db02d56ecc4c5bf34007208d5b887185865");
}

/* ---- The session against the calls below it: RFC 8446, section 7, worked out by hand ---- */

static struct {
    uint16_t suite;
    uint8_t transcript[2048];
    size_t fed;
} hand;

static void hand_extract(const uint8_t *salt, size_t salt_size, const uint8_t *input, size_t size, uint8_t value[48])
{
    size_t count;
    expect("extract", 0, bindcricket_extract(hand.suite, salt, salt_size, input, size, value, 48, &count));
}

static void hand_label(const uint8_t *secret, const char *label, const uint8_t *context, size_t size, size_t length,
                       uint8_t *value)
{
    size_t count;
    expect("expand_label", 0,
           bindcricket_expand_label(hand.suite, secret, hash_size(hand.suite), (const uint8_t *)label, strlen(label),
                                    context, size, length, value, length, &count));
}

static void hand_derive(const uint8_t *secret, const char *label, const uint8_t *messages, size_t size,
                        uint8_t value[48])
{
    size_t count;
    expect("derive_secret", 0,
           bindcricket_derive_secret(hand.suite, secret, hash_size(hand.suite), (const uint8_t *)label, strlen(label),
                                     messages, size, value, 48, &count));
}

/* The secret that follows a chain secret. */
static void hand_next(uint8_t chain[48], const uint8_t *input, size_t size)
{
    uint8_t salt[48];
    hand_derive(chain, "derived", chain, 0, salt);
    hand_extract(salt, hash_size(hand.suite), input, size, chain);
}

static void hand_keys(uint8_t name, const uint8_t *secret)
{
    uint8_t expected[44];
    size_t size = key_size(hand.suite);
    hand_label(secret, "key", secret, 0, size, expected);
    hand_label(secret, "iv", secret, 0, 12, expected + size);
    keys(0, name, 60, size + 12);
    expect_bytes("key and IV", expected, out, size + 12);
}

/* verify_data under a base key over some messages. */
static void hand_verify_data(const uint8_t *base, const uint8_t *messages, size_t size, uint8_t value[48])
{
    uint8_t key[48], digest[48];
    size_t count, h = hash_size(hand.suite);
    hand_label(base, "finished", base, 0, h, key);
    expect("hash", 0, bindcricket_hash(hand.suite, messages, size, digest, 48, &count));
    expect("hmac", 0, bindcricket_hmac(hand.suite, key, h, digest, h, value, 48, &count));
}

static void hand_feed(uint8_t type, size_t size)
{
    memcpy(hand.transcript + hand.fed, message(type, size), size);
    hand.fed += size;
    feed(0, wire, size);
}

static void hand_finished(uint8_t side, const uint8_t *base)
{
    uint8_t value[48];
    size_t h = hash_size(hand.suite);
    hand_verify_data(base, hand.transcript, hand.fed, value);
    finished(0, side, h, h);
    expect_bytes("Finished", value, out, h);
    check(0, side, value, h, 1);
    value[h - 1] ^= 0x80;
    check(0, side, value, h, 0);
}

static void hand_export(uint8_t name, const uint8_t *secret, size_t length)
{
    uint8_t inner[48], digest[48], expected[200];
    size_t count, h = hash_size(hand.suite), in_force = length ? length : 32;
    hand_derive(secret, "label", secret, 0, inner);
    expect("hash", 0, bindcricket_hash(hand.suite, TEXT("context"), digest, 48, &count));
    hand_label(inner, "exporter", digest, h, in_force, expected);
    exporter(0, name, TEXT("label"), TEXT("context"), length, in_force, in_force);
    expect_bytes("exported bytes", expected, out, in_force);
}

static void by_hand(uint16_t suite, uint8_t kind)
{
    static const char *const binder_labels[] = {"", "ext binder", "res binder"};
    uint8_t psk[48], shared[48], chain[48], client[48], server[48], exports[48], value[48];
    size_t h = hash_size(suite), psk_size = kind == 0 ? 0 : kind == 1 ? 5 : h;
    int i;
    hand.suite = suite;
    hand.fed = 0;
    fill_with_noise(psk, sizeof psk);
    fill_with_noise(shared, sizeof shared);
    fresh();
    begin(0, suite, kind, psk, psk_size);
    hand_extract(zeros, 0, kind ? psk : zeros, kind ? psk_size : h, chain);
    if (kind) {
        hand_derive(chain, binder_labels[kind], chain, 0, client);
        hand_verify_data(client, message(1, 77), 60, value);
        binder(0, wire, 60, h, h);
        expect_bytes("binder", value, out, h);
    }
    hand_feed(1, 200);
    early(kind ? 0 : 3);
    if (kind) {
        hand_derive(chain, "c e traffic", hand.transcript, hand.fed, client);
        hand_derive(chain, "e exp master", hand.transcript, hand.fed, exports);
        hand_keys(BINDCRICKET_CLIENT_EARLY, client);
        hand_export(BINDCRICKET_EXPORTER_EARLY, exports, 0);
    }
    hand_feed(2, 90);
    handshake(0, BINDCRICKET_SECP384R1, shared, 48);
    hand_next(chain, shared, 48);
    hand_derive(chain, "c hs traffic", hand.transcript, hand.fed, client);
    hand_derive(chain, "s hs traffic", hand.transcript, hand.fed, server);
    hand_keys(BINDCRICKET_CLIENT_HANDSHAKE, client);
    hand_keys(BINDCRICKET_SERVER_HANDSHAKE, server);
    hand_feed(8, 4);
    hand_feed(13, 40);
    hand_feed(11, 700);
    hand_feed(15, 130);
    hand_finished(BINDCRICKET_SERVER, server);
    hand_feed(20, 4 + h);
    application(0);
    hand_feed(11, 301);
    hand_feed(15, 129);
    hand_finished(BINDCRICKET_CLIENT, client);
    hand_next(chain, zeros, h);
    hand.fed -= 301 + 129;
    hand_derive(chain, "c ap traffic", hand.transcript, hand.fed, client);
    hand_derive(chain, "s ap traffic", hand.transcript, hand.fed, server);
    hand_derive(chain, "exp master", hand.transcript, hand.fed, exports);
    feed(0, message(20, 4 + h), 4 + h);
    complete(0);
    for (i = 0; i < 3; i++) {
        hand_keys(BINDCRICKET_CLIENT_APPLICATION, client);
        hand_keys(BINDCRICKET_SERVER_APPLICATION, server);
        update(0, BINDCRICKET_CLIENT);
        hand_label(client, "traffic upd", client, 0, h, value);
        memcpy(client, value, h);
        hand_keys(BINDCRICKET_SERVER_APPLICATION, server);
        update(0, BINDCRICKET_SERVER);
        hand_label(server, "traffic upd", server, 0, h, value);
        memcpy(server, value, h);
    }
    hand_export(BINDCRICKET_EXPORTER, exports, 0);
    hand_export(BINDCRICKET_EXPORTER, exports, 1);
    hand_export(BINDCRICKET_EXPORTER, exports, 199);
    close_session();
}

/* ---- Every call in every state ---- */

#define STATES 14

/* The step that leads from a state to the next one. */
static void step(int state, uint16_t suite, uint8_t kind)
{
    switch (state) {
    case 0:
        begin(0, suite, kind, kind ? message(9, 48) : zeros, kind ? hash_size(suite) : 0);
        break;
    case 1:
        feed(0, message(1, 200), 200);
        break;
    case 2:
        early(kind ? 0 : 3);
        break;
    case 3:
        feed(0, message(2, 90), 90);
        break;
    case 4:
        handshake(0, BINDCRICKET_X25519, message(9, 32), 32);
        break;
    case 5:
        feed(0, message(8, 40), 40);
        break;
    case 6:
    case 9:
        feed(0, message(20, 36), 36);
        break;
    case 7:
        application(0);
        break;
    case 8:
        feed(0, message(5, 4), 4);
        break;
    case 10:
        complete(0);
        break;
    case 11:
        update(0, BINDCRICKET_CLIENT);
        break;
    case 12:
        close_session();
        break;
    }
}

static void reach(int state, uint16_t suite, uint8_t kind)
{
    int i;
    fresh();
    for (i = 0; i < state; i++)
        step(i, suite, kind);
}

/* A call, its argument (message type, side or name), and the number in each state with a PSK and without one. */
static const struct row {
    enum call call;
    enum effect effect;
    uint8_t argument;
    const char *with_psk, *without;
} rows[] = {
    {FRESH, CHANGES, 0, "00000000000000", "00000000000000"},
    {BEGIN, CHANGES, 0, "01111111111111", "01111111111111"},
    {FEED, CHANGES, 1, "10881881881111", "10881881881111"},
    {FEED, CHANGES, 2, "18001881881111", "18001881881111"},
    {FEED, CHANGES, 4, "18881881881111", "18881881881111"},
    {FEED, CHANGES, 5, "18881881001111", "18881881001111"},
    {FEED, CHANGES, 8, "18881001881111", "18881001881111"},
    {FEED, CHANGES, 11, "18881001001111", "18881001001111"},
    {FEED, CHANGES, 13, "18881001881111", "18881001881111"},
    {FEED, CHANGES, 15, "18881001001111", "18881001001111"},
    {FEED, CHANGES, 20, "18881001001111", "18881001001111"},
    {EARLY, CHANGES, 0, "11011111111111", "11331111111111"},
    {HANDSHAKE, CHANGES, 0, "11110111111111", "11110111111111"},
    {APPLICATION, CHANGES, 0, "11111110111111", "11111110111111"},
    {COMPLETE, CHANGES, 0, "11111111110111", "11111111110111"},
    {UPDATE, CHANGES, 1, "11111111111001", "11111111111001"},
    {UPDATE, CHANGES, 2, "11111111111001", "11111111111001"},
    {UPDATE, CHANGES, 3, "11111111111221", "11111111111221"},
    {CLOSE, CHANGES, 0, "00000000000000", "00000000000000"},
    {KEYS, WRITES, 0, "12222222222221", "12222222222221"},
    {KEYS, WRITES, 1, "13300000000331", "13333333333331"},
    {KEYS, WRITES, 2, "13333000000331", "13333000000331"},
    {KEYS, WRITES, 3, "13333000000331", "13333000000331"},
    {KEYS, WRITES, 4, "13333333000001", "13333333000001"},
    {KEYS, WRITES, 5, "13333333000001", "13333333000001"},
    {KEYS, WRITES, 6, "12222222222221", "12222222222221"},
    {FINISHED, WRITES, 0, "22222222222222", "22222222222222"},
    {FINISHED, WRITES, 1, "11111111001111", "11111111001111"},
    {FINISHED, WRITES, 2, "11111001111111", "11111001111111"},
    {FINISHED, WRITES, 3, "22222222222222", "22222222222222"},
    {CHECK, JUDGES, 0, "22222222222222", "22222222222222"},
    {CHECK, JUDGES, 1, "11111111001111", "11111111001111"},
    {CHECK, JUDGES, 2, "11111001111111", "11111001111111"},
    {CHECK, JUDGES, 3, "22222222222222", "22222222222222"},
    {BINDER, WRITES, 0, "10000111111111", "13333111111111"},
    {EXPORT, WRITES, 0, "12222222222221", "12222222222221"},
    {EXPORT, WRITES, 1, "13300000000331", "13333333333331"},
    {EXPORT, WRITES, 2, "13333333000001", "13333333000001"},
    {EXPORT, WRITES, 3, "12222222222221", "12222222222221"},
};

/* Makes the call of a row, with arguments that are otherwise good. */
static unsigned make(const struct row *row, size_t size)
{
    switch (row->call) {
    case FRESH:
        return bindcricket_fresh(session, size);
    case BEGIN:
        return bindcricket_begin(session, size, 0x1301, BINDCRICKET_PSK_EXTERNAL, TEXT("psk"));
    case FEED:
        return bindcricket_feed(session, size, message(row->argument, 36), 36);
    case EARLY:
        return bindcricket_early(session, size);
    case HANDSHAKE:
        return bindcricket_handshake(session, size, BINDCRICKET_X25519, message(9, 32), 32);
    case APPLICATION:
        return bindcricket_application(session, size);
    case COMPLETE:
        return bindcricket_complete(session, size);
    case UPDATE:
        return bindcricket_update(session, size, row->argument);
    case CLOSE:
        return bindcricket_close(session, size);
    case KEYS:
        return bindcricket_keys(session, size, row->argument, lend(50), 50, &written);
    case FINISHED:
        return bindcricket_finished(session, size, row->argument, lend(50), 50, &written);
    case CHECK:
        return bindcricket_check(session, size, row->argument, zeros, 32, &yes);
    case BINDER:
        return bindcricket_binder(session, size, message(1, 60), 40, lend(50), 50, &written);
    default:
        return bindcricket_export(session, size, row->argument, TEXT("label"), TEXT("context"), 50, lend(50), 50,
                                  &written);
    }
}

static void every_state(uint16_t suite, uint8_t kind)
{
    const struct row *row;
    const char *numbers;
    size_t count;
    int state;
    for (row = rows; row < rows + COUNT(rows); row++) {
        numbers = kind ? row->with_psk : row->without;
        count = hash_size(suite);
        if (row->call == KEYS)
            count = key_size(suite) + 12;
        if (row->call == EXPORT)
            count = 50;
        if (row->call == CHECK)
            count = 0;
        for (state = 0; state < STATES; state++) {
            reach(state, suite, kind);
            MAKE(row->call, row->effect, (unsigned)(numbers[state] - '0'), count, make(row, sizes[turn]));
        }
    }
    for (state = 0; state < STATES; state++) {
        reach(state, suite, kind);
        close_session();
    }
}

/* ---- The journal ---- */

#define HEADER 6

/* What is given to the writer, and the record by the paper. A kind is also given what it does not have; the body of one
 * Feed is itself a record. */
static const struct {
    uint16_t kind, number;
    uint8_t small;
    const char *body, *record;
} records[] = {
    {BINDCRICKET_RECORD_BEGIN, 0x1301, BINDCRICKET_PSK_NONE, "", "030000000100" "011300"},
    {BINDCRICKET_RECORD_BEGIN, 0x1302, BINDCRICKET_PSK_EXTERNAL, "a0a1a2a3", "070000000100" "021301a0a1a2a3"},
    {BINDCRICKET_RECORD_BEGIN, 0xFEDC, 0xBA, "98", "040000000100" "dcfeba98"},
    {BINDCRICKET_RECORD_FEED, 0x1234, 0x56, "", "000000000200"},
    {BINDCRICKET_RECORD_FEED, 0x1234, 0x56, "01000002abcd", "060000000200" "01000002abcd"},
    {BINDCRICKET_RECORD_FEED, 0, 0, "01000000070002", "070000000200" "01000000070002"},
    {BINDCRICKET_RECORD_EARLY, 0x1234, 0x56, "789abc", "000000000300"},
    {BINDCRICKET_RECORD_HANDSHAKE, BINDCRICKET_X25519, 0x56, "c0c1c2", "050000000400" "1d00c0c1c2"},
    {BINDCRICKET_RECORD_HANDSHAKE, BINDCRICKET_NO_GROUP, 0x56, "", "020000000400" "0000"},
    {BINDCRICKET_RECORD_HANDSHAKE, 0xFEDC, 0, "ba", "030000000400" "dcfeba"},
    {BINDCRICKET_RECORD_APPLICATION, 0x1234, 0x56, "789abc", "000000000500"},
    {BINDCRICKET_RECORD_COMPLETE, 0x1234, 0x56, "789abc", "000000000600"},
    {BINDCRICKET_RECORD_UPDATE, 0x1234, BINDCRICKET_SERVER, "789abc", "010000000700" "02"},
    {BINDCRICKET_RECORD_UPDATE, 0, 0xFF, "", "010000000700" "ff"},
    {BINDCRICKET_RECORD_CLOSE, 0x1234, 0x56, "789abc", "000000000800"}
};
#define RECORDS COUNT(records)
#define RECORD_INSIDE 5

/* Has room for a payload that is one byte too long, and for records before it. */
static uint8_t journal[1024 + HEADER + LONGEST + 1];

/* The bytes of a kind's payload before its body. */
static size_t front_size(uint16_t kind)
{
    if (kind == BINDCRICKET_RECORD_BEGIN)
        return 3;
    if (kind == BINDCRICKET_RECORD_HANDSHAKE)
        return 2;
    return kind == BINDCRICKET_RECORD_UPDATE ? 1 : 0;
}

static int has_body(uint16_t kind)
{
    return kind == BINDCRICKET_RECORD_BEGIN || kind == BINDCRICKET_RECORD_FEED || kind == BINDCRICKET_RECORD_HANDSHAKE;
}

static void put_header(size_t place, unsigned long length, uint16_t kind)
{
    size_t i;
    for (i = 0; i < 4; i++)
        journal[place + i] = (uint8_t)(length >> 8 * i);
    journal[place + 4] = (uint8_t)kind;
    journal[place + 5] = (uint8_t)(kind >> 8);
}

/* Puts the record of a call at a place of the journal, by the paper, and gives the size of its payload. */
static size_t put_record(size_t place, uint16_t kind, uint16_t number, uint8_t small, const uint8_t *body, size_t size)
{
    uint8_t *payload = journal + place + HEADER;
    size_t front = front_size(kind), length = front + (has_body(kind) ? size : 0);
    put_header(place, (unsigned long)length, kind);
    if (front >= 2) {
        payload[0] = (uint8_t)number;
        payload[1] = (uint8_t)(number >> 8);
    }
    if (front % 2)
        payload[front - 1] = small;
    memcpy(payload + front, body, length - front);
    return length;
}

/* Reads a good record of the journal and writes the call that it holds: its bytes again. */
static void round_trip(size_t journal_size, size_t place, uint16_t kind, size_t size)
{
    const uint8_t *payload = journal + place + HEADER;
    size_t front = front_size(kind);
    uint16_t number = (uint16_t)(front >= 2 ? payload[0] + 256 * payload[1] : 0);
    uint8_t small = front % 2 ? payload[front - 1] : 0;
    journal_read(0, journal, journal_size, place, kind, size);
    journal_write(0, kind, number, small, payload + front, size - front, HEADER + size, HEADER + size);
    expect_bytes("the record again", journal + place, out, HEADER + size);
}

static void each_record(void)
{
    struct bytes body, record;
    uint16_t kind, number;
    uint8_t small;
    size_t i;
    start_group("journal, each kind");
    for (i = 0; i < RECORDS; i++) {
        kind = records[i].kind;
        number = records[i].number;
        small = records[i].small;
        body = unhex(records[i].body);
        record = unhex(records[i].record);
        journal_write(11, kind, number, small, body.at, body.size, 0, 0);
        journal_write(11, kind, number, small, body.at, body.size, record.size - 1, 0);
        journal_write(0, kind, number, small, body.at, body.size, record.size, record.size);
        expect_bytes("record", record.at, out, record.size);
        journal_write(0, kind, number, small, body.at, body.size, record.size + 9, record.size);
        expect_bytes("record, with more room", record.at, out, record.size);
    }
}

/* Places at the end of a journal and behind it. */
static void ends(size_t size)
{
    size_t i;
    for (i = 0; i < 9; i++) {
        journal_read(0, journal, size, size + i, 0, 0);
        journal_read(0, journal, size, (size_t)-1 - i, 0, 0);
        journal_read(0, journal, size, (size_t)-1 / 2 + i, 0, 0);
    }
}

/* All records in a row, whole and cut at every byte. */
static void records_in_a_row(void)
{
    size_t places[RECORDS + 1], i, size, cut, inside;
    struct bytes record;
    places[0] = 0;
    for (i = 0; i < RECORDS; i++) {
        record = unhex(records[i].record);
        memcpy(journal + places[i], record.at, record.size);
        places[i + 1] = places[i] + record.size;
    }
    size = places[RECORDS];
    start_group("journal, records in a row");
    for (i = 0; i < RECORDS; i++)
        round_trip(size, places[i], records[i].kind, places[i + 1] - places[i] - HEADER);
    start_group("journal, cut");
    for (cut = 0; cut <= size; cut++) {
        for (i = 0; i < RECORDS; i++)
            if (places[i + 1] <= cut)
                journal_read(0, journal, cut, places[i], records[i].kind, places[i + 1] - places[i] - HEADER);
            else
                journal_read(places[i] < cut ? 13 : 0, journal, cut, places[i], 0, 0);
        ends(cut);
    }
    start_group("journal, inside a record");
    inside = places[RECORD_INSIDE] + HEADER;
    journal_read(0, journal, size, inside, BINDCRICKET_RECORD_UPDATE, 1);
    journal_read(0, journal, inside + HEADER + 1, inside, BINDCRICKET_RECORD_UPDATE, 1);
    journal_read(13, journal, inside + HEADER, inside, 0, 0);
    journal_read(13, journal, size, inside - 1, 0, 0);
    journal_read(13, journal, size, inside + 1, 0, 0);
    start_group("journal, example of the paper");
    memcpy(journal, "\x03\0\0\0\x01\0\x01\x13\0\0\0\0\0\x03\0", 15);
    round_trip(15, 0, BINDCRICKET_RECORD_BEGIN, 3);
    round_trip(15, 9, BINDCRICKET_RECORD_EARLY, 0);
    journal_read(0, journal, 15, 15, 0, 0);
}

static void any_records(void)
{
    uint16_t kind, number;
    uint8_t small, body[300];
    size_t i, place, size;
    start_group("journal, arbitrary calls");
    for (i = 0; i < 400; i++) {
        kind = (uint16_t)(1 + i % 8);
        number = (uint16_t)noise();
        small = (uint8_t)noise();
        fill_with_noise(body, sizeof body);
        place = noise() % 99;
        size = noise() % sizeof body;
        fill_with_noise(journal, place);
        journal_write(0, kind, number, small, body, size, 400, HEADER + front_size(kind) + (has_body(kind) ? size : 0));
        size = put_record(place, kind, number, small, body, size);
        expect_bytes("record", journal + place, out, HEADER + size);
        round_trip(place + HEADER + size + i % 3, place, kind, size);
    }
}

/* Payloads of 65,535 bytes and of one more; where a kind has no body, its size does not count. */
static void longest_records(void)
{
    uint16_t kind;
    size_t most, size, place;
    start_group("journal, payloads of 65,535 bytes");
    fill_with_noise(wire, sizeof wire);
    for (kind = 1; kind <= 8; kind++) {
        if (!has_body(kind)) {
            size = HEADER + front_size(kind);
            journal_write(11, kind, 0x1303, 2, zeros, sizeof zeros, size - 1, 0);
            journal_write(0, kind, 0x1303, 2, zeros, sizeof zeros, size, size);
            continue;
        }
        most = LONGEST - front_size(kind);
        size = HEADER + LONGEST;
        journal_write(10, kind, 0x1303, 2, wire, most + 1, 0, 0);
        journal_write(10, kind, 0x1303, 2, wire, most + 1, size, 0);
        journal_write(10, kind, 0x1303, 2, wire, most + 1, size + 1, 0);
        journal_write(10, kind, 0x1303, 2, zeros, sizeof zeros, size + 1, 0);
        journal_write(11, kind, 0x1303, 2, wire, most, 0, 0);
        journal_write(11, kind, 0x1303, 2, wire, most, size - 1, 0);
        journal_write(0, kind, 0x1303, 2, wire, most, size + 1, size);
        journal_write(0, kind, 0x1303, 2, wire, most, size, size);
        for (place = 0; place < 1024; place += 500) {
            put_record(place, kind, 0x1303, 2, wire, most);
            expect_bytes("record", journal + place, out, size);
            journal_read(13, journal, place + size - 1, place, 0, 0);
            journal_read(0, journal, place + size, place, kind, LONGEST);
            round_trip(place + size + 1, place, kind, LONGEST);
            put_header(place, LONGEST + 1, kind);
            journal_read(13, journal, place + size, place, 0, 0);
            journal_read(13, journal, place + size + 1, place, 0, 0);
        }
    }
}

static void unknown_kinds(void)
{
    static const uint16_t unknown[] = {0, 9, 12, 0x00FF, 0x0100, 0x0101, 0x0108, 0x0200, 0x0800, 0x8003, 0xFFFF};
    size_t i, size;
    start_group("journal, unknown kinds");
    for (i = 0; i < COUNT(unknown); i++) {
        journal_write(2, unknown[i], 0x1301, 1, zeros, 0, 99, 0);
        journal_write(2, unknown[i], 0x1301, 1, zeros, 7, 99, 0);
        journal_write(2, unknown[i], 0x1301, 1, zeros, 7, 0, 0);
        journal_write(2, unknown[i], 0x1301, 1, zeros, LONGEST + 1, 99, 0);
        journal_write(2, unknown[i], 0x1301, 1, zeros, sizeof zeros, 0, 0);
        for (size = 0; size < 9; size++) {
            put_header(0, (unsigned long)size, unknown[i]);
            journal_read(13, journal, HEADER + size, 0, 0, 0);
            journal_read(13, journal, sizeof journal, 0, 0, 0);
        }
    }
}

/* Records with lengths that do not fit their kind, the limit or the journal. */
static void damaged_records(void)
{
    /* whether payloads of 0 to 4 bytes are good, for each kind */
    static const char *const good[] = {"", "00011", "11111", "10000", "00111", "10000", "10000", "01000", "10000"};
    static const unsigned long lengths[] = {0x10000, 0x10001, 0x10003, 0x20000, 0x1000000, 0x1000001, 0x1000003,
                                            0x7FFFFFFF, 0x80000000, 0xFFFF0003, 0xFFFFFFFA, 0xFFFFFFFF};
    size_t i, place, size, second = HEADER + 3;
    uint16_t kind;
    start_group("journal, damaged records");
    put_record(0, BINDCRICKET_RECORD_BEGIN, 0x1305, 0, zeros, 0);
    for (kind = 1; kind <= 8; kind++)
        for (size = 0; size < 5; size++) {
            put_header(second, (unsigned long)size, kind);
            memset(journal + second + HEADER, 1, 9);
            for (i = 0; i < 9; i++)
                if (i < size || good[kind][size] == '0')
                    journal_read(13, journal, second + HEADER + i, second, 0, 0);
                else
                    round_trip(second + HEADER + i, second, kind, size);
            round_trip(second + HEADER, 0, BINDCRICKET_RECORD_BEGIN, 3);
        }
    for (place = 0; place <= second; place += second)
        for (kind = 1; kind <= 8; kind++)
            for (i = 0; i < COUNT(lengths); i++) {
                put_header(place, lengths[i], kind);
                journal_read(13, journal, place + HEADER, place, 0, 0);
                journal_read(13, journal, sizeof journal, place, 0, 0);
            }
}

/* ---- Refusals that an argument leads to; where several apply, the lowest ---- */

static void refused_begin(void)
{
    static const uint16_t unknown[] = {0, 0x0113, 0x1300, 0x1306, 0xFFFF};
    uint16_t suite;
    size_t i, h;
    start_group("begin");
    fresh();
    for (i = 0; i < COUNT(unknown); i++) {
        begin(2, unknown[i], 0, zeros, 0);
        begin(2, unknown[i], 3, zeros, 129);
    }
    for (suite = 0x1301; suite <= 0x1305; suite++) {
        h = hash_size(suite);
        begin(2, suite, 3, zeros, 0);
        begin(2, suite, 255, zeros, 129);
        begin(4, suite, BINDCRICKET_PSK_NONE, zeros, 1);
        begin(4, suite, BINDCRICKET_PSK_EXTERNAL, zeros, 0);
        begin(4, suite, BINDCRICKET_PSK_EXTERNAL, zeros, 129);
        begin(4, suite, BINDCRICKET_PSK_EXTERNAL, zeros, sizeof zeros);
        begin(4, suite, BINDCRICKET_PSK_RESUMPTION, zeros, 0);
        begin(4, suite, BINDCRICKET_PSK_RESUMPTION, zeros, h - 1);
        begin(4, suite, BINDCRICKET_PSK_RESUMPTION, zeros, h + 1);
        begin(4, suite, BINDCRICKET_PSK_RESUMPTION, zeros, 80 - h);
        begin(0, suite, BINDCRICKET_PSK_NONE, zeros + sizeof zeros, 0);
        begin(1, 0x1306, 3, zeros, 129);
        fresh();
        begin(0, suite, BINDCRICKET_PSK_EXTERNAL, zeros, 1);
        fresh();
        begin(0, suite, BINDCRICKET_PSK_EXTERNAL, zeros, 128);
        fresh();
        begin(0, suite, BINDCRICKET_PSK_RESUMPTION, zeros, h);
        fresh();
    }
}

static void refused_feed(void)
{
    size_t size, left;
    start_group("feed");
    reach(5, 0x1301, 0);
    for (size = 0; size < 4; size++)
        feed(7, message(11, 4), size);
    feed(7, message(11, LONGEST + 1), LONGEST + 1);
    feed(7, message(11, 300), 299);
    feed(7, message(11, 300), 301);
    feed(7, message(2, 300), 299);
    feed(8, message(2, 300), 300);
    feed(8, message(2, LONGEST), LONGEST);
    start_group("feed of 1,048,576 bytes in all");
    for (left = 1048576 - 290; left >= LONGEST; left -= LONGEST)
        feed(0, message(11, LONGEST), LONGEST);
    feed(8, message(12, left + 1), left + 1);
    feed(9, message(11, left + 1), left + 1);
    feed(0, message(11, left), left);
    feed(9, message(20, 4), 4);
    feed(7, message(20, 5), 4);
}

static void refused_handshake(void)
{
    static const struct {
        uint16_t number;
        size_t size;
    } groups[] = {
        {BINDCRICKET_SECP256R1, 32}, {BINDCRICKET_SECP384R1, 48}, {BINDCRICKET_SECP521R1, 66},
        {BINDCRICKET_X25519, 32}, {BINDCRICKET_X448, 56}, {BINDCRICKET_FFDHE2048, 256}, {BINDCRICKET_FFDHE3072, 384},
        {BINDCRICKET_FFDHE4096, 512}, {BINDCRICKET_FFDHE6144, 768}, {BINDCRICKET_FFDHE8192, 1024}
    };
    static const uint16_t unknown[] = {0x0001, 0x0016, 0x001A, 0x001C, 0x001F, 0x0105, 0x1D00, 0xFFFF};
    size_t i, j, size;
    start_group("handshake");
    reach(4, 0x1301, 0);
    for (i = 0; i < COUNT(unknown); i++)
        for (j = 0; j < 2; j++)
            handshake(2, unknown[i], zeros, 32 * j);
    handshake(4, BINDCRICKET_NO_GROUP, zeros, 1);
    handshake(6, BINDCRICKET_NO_GROUP, zeros, 0);
    for (i = 0; i < COUNT(groups); i++) {
        int judged = groups[i].number == BINDCRICKET_X25519 || groups[i].number == BINDCRICKET_X448;
        size = groups[i].size;
        handshake(4, groups[i].number, zeros, 0);
        handshake(4, groups[i].number, zeros, size - 1);
        handshake(4, groups[i].number, zeros, size + 1);
        handshake(judged ? 5 : 0, groups[i].number, zeros, size);
        for (j = 0; j < 2; j++) {
            reach(4, 0x1301, 0);
            memset(wire, 0, size);
            wire[j * (size - 1)] = 0x80;
            handshake(0, groups[i].number, wire, size);
        }
        reach(4, 0x1301, 0);
    }
    reach(4, 0x1302, 2);
    handshake(4, BINDCRICKET_NO_GROUP, zeros, 1);
    handshake(0, BINDCRICKET_NO_GROUP, zeros, 0);
}

static void refused_update(void)
{
    long i;
    unsigned answers = 0;
    start_group("update, 65,535 times");
    reach(11, 0x1301, 0);
    update(2, 0);
    update(2, 3);
    update(2, 255);
    update(0, BINDCRICKET_SERVER);
    update(0, BINDCRICKET_CLIENT);
    for (i = 1; i < 65535; i++)
        answers |= bindcricket_update(session, SIZE, BINDCRICKET_CLIENT);
    expect("all updates", 0, answers);
    update(12, BINDCRICKET_CLIENT);
    update(2, 3);
    update(0, BINDCRICKET_SERVER);
    keys(0, BINDCRICKET_CLIENT_APPLICATION, 28, 28);
}

static void refused_outputs(uint16_t suite)
{
    size_t h = hash_size(suite), key = key_size(suite), most = 255 * h, size;
    start_group("keys, finished, check, binder");
    reach(3, suite, 2);
    keys(11, 1, key + 11, 0);
    keys(11, 1, 0, 0);
    keys(0, 1, key + 12, key + 12);
    keys(0, 1, key + 13, key + 12);
    for (size = 0; size < 4; size++)
        binder(7, message(1, 60), size, 0, 0);
    binder(7, message(2, LONGEST + 1), LONGEST + 1, 0, 0);
    binder(8, message(2, 60), 40, 0, 0);
    binder(11, message(1, 60), 40, h - 1, 0);
    binder(0, message(1, 60), 4, h, h);
    binder(0, message(1, LONGEST), LONGEST, h + 1, h);
    reach(6, suite, 1 + (suite == 0x1301));
    finished(11, BINDCRICKET_SERVER, h - 1, 0);
    finished(11, BINDCRICKET_SERVER, 0, 0);
    finished(0, BINDCRICKET_SERVER, h + 1, h);
    check(0, BINDCRICKET_SERVER, zeros, 0, 0);
    check(0, BINDCRICKET_SERVER, zeros, h, 0);
    check(0, BINDCRICKET_SERVER, zeros, sizeof zeros, 0);
    start_group("export");
    reach(11, suite, 0);
    exporter(2, 3, zeros, 0, zeros, 65536, most + 1, 0, 0);
    exporter(3, 1, zeros, 0, zeros, 65536, most + 1, 0, 0);
    exporter(10, 2, zeros, 0, zeros, 0, 20, 20, 0);
    exporter(10, 2, zeros, 250, zeros, 0, 20, 20, 0);
    exporter(10, 2, zeros, 1, zeros, 65536, 20, 20, 0);
    exporter(10, 2, zeros, 1, zeros, 0, most + 1, most + 1, 0);
    exporter(10, 2, zeros, 1, zeros, 0, (size_t)-1, 0, 0);
    exporter(11, 2, zeros, 1, zeros, 0, 20, 19, 0);
    exporter(11, 2, zeros, 1, zeros, 0, 0, 31, 0);
    exporter(11, 2, zeros, 1, zeros, 0, most, most - 1, 0);
    exporter(0, 2, zeros, 1, zeros, 0, 0, 32, 32);
    exporter(0, 2, zeros, 249, zeros, 65535, 1, 2, 1);
    exporter(0, 2, zeros, 1, zeros, 0, most, most + 9, most);
}

static void refused_below(uint16_t suite)
{
    static const uint16_t unknown[] = {0, 0x0113, 0x1300, 0x1306, 0xFFFF};
    size_t h = hash_size(suite), block = suite == 0x1302 ? 128 : 64, most = 255 * h, i;
    start_group("unknown suites");
    for (i = 0; i < COUNT(unknown); i++) {
        hash(2, unknown[i], zeros, sizeof zeros, 0, 0);
        hmac(2, unknown[i], zeros, 129, zeros, 1048577, 0, 0);
        extract(2, unknown[i], zeros, 129, zeros, 1048577, 0, 0);
        expand(2, unknown[i], zeros, 0, zeros, 1025, 0, 0);
        expand_label(2, unknown[i], zeros, 0, zeros, 0, zeros, 256, 0, 0);
        derive_secret(2, unknown[i], zeros, 0, zeros, 0, zeros, sizeof zeros, 0, 0);
    }
    start_group("hash");
    hash(9, suite, zeros, 2097153, 0, 0);
    hash(11, suite, zeros, 2097152, h - 1, 0);
    hash(11, suite, zeros, 0, 0, 0);
    hash(0, suite, zeros, 2097152, h, h);
    start_group("hmac and extract");
    hmac(4, suite, zeros, block + 1, zeros, 1048577, 0, 0);
    hmac(9, suite, zeros, block, zeros, 1048577, 0, 0);
    hmac(11, suite, zeros, block, zeros, 1048576, h - 1, 0);
    hmac(0, suite, zeros, block, zeros, 1048576, h + 1, h);
    hmac(0, suite, zeros, 0, zeros, 0, h, h);
    extract(4, suite, zeros, block + 1, zeros, 1048577, 0, 0);
    extract(9, suite, zeros, block, zeros, 1048577, 0, 0);
    extract(11, suite, zeros, block, zeros, 1048576, h - 1, 0);
    extract(0, suite, zeros, block, zeros, 1048576, h + 1, h);
    extract(0, suite, zeros, 0, zeros, 0, h, h);
    start_group("expand");
    expand(4, suite, zeros, h - 1, zeros, 1025, 0, 0);
    expand(4, suite, zeros, block + 1, zeros, 0, 1, 1);
    expand(10, suite, zeros, h, zeros, 1025, 1, 0);
    expand(10, suite, zeros, h, zeros, 0, 0, 9);
    expand(10, suite, zeros, h, zeros, 0, most + 1, 0);
    expand(10, suite, zeros, h, zeros, 0, (size_t)-1, 0);
    expand(11, suite, zeros, h, zeros, 1024, most, most - 1);
    expand(0, suite, zeros, block, zeros, 1024, most, most + 1);
    expand(0, suite, zeros, h, zeros, 0, 1, 1);
    start_group("expand_label");
    expand_label(4, suite, zeros, h - 1, zeros, 0, zeros, 256, 0, 0);
    expand_label(4, suite, zeros, h + 1, zeros, 1, zeros, 0, 1, 1);
    expand_label(10, suite, zeros, h, zeros, 0, zeros, 0, 1, 0);
    expand_label(10, suite, zeros, h, zeros, 250, zeros, 0, 1, 0);
    expand_label(10, suite, zeros, h, zeros, 1, zeros, 256, 1, 0);
    expand_label(10, suite, zeros, h, zeros, 1, zeros, 0, 0, 9);
    expand_label(10, suite, zeros, h, zeros, 1, zeros, 0, most + 1, 0);
    expand_label(11, suite, zeros, h, zeros, 1, zeros, 0, most, most - 1);
    expand_label(0, suite, zeros, h, zeros, 249, zeros, 255, most, most);
    expand_label(0, suite, zeros, h, zeros, 1, zeros, 0, 1, 1);
    start_group("derive_secret");
    derive_secret(4, suite, zeros, h - 1, zeros, 0, zeros, 2097153, 0, 0);
    derive_secret(4, suite, zeros, h + 1, zeros, 1, zeros, 0, h, 0);
    derive_secret(9, suite, zeros, h, zeros, 0, zeros, 2097153, 0, 0);
    derive_secret(10, suite, zeros, h, zeros, 0, zeros, 0, 0, 0);
    derive_secret(10, suite, zeros, h, zeros, 250, zeros, 0, h, 0);
    derive_secret(11, suite, zeros, h, zeros, 1, zeros, 2097152, h - 1, 0);
    derive_secret(0, suite, zeros, h, zeros, 249, zeros, 2097152, h, h);
    derive_secret(0, suite, zeros, h, zeros, 1, zeros, 0, h + 1, h);
}

/* Each call has given 0, each number that the header names for it, and no other. */
static void numbers_given(void)
{
    char what[40];
    unsigned expected;
    int i, j;
    start_group("numbers given");
    for (i = 0; i < CALLS; i++) {
        expected = i <= EXPORT ? 1 | 1u << 31 : 1;
        for (j = 0; j < 6; j++)
            expected |= 1u << calls[i].numbers[j];
        for (j = 0; j < 32; j++) {
            sprintf(what, "%s, number %d", calls[i].name, j < 31 ? j : 255);
            expect(what, expected >> j & 1, seen[i] >> j & 1);
        }
    }
    expect_all("the inputs", 0, zeros, sizeof zeros);
}

/* ---- Sessions that no call made ---- */

/* Makes the call of every row on the same bytes: whatever it answers, a refusal changes nothing. */
static void any_session(const uint8_t *bytes)
{
    const struct row *row;
    unsigned got;
    for (row = rows; row < rows + COUNT(rows); row++) {
        memcpy(session, bytes, SIZE);
        before();
        got = make(row, SIZE);
        after(row->call, row->effect, got, row->effect == JUDGES ? yes : written, got);
        expect("yes is 0 or 1", 1, row->effect != JUDGES || yes < 2);
    }
}

/* One third are noise, one third noise with a point, one third sessions with up to eight bytes changed. */
static void any_sessions(void)
{
    uint8_t bytes[SIZE], empty[SIZE];
    int i, j;
    start_group("sessions of arbitrary bytes");
    fresh();
    memcpy(empty, session, SIZE);
    for (i = 0; i < 300; i++) {
        fill_with_noise(bytes, SIZE);
        if (i % 3 == 1) {
            bytes[4] = (uint8_t)(noise() % 6);
            bytes[5] = 0;
        }
        if (i % 3 == 2) {
            reach(i / 3 % STATES, i % 2 ? 0x1301 : 0x1302, (uint8_t)(i % 5 % 3));
            memcpy(bytes, session, SIZE);
            for (j = 0; j < 1 + i % 8; j++)
                bytes[noise() % (j % 2 ? SIZE : 16)] = (uint8_t)(noise() >> 8);
        }
        any_session(bytes);
        memcpy(session, bytes, SIZE);
        fresh();
        expect_bytes("a fresh session", empty, session, SIZE);
        memcpy(session, bytes, SIZE);
        close_session();
    }
    memset(bytes, 0, SIZE);
    any_session(bytes);
    memset(bytes, 0xFF, SIZE);
    any_session(bytes);
}

int main(void)
{
    uint16_t suite;
    uint8_t kind;
    size_t i;
    int moves;
    move_session(0);
    for (moves = 0; moves < 2; moves++) {
        start_group(moves ? "RFC 8448, the session moved" : "RFC 8448");
        for (i = 0; i < COUNT(traces); i++)
            trace(&traces[i], moves);
        move_session(moves * 3);
    }
    start_group("RFC 8448, secrets");
    published_secrets();
    examples();
    start_group("the session against the calls below it");
    for (suite = 0x1301; suite <= 0x1305; suite++)
        for (kind = 0; kind < 3; kind++)
            by_hand(suite, kind);
    start_group("every call in every state");
    every_state(0x1301, 2);
    every_state(0x1302, 2);
    every_state(0x1303, 0);
    refused_begin();
    refused_feed();
    refused_handshake();
    refused_update();
    refused_outputs(0x1301);
    refused_outputs(0x1302);
    refused_below(0x1301);
    refused_below(0x1302);
    each_record();
    records_in_a_row();
    any_records();
    longest_records();
    unknown_kinds();
    damaged_records();
    numbers_given();
    any_sessions();
    printf("c: %lu checks, %lu failed\n", checks, failed);
    return failed ? 1 : 0;
}
