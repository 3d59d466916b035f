/* Whether a branch or an index of the library depends on a secret, by valgrind's memcheck. PSK, shared secret, the
 * secret places of the session and the secret inputs of the calls below it are marked undefined before each call, so
 * that memcheck reports each jump and each address that depends on one; a conditional move hands the dependence on to
 * its result. What a call gives in the open (its number, the count of bytes, the verdict, the public part of the
 * session) has to be defined in each bit.
 *
 *   secrets open     without suppressions: each declassified call tells once, by a branch (the all-zero test) or by its
 *                    result (the verdict), and no other does. Prints the table.
 *   secrets closed   with secrets.supp: no call is reported.
 *   secrets control  leaks of this program's own, one of each kind, are seen. */
#include "bindcricket.h"
#include <stdio.h>
#include <stdlib.h>
#include <string.h>
#include <valgrind/memcheck.h>

#define SIZE BINDCRICKET_SESSION_BYTES
#define PLACES 216 /* where the secret places of a session start; what stands before is public */
#define TEXT(s) (const uint8_t *)(s), sizeof(s) - 1

enum {
    FRESH, BEGIN, FEED, EARLY, HANDSHAKE_X, HANDSHAKE, HANDSHAKE_SIZE, APPLICATION, COMPLETE, UPDATE, CLOSE, KEYS,
    FINISHED, CHECK, CHECK_SIZE, BINDER, EXPORT, HASH, HMAC, EXTRACT, EXPAND, EXPAND_LABEL, DERIVE_SECRET,
    JOURNAL_WRITE, JOURNAL_READ, BRANCH, INDEX, ANSWER, ROWS
};

static struct {
    const char *call, *declassified;
    unsigned made[2], reports[2], shown[2]; /* by the hash */
} rows[ROWS] = {
    {"fresh", 0, {0}, {0}, {0}},
    {"begin", 0, {0}, {0}, {0}},
    {"feed", 0, {0}, {0}, {0}},
    {"early", 0, {0}, {0}, {0}},
    {"handshake, 001D and 001E", "the all-zero test of the shared secret", {0}, {0}, {0}},
    {"handshake, 0017 and 0", 0, {0}, {0}, {0}},
    {"handshake, another size", 0, {0}, {0}, {0}},
    {"application", 0, {0}, {0}, {0}},
    {"complete", 0, {0}, {0}, {0}},
    {"update", 0, {0}, {0}, {0}},
    {"close", 0, {0}, {0}, {0}},
    {"keys", 0, {0}, {0}, {0}},
    {"finished", 0, {0}, {0}, {0}},
    {"check", "the verdict", {0}, {0}, {0}},
    {"check, another size", 0, {0}, {0}, {0}},
    {"binder", 0, {0}, {0}, {0}},
    {"export", 0, {0}, {0}, {0}},
    {"hash", 0, {0}, {0}, {0}},
    {"hmac", 0, {0}, {0}, {0}},
    {"extract", 0, {0}, {0}, {0}},
    {"expand", 0, {0}, {0}, {0}},
    {"expand_label", 0, {0}, {0}, {0}},
    {"derive_secret", 0, {0}, {0}, {0}},
    {"journal_write", 0, {0}, {0}, {0}},
    {"journal_read", 0, {0}, {0}, {0}},
    {"control: a branch", 0, {0}, {0}, {0}},
    {"control: an index", 0, {0}, {0}, {0}},
    {"control: an answer", 0, {0}, {0}, {0}},
};

static uint16_t suite;
static uint8_t session[SIZE], psk[128], shared[64], secret[128], out[256], wire[2048], answer, yes;
static size_t written;
static unsigned errors_before, wrong;

static size_t hash_size(void)
{
    return suite == BINDCRICKET_AES_256_GCM_SHA384 ? 48 : 32;
}

/* Whether some bit of these bytes is undefined, that is, depends on a secret; they are defined from then on. */
static unsigned shows_secret(void *at, size_t size)
{
    static uint8_t bits[SIZE];
    unsigned some = 0;
    size_t i;
    if (VALGRIND_GET_VBITS(at, bits, size) != 1)
        return 1;
    for (i = 0; i < size; i++)
        some |= bits[i];
    (void)VALGRIND_MAKE_MEM_DEFINED(at, size);
    return some != 0;
}

static void hide(void *at, size_t size)
{
    (void)VALGRIND_MAKE_MEM_UNDEFINED(at, size);
}

static void before(void)
{
    hide(session + PLACES, SIZE - PLACES);
    hide(psk, sizeof psk);
    hide(shared, sizeof shared);
    hide(secret, sizeof secret);
    yes = 0;
    written = 0;
    errors_before = VALGRIND_COUNT_ERRORS;
}

/* Notes what memcheck said of the call just made, and what of its results depends on a secret. That Handshake's number
 * depends on the all-zero test is its purpose. */
static void after(int row)
{
    int i = suite == BINDCRICKET_AES_256_GCM_SHA384;
    unsigned told = 0;
    rows[row].made[i]++;
    rows[row].reports[i] += VALGRIND_COUNT_ERRORS - errors_before;
    told = shows_secret(&answer, sizeof answer);
    rows[row].shown[i] += (row == HANDSHAKE_X ? 0 : told) + shows_secret(&written, sizeof written) +
                          shows_secret(&yes, sizeof yes) + shows_secret(session, PLACES);
}

#define WATCH(row, made) \
    do { \
        before(); \
        answer = made; \
        after(row); \
    } while (0)

/* As WATCH, of a call that has to be answered with 0, and to write bytes that each depend on a secret. */
#define DONE(row, made) \
    do { \
        WATCH(row, made); \
        require(row, answer == BINDCRICKET_DONE && depends(written)); \
    } while (0)

static void require(int row, int holds)
{
    if (holds)
        return;
    printf("secrets: %s, suite %04x: not the answer, output or session that it should give\n", rows[row].call, suite);
    exit(1);
}

/* Whether each of the first bytes of `out` depends on a secret, and no other. */
static int depends(size_t size)
{
    static uint8_t bits[sizeof out];
    size_t i;
    if (VALGRIND_GET_VBITS(out, bits, sizeof out) != 1)
        return 0;
    for (i = 0; i < sizeof out; i++)
        if ((bits[i] != 0) != (i < size))
            return 0;
    memset(out, 0, sizeof out);
    return 1;
}

static const uint8_t *message(uint8_t type, size_t size)
{
    size_t i;
    memset(wire, 0, 4);
    wire[0] = type;
    wire[2] = (uint8_t)((size - 4) >> 8);
    wire[3] = (uint8_t)(size - 4);
    for (i = 4; i < size; i++)
        wire[i] = (uint8_t)(i * 5);
    return wire;
}

static void feed(uint8_t type, size_t size)
{
    DONE(FEED, bindcricket_feed(session, SIZE, message(type, size), size));
}

/* Every call that only reads the session, with every name and side, whatever it answers here. */
static void read_all(void)
{
    uint8_t i;
    for (i = 0; i < 7; i++) {
        WATCH(KEYS, bindcricket_keys(session, SIZE, i, out, 44, &written));
        WATCH(KEYS, bindcricket_keys(session, SIZE, i, out, 27, &written));
    }
    for (i = 0; i < 4; i++) {
        WATCH(FINISHED, bindcricket_finished(session, SIZE, i, out, 48, &written));
        WATCH(FINISHED, bindcricket_finished(session, SIZE, i, out, 31, &written));
        WATCH(CHECK_SIZE, bindcricket_check(session, SIZE, i, wire, 31, &yes));
        WATCH(EXPORT, bindcricket_export(session, SIZE, i, TEXT("label"), secret, 100, 0, out, 32, &written));
        WATCH(EXPORT, bindcricket_export(session, SIZE, i, TEXT("label"), secret, 0, 200, out, 200, &written));
        WATCH(EXPORT, bindcricket_export(session, SIZE, i, TEXT("label"), secret, 0, 200, out, 199, &written));
    }
    WATCH(BINDER, bindcricket_binder(session, SIZE, message(1, 200), 150, out, 48, &written));
    WATCH(BINDER, bindcricket_binder(session, SIZE, message(1, 200), 150, out, 31, &written));
    memset(out, 0, sizeof out);
}

/* The Finished value of a side, Check of it and of another, and its message. */
static void finish(uint8_t side)
{
    uint8_t value[48];
    size_t h = hash_size();
    WATCH(FINISHED, bindcricket_finished(session, SIZE, side, out, h, &written));
    memcpy(value, out, h);
    require(FINISHED, answer == 0 && depends(h));
    (void)VALGRIND_MAKE_MEM_DEFINED(value, h);
    WATCH(CHECK, bindcricket_check(session, SIZE, side, value, h, &yes));
    require(CHECK, answer == 0 && yes == 1);
    value[h - 1] ^= 1;
    WATCH(CHECK, bindcricket_check(session, SIZE, side, value, h, &yes));
    require(CHECK, answer == 0 && yes == 0);
    value[h - 1] ^= 1;
    message(20, 4 + h);
    memcpy(wire + 4, value, h);
    DONE(FEED, bindcricket_feed(session, SIZE, wire, 4 + h));
}

/* A whole session, with every reading call at every point. What a call clears depends on no secret any more: the binder
 * key after Handshake; chain, early and handshake secrets after Complete; every byte after Close. */
static void whole_session(uint8_t kind, uint16_t group, size_t shared_size)
{
    static const uint8_t sides[] = {BINDCRICKET_CLIENT, BINDCRICKET_SERVER, BINDCRICKET_CLIENT};
    size_t h = hash_size(), psk_size = kind == 0 ? 0 : kind == 1 ? 77 : h, i;
    int judged = group == BINDCRICKET_X25519 || group == BINDCRICKET_X448, row = judged ? HANDSHAKE_X : HANDSHAKE;
    hide(session, PLACES);
    DONE(FRESH, bindcricket_fresh(session, SIZE));
    read_all();
    WATCH(BEGIN, bindcricket_begin(session, SIZE, suite, kind, psk, psk_size + 60));
    require(BEGIN, answer == BINDCRICKET_SECRET_SIZE);
    DONE(BEGIN, bindcricket_begin(session, SIZE, suite, kind, psk, psk_size));
    read_all();
    feed(1, 300);
    if (kind)
        DONE(EARLY, bindcricket_early(session, SIZE));
    WATCH(EARLY, bindcricket_early(session, SIZE));
    require(EARLY, answer == (kind ? 1 : 3));
    read_all();
    feed(2, 120);
    WATCH(HANDSHAKE_SIZE, bindcricket_handshake(session, SIZE, group, shared, shared_size + 1));
    require(HANDSHAKE_SIZE, answer == BINDCRICKET_SECRET_SIZE);
    if (judged) {
        memset(shared, 0, sizeof shared);
        WATCH(row, bindcricket_handshake(session, SIZE, group, shared, shared_size));
        require(row, answer == BINDCRICKET_ZERO_SHARED_SECRET);
    }
    memset(shared, 0x42, sizeof shared);
    DONE(row, bindcricket_handshake(session, SIZE, group, shared, shared_size));
    require(row, !shows_secret(session + PLACES + 48, 48));
    read_all();
    feed(8, 40);
    feed(11, 700);
    finish(BINDCRICKET_SERVER);
    read_all();
    DONE(APPLICATION, bindcricket_application(session, SIZE));
    read_all();
    feed(5, 4);
    finish(BINDCRICKET_CLIENT);
    read_all();
    DONE(COMPLETE, bindcricket_complete(session, SIZE));
    require(COMPLETE, !shows_secret(session + PLACES, 48) && !shows_secret(session + PLACES + 96, 4 * 48));
    for (i = 0; i < sizeof sides; i++)
        DONE(UPDATE, bindcricket_update(session, SIZE, sides[i]));
    read_all();
    DONE(CLOSE, bindcricket_close(session, SIZE));
    require(CLOSE, !shows_secret(session, SIZE));
    read_all();
}

static void below_the_session(void)
{
    static const size_t lengths[] = {1, 12, 33, 200};
    size_t h = hash_size(), i;
    for (i = 0; i < 4; i++) {
        DONE(HASH, bindcricket_hash(suite, secret, 32 * i + 1, out, 48, &written));
        DONE(HMAC, bindcricket_hmac(suite, secret, 20 * i + 1, psk, 9 * i, out, 48, &written));
        DONE(HMAC, bindcricket_hmac(suite, TEXT("key"), psk, 9 * i + 1, out, 48, &written));
        DONE(EXTRACT, bindcricket_extract(suite, secret, 20 * i + 1, psk, 9 * i, out, 48, &written));
        DONE(EXTRACT, bindcricket_extract(suite, TEXT("salt"), psk, 9 * i + 1, out, 48, &written));
        DONE(EXPAND, bindcricket_expand(suite, secret, h + 5 * i, psk, 30 * i, lengths[i], out, 200, &written));
        DONE(EXPAND_LABEL,
             bindcricket_expand_label(suite, secret, h, TEXT("label"), psk, 30 * i, lengths[i], out, 200, &written));
        DONE(DERIVE_SECRET, bindcricket_derive_secret(suite, secret, h, TEXT("label"), psk, 30 * i, out, 48, &written));
    }
    WATCH(HMAC, bindcricket_hmac(suite, secret, 20, psk, 9, out, h - 1, &written));
    WATCH(EXTRACT, bindcricket_extract(suite, secret, 20, psk, 9, out, h - 1, &written));
    WATCH(EXPAND, bindcricket_expand(suite, secret, h - 1, psk, 9, 9, out, 200, &written));
    WATCH(EXPAND_LABEL, bindcricket_expand_label(suite, secret, h, TEXT("label"), psk, 9, 0, out, 200, &written));
    WATCH(DERIVE_SECRET, bindcricket_derive_secret(suite, secret, h - 1, TEXT("label"), psk, 9, out, 48, &written));
}

/* Records whose bodies are secret, each written and read; their heads and numbers are not secret. */
static void journals(void)
{
    static const struct {
        uint16_t kind, number;
        uint8_t small;
        size_t head, body;
    } records[] = {{1, BINDCRICKET_AES_128_GCM_SHA256, 1, 9, 77}, {2, 0, 0, 6, 100}, {4, BINDCRICKET_X25519, 0, 8, 32}};
    struct {
        size_t start, size, next;
        uint16_t kind;
    } told;
    size_t i, end;
    for (i = 0; i < sizeof records / sizeof *records; i++) {
        end = records[i].head + records[i].body;
        WATCH(JOURNAL_WRITE, bindcricket_journal_write(records[i].kind, records[i].number, records[i].small, secret,
                                                       records[i].body, out, end - 1, &written));
        require(JOURNAL_WRITE, answer == BINDCRICKET_OUTPUT_TOO_SHORT);
        WATCH(JOURNAL_WRITE, bindcricket_journal_write(records[i].kind, records[i].number, records[i].small, secret,
                                                       records[i].body, out, end, &written));
        require(JOURNAL_WRITE, answer == 0 && written == end && !shows_secret(out, records[i].head));
        memset(&told, 0, sizeof told);
        WATCH(JOURNAL_READ,
              bindcricket_journal_read(out, end, 0, &told.kind, &told.start, &told.size, &told.next));
        require(JOURNAL_READ, answer == 0 && !shows_secret(&told, sizeof told) && told.kind == records[i].kind &&
                                  told.start == 6 && told.size == end - 6 && told.next == end);
        WATCH(JOURNAL_READ,
              bindcricket_journal_read(out, end - 1, 0, &told.kind, &told.start, &told.size, &told.next));
        require(JOURNAL_READ, answer == BINDCRICKET_DAMAGED_RECORD);
        memmove(out, out + records[i].head, records[i].body);
        (void)VALGRIND_MAKE_MEM_DEFINED(out + records[i].body, records[i].head);
        require(JOURNAL_WRITE, depends(records[i].body));
    }
}

/* ---- The leaks of the control ---- */

static volatile unsigned branches_taken;

static uint8_t leaks_by_branch(const uint8_t *bytes)
{
    if (bytes[0] == 0x42)
        branches_taken++;
    return 0;
}

static uint8_t leaks_by_index(const uint8_t *bytes)
{
    static const uint8_t table[256] = {0};
    return table[bytes[0]];
}

static uint8_t leaks_by_answer(const uint8_t *bytes)
{
    return bytes[0] >> 7;
}

static void control(void)
{
    WATCH(BRANCH, leaks_by_branch(psk));
    WATCH(INDEX, leaks_by_index(shared));
    WATCH(ANSWER, leaks_by_answer(session + PLACES));
    printf("secrets: control: %u branch, %u index, %u answer\n", rows[BRANCH].reports[0], rows[INDEX].reports[0],
           rows[ANSWER].shown[0]);
    if (rows[BRANCH].reports[0] != 1 || rows[INDEX].reports[0] != 1 || rows[ANSWER].shown[0] != 1)
        wrong++;
}

/* ---- The library ---- */

/* Prints a row for one hash, or what is wrong with it. */
static void judge(int row, int i, int closed)
{
    const char *suite_name = i ? "1302" : "1301", *declassified = rows[row].declassified;
    unsigned made = rows[row].made[i], reports = rows[row].reports[i], shown = rows[row].shown[i];
    if (!closed)
        printf("%-26s %5s %6u %9u %8u%s%s\n", rows[row].call, suite_name, made, reports, shown,
               declassified ? "  declassified: " : "", declassified ? declassified : "");
    if (closed ? !reports : reports + shown == (declassified ? made : 0))
        return;
    printf("secrets: %s, suite %s: %u reports, %u results that depend on a secret\n", rows[row].call, suite_name,
           reports, shown);
    wrong++;
}

static void library(int closed)
{
    uint8_t kind;
    int row;
    for (suite = BINDCRICKET_AES_128_GCM_SHA256; suite <= BINDCRICKET_AES_256_GCM_SHA384; suite++) {
        for (kind = 0; kind < 3; kind++) {
            whole_session(kind, BINDCRICKET_X25519, 32);
            whole_session(kind, BINDCRICKET_X448, 56);
            whole_session(kind, BINDCRICKET_SECP256R1, 32);
            if (kind)
                whole_session(kind, BINDCRICKET_NO_GROUP, 0);
        }
        below_the_session();
        journals();
    }
    if (!closed)
        printf("%-26s %5s %6s %9s %8s\n", "call", "suite", "calls", "branches", "results");
    for (row = FRESH; row < BRANCH; row++) {
        judge(row, 0, closed);
        judge(row, 1, closed);
    }
}

int main(int count, char **words)
{
    const char *mode = count == 2 ? words[1] : "";
    int closed = !strcmp(mode, "closed");
    if (!RUNNING_ON_VALGRIND || !(closed || !strcmp(mode, "open") || !strcmp(mode, "control"))) {
        printf("secrets: usage: valgrind secrets open|closed|control\n");
        return 2;
    }
    if (!strcmp(mode, "control"))
        control();
    else
        library(closed);
    return wrong ? 1 : 0;
}
