/* Bindcricket by its C interface. */
#include "../../include/bindcricket.h"
#include "../schedule.h"

uint8_t session[BINDCRICKET_SESSION_BYTES];
static size_t written;

static void feed(int from, int to)
{
    for (int i = from; i <= to; i++)
        bindcricket_feed(session, sizeof session, messages[i].bytes, messages[i].size);
}

static void schedule(uint16_t suite, struct schedule *o)
{
    bindcricket_fresh(session, sizeof session);
    bindcricket_begin(session, sizeof session, suite, BINDCRICKET_PSK_NONE, session, 0);
    feed(CLIENT_HELLO, SERVER_HELLO);
    bindcricket_handshake(session, sizeof session, BINDCRICKET_X25519, shared_secret, 32);
    bindcricket_keys(session, sizeof session, BINDCRICKET_CLIENT_HANDSHAKE, o->keys[0], sizeof o->keys[0], &written);
    bindcricket_keys(session, sizeof session, BINDCRICKET_SERVER_HANDSHAKE, o->keys[1], sizeof o->keys[1], &written);
    feed(EXTENSIONS, CERTIFICATE_VERIFY);
    bindcricket_finished(session, sizeof session, BINDCRICKET_SERVER, o->finished[0], sizeof o->finished[0], &written);
    feed(SERVER_FINISHED, SERVER_FINISHED);
    bindcricket_application(session, sizeof session);
    bindcricket_finished(session, sizeof session, BINDCRICKET_CLIENT, o->finished[1], sizeof o->finished[1], &written);
    bindcricket_keys(session, sizeof session, BINDCRICKET_CLIENT_APPLICATION, o->keys[2], sizeof o->keys[2], &written);
    bindcricket_keys(session, sizeof session, BINDCRICKET_SERVER_APPLICATION, o->keys[3], sizeof o->keys[3], &written);
    feed(CLIENT_FINISHED, CLIENT_FINISHED);
    bindcricket_complete(session, sizeof session);
}

static void schedule256(struct schedule *out) { schedule(0x1301, out); }
static void schedule384(struct schedule *out) { schedule(0x1302, out); }

static void hash256(const uint8_t *x, size_t n, uint8_t *out) { bindcricket_hash(0x1301, x, n, out, 32, &written); }
static void hash384(const uint8_t *x, size_t n, uint8_t *out) { bindcricket_hash(0x1302, x, n, out, 48, &written); }

static const uint8_t label[] = "c hs traffic";

static void derive256(const uint8_t *secret, const uint8_t *x, size_t n, uint8_t *out)
{
    bindcricket_derive_secret(0x1301, secret, 32, label, sizeof label - 1, x, n, out, 32, &written);
}

static void derive384(const uint8_t *secret, const uint8_t *x, size_t n, uint8_t *out)
{
    bindcricket_derive_secret(0x1302, secret, 48, label, sizeof label - 1, x, n, out, 48, &written);
}

static void expand256(const uint8_t *secret, const uint8_t *info, size_t n, size_t asked, uint8_t *out)
{
    bindcricket_expand(0x1301, secret, 32, info, n, asked, out, asked, &written);
}

static void expand384(const uint8_t *secret, const uint8_t *info, size_t n, size_t asked, uint8_t *out)
{
    bindcricket_expand(0x1302, secret, 48, info, n, asked, out, asked, &written);
}

const struct peer peer_bindcricket = {"Bindcricket", NULL, {schedule256, schedule384}, {hash256, hash384},
                                      {derive256, derive384}, {expand256, expand384}};
