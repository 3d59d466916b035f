/* The deepest stack of each call, in bytes, its return address included: as tools/stack-depth gives it, on standard
 * input, and measured with suites 1301 and 1302. Each call is made on a painted stack of its own, once as it is and
 * once with a function that does nothing in its place; what it changes below that is its stack. Where a size can
 * matter it is the largest, and each call is made where it has the most to do. */
#include "../include/bindcricket.h"
#include "measure.h"
#include <string.h>
#include <ucontext.h>

/* How far one handshake with an external PSK has come. */
enum {
    FRESH,
    CLIENT_HELLO,
    SERVER_HELLO,
    HANDSHAKE,
    SERVER_FINISHED,
    APPLICATION,
    CLIENT_FINISHED,
    COMPLETE,
    PLACES
};

static uint8_t places[PLACES][BINDCRICKET_SESSION_BYTES], session[BINDCRICKET_SESSION_BYTES];
static const uint8_t client_hello[] = {1, 0, 0, 0}, server_hello[] = {2, 0, 0, 0}, end[] = {20, 0, 0, 0};
static const uint8_t message[4 + 1000] = {11, 0, 1000 >> 8, 1000 & 255}, text[1024] = {1};
static uint8_t output[255 * 48], yes;
static size_t written, h;
static uint16_t suite;

static int hollow;
static uint8_t nothing(void) { return 0; }
#define CALL(name, ...) \
    static uint8_t name(void) \
    { \
        return (hollow ? (__typeof__(&bindcricket_##name))(void *)nothing : bindcricket_##name)(__VA_ARGS__); \
    }
#define SESSION session, sizeof session
#define OUT output, sizeof output, &written

CALL(fresh, SESSION)
CALL(begin, SESSION, suite, BINDCRICKET_PSK_EXTERNAL, text, 128)
CALL(feed, SESSION, message, sizeof message)
CALL(early, SESSION)
CALL(handshake, SESSION, BINDCRICKET_FFDHE8192, text, 1024)
CALL(application, SESSION)
CALL(complete, SESSION)
CALL(update, SESSION, BINDCRICKET_SERVER)
CALL(close, SESSION)
CALL(keys, SESSION, BINDCRICKET_SERVER_APPLICATION, OUT)
CALL(finished, SESSION, BINDCRICKET_CLIENT, OUT)
CALL(check, SESSION, BINDCRICKET_CLIENT, text, h, &yes)
CALL(binder, SESSION, text, 1000, OUT)
CALL(export, SESSION, BINDCRICKET_EXPORTER, text, 249, text, 1000, 255 * h, OUT)
CALL(hash, suite, text, 1000, OUT)
CALL(hmac, suite, text, 64, text, 1000, OUT)
CALL(extract, suite, text, 64, text, 1000, OUT)
CALL(expand, suite, text, 64, text, 1024, 255 * h, OUT)
CALL(expand_label, suite, text, h, text, 249, text, 255, 255 * h, OUT)
CALL(derive_secret, suite, text, h, text, 249, text, 1000, OUT)

static const struct call {
    const char *name;
    uint8_t (*make)(void);
    int place;
} calls[] = {
    {"fresh", fresh, FRESH},
    {"begin", begin, FRESH},
    {"feed", feed, HANDSHAKE},
    {"early", early, CLIENT_HELLO},
    {"handshake", handshake, SERVER_HELLO},
    {"application", application, SERVER_FINISHED},
    {"complete", complete, CLIENT_FINISHED},
    {"update", update, COMPLETE},
    {"close", close, COMPLETE},
    {"keys", keys, COMPLETE},
    {"finished", finished, APPLICATION},
    {"check", check, APPLICATION},
    {"binder", binder, CLIENT_HELLO},
    {"export", export, COMPLETE},
    {"hash", hash, FRESH},
    {"hmac", hmac, FRESH},
    {"extract", extract, FRESH},
    {"expand", expand, FRESH},
    {"expand_label", expand_label, FRESH},
    {"derive_secret", derive_secret, FRESH},
};
enum { CALLS = sizeof calls / sizeof *calls };

static void keep(int place, uint8_t answer)
{
    demand(!answer, "the handshake");
    memcpy(places[place], session, sizeof session);
}

static void make_places(void)
{
    keep(FRESH, fresh());
    demand(!begin(), "begin");
    keep(CLIENT_HELLO, bindcricket_feed(SESSION, client_hello, 4));
    keep(SERVER_HELLO, bindcricket_feed(SESSION, server_hello, 4));
    keep(HANDSHAKE, handshake());
    keep(SERVER_FINISHED, bindcricket_feed(SESSION, end, 4));
    keep(APPLICATION, application());
    keep(CLIENT_FINISHED, bindcricket_feed(SESSION, end, 4));
    keep(COMPLETE, complete());
}

static uint8_t stack[1 << 18];
static ucontext_t here, there;
static const struct call *chosen;
static uint8_t answer;

/* The gap keeps the call below what the switch of stacks writes. */
static void enter(void)
{
    volatile uint8_t gap[1024] = {0};
    answer = chosen->make();
    (void)gap[0];
}

/* The offset of the lowest byte of the stack that the chosen call changes. */
static size_t lowest(uint8_t paint)
{
    size_t at = 0;
    memset(stack, paint, sizeof stack);
    memcpy(session, places[chosen->place], sizeof session);
    getcontext(&there);
    there.uc_stack.ss_sp = stack;
    there.uc_stack.ss_size = sizeof stack;
    there.uc_link = &here;
    makecontext(&there, enter, 0);
    swapcontext(&here, &there);
    demand(!answer, chosen->name);
    while (stack[at] == paint)
        at++;
    return at;
}

/* With two paints, since a byte that is written may be the paint. */
static size_t deepest_change(int without)
{
    hollow = without;
    size_t a = lowest(0xa5), b = lowest(0x5a);
    hollow = 0;
    return a < b ? a : b;
}

int main(void)
{
    double bytes[CALLS][3] = {{0}};
    char name[256];
    size_t depth;
    while (scanf("bindcricket_%255s %*u %zu ", name, &depth) == 2)
        for (size_t i = 0; i < CALLS; i++)
            if (!strcmp(name, calls[i].name))
                bytes[i][0] = depth;
    for (int s = 0; s < 2; s++) {
        suite = s ? BINDCRICKET_AES_256_GCM_SHA384 : BINDCRICKET_AES_128_GCM_SHA256;
        h = s ? 48 : 32;
        make_places();
        for (size_t i = 0; i < CALLS; i++) {
            chosen = &calls[i];
            bytes[i][1 + s] = deepest_change(1) + sizeof(void *) - deepest_change(0);
        }
    }
    head("", "", 0);
    puts("\tstatic\t1301\t1302");
    for (size_t i = 0; i < CALLS; i++) {
        head(calls[i].name, "bytes", 0);
        numbers(3, bytes[i]);
    }
    return 0;
}
