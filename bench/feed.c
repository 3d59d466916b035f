/* Cost of a fed byte, from 1 KiB to the most that a session takes: a session at Handshake, that was fed two empty
 * messages before, is fed messages of 1,024 bytes or of the largest size. */
#include "../include/bindcricket.h"
#include "measure.h"
#include <string.h>

enum { COLUMNS = 4 };
static uint8_t ready[2][BINDCRICKET_SESSION_BYTES], session[BINDCRICKET_SESSION_BYTES];
static uint8_t message[65535];
static size_t total;

static void make_ready(uint8_t *s, uint16_t suite)
{
    static const uint8_t hello[2][4] = {{1}, {2}}, secret[32] = {9};
    demand(!bindcricket_fresh(s, sizeof session), "fresh");
    demand(!bindcricket_begin(s, sizeof session, suite, BINDCRICKET_PSK_NONE, secret, 0), "begin");
    demand(!bindcricket_feed(s, sizeof session, hello[0], 4), "feed");
    demand(!bindcricket_feed(s, sizeof session, hello[1], 4), "feed");
    demand(!bindcricket_handshake(s, sizeof session, BINDCRICKET_X25519, secret, 32), "handshake");
}

/* The last message takes what is left, and never fewer than 4 bytes. */
static void run(size_t column)
{
    static const uint8_t types[] = {8, 11, 15};
    size_t most = column % 2 ? sizeof message : 1024, left = total - 8;
    memcpy(session, ready[column / 2], sizeof session);
    for (size_t i = 0; left > 0; i++) {
        size_t n = left <= most ? left : left - most < 4 ? most - 4 : most;
        message[0] = types[i % 3];
        message[2] = (uint8_t)((n - 4) >> 8);
        message[3] = (uint8_t)(n - 4);
        demand(!bindcricket_feed(session, sizeof session, message, n), "feed");
        left -= n;
    }
}

int main(void)
{
    make_ready(ready[0], BINDCRICKET_AES_128_GCM_SHA256);
    make_ready(ready[1], BINDCRICKET_AES_256_GCM_SHA384);
    head("", "", 0);
    puts("\t1301, 1 KiB\tlargest\t1302, 1 KiB\tlargest");
    for (total = 1 << 10; total <= 1 << 20; total *= 4) {
        double ns[COLUMNS];
        char label[32];
        alternate(COLUMNS, run, ns);
        snprintf(label, sizeof label, "%zu KiB", total >> 10);
        head(label, "ns/B", total - 8);
        numbers(COLUMNS, ns);
    }
    return 0;
}
