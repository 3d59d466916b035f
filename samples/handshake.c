/* A handshake as a client makes it, with made-up messages: prints the server's handshake key and IV, and checks the server's
 * Finished. */
#include "bindcricket.h"
#include <stdio.h>

static uint8_t session[BINDCRICKET_SESSION_BYTES];

static int refused(uint8_t answer)
{
    if (answer)
        printf("refused: %d\n", answer);
    return answer;
}

int main(void)
{
    static const uint8_t client_hello[] = {1, 0, 0, 0}, server_hello[] = {2, 0, 0, 0}, extensions[] = {8, 0, 0, 0};
    static const uint8_t shared_secret[32] = {7};
    uint8_t keys[BINDCRICKET_KEYS_BYTES], received[BINDCRICKET_HASH_BYTES], yes;
    size_t written, i;

    if (refused(bindcricket_fresh(session, sizeof session)) ||
        refused(bindcricket_begin(session, sizeof session, BINDCRICKET_AES_128_GCM_SHA256, BINDCRICKET_PSK_NONE, keys, 0)) ||
        refused(bindcricket_feed(session, sizeof session, client_hello, sizeof client_hello)) ||
        refused(bindcricket_feed(session, sizeof session, server_hello, sizeof server_hello)) ||
        refused(bindcricket_handshake(session, sizeof session, BINDCRICKET_X25519, shared_secret, sizeof shared_secret)) ||
        refused(bindcricket_keys(session, sizeof session, BINDCRICKET_SERVER_HANDSHAKE, keys, sizeof keys, &written)))
        return 1;
    for (i = 0; i < written; i++)
        printf(i == written - BINDCRICKET_IV_BYTES ? " %02x" : "%02x", keys[i]);
    printf("\n");

    /* In a handshake the bytes come from the server; here the session itself tells what they have to be. */
    if (refused(bindcricket_feed(session, sizeof session, extensions, sizeof extensions)) ||
        refused(bindcricket_finished(session, sizeof session, BINDCRICKET_SERVER, received, sizeof received, &written)) ||
        refused(bindcricket_check(session, sizeof session, BINDCRICKET_SERVER, received, written, &yes)))
        return 1;
    printf("the server's Finished %s\n", yes ? "matches" : "differs");
    bindcricket_close(session, sizeof session);
    bindcricket_clear_stack();
    return !yes;
}
