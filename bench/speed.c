/* The work of schedule.h by Bindcricket and by the libraries of PEERS, each checked before it is timed. */
#define _GNU_SOURCE
#include "../include/bindcricket.h"
#include "measure.h"
#include "schedule.h"
#include <string.h>

#define P(name) extern const struct peer peer_##name;
P(bindcricket) PEERS
#undef P
#define P(name) &peer_##name,
static const struct peer *const peers[] = {P(bindcricket) PEERS};
#undef P
enum { COUNT = sizeof peers / sizeof *peers };

extern uint8_t session[BINDCRICKET_SESSION_BYTES];

static const char *const hash_names[] = {"SHA-256", "SHA-384"};
static const size_t digest_size[] = {32, 48};
static const uint8_t secret[48] = {1, 2, 3, 4, 5}, info[64] = {6};
static uint8_t input[1 << 20], output[8160];
static struct schedule result;
static enum hash_name w;
static size_t size;

static void run_schedule(size_t i) { peers[i]->schedule[w](&result); }
static void run_hash(size_t i) { peers[i]->hash[w](input, size, output); }
static void run_derive(size_t i) { peers[i]->derive[w](secret, input, size, output); }
static void run_expand(size_t i) { peers[i]->expand[w](secret, info, sizeof info, size, output); }

/* Bindcricket gives no secret out. Those that a complete session holds must be among its bytes. */
static int right(const struct schedule *want, size_t i)
{
    if (memcmp(result.keys, want->keys, sizeof want->keys))
        return 0;
    if (memcmp(result.finished, want->finished, sizeof want->finished))
        return 0;
    if (i > 0)
        return !memcmp(result.secret, want->secret, sizeof want->secret);
    for (int s = CLIENT_APPLICATION; s < SECRETS; s++)
        if (!memmem(session, sizeof session, want->secret[s], 48))
            return 0;
    return 1;
}

/* SHA-384 values, which RFC 8448 does not publish, and those of the parts are the first other library's. */
static void check_schedule(void)
{
    struct schedule want = published;
    if (w == WITH_384)
        peers[1]->schedule[w](&want);
    for (size_t i = 0; i < COUNT; i++) {
        memset(&result, 0, sizeof result);
        run_schedule(i);
        demand(right(&want, i), peers[i]->name);
    }
}

static void check_output(void (*run)(size_t), size_t n)
{
    uint8_t want[sizeof output];
    run(1);
    memcpy(want, output, n);
    for (size_t i = 0; i < COUNT; i++) {
        memset(output, 0, sizeof output);
        run(i);
        demand(!memcmp(want, output, n), peers[i]->name);
    }
}

static void measure(const char *work, const char *unit, void (*run)(size_t))
{
    double ns[COUNT];
    char label[64];
    alternate(COUNT, run, ns);
    snprintf(label, sizeof label, "%s, %s", hash_names[w], work);
    head(label, unit, size);
    numbers(COUNT, ns);
}

/* With an argument, SHA-256 alone. */
int main(int count, char **arguments)
{
    static const struct {
        size_t bytes;
        const char *work;
    } sizes[] = {
        {64, "hash of 64 B"},
        {1 << 10, "hash of 1 KiB"},
        {16 << 10, "hash of 16 KiB"},
        {1 << 20, "hash of 1 MiB"},
    };
    enum hash_name hashes = count > 1 ? 1 : HASHES;
    (void)arguments;
    for (size_t i = 0; i < sizeof input; i++)
        input[i] = (uint8_t)(i * 167 >> 3);
    head("", "", 0);
    for (size_t i = 0; i < COUNT; i++)
        printf("\t%s%s", peers[i]->name, peers[i]->sha_instructions && peers[i]->sha_instructions() ? "*" : "");
    putchar('\n');
    for (w = 0; w < hashes; w++) {
        check_schedule();
        measure("1-RTT schedule", "ns", run_schedule);
    }
    for (w = 0; w < hashes; w++) {
        size = 256;
        check_output(run_derive, digest_size[w]);
        measure("Derive-Secret of 256 B", "ns", run_derive);
        size = sizeof output;
        check_output(run_expand, size);
        measure("Expand to 8,160 B", "ns", run_expand);
    }
    for (w = 0; w < hashes; w++)
        for (size_t i = 0; i < sizeof sizes / sizeof *sizes; i++) {
            size = sizes[i].bytes;
            check_output(run_hash, digest_size[w]);
            measure(sizes[i].work, "MB/s", run_hash);
        }
    return 0;
}
