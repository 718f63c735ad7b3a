/* Calls of one gauge, made by the archive and recorded by include/gauge_trace.h, as a radio program would.
 *
 * recorded CALLS [ANSWERS [HOURS]] <LINES    writes the trace to CALLS, the answers to ANSWERS and the hours to HOURS, - for none of the two, and says
 *                                            how many calls there were and whether one failed
 *
 * The first line is `own RECORD HOUR`, and each other line a call: `receive ID VERDICT KEY DATAGRAM`, `send ID NEIGHBOUR KEY` or `tick`; or what is told
 * of the next one: `at HOUR ENDPOINT`, - for no endpoint. Bytes have two hexadecimal digits each, - for none; versions are 6 and 101, and the nonce is 0
 * to 15. */
#include "calling.h"
#include "gauge_trace.h"
#include <stdlib.h>
#include <string.h>

static char line[200000];
static uint8_t own[GAUGE_RECORD_LEN], cpas[GAUGE_TRACE_CPAS_LEN] = {1}, nonce[GAUGE_NONCE_LEN];
static struct lent lent;

/* The gauge at a trace's beginning: what is not said is all zero, the CPA's one byte too. */
static void begin(void)
{
    static uint8_t zeros[SLICES][GAUGE_CACHE_LEN(GAUGE_CACHE_MOST)]; /* as long as any */
    for (int i = 0; i < SLICES; i++)
        *slice_in(&lent, i) = as_room(zeros[i], slices[i].usual);
    lent.cpas = as_room(cpas, sizeof cpas);
    lent.cache.len = GAUGE_CACHE_LEN(GAUGE_TRACE_HELD);
    for (size_t i = 0; i < sizeof nonce; i++)
        nonce[i] = (uint8_t)i;
    lent.own = as_room(own, sizeof own);
    lent.nonce = as_room(nonce, sizeof nonce);
    lent.major = 6;
    lent.minor = 101;
}

static void stop(const char *what)
{
    fprintf(stderr, "recorded: %s\n", what);
    exit(2);
}

/* The next word of the line. */
static const char *word(void)
{
    const char *w = strtok(NULL, " \n");
    if (w == NULL)
        stop("a line is too short");
    return w;
}

static uint32_t number(void)
{
    return (uint32_t)strtoul(word(), NULL, 10);
}

/* Bytes of the next word, no more than there is room for; gives how many. */
static size_t bytes(uint8_t *to, size_t room)
{
    const char *w = word();
    size_t n = strcmp(w, "-") == 0 ? 0 : strlen(w) / 2;
    if (n > room)
        stop("too many bytes");
    for (size_t i = 0; i < n; i++) {
        char digits[3] = {w[2 * i], w[2 * i + 1], 0};
        to[i] = (uint8_t)strtoul(digits, NULL, 16);
    }
    return n;
}

static void receive(struct gauge_trace *t)
{
    static uint8_t datagram[sizeof line / 2];
    uint8_t key[GAUGE_KEY_LEN];
    lent.id = number();
    lent.verdict = number();
    bytes(key, sizeof key);
    lent.key = as_room(key, sizeof key);
    lent.datagram = as_room(datagram, bytes(datagram, sizeof datagram));
    struct gauge_answer a = call_receive(gauge_receive, &lent);
    gauge_trace_receive(t, a, lent.id, nonce, lent.verdict, key, datagram, lent.datagram.len);
}

static void send(struct gauge_trace *t)
{
    uint8_t neighbour[GAUGE_KEY_LEN], key[GAUGE_KEY_LEN];
    lent.id = number();
    bytes(neighbour, sizeof neighbour);
    bytes(key, sizeof key);
    lent.neighbour = as_room(neighbour, sizeof neighbour);
    lent.key = as_room(key, sizeof key);
    struct gauge_answer a = call_send(gauge_send, &lent);
    gauge_trace_send(t, a, lent.id, neighbour, key);
}

static void tick(struct gauge_trace *t)
{
    struct gauge_answer a = call_tick(gauge_tick, &lent);
    gauge_trace_tick(t, a);
}

static uint64_t hour(void)
{
    return strtoull(word(), NULL, 10);
}

static void told(struct gauge_trace *t)
{
    uint8_t endpoint[GAUGE_ENDPOINT_LEN];
    uint64_t when = hour();
    gauge_trace_at(t, when, bytes(endpoint, sizeof endpoint) > 0 ? endpoint : NULL);
}

/* A file without a buffer: what can't be written is seen at once. */
static FILE *opened(const char *path)
{
    FILE *f = fopen(path, "wb");
    if (f == NULL || setvbuf(f, NULL, _IONBF, 0) != 0)
        stop("a file can't be opened");
    return f;
}

/* The file that a word names, where there is such a word. */
static FILE *wanted(int argc, char **argv, int i)
{
    return argc > i && strcmp(argv[i], "-") != 0 ? opened(argv[i]) : NULL;
}

int main(int argc, char **argv)
{
    if (argc < 2 || fgets(line, sizeof line, stdin) == NULL || strtok(line, " \n") == NULL)
        stop("give a file for the trace, and calls");
    bytes(own, sizeof own);
    begin();
    struct gauge_trace t = gauge_trace_begin(opened(argv[1]), wanted(argc, argv, 2), wanted(argc, argv, 3), 6, 101, own, hour());
    while (fgets(line, sizeof line, stdin) != NULL) {
        const char *call = strtok(line, " \n");
        if (call == NULL)
            stop("an empty line");
        else if (strcmp(call, "receive") == 0)
            receive(&t);
        else if (strcmp(call, "send") == 0)
            send(&t);
        else if (strcmp(call, "at") == 0)
            told(&t);
        else
            tick(&t);
    }
    printf("%lu calls, %s\n", t.count, t.failed ? "failed" : "written");
    return 0;
}
