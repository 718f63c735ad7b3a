/* A recorded night made again (tests/models/model_night.h). A trace is records: length (2 bytes, counting what follows), kind (2), body; numbers have
 * their least significant byte first. */
#include "model_night.h"
#include "model_names.h"
#include <stdbool.h>
#include <string.h>

/* 02: "Start empty with C 64 and an output of 2,464 bytes"; "the own CPA is one zero byte", lent with its length before it; "a trace still has one
 * own record". What a record says is lent from a copy of its body. */
struct night {
    bool begun;
    struct model_answer answer; /* of the last call */
    uint8_t own[RECORD_LEN], cpas[3], cache[64 * RECORD_LEN], firsts[FIRSTS_LEN], waiting[WAITING_LEN], output[OUTPUT_LEN], body[65536];
    struct lent lent;
};

static unsigned two(const uint8_t *p)
{
    return (unsigned)p[0] + 256u * p[1];
}

static uint32_t four(const uint8_t *p)
{
    return two(p) + 65536u * two(p + 2);
}

static bool known(unsigned kind)
{
    return kind >= 1 && kind <= 4;
}

/* 02: "Kind 1: message ID 4, verdict 1, key 32, nonce 16, datagram. Kind 2: message ID 4, neighbour key 32, record key 32. Kind 3: a tick, no body",
 * kind 4 "body 102 bytes". */
static bool right_length(unsigned kind, size_t body)
{
    switch (kind) {
    case 1: return body >= 4 + 1 + KEY_LEN + NONCE_LEN;
    case 2: return body == 4 + KEY_LEN + KEY_LEN;
    case 3: return body == 0;
    default: return body == 2 + RECORD_LEN;
    }
}

/* 02: "16 for a record cut short or of wrong length, 17 for an unknown kind or a kind 4 missing or repeated"; 0 for a good record. `rest` is all of
 * the trace from the record on. */
static uint32_t fault(struct bytes rest, bool begun)
{
    if (rest.len < 2)
        return 16;
    size_t length = two(rest.at);
    if (length > rest.len - 2 || length < 2)
        return 16;
    unsigned kind = two(rest.at + 2);
    if (known(kind) && !right_length(kind, length - 2))
        return 16;
    if (!known(kind) || begun == (kind == 4))
        return 17;
    return 0;
}

static struct bytes part(const uint8_t *at, size_t len)
{
    struct bytes b = {at, len};
    return b;
}

static void begin(struct night *n, const uint8_t *body)
{
    n->begun = true;
    memcpy(n->own, body + 2, RECORD_LEN);
    n->lent.major = body[0];
    n->lent.minor = body[1];
    n->lent.own = as_room(n->own, sizeof n->own);
    n->cpas[0] = 1;
    n->lent.cpas = as_room(n->cpas, sizeof n->cpas);
    n->lent.cache = as_room(n->cache, sizeof n->cache);
    n->lent.firsts = as_room(n->firsts, sizeof n->firsts);
    n->lent.waiting = as_room(n->waiting, sizeof n->waiting);
    n->lent.output = as_room(n->output, sizeof n->output);
}

/* Its number; the whole answer is kept. */
static uint32_t call(struct night *n, unsigned kind, struct bytes body)
{
    struct lent *l = &n->lent;
    uint8_t *b = n->body;
    memcpy(b, body.at, body.len);
    if (kind == 1) {
        l->id = four(b);
        l->verdict = b[4];
        l->key = as_room(b + 5, KEY_LEN);
        l->nonce = as_room(b + 37, NONCE_LEN);
        l->datagram = as_room(b + 53, body.len - 53);
        n->answer = model_receive(l);
        return n->answer.number;
    }
    if (kind == 2) {
        l->id = four(b);
        l->neighbour = as_room(b + 4, KEY_LEN);
        l->key = as_room(b + 36, KEY_LEN);
        n->answer = model_send(l);
        return n->answer.number;
    }
    n->answer = model_tick(l);
    return n->answer.number;
}

/* Who only reads the lines watches nothing, and who watches reads no line. */
static void show(model_watcher *watcher, void *to, const struct night *n, struct model_seen seen)
{
    seen.lent = &n->lent;
    if (watcher != NULL)
        watcher(to, &seen);
}

static void no_line(void *to, uint32_t number, uint32_t answer)
{
    (void)to, (void)number, (void)answer;
}

/* 02: "writes for each later record its number from 1, a space and the answer"; a refusal "is written as that record's line, the replay stops there
 * with the state so far, a bad first record has line number 0, an empty trace gives "0 17"". */
static void replay(struct bytes trace, model_line *line, model_watcher *watcher, void *to)
{
    struct night n;
    uint32_t number = 0;
    memset(&n, 0, sizeof n);
    if (trace.len == 0)
        line(to, 0, 17);
    while (trace.len > 0) {
        uint32_t bad = fault(trace, n.begun);
        if (bad != 0) {
            line(to, number, bad);
            show(watcher, to, &n, (struct model_seen){number, 0, {bad, 0, 0}, NULL});
            return;
        }
        struct bytes body = part(trace.at + 4, two(trace.at) - 2);
        if (n.begun)
            line(to, number, call(&n, two(trace.at + 2), body));
        else
            begin(&n, body.at);
        show(watcher, to, &n, (struct model_seen){number, two(trace.at + 2), n.answer, NULL});
        number++;
        trace = part(body.at + body.len, trace.len - body.len - 4);
    }
}

void model_replay(struct bytes trace, model_line *line, void *to)
{
    replay(trace, line, NULL, to);
}

void model_watch(struct bytes trace, model_watcher *watcher, void *to)
{
    replay(trace, no_line, watcher, to);
}
