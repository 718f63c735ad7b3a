/* Readings carried once more (tests/models/model_readings.h), over the reader of tests/models/model.c. A reading is packed with the least significant
 * byte first, a datagram with the most significant. */
#include "model_readings.h"
#include "model_names.h"
#include "model_read.h"
#include <string.h>

/* A reading (document 02, request 7): length of what follows (2), kind (2), depth (4) or fault (2), litres in (4), litres out (4). */

struct reading {
    uint32_t kind, measure, litres_in, litres_out;
};

/* "Depth from 0 to 20 with both ends": by the order of numbers, in which -0 is 0, and a not-a-number is nowhere. */
static bool depth_good(uint32_t bits)
{
    float depth;
    memcpy(&depth, &bits, sizeof depth);
    return depth >= 0.0f && depth <= 20.0f;
}

static uint32_t little(const uint8_t *p, size_t n)
{
    uint32_t value = 0;
    for (size_t i = n; i > 0; i--)
        value = value << 8 | p[i - 1];
    return value;
}

static uint8_t *put_little(uint8_t *p, uint32_t value, size_t n)
{
    for (size_t i = 0; i < n; i++)
        p[i] = (uint8_t)(value >> 8 * i);
    return p + n;
}

/* How many bytes a depth or a fault has; 0 for a kind that is unknown. */
static size_t measure_len(uint32_t kind)
{
    return kind == 1 ? 4 : kind == 2 ? 2 : 0;
}

/* Gives 0 to 3, and the packed reading where it gives 0. */
static uint32_t pack(struct reading r, uint8_t *bytes, size_t *len)
{
    size_t measure = measure_len(r.kind);
    if (r.kind == 2 && r.measure > 65535)
        return 1;
    if (measure == 0)
        return 2;
    if (r.kind == 1 && !depth_good(r.measure))
        return 3;
    uint8_t *p = put_little(bytes, (uint32_t)(2 + measure + 8), 2);
    p = put_little(p, r.kind, 2);
    p = put_little(p, r.measure, measure);
    p = put_little(p, r.litres_in, 4);
    *len = (size_t)(put_little(p, r.litres_out, 4) - bytes);
    return 0;
}

/* Gives 0 to 3, and the reading where it gives 0. */
static uint32_t unpack(const uint8_t *p, size_t len, struct reading *r)
{
    if (len < 4 || little(p, 2) != len - 2)
        return 1;
    uint32_t kind = little(p + 2, 2);
    size_t measure = measure_len(kind);
    if (measure != 0 && len != 4 + measure + 8)
        return 1;
    if (measure == 0)
        return 2;
    if (kind == 1 && !depth_good(little(p + 4, 4)))
        return 3;
    r->kind = kind;
    r->measure = little(p + 4, measure);
    r->litres_in = little(p + 4 + measure, 4);
    r->litres_out = little(p + 8 + measure, 4);
    return 0;
}

/* An AUTHORITY (document 000 section 2.2.2.6) written again, with another payload. */

struct written {
    uint8_t b[1232 + 32]; /* a reading's field has 20 bytes with its padding */
    size_t n;
};

static void put(struct written *w, const uint8_t *bytes, size_t n)
{
    memcpy(w->b + w->n, bytes, n);
    w->n += n;
}

static void put2(struct written *w, size_t value)
{
    w->b[w->n++] = (uint8_t)(value >> 8);
    w->b[w->n++] = (uint8_t)value;
}

static void put_field(struct written *w, unsigned number, const uint8_t *contents, size_t n)
{
    put2(w, number);
    put2(w, 4 + n);
    put(w, contents, n);
}

/* Padding is written zero. */
static void put_padding(struct written *w)
{
    while (w->n % 4 != 0)
        w->b[w->n++] = 0;
}

/* A field that was read, where it was there. */
static void put_again(struct written *w, unsigned number, const uint8_t *d, struct span s)
{
    if (s.at != 0)
        put_field(w, number, d + s.at, s.len);
}

static void put_again_padded(struct written *w, unsigned number, const uint8_t *d, struct span s)
{
    put_again(w, number, d, s);
    if (s.at != 0)
        put_padding(w);
}

/* Of the flags L, B and N have names. The size in the split controls is that of the buffer behind them, from byte 28. */
static void put_authority(struct written *w, const struct message *m, const uint8_t *d, const uint8_t *payload, size_t payload_len)
{
    put(w, d, 20); /* header and acked ID */
    put2(w, 0x0098);
    put2(w, 8);
    put2(w, 0);
    put2(w, 0);
    put2(w, 0x0040);
    put2(w, 6);
    put2(w, m->flags & 0x0209);
    put2(w, 0);
    put_again_padded(w, 0x0080, d, m->chain);
    put_again_padded(w, 0x009F, d, m->keytoken);
    put_again_padded(w, 0x0085, d, m->classifier);
    put_field(w, 0x005A, payload, payload_len);
    put_padding(w);
    put_again_padded(w, 0x009A, d, m->entry);
    put_again(w, 0x009B, d, m->cpa);
    size_t size = w->n - 28;
    w->b[24] = (uint8_t)(size >> 8);
    w->b[25] = (uint8_t)size;
}

/* The calls. */

/* The number of a datagram that should be an AUTHORITY: that of reading it, and 5 for another message. */
static uint32_t authority_number(const struct message *m)
{
    return m->number != 0 ? m->number : m->type != 0x08 ? TYPE : 0;
}

struct model_carry model_carry(const struct lent *l)
{
    struct model_carry a = {0, 0, 0};
    struct message m = read_message(l->major, read_only(l->datagram));
    struct reading r = {l->kind, l->measure, l->litres_in, l->litres_out};
    uint8_t payload[16];
    size_t payload_len = 0;
    a.number = authority_number(&m);
    if (a.number != 0)
        return a;
    a.reading = pack(r, payload, &payload_len);
    if (a.reading != 0)
        return a;
    struct written w = {{0}, 0};
    put_authority(&w, &m, l->datagram.at, payload, payload_len);
    if (w.n > DATAGRAM_MOST || w.n > l->output.len) {
        a.number = ROOM;
        return a;
    }
    memcpy(l->output.at, w.b, w.n);
    a.length = (uint32_t)w.n;
    return a;
}

struct model_reading model_carried(const struct lent *l)
{
    struct model_reading a = {0, 0, 0, 0, 0, 0};
    struct message m = read_message(l->major, read_only(l->datagram));
    struct reading r = {0, 0, 0, 0};
    a.number = authority_number(&m);
    if (a.number != 0 || m.payload.at == 0)
        return a;
    a.reading = unpack(l->datagram.at + m.payload.at, m.payload.len, &r);
    a.kind = r.kind;
    a.measure = r.measure;
    a.litres_in = r.litres_in;
    a.litres_out = r.litres_out;
    return a;
}

int64_t model_balance(const struct lent *l)
{
    return (int64_t)l->litres_in - (int64_t)l->litres_out;
}
