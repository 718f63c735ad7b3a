/* A gauge's night, recorded: the calls of one gauge written to a file, from which they can be made again at the
 * office; and beside it, where that is wanted, when each was made and who had sent what came. C99, and this file is all
 * of it.
 *
 * Record each gauge_receive, gauge_send and gauge_tick behind the call, in the order of the calls, with the answer
 * that the call gave; the calls that were refused too. gauge_neighbours, gauge_closest, gauge_search, gauge_changes
 * and gauge_look change nothing and are not recorded. The night begins with cache, firsts and waiting table all zero,
 * or with what an earlier night left in them (see below), so that there is nothing for gauge_convert, which is not
 * recorded either. What a trace does not hold is fixed for whoever makes the calls again: a cache of 64 records, an
 * output of GAUGE_OUTPUT_LEN bytes, one own record, and a CPA of one zero byte. A gauge that is recorded must have the
 * same; one that stands for several ponds is not recorded.
 *
 * A trace is records: length (2 bytes, counting what follows it), kind (2), body. Lengths, kinds and IDs are least
 * significant byte first.
 *
 *   kind 4, once and first   major version 1, minor version 1, own record 100; one of two to four addresses, of a
 *                            version before 1.3, is not in form, and every later record then answers GAUGE_MEMORY
 *   kind 1, gauge_receive    message ID 4, verdict 1, key 32, nonce 16, the datagram
 *   kind 2, gauge_send       message ID 4, neighbour's key 32, record's key 32
 *   kind 3, gauge_tick       nothing
 *
 * The answers, if they are wanted, are text: for each call a line with its place from 1, a space and the number that
 * it gave.
 *
 * The hours, if they are wanted, are rows of GAUGE_TRACE_ROW_LEN bytes, one for each record of the trace, the first one
 * (kind 4) too: row i is that of record i, and stands at byte 40 i. Call the file NAME.hours beside NAME.trace, where
 * bin/shown, bin/asked and bin/nights look for it. All is least significant byte first but the endpoint.
 *
 *   at 0, hour 8             milliseconds since 1970-01-01 00:00 UTC; 0 where the host knows no hour
 *   at 8, endpoint 18        port 2, most significant byte first, and address 16, as on the wire: a receive's sender, a
 *                            send's receiver, all zero for a tick; in the first row those of the own record
 *   at 26, the answer 12     number 4, first 4, second 4, as the call gave them that night; all zero in the first row
 *   at 38                    two zero bytes
 *
 * Hour and endpoint are the host's to tell, by gauge_trace_begin and gauge_trace_at, as its clock and its socket alone
 * know them; the rest is filled here. A trace has neither: without the hours nobody can tell at the office who sent a
 * datagram, when a call was made, or whether it gave that night what it gives when it is made again.
 *
 * Several nights of one gauge, each begun by gauge_trace_begin, can be joined: bin/nights makes one trace of them, and
 * one file of hours. The calls are then made again as one night, so that a later one begins with what the earlier left.
 * That is right only where cache and waiting table were kept between the two, as they were, and no call was left out.
 * So where a gauge keeps its memory, its later nights can't be made again by themselves, but behind the first; and a
 * night that began with memory all zero is never joined behind another. */
#ifndef GAUGE_TRACE_H
#define GAUGE_TRACE_H

#include "gauge.h"
#include <stdio.h>
#include <string.h>

#define GAUGE_TRACE_HELD 64 /* records in the cache of a gauge that is recorded */
#define GAUGE_TRACE_CPAS_LEN 3 /* the CPA, as it is lent: 01 00 00 */
#define GAUGE_TRACE_ROW_LEN 40 /* a row of the hours, and by place what it has */
#define GAUGE_TRACE_ROW_HOUR 0
#define GAUGE_TRACE_ROW_ENDPOINT 8
#define GAUGE_TRACE_ROW_NUMBER 26
#define GAUGE_TRACE_ROW_FIRST 30
#define GAUGE_TRACE_ROW_SECOND 34

/* The files are opened and closed by the radio program; `answers` and `hours` may be NULL. */
struct gauge_trace {
    FILE *calls, *answers, *hours;
    unsigned long count;                  /* of the calls recorded */
    uint64_t hour;                        /* of the next record, .. */
    uint8_t endpoint[GAUGE_ENDPOINT_LEN]; /* .. and its endpoint */
    int failed; /* not 0 as soon as something could not be written: the trace is then good for nothing */
};

static inline void gauge_trace_bytes(struct gauge_trace *t, const uint8_t *bytes, size_t len)
{
    if (fwrite(bytes, 1, len, t->calls) != len)
        t->failed = 1;
}

/* A number in so many bytes, least significant first. */
static inline void gauge_trace_lay(uint8_t *bytes, uint64_t number, size_t len)
{
    for (size_t i = 0; i < len; i++)
        bytes[i] = GAUGE_TO(uint8_t, number >> 8 * i & 255);
}

static inline void gauge_trace_number(struct gauge_trace *t, uint32_t number, size_t len)
{
    uint8_t bytes[4];
    gauge_trace_lay(bytes, number, sizeof bytes);
    gauge_trace_bytes(t, bytes, len);
}

static inline void gauge_trace_head(struct gauge_trace *t, uint32_t kind, size_t body)
{
    if (body > 65533) /* a datagram that no length can tell: gauge_receive gave GAUGE_LENGTH for it */
        t->failed = 1;
    gauge_trace_number(t, GAUGE_TO(uint32_t, body + 2), 2);
    gauge_trace_number(t, kind, 2);
}

/* The row of a record. The endpoint that was told is its own, and not the next one's. */
static inline void gauge_trace_row(struct gauge_trace *t, struct gauge_answer answer)
{
    uint8_t row[GAUGE_TRACE_ROW_LEN];
    memset(row, 0, sizeof row);
    gauge_trace_lay(row + GAUGE_TRACE_ROW_HOUR, t->hour, 8);
    memcpy(row + GAUGE_TRACE_ROW_ENDPOINT, t->endpoint, sizeof t->endpoint);
    gauge_trace_lay(row + GAUGE_TRACE_ROW_NUMBER, answer.number, 4);
    gauge_trace_lay(row + GAUGE_TRACE_ROW_FIRST, answer.first, 4);
    gauge_trace_lay(row + GAUGE_TRACE_ROW_SECOND, answer.second, 4);
    if (t->hours && fwrite(row, 1, sizeof row, t->hours) != sizeof row)
        t->failed = 1;
    memset(t->endpoint, 0, sizeof t->endpoint);
}

static inline void gauge_trace_answer(struct gauge_trace *t, struct gauge_answer answer)
{
    t->count++;
    if (t->answers && fprintf(t->answers, "%lu %lu\n", t->count, GAUGE_TO(unsigned long, answer.number)) < 0)
        t->failed = 1;
    gauge_trace_row(t, answer);
}

/* When the next call was made, and its endpoint: the sender of what came, the receiver of what is sent, NULL for a tick
 * and where it is not known. The hour stays for later records until it is told again; the endpoint is for the next
 * record alone, and all zero for one of which nothing was told. Without hours it need not be called. */
static inline void gauge_trace_at(struct gauge_trace *t, uint64_t hour, const uint8_t *endpoint)
{
    t->hour = hour;
    memset(t->endpoint, 0, sizeof t->endpoint);
    if (endpoint)
        memcpy(t->endpoint, endpoint, sizeof t->endpoint);
}

/* The night begins: the first record, and its row. */
static inline struct gauge_trace gauge_trace_begin(FILE *calls, FILE *answers, FILE *hours, uint8_t major,
                                                   uint8_t minor, const uint8_t *own, uint64_t hour)
{
    const struct gauge_answer none = {0, 0, 0};
    struct gauge_trace t;
    t.calls = calls;
    t.answers = answers;
    t.hours = hours;
    t.count = 0;
    t.hour = hour;
    t.failed = 0;
    memcpy(t.endpoint, own + GAUGE_RECORD_PORT, 2);
    memcpy(t.endpoint + 2, own + GAUGE_RECORD_ADDRESSES, GAUGE_ADDRESS_LEN);
    gauge_trace_head(&t, 4, 2 + GAUGE_RECORD_LEN);
    gauge_trace_number(&t, major, 1);
    gauge_trace_number(&t, minor, 1);
    gauge_trace_bytes(&t, own, GAUGE_RECORD_LEN);
    gauge_trace_row(&t, none);
    return t;
}

/* gauge_receive gave `answer`. A verdict over 255 is not good, and is written as 0, which is not good either. */
static inline void gauge_trace_receive(struct gauge_trace *t, struct gauge_answer answer, uint32_t id,
                                       const uint8_t *nonce, uint32_t verdict, const uint8_t *key,
                                       const uint8_t *datagram, size_t datagram_len)
{
    gauge_trace_head(t, 1, 4 + 1 + GAUGE_KEY_LEN + GAUGE_NONCE_LEN + datagram_len);
    gauge_trace_number(t, id, 4);
    gauge_trace_number(t, verdict > 255 ? 0 : verdict, 1);
    gauge_trace_bytes(t, key, GAUGE_KEY_LEN);
    gauge_trace_bytes(t, nonce, GAUGE_NONCE_LEN);
    gauge_trace_bytes(t, datagram, datagram_len);
    gauge_trace_answer(t, answer);
}

/* gauge_send gave `answer`. */
static inline void gauge_trace_send(struct gauge_trace *t, struct gauge_answer answer, uint32_t id,
                                    const uint8_t *neighbour, const uint8_t *key)
{
    gauge_trace_head(t, 2, 4 + 2 * GAUGE_KEY_LEN);
    gauge_trace_number(t, id, 4);
    gauge_trace_bytes(t, neighbour, GAUGE_KEY_LEN);
    gauge_trace_bytes(t, key, GAUGE_KEY_LEN);
    gauge_trace_answer(t, answer);
}

/* gauge_tick gave `answer`. It has no endpoint, whatever was told. */
static inline void gauge_trace_tick(struct gauge_trace *t, struct gauge_answer answer)
{
    memset(t->endpoint, 0, sizeof t->endpoint);
    gauge_trace_head(t, 3, 0);
    gauge_trace_answer(t, answer);
}

#endif
