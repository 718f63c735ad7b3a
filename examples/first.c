/* The first host: two gauges find each other over a simulated radio, one saves its memory, and goes on from it.
 *
 *     make first
 *
 * Written from gauge_host.h alone, in C99 that is C++17 too. Both gauges live in this process; the radio is a queue. */
#include "gauge_host.h"
#include <stdio.h>
#include <stdlib.h>

#define HELD 10 /* records in a cache */
#define AIR 8   /* datagrams under way */

struct host {
    struct gauge_lent lent;
    uint8_t cache[GAUGE_CACHE_LEN(HELD)];
    uint8_t cpas[GAUGE_CPAS_LEN(GAUGE_KEY_LEN)]; /* a CPA here is the key itself; a real one is signed */
};

struct datagram {
    uint8_t to, from; /* the last byte of an address tells the host: 1 or 2 */
    size_t len;
    uint8_t bytes[GAUGE_DATAGRAM_MOST];
};

static struct host hosts[3]; /* by address, from 1 */
static struct datagram air[AIR];
static size_t under_way;

static void send_to(uint8_t to, uint8_t from, const uint8_t *bytes, size_t len)
{
    struct datagram *d = &air[under_way++];
    if (under_way > AIR)
        exit(1);
    d->to = to;
    d->from = from;
    d->len = len;
    memcpy(d->bytes, bytes, len);
}

/* A host with nothing in its memory: its key and its address tell its number. */
static void begin(uint8_t number)
{
    struct host *h = &hosts[number];
    uint8_t address[GAUGE_ADDRESS_LEN] = {0xFE, 0x80}, key[GAUGE_KEY_LEN];
    memset(key, number, sizeof key);
    address[GAUGE_ADDRESS_LEN - 1] = number;
    gauge_lent_begin(&h->lent, h->cache, sizeof h->cache, h->cpas, gauge_cpas_put(h->cpas, 0, key, sizeof key));
    gauge_lent_own(&h->lent, key, 5000, address, 1);
    h->lent.id = 1000U * number;
}

/* A datagram arrives: it is looked at, its CPA judged, and what the gauge writes is sent. */
static void arrives(const struct datagram *d)
{
    struct gauge_lent *l = &hosts[d->to].lent;
    struct gauge_look_answer seen = gauge_lent_look(l, d->bytes, d->len);
    struct gauge_answer a;
    uint8_t told_of = d->from; /* where an INQUIRE goes: the first address of the FLOOD's route entry */
    if (seen.kind == GAUGE_FLOOD && seen.entry_len > 0)
        told_of = d->bytes[seen.entry_at + GAUGE_ENTRY_ADDRESSES + GAUGE_ADDRESS_LEN - 1];
    if (seen.cpa_len == GAUGE_KEY_LEN)
        gauge_lent_verdict(l, GAUGE_GOOD, d->bytes + seen.cpa_at);
    a = gauge_lent_receive(l, d->bytes, d->len);
    printf("  host %d gets %s: %s\n", d->to, gauge_kind_text(seen.kind), gauge_number_text(a.number));
    for (size_t i = 0; i < 2; i++) {
        const uint8_t *bytes = i == 0 ? l->output : l->output + a.first;
        size_t len = i == 0 ? a.first : a.second;
        if (len > 0)
            send_to(gauge_lent_look(l, bytes, len).kind == GAUGE_INQUIRE ? told_of : d->from, d->to, bytes, len);
    }
}

static void radio(void)
{
    while (under_way > 0) {
        struct datagram d = air[0];
        memmove(air, air + 1, --under_way * sizeof *air);
        arrives(&d);
    }
}

static void tell(uint8_t number)
{
    struct gauge_lent *l = &hosts[number].lent;
    struct gauge_answer a = gauge_lent_neighbours(l, l->own + GAUGE_RECORD_KEY);
    printf("host %d: %s, %u below, %u above\n", number, gauge_number_text(a.number), a.first, a.second);
}

int main(void)
{
    uint8_t flood[GAUGE_SEND_LEN];
    struct gauge_answer a;
    FILE *saved = tmpfile();
    begin(1);
    begin(2);

    printf("host 1 knows where host 2 is, and sends it the first FLOOD\n");
    send_to(2, 1, flood, gauge_first_flood(&hosts[1].lent, flood));
    radio();

    printf("host 2 holds host 1 now, and floods its own record to it\n");
    a = gauge_lent_send(&hosts[2].lent, hosts[1].lent.own + GAUGE_RECORD_KEY, hosts[2].lent.own + GAUGE_RECORD_KEY);
    send_to(1, 2, hosts[2].lent.output, a.first);
    radio();
    tell(1);
    tell(2);

    printf("host 1 saves its cache, is switched off, begins again and restores it\n");
    if (!saved || fwrite(hosts[1].cache, 1, sizeof hosts[1].cache, saved) != sizeof hosts[1].cache)
        return 1;
    begin(1);
    tell(1);
    rewind(saved);
    if (fread(hosts[1].cache, 1, sizeof hosts[1].cache, saved) != sizeof hosts[1].cache)
        return 1;
    gauge_firsts_count(hosts[1].cache, sizeof hosts[1].cache, hosts[1].lent.firsts);
    printf("host 1, in its memory: %s\n", gauge_part_text(gauge_lent_not_in_form(&hosts[1].lent)));
    tell(1);
    return 0;
}
