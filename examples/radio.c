/* A gauge as a device has it: one process, one gauge, UDP over IPv6.
 *
 *     radio [-t MILLISECONDS] [-s TICKS] [-n ADDRESS/BITS] OWN RECORDS FOLDER
 *
 *   OWN      a file with our own record, a line: key (64 hexadecimal digits), address, port. The socket is bound to that address and port.
 *   RECORDS  a file with the records that it begins with, a line each of the same form: gauges that it calls until it is known.
 *   FOLDER   what it keeps, and nobody else writes there: `cache`, the records held and the last keys revoked, from which it goes on when it is
 *            started again; `list`, its neighbours, for whoever looks, written at each tick; night-HOUR.trace and .hours, its night, where it
 *            begins with nothing held (gauge_trace.h).
 *   -t       milliseconds from tick to tick; 1000 where nothing is said, as the gauge counts its ticks as seconds
 *   -s       ticks from one saving of the cache to the next; 60 where nothing is said
 *   -n       who is heard and sent to: the addresses that begin with the same bits; the first 64 of our own address where nothing is said
 *
 * SIGTERM and SIGINT end it in order: the cache is saved, the night closed, and what was counted is told on standard output. It ends with 0, with 1
 * where it could not go on or save its cache, with 2 where it was called in another way. `make network` runs 61 of them on one machine
 * (tools/network.py).
 *
 * Two things stand in here for real ones: `judge`, which believes whoever answers, and `cpa`, the byte that it judges. */
#define _DEFAULT_SOURCE /* sockets, poll, signals and getentropy, which are not C99's */
#include "gauge_host.h"
#include "gauge_trace.h"
#include <arpa/inet.h>
#include <errno.h>
#include <fcntl.h>
#include <netdb.h>
#include <netinet/in.h>
#include <poll.h>
#include <signal.h>
#include <stdarg.h>
#include <stdbool.h>
#include <stdlib.h>
#include <sys/file.h>
#include <sys/socket.h>
#include <time.h>
#include <unistd.h>

#define HELD GAUGE_TRACE_HELD /* records in the cache: as many as a night that is recorded must have */
#define CALLED_MOST 16        /* records in the file RECORDS */
#define FIRST 10              /* ticks in which these are called; and later where nobody is held */
#define FLOODS 2              /* to gauges held, each tick */
#define SIDE 5                /* neighbours on either side */
#define KEPT 32               /* datagrams kept until they are answered: 16 at most wait, and some are not yet forgotten */
#define REVOKED 16            /* revocations remembered, and saved and passed on from tick to tick at most */
#define BATCH 64              /* datagrams taken before the clock is looked at again, so that no flood of them stops the ticks */
#define NIGHT_MOST 16000000   /* bytes of a night: whoever sends much should not fill the disk */
#define NUMBERS 32            /* more than the gauge has, for later versions */
#define PATH_MOST 4096
#define SUM_LEN 8

/* A FLOOD or an INQUIRE that waits for its answer. */
struct kept {
    size_t len; /* 0: this one is free */
    uint32_t id;
    struct sockaddr_in6 to;
    uint8_t about[GAUGE_KEY_LEN]; /* of an INQUIRE: the key that it inquires about */
    uint8_t bytes[GAUGE_DATAGRAM_MOST];
};

/* A line of the files OWN and RECORDS. */
struct known {
    uint8_t key[GAUGE_KEY_LEN];
    struct sockaddr_in6 at;
};

/* The CPA by which others know us. STAND-IN: a real one is signed, and holds the nonce of the INQUIRE that it answers, so it is made anew for each. A
 * night that is recorded must have this one (gauge_trace.h). */
static const uint8_t cpa[1] = {0};

static struct gauge_lent lent; /* all that the calls are lent, .. */
static uint8_t cache[GAUGE_CACHE_LEN(HELD)], cpas[GAUGE_CPAS_LEN(sizeof cpa)]; /* .. with these */
static struct kept kept[KEPT];
static struct known called[CALLED_MOST];
static size_t called_count;
static uint8_t revoked[REVOKED][GAUGE_KEY_LEN]; /* the last keys of which we were told that they are revoked, .. */
static size_t revoked_count, passed_on;         /* .. how many there were, and how many were passed on since the last tick */

static int radio; /* the socket */
static uint32_t scope; /* of a link-local address: on which link */
static uint8_t network[GAUGE_ADDRESS_LEN];
static unsigned network_bits = 64;

static const char *folder;
static int folder_open; /* locked: no other gauge writes there */
static unsigned long tick_ms = 1000, save_ticks = 60, ticks;
static bool recorded;
static struct gauge_trace night;

static volatile sig_atomic_t ended; /* a signal has told us to end */

/* What is told at the end. */
static struct {
    unsigned long came, sent;                              /* datagrams, .. */
    unsigned long too_long, elsewhere, malformed, strange; /* .. those dropped before the gauge saw them, .. */
    unsigned long refused[NUMBERS];                        /* .. the calls that it refused, by its number, .. */
    unsigned long overrun;                                 /* .. those that came faster than they were taken, .. */
    unsigned long not_sent;                                /* .. and those that the socket did not take, or that would have left our network */
    bool overrun_known;
    unsigned long not_passed_on; /* revocations: more came from one tick to the next than are passed on */
    unsigned long not_written;   /* files: how often the cache or the list could not be */
} counts;

static void fail(const char *format, ...)
{
    va_list list;
    va_start(list, format);
    vfprintf(stderr, format, list);
    va_end(list);
    exit(1);
}

/* Clocks, random numbers, files. */

static uint64_t milliseconds(clockid_t clock)
{
    struct timespec t;
    clock_gettime(clock, &t);
    return (uint64_t)t.tv_sec * 1000 + (uint64_t)t.tv_nsec / 1000000;
}

static void random_bytes(uint8_t *bytes, size_t len)
{
    if (getentropy(bytes, len) != 0)
        fail("radio: no random numbers\n");
}

static uint32_t dice(uint32_t n)
{
    uint8_t b[4];
    random_bytes(b, sizeof b);
    return ((uint32_t)b[0] << 24 | (uint32_t)b[1] << 16 | (uint32_t)b[2] << 8 | b[3]) % n;
}

static void path_of(char *path, const char *name, const char *ending)
{
    int len = snprintf(path, PATH_MOST, "%s/%s%s", folder, name, ending);
    if (len < 0 || len >= PATH_MOST)
        fail("radio: the folder's name is too long\n");
}

/* A file of the folder gets other contents: they are written beside it first, and take its place when they are whole. So whenever we are killed, the
 * file is the old one or the new one. `lasting`: the contents are on the disk before the name is, and the name before we go on, so that it is so too
 * where the current fails. */
static bool replace(const char *name, const void *bytes, size_t len, bool lasting)
{
    char path[PATH_MOST], beside[PATH_MOST];
    path_of(path, name, "");
    path_of(beside, name, ".new");
    FILE *f = fopen(beside, "wb");
    if (f == NULL)
        return false;
    bool whole = fwrite(bytes, 1, len, f) == len && fflush(f) == 0 && (!lasting || fsync(fileno(f)) == 0);
    return fclose(f) == 0 && whole && rename(beside, path) == 0 && (!lasting || fsync(folder_open) == 0);
}

/* Told at once for the first time, as nobody knows when the end will be; then counted. */
static void not_written(const char *name)
{
    if (counts.not_written++ == 0)
        fprintf(stderr, "radio: %s/%s can't be written: %s\n", folder, name, strerror(errno));
}

/* Endpoints: in a socket's form, and as port and address stand in a record. */

static struct sockaddr_in6 socket_endpoint(const uint8_t *port, const uint8_t *address)
{
    struct sockaddr_in6 to;
    memset(&to, 0, sizeof to);
    to.sin6_family = AF_INET6;
    memcpy(&to.sin6_port, port, 2); /* both are most significant byte first */
    memcpy(&to.sin6_addr, address, GAUGE_ADDRESS_LEN);
    to.sin6_scope_id = scope;
    return to;
}

static bool same_endpoint(const struct sockaddr_in6 *a, const struct sockaddr_in6 *b)
{
    return a->sin6_port == b->sin6_port && memcmp(&a->sin6_addr, &b->sin6_addr, GAUGE_ADDRESS_LEN) == 0;
}

static bool is_of_our_network(const struct sockaddr_in6 *a)
{
    size_t whole = network_bits / 8;
    unsigned rest = network_bits % 8;
    const uint8_t *address = a->sin6_addr.s6_addr;
    return memcmp(address, network, whole) == 0 && (rest == 0 || (address[whole] ^ network[whole]) >> (8 - rest) == 0);
}

/* The night. Hour and endpoint are told before each record. */

static void tell_hour(const struct sockaddr_in6 *who)
{
    uint8_t endpoint[GAUGE_ENDPOINT_LEN];
    if (who != NULL) {
        memcpy(endpoint, &who->sin6_port, 2);
        memcpy(endpoint + 2, &who->sin6_addr, GAUGE_ADDRESS_LEN);
    }
    gauge_trace_at(&night, milliseconds(CLOCK_REALTIME), who != NULL ? endpoint : NULL);
}

/* A trace has this cache and this CPA (gauge_trace.h): whoever has another of either would record what can't be made again. */
static bool can_be_recorded(void)
{
    return lent.cache_len == GAUGE_CACHE_LEN(GAUGE_TRACE_HELD) && lent.cpas_len == GAUGE_TRACE_CPAS_LEN && lent.cpas[GAUGE_TRACE_CPAS_LEN - 1] == 0;
}

static void begin_night(void)
{
    char name[64], path[PATH_MOST];
    uint64_t hour = milliseconds(CLOCK_REALTIME);
    snprintf(name, sizeof name, "night-%llu", (unsigned long long)hour);
    path_of(path, name, ".trace");
    FILE *calls = fopen(path, "wb");
    path_of(path, name, ".hours");
    FILE *hours = fopen(path, "wb");
    if (calls == NULL || hours == NULL)
        fail("radio: no night can be written in %s: %s\n", folder, strerror(errno));
    night = gauge_trace_begin(calls, NULL, hours, lent.major, lent.minor, lent.own, hour);
    recorded = true;
    printf("records %s\n", name);
}

/* Behind its last record a night is whole, and can be made again up to there. */
static void end_night(const char *why)
{
    if (!recorded)
        return;
    recorded = false;
    bool whole = fclose(night.calls) == 0 && !night.failed;
    whole = fclose(night.hours) == 0 && whole;
    printf("its night has %lu calls%s%s\n", night.count, why, whole ? "" : ", and could not be written: it is good for nothing");
}

/* Each tick: whoever is killed loses little of his night. */
static void flush_night(void)
{
    if (recorded && (fflush(night.calls) != 0 || fflush(night.hours) != 0 || night.failed)) {
        night.failed = 1;
        end_night("");
    }
}

/* Behind each batch of datagrams: whoever sends much fills no disk. */
static void bound_night(void)
{
    if (recorded && (ftell(night.calls) > NIGHT_MOST || ftell(night.hours) > NIGHT_MOST))
        end_night(", and no more: it may not be longer");
}

/* What goes out. */

/* Records can tell of any address: nothing is sent out of our network, whoever asks for it. And nothing is waited for: the ticks repeat what waits
 * for an answer. */
static void send_to(const struct sockaddr_in6 *to, const uint8_t *bytes, size_t len)
{
    if (is_of_our_network(to) && sendto(radio, bytes, len, MSG_DONTWAIT, (const struct sockaddr *)to, sizeof *to) == (ssize_t)len)
        counts.sent++;
    else
        counts.not_sent++;
}

static struct kept *kept_with(uint32_t id)
{
    for (size_t i = 0; i < KEPT; i++)
        if (kept[i].len > 0 && kept[i].id == id)
            return &kept[i];
    return NULL;
}

/* What must be answered is kept with its ID, for the ticks. Where there is no room it is sent, and not again. */
static void send_and_keep(const struct sockaddr_in6 *to, const uint8_t *about, const uint8_t *bytes, size_t len)
{
    size_t i = 0;
    while (i < KEPT && kept[i].len > 0)
        i++;
    if (i < KEPT) {
        kept[i].len = len;
        kept[i].id = gauge_lent_look(&lent, bytes, len).id;
        kept[i].to = *to;
        memcpy(kept[i].about, about, GAUGE_KEY_LEN);
        memcpy(kept[i].bytes, bytes, len);
    }
    send_to(to, bytes, len);
}

static struct sockaddr_in6 endpoint_held(const uint8_t *record)
{
    return socket_endpoint(record + GAUGE_RECORD_PORT, record + GAUGE_RECORD_ADDRESSES);
}

static bool is_known_revoked(const uint8_t *key)
{
    for (size_t i = 0; i < REVOKED && i < revoked_count; i++)
        if (memcmp(revoked[i], key, GAUGE_KEY_LEN) == 0)
            return true;
    return false;
}

/* The saved cache: the records held, our own key, for which they were kept, the last keys revoked, the oldest first, and a sum over all of it. The
 * form that gauge_convert tests would not tell that a byte of an address has changed on a bad disk; the sum does. Against whoever means harm it is
 * no guard. */

struct saved {
    uint8_t held[sizeof cache], own[GAUGE_KEY_LEN], revoked_count[1], revoked[REVOKED][GAUGE_KEY_LEN], sum[SUM_LEN];
};

/* FNV-1a of 64 bits over all that stands before the sum. */
static void put_sum(const struct saved *s, uint8_t *sum)
{
    const uint8_t *bytes = (const uint8_t *)s;
    uint64_t n = 14695981039346656037U;
    for (size_t i = 0; i < offsetof(struct saved, sum); i++)
        n = (n ^ bytes[i]) * 1099511628211U;
    for (size_t i = 0; i < SUM_LEN; i++)
        sum[i] = (uint8_t)(n >> 8 * i & 255);
}

static struct saved to_be_saved(void)
{
    struct saved s;
    size_t count = revoked_count < REVOKED ? revoked_count : REVOKED;
    memset(&s, 0, sizeof s);
    memcpy(s.held, cache, sizeof s.held);
    memcpy(s.own, lent.own + GAUGE_RECORD_KEY, sizeof s.own);
    s.revoked_count[0] = (uint8_t)count;
    for (size_t i = 0; i < count; i++)
        memcpy(s.revoked[i], revoked[(revoked_count - count + i) % REVOKED], GAUGE_KEY_LEN);
    put_sum(&s, s.sum);
    return s;
}

/* A disk wears out by writing: what is saved already is not written again. Is it saved now? */
static bool save(void)
{
    static struct saved last;
    struct saved s = to_be_saved();
    if (memcmp(&s, &last, sizeof s) == 0)
        return true;
    if (!replace("cache", &s, sizeof s, true)) {
        not_written("cache");
        return false;
    }
    last = s;
    return true;
}

/* Is this what a gauge has saved, whole? */
static bool is_whole(const struct saved *s)
{
    uint8_t sum[SUM_LEN];
    put_sum(s, sum);
    return memcmp(s->sum, sum, SUM_LEN) == 0 && s->revoked_count[0] <= REVOKED;
}

/* It is taken, if it is in form: gauge_convert also takes what a version before 1.3 has saved. Else nothing is held. */
static bool take(const struct saved *s)
{
    memcpy(cache, s->held, sizeof cache);
    if (gauge_lent_convert(&lent).number != GAUGE_OK) {
        memset(cache, 0, sizeof cache);
        return false;
    }
    revoked_count = s->revoked_count[0];
    memcpy(revoked, s->revoked, sizeof revoked);
    return true;
}

/* What the file `cache` has is taken, where there is one. One that is damaged is told and not used, and stands aside for whoever wants to look at it;
 * one that was kept for another key is another gauge's, and we do not write over it. */
static void take_saved(void)
{
    char path[PATH_MOST], aside[PATH_MOST];
    struct saved s;
    path_of(path, "cache", "");
    path_of(aside, "cache", ".damaged");
    FILE *f = fopen(path, "rb");
    if (f == NULL && errno == ENOENT)
        return;
    if (f == NULL)
        fail("radio: %s can't be read: %s\n", path, strerror(errno));
    bool whole = fread(&s, 1, sizeof s, f) == sizeof s && getc(f) == EOF && is_whole(&s);
    fclose(f);
    if (whole && memcmp(s.own, lent.own + GAUGE_RECORD_KEY, sizeof s.own) != 0)
        fail("radio: %s was saved by a gauge with another key: give each gauge a folder of its own\n", path);
    if (whole && take(&s))
        return;
    rename(path, aside);
    printf("the saved cache is damaged, and is not used: it is now %s\n", aside);
}

/* We go on with what was saved. The firsts are not: they are counted afresh, so that they belong to the cache. */
static void restore(void)
{
    take_saved();
    gauge_firsts_count(cache, sizeof cache, lent.firsts);
}

/* A revocation goes on to all gauges held, with the CPA that came, once: many pass it on to us again. What is remembered is saved at once: whoever
 * goes on from an older cache would hold the key again, and nobody tells him a second time. Where more come at a time than are remembered they could
 * go round for ever, so only so many are passed on from tick to tick. */
static void pass_on(const uint8_t *key, const uint8_t *revoke_cpa, size_t cpa_len)
{
    uint8_t flood[GAUGE_DATAGRAM_MOST];
    if (is_known_revoked(key))
        return;
    if (passed_on == REVOKED) {
        counts.not_passed_on++;
        return;
    }
    passed_on++;
    memcpy(revoked[revoked_count++ % REVOKED], key, GAUGE_KEY_LEN);
    save();
    size_t len = gauge_revocation(&lent, revoke_cpa, cpa_len, flood);
    for (uint32_t i = 0; len > 0 && i < gauge_lent_held(&lent); i++) {
        struct sockaddr_in6 to = endpoint_held(gauge_lent_record(&lent, i));
        send_to(&to, flood, len);
    }
}

/* What comes in. */

/* STAND-IN: the real judge goes here. It is handed a datagram with a CPA (seen->cpa_at, seen->cpa_len), verifies the CPA's signature, its time and,
 * of an AUTHORITY, that it holds the nonce of our INQUIRE, and gives GAUGE_GOOD with the key that the CPA is good for.
 *
 * This one verifies nothing. A CPA is good where the AUTHORITY comes from the very endpoint that we have sent the INQUIRE to, for the key that we
 * inquired about: so whoever answers at an address is believed whatever key he says is his. A revoke CPA is the key itself, and is believed too. */
static uint32_t judge(const struct sockaddr_in6 *from, const uint8_t *datagram, const struct gauge_look_answer *seen, uint8_t *key)
{
    const struct kept *inquire = kept_with(seen->acked);
    memset(key, 0, GAUGE_KEY_LEN);
    if (seen->kind == GAUGE_AUTHORITY && seen->cpa_len == sizeof cpa && datagram[seen->cpa_at] == cpa[0] && inquire != NULL &&
        same_endpoint(from, &inquire->to))
        memcpy(key, inquire->about, GAUGE_KEY_LEN);
    else if (seen->kind == GAUGE_FLOOD && seen->cpa_len == GAUGE_KEY_LEN)
        memcpy(key, datagram + seen->cpa_at, GAUGE_KEY_LEN);
    else
        return 0;
    return GAUGE_GOOD;
}

/* The verdict of the judge, whoever that is; but no CPA is good for a key that we know to be revoked. */
static uint32_t verdict_on(const struct sockaddr_in6 *from, const uint8_t *datagram, const struct gauge_look_answer *seen, uint8_t *key)
{
    uint32_t verdict = judge(from, datagram, seen, key);
    return seen->kind == GAUGE_AUTHORITY && is_known_revoked(key) ? 0 : verdict;
}

/* ACK and AUTHORITY go to the sender; an INQUIRE goes to the gauge that the FLOOD or LOOKUP tells of, and is kept. */
static void send_answer(const struct sockaddr_in6 *from, const uint8_t *datagram, const struct gauge_look_answer *seen, const uint8_t *bytes,
                        size_t len)
{
    if (len == 0)
        return;
    if (gauge_lent_look(&lent, bytes, len).kind == GAUGE_INQUIRE) {
        const uint8_t *entry = datagram + seen->entry_at;
        struct sockaddr_in6 to = socket_endpoint(entry + GAUGE_ENTRY_PORT, entry + GAUGE_ENTRY_ADDRESSES);
        send_and_keep(&to, entry + GAUGE_ENTRY_KEY, bytes, len);
    } else {
        send_to(from, bytes, len);
    }
}

/* The gauge has accepted it: what was answered by it is forgotten, and a revocation passed on. */
static void accepted(const uint8_t *datagram, const struct gauge_look_answer *seen, const uint8_t *key)
{
    if (seen->kind == GAUGE_ACK || seen->kind == GAUGE_AUTHORITY) {
        struct kept *answered = kept_with(seen->acked);
        if (answered != NULL)
            answered->len = 0;
    }
    if (seen->kind == GAUGE_FLOOD && seen->entry_len == 0)
        pass_on(key, datagram + seen->cpa_at, seen->cpa_len);
}

/* A number that is not 0. The sender's is no matter of ours; memory that is not in form is, and nothing goes on with it. */
static void refused(uint32_t number)
{
    if (number == GAUGE_MEMORY)
        fail("radio: what is lent is not in form: %s\n", gauge_part_text(gauge_lent_not_in_form(&lent)));
    counts.refused[number < NUMBERS ? number : 0]++;
}

/* Is it an ACK from elsewhere than our FLOOD went to? One can remove a key, no judge is asked, and IDs rise by one, so that anybody can guess
 * them. */
static bool is_strange_ack(const struct sockaddr_in6 *from, const struct gauge_look_answer *seen)
{
    const struct kept *flood = kept_with(seen->acked);
    return seen->kind == GAUGE_ACK && flood != NULL && !same_endpoint(from, &flood->to);
}

/* The radio's buffer is copied first: one that is filled by itself could change between the look, on which the verdict rests, and the receive. */
static void arrives(const struct sockaddr_in6 *from, const uint8_t *buffer, size_t len)
{
    uint8_t datagram[GAUGE_DATAGRAM_MOST], key[GAUGE_KEY_LEN];
    memcpy(datagram, buffer, len);
    struct gauge_look_answer seen = gauge_lent_look(&lent, datagram, len);
    if (seen.number != GAUGE_OK) {
        counts.malformed++;
        return;
    }
    if (is_strange_ack(from, &seen)) {
        counts.strange++;
        return;
    }
    uint32_t verdict = verdict_on(from, datagram, &seen, key), id = lent.id;
    random_bytes(lent.nonce, sizeof lent.nonce);
    gauge_lent_verdict(&lent, verdict, key);
    struct gauge_answer a = gauge_lent_receive(&lent, datagram, len);
    if (recorded) {
        tell_hour(from);
        gauge_trace_receive(&night, a, id, lent.nonce, verdict, key, datagram, len);
    }
    if (a.number != GAUGE_OK) {
        refused(a.number);
        return;
    }
    accepted(datagram, &seen, key);
    send_answer(from, datagram, &seen, lent.output, a.first);
    send_answer(from, datagram, &seen, lent.output + a.first, a.second);
}

/* The kernel tells with a datagram how many it has dropped by then, as we had not taken those before. */
static void count_overrun(struct msghdr *m)
{
#ifdef SO_RXQ_OVFL
    for (struct cmsghdr *c = CMSG_FIRSTHDR(m); c != NULL; c = CMSG_NXTHDR(m, c)) {
        uint32_t dropped;
        if (c->cmsg_level == SOL_SOCKET && c->cmsg_type == SO_RXQ_OVFL) {
            memcpy(&dropped, CMSG_DATA(c), sizeof dropped);
            counts.overrun = dropped;
        }
    }
#else
    (void)m;
#endif
}

/* Takes a datagram, where one has come. */
static bool take_datagram(void)
{
    static uint8_t buffer[GAUGE_DATAGRAM_MOST]; /* the radio's: of a longer datagram it has the beginning */
    union {
        struct cmsghdr aligned;
        uint8_t bytes[CMSG_SPACE(sizeof(uint32_t))];
    } control;
    struct sockaddr_in6 from;
    struct iovec into = {buffer, sizeof buffer};
    struct msghdr m;
    memset(&m, 0, sizeof m);
    m.msg_name = &from;
    m.msg_namelen = sizeof from;
    m.msg_iov = &into;
    m.msg_iovlen = 1;
    m.msg_control = control.bytes;
    m.msg_controllen = sizeof control.bytes;
    ssize_t len = recvmsg(radio, &m, MSG_DONTWAIT);
    if (len < 0)
        return false;
    counts.came++;
    count_overrun(&m);
    if ((m.msg_flags & MSG_TRUNC) != 0)
        counts.too_long++;
    else if (!is_of_our_network(&from))
        counts.elsewhere++;
    else
        arrives(&from, buffer, (size_t)len);
    return true;
}

/* What is done at each tick. */

/* What the gauge lists is sent again; what is kept and not listed is forgotten. */
static void repeat(void)
{
    struct gauge_answer a = gauge_lent_tick(&lent);
    if (recorded) {
        tell_hour(NULL);
        gauge_trace_tick(&night, a);
    }
    if (a.number != GAUGE_OK) {
        refused(a.number);
        return;
    }
    for (size_t i = 0; i < KEPT; i++) {
        if (!gauge_tick_lists(lent.output, a.first, kept[i].id))
            kept[i].len = 0;
        if (kept[i].len > 0)
            send_to(&kept[i].to, kept[i].bytes, kept[i].len);
    }
}

/* Our own record to the gauges that we were told of: at first, and as long as we hold nobody. */
static void call(void)
{
    uint8_t flood[GAUGE_SEND_LEN];
    if (ticks > FIRST && gauge_lent_held(&lent) > 0)
        return;
    for (size_t i = 0; i < called_count; i++)
        if (gauge_lent_find(&lent, called[i].key) == gauge_lent_held(&lent))
            send_to(&called[i].at, flood, gauge_first_flood(&lent, flood));
}

/* A record goes to a gauge that we hold: one with a key near to that gauge's, round the ring, or else our own. */
static void flood(void)
{
    uint32_t n = gauge_lent_held(&lent), to = dice(n), near = (to + dice(2 * SIDE + 1) + SIDE * (n - 1)) % n; /* SIDE less, modulo n */
    const uint8_t *neighbour = gauge_lent_record(&lent, to);
    const uint8_t *about = (near == to ? lent.own : gauge_lent_record(&lent, near)) + GAUGE_RECORD_KEY;
    struct sockaddr_in6 at = endpoint_held(neighbour);
    uint32_t id = lent.id;
    struct gauge_answer a = gauge_lent_send(&lent, neighbour + GAUGE_RECORD_KEY, about);
    if (recorded) {
        tell_hour(&at);
        gauge_trace_send(&night, a, id, neighbour + GAUGE_RECORD_KEY, about);
    }
    if (a.number == GAUGE_OK)
        send_and_keep(&at, about, lent.output, a.first);
    else
        refused(a.number); /* GAUGE_FULL: too much waits, and the next tick will do */
}

/* The file `list`: how much was sent and came, how many are held, and the neighbours' keys, nearest first. */

static size_t put_key(char *text, const char *word, const uint8_t *key)
{
    size_t len = (size_t)sprintf(text, "%s ", word);
    for (size_t i = 0; i < GAUGE_KEY_LEN; i++)
        len += (size_t)sprintf(text + len, "%02x", key[i]);
    text[len++] = '\n';
    return len;
}

static void tell_list(void)
{
    char text[256 + 2 * SIDE * (2 * GAUGE_KEY_LEN + 8)];
    struct gauge_answer a = gauge_lent_neighbours(&lent, lent.own + GAUGE_RECORD_KEY);
    if (a.number != GAUGE_OK)
        refused(a.number);
    size_t len = (size_t)sprintf(text, "ticks %lu\nsent %lu\ncame %lu\nheld %u\n", ticks, counts.sent, counts.came, gauge_lent_held(&lent));
    for (uint32_t i = 0; i < a.first + a.second; i++)
        len += put_key(text + len, i < a.first ? "below" : "above", lent.output + GAUGE_KEY_LEN * i);
    if (!replace("list", text, len, false))
        not_written("list");
}

static void tick(void)
{
    ticks++;
    passed_on = 0;
    repeat();
    call();
    for (int i = 0; gauge_lent_held(&lent) > 0 && i < FLOODS; i++)
        flood();
    if (ticks % save_ticks == 0)
        save();
    tell_list();
    flush_night();
}

/* Beginning and ending. */

static void usage(void)
{
    fprintf(stderr, "radio [-t MILLISECONDS] [-s TICKS] [-n ADDRESS/BITS] OWN RECORDS FOLDER\n");
    exit(2);
}

static unsigned long number_in(const char *text, unsigned long most)
{
    char *end;
    unsigned long n = strtoul(text, &end, 10);
    if (*text < '0' || *text > '9' || *end != 0 || n > most)
        usage();
    return n;
}

static bool read_key(const char *text, uint8_t *key)
{
    if (strlen(text) != 2 * GAUGE_KEY_LEN || strspn(text, "0123456789abcdefABCDEF") != 2 * GAUGE_KEY_LEN)
        return false;
    for (size_t i = 0; i < GAUGE_KEY_LEN; i++) {
        char two[3] = {text[2 * i], text[2 * i + 1], 0};
        key[i] = (uint8_t)strtoul(two, NULL, 16);
    }
    return true;
}

/* An address in figures, with a link behind % where it wants one, and a port. */
static bool read_endpoint(const char *address, const char *port, struct sockaddr_in6 *at)
{
    struct addrinfo hints, *found;
    memset(&hints, 0, sizeof hints);
    hints.ai_family = AF_INET6;
    hints.ai_socktype = SOCK_DGRAM;
    hints.ai_flags = AI_NUMERICHOST | AI_NUMERICSERV;
    if (strspn(port, "0123456789") != strlen(port) || strtoul(port, NULL, 10) > 65535 || getaddrinfo(address, port, &hints, &found) != 0)
        return false;
    memcpy(at, found->ai_addr, sizeof *at);
    freeaddrinfo(found);
    return true;
}

/* The records of a file, at most so many; how many there are. */
static size_t read_records(const char *path, struct known *records, size_t most)
{
    char key[66], address[64], port[8];
    size_t n = 0;
    int fields;
    FILE *f = fopen(path, "r");
    if (f == NULL)
        fail("radio: %s can't be read: %s\n", path, strerror(errno));
    while ((fields = fscanf(f, "%65s %63s %7s", key, address, port)) == 3) {
        if (n == most || !read_key(key, records[n].key) || !read_endpoint(address, port, &records[n].at))
            fail("radio: record %lu of %s is none: key (64 hexadecimal digits), IPv6 address and port are wanted; or it is one too many\n",
                 (unsigned long)n + 1, path);
        n++;
    }
    if (fields != EOF || ferror(f))
        fail("radio: %s can't be read to its end, or ends with what is no record\n", path);
    fclose(f);
    return n;
}

static void read_network(char *text)
{
    struct sockaddr_in6 at;
    char *slash = strchr(text, '/');
    if (slash == NULL)
        usage();
    *slash = 0;
    network_bits = (unsigned)number_in(slash + 1, 8 * GAUGE_ADDRESS_LEN);
    if (!read_endpoint(text, "0", &at))
        usage();
    memcpy(network, &at.sin6_addr, sizeof network);
}

/* Others must reach us there. */
static bool is_good_own(const struct sockaddr_in6 *at)
{
    return at->sin6_port != 0 && !IN6_IS_ADDR_UNSPECIFIED(&at->sin6_addr) && !IN6_IS_ADDR_MULTICAST(&at->sin6_addr) &&
           !IN6_IS_ADDR_V4MAPPED(&at->sin6_addr);
}

static void begin_gauge(const struct known *own)
{
    uint16_t port = ntohs(own->at.sin6_port);
    gauge_lent_begin(&lent, cache, sizeof cache, cpas, gauge_cpas_put(cpas, 0, cpa, sizeof cpa));
    gauge_lent_own(&lent, own->key, port, own->at.sin6_addr.s6_addr, 1);
    random_bytes((uint8_t *)&lent.id, sizeof lent.id);
    scope = own->at.sin6_scope_id;
}

static void open_radio(const struct sockaddr_in6 *at)
{
    char address[INET6_ADDRSTRLEN];
    bool linkless = IN6_IS_ADDR_LINKLOCAL(&at->sin6_addr) && at->sin6_scope_id == 0;
    inet_ntop(AF_INET6, &at->sin6_addr, address, sizeof address);
    radio = socket(AF_INET6, SOCK_DGRAM, 0);
    if (radio < 0 || bind(radio, (const struct sockaddr *)at, sizeof *at) != 0)
        fail("radio: no socket at %s port %u: %s%s\n", address, (unsigned)ntohs(at->sin6_port), strerror(errno),
             linkless ? "; a link-local address wants its link, as fe80::1%eth0" : "");
#ifdef SO_RXQ_OVFL
    int on = 1;
    counts.overrun_known = setsockopt(radio, SOL_SOCKET, SO_RXQ_OVFL, &on, sizeof on) == 0;
#endif
}

/* What we keep: two gauges in one folder would write over each other's. */
static void open_folder(void)
{
    folder_open = open(folder, O_RDONLY | O_DIRECTORY);
    if (folder_open < 0)
        fail("radio: the folder %s can't be used: %s\n", folder, strerror(errno));
    if (flock(folder_open, LOCK_EX | LOCK_NB) != 0)
        fail("radio: the folder %s can't be used: another gauge keeps its files there\n", folder);
}

static void on_signal(int number)
{
    (void)number;
    ended = 1;
}

static void heed_signals(void)
{
    struct sigaction act;
    memset(&act, 0, sizeof act);
    act.sa_handler = on_signal; /* without SA_RESTART: poll comes back at once */
    sigaction(SIGTERM, &act, NULL);
    sigaction(SIGINT, &act, NULL);
    signal(SIGPIPE, SIG_IGN); /* whoever read what we print is gone: no reason to end */
}

/* Datagrams as they come, a batch at a time, and between two batches the tick where its time has come. */
static void run(void)
{
    uint64_t next = milliseconds(CLOCK_MONOTONIC), now = next;
    while (!ended) {
        struct pollfd wait = {radio, POLLIN, 0};
        uint64_t left = next > now ? next - now : 0;
        if (poll(&wait, 1, left < 1000 ? (int)left : 1000) > 0) /* a signal just before it is heeded a second later */
            for (int i = 0; i < BATCH && take_datagram(); i++)
                continue;
        bound_night();
        now = milliseconds(CLOCK_MONOTONIC);
        if (now >= next) {
            tick();
            next = next + tick_ms > now ? next + tick_ms : now + tick_ms; /* ticks that were missed are not made up for */
        }
    }
}

static void tell_counts(void)
{
    printf("%lu ticks, %lu datagrams sent, %lu came\n", ticks, counts.sent, counts.came);
    printf("dropped: %lu too long, %lu from elsewhere, %lu malformed, %lu ACKs from another than the FLOOD went to\n", counts.too_long,
           counts.elsewhere, counts.malformed, counts.strange);
    if (counts.overrun_known)
        printf("dropped: %lu that came faster than they were taken\n", counts.overrun);
    else
        printf("how many came faster than they were taken is not told here\n");
    for (uint32_t i = 0; i < NUMBERS; i++)
        if (counts.refused[i] > 0)
            printf("refused: %lu, %s\n", counts.refused[i], gauge_number_text(i == 0 ? NUMBERS : i));
    printf("%lu not sent, %lu revocations not passed on\n", counts.not_sent, counts.not_passed_on);
    printf("%lu times the cache or the list could not be written\n", counts.not_written);
}

static bool end(void)
{
    bool saved = save();
    tell_list();
    end_night("");
    tell_counts();
    return saved;
}

int main(int argc, char **argv)
{
    struct known own;
    char *network_told = NULL;
    for (int option; (option = getopt(argc, argv, "t:s:n:")) != -1;) {
        if (option == 't')
            tick_ms = number_in(optarg, 1000000);
        else if (option == 's')
            save_ticks = number_in(optarg, 1000000);
        else if (option == 'n')
            network_told = optarg;
        else
            usage();
    }
    if (argc - optind != 3 || tick_ms == 0 || save_ticks == 0)
        usage();
    folder = argv[optind + 2];
    if (read_records(argv[optind], &own, 1) != 1)
        fail("radio: %s has no record\n", argv[optind]);
    if (!is_good_own(&own.at))
        fail("radio: %s: others must reach us at this address and port: an IPv6 address of this machine, and not port 0\n", argv[optind]);
    called_count = read_records(argv[optind + 1], called, CALLED_MOST);
    memcpy(network, &own.at.sin6_addr, sizeof network);
    if (network_told != NULL)
        read_network(network_told);

    setvbuf(stdout, NULL, _IOLBF, 0);
    if (!is_of_our_network(&own.at))
        printf("its own address is not of the network that it hears: others of that network may not reach it\n");
    begin_gauge(&own);
    heed_signals();
    open_radio(&own.at);
    open_folder();
    restore();
    if (gauge_lent_held(&lent) > 0)
        printf("begins with %u records of its saved cache: no night is recorded, as one begins with nothing held\n", gauge_lent_held(&lent));
    else if (!can_be_recorded())
        printf("no night is recorded, as a trace has another cache or CPA\n");
    else
        begin_night();
    run();
    return end() ? 0 : 1;
}
