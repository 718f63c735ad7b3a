/* The gauge, as a radio program in C calls it. Link libgauge.a (`make lib`), for x86-64.
 *
 * The gauge has no memory, no socket and no clock of its own. The radio program lends it memory and numbers, and
 * sends what it writes. Its nine calls:
 *
 *   gauge_receive      a datagram has come: what is to be sent, and what changes in the memory
 *   gauge_send         a FLOOD of a record is to go to a neighbour
 *   gauge_tick         a second has passed: which datagrams are to be sent again
 *   gauge_neighbours   the five keys next to one of our own on either side
 *   gauge_closest      the record closest to a target, past those that a LOOKUP has been at already
 *   gauge_search       whether a key is held, where, and how many keys are compared to find that
 *   gauge_convert      memory of a version before 1.3 is to be used: each record in it keeps its first address
 *   gauge_changes      what changed between two saved caches: each key gone, new, or held with another record
 *   gauge_look         what a datagram is, and where in it the CPA and the nonce stand; nothing is done
 *
 * Above the gauge stand three for a pond's reading, a depth or a fault with litres in and out, which an AUTHORITY may
 * carry. They use no memory:
 *
 *   gauge_carry        an AUTHORITY is to carry a reading
 *   gauge_carried      which reading a datagram carries
 *   gauge_balance      litres in minus litres out
 *
 * What holds for all of them:
 *
 * - What is lent is a pointer and a length in bytes, one after the other. It is lent for that call alone: the gauge
 *   keeps no pointer, and hands none back. A pointer is not NULL, not even with length 0. Any length may be lent that
 *   something in C can have (PTRDIFF_MAX, below 2^63): one that is not right is answered by a number.
 * - `const` is lent for reading. All else is lent for writing too, and may then not overlap anything else that is
 *   lent to the same call. The gauge cannot test that.
 * - Nothing else writes what is lent before the call returns, `const` or not: no other thread, no interrupt, no radio
 *   that fills its receive buffer by itself (DMA). Copy such a buffer, and lend the copy. The gauge cannot test that
 *   either.
 * - Every call returns, whatever the bytes are, and its answer begins with a number (below): 0, or the first that
 *   applies, in this order:
 *
 *       1 2 3 4 5 6 7 8 9 10 11 12 13 14 15
 *
 *   So where 9 and 15 both apply it is 9. Go by the list: so far it gives the lowest, but numbers of later versions
 *   will stand between these, and not at its end. gauge_balance has nothing to refuse: its answer is the balance.
 * - With any number but 0 nothing has changed: each byte is as it was lent, and the rest of the answer is 0.
 * - With 0 the output has changed in its first bytes only, as many as the call says; and cache, firsts and waiting
 *   table are in form again.
 * - The calls on one gauge's memory come one after the other. Gauges that share no memory do not know of each other.
 * - A call takes at most GAUGE_STACK_MOST bytes of the stack that it is called on, whatever the bytes are: what is
 *   passed there, the return address and all below it, with 256 bytes for a memcpy, memmove or memset of your C
 *   library. A loader that looks these up at their first call takes more then: link with -z now, or statically. No
 *   call allots memory, and none calls anything of yours.
 * - Keys go round, modulo 2^256. A key is above one of ours if 1 to 2^255 steps up from that lead to it, so the one
 *   just opposite too, and else below; how near it is counts along that side. So the gauge with the smallest key has
 *   the one with the largest as its neighbour below. In the cache records stand in plain order all the same.
 * - A gauge may stand for several ponds, one to GAUGE_OWN_MOST (4): it then has an own record for each, with a key of
 *   its own, and what is said of our key below is said of any of them, but for the first where that is named. Each has
 *   a neighbour list and a CPA; cache, firsts and waiting table are the gauge's.
 * - How floating-point numbers are rounded, and whether they trap, does not matter to any call: a depth is looked at
 *   by its bits.
 *
 * Numbers are of fixed width; build with -Wconversion, so that none loses bits on the way: a verdict of 257 in eight
 * bits would be 1, and good. From C's library the archive wants memcpy, memmove and memset.
 *
 * The shortest program: the gauge with key 12 takes one datagram, and what it answers is written. (A real one keeps
 * its memory, looks first, and sends.)
 *
 *     #include "gauge.h"
 *     #include <stdio.h>
 *     static uint8_t own[GAUGE_RECORD_LEN], cpas[GAUGE_CPAS_LEN(1)] = {1}, cache[GAUGE_CACHE_LEN(64)],
 *         firsts[GAUGE_FIRSTS_LEN], waiting[GAUGE_WAITING_LEN], nonce[GAUGE_NONCE_LEN], key[GAUGE_KEY_LEN],
 *         datagram[GAUGE_DATAGRAM_MOST], output[GAUGE_OUTPUT_LEN];
 *     int main(void)
 *     {
 *         own[GAUGE_RECORD_KEY + GAUGE_KEY_LEN - 1] = 12;
 *         own[GAUGE_RECORD_COUNT] = 1;
 *         size_t len = fread(datagram, 1, sizeof datagram, stdin);
 *         struct gauge_answer a = gauge_receive(own, sizeof own, cpas, sizeof cpas, cache, sizeof cache, firsts,
 *                                               sizeof firsts, waiting, sizeof waiting, GAUGE_DRT_MAJOR,
 *                                               GAUGE_DRT_MINOR, 7, nonce, sizeof nonce, 0, key, sizeof key,
 *                                               datagram, len, output, sizeof output);
 *         fwrite(output, 1, (size_t)a.first + a.second, stdout);
 *         return (int)a.number;
 *     }
 *
 * 22 arguments by hand are for who wants them: gauge_host.h has the same calls over one struct, the messages that a
 * host writes itself, texts for the numbers, and recipes for what a host does all day. To record a gauge's calls:
 * gauge_trace.h. The memory, byte by byte: docs/MEMORY.md. What was decided, and why: docs/DECISIONS.md. Examples:
 * examples/first.c, examples/two_ponds.c, examples/hill.c with all that a radio program does, and examples/radio.c,
 * one gauge on a real socket, to begin with. */
#ifndef GAUGE_H
#define GAUGE_H

#include <stddef.h>
#include <stdint.h>

/* A cast that C and C++ both take without a warning. */
#ifdef __cplusplus
#define GAUGE_TO(type, value) static_cast<type>(value)
extern "C" {
#else
#define GAUGE_TO(type, value) ((type)(value))
#endif

/* The version of this header and of the archive, as gauge.pc has it; and as a number that rises. CHANGELOG.md tells
 * what changed. */
#define GAUGE_VERSION "1.8"
#define GAUGE_VERSION_NUMBER 108

/* The versions in the header of a message: those of the message that document 003 prints. Document 000 leaves them to
 * whoever builds on it. Every call that has a major and a minor takes any others too; all gauges that are to hear each
 * other have the same major. */
#define GAUGE_DRT_MAJOR 6
#define GAUGE_DRT_MINOR 101

/* Lengths in bytes. */
#define GAUGE_KEY_LEN 32          /* a key: a number of 256 bits, most significant byte first */
#define GAUGE_NONCE_LEN 16
#define GAUGE_RECORD_LEN 100      /* a record: own, or in the cache */
#define GAUGE_OWN_MOST 4          /* own records; at least one */
#define GAUGE_CPA_LEAST 1         /* the CPA of an own record */
#define GAUGE_CPA_MOST 1024
/* A CPA of n bytes as it is lent in `cpas`: its length in 2 bytes, the least significant first, and the bytes. */
#define GAUGE_CPAS_LEN(n) (2 + GAUGE_TO(size_t, n))
#define GAUGE_ENDPOINT_LEN 18     /* an endpoint of a path: port (2) and address (16), as on the wire */
#define GAUGE_PLACE_LEN 140       /* a place of the waiting table */
#define GAUGE_PLACES 16
#define GAUGE_WAITING_LEN 2240    /* the waiting table: 16 places */
#define GAUGE_CACHE_LEAST 10      /* the cache has C records, C from 10 for each own record to 256, .. */
#define GAUGE_CACHE_MOST 256
/* .. and this length. C stays as long as the memory is in use. */
#define GAUGE_CACHE_LEN(c) (GAUGE_TO(size_t, GAUGE_RECORD_LEN) * GAUGE_TO(size_t, c))
#define GAUGE_FIRSTS_LEN 512      /* the firsts: how many keys held begin with each byte, 256 numbers of 2 bytes */
#define GAUGE_DATAGRAM_LEAST 12
#define GAUGE_DATAGRAM_MOST 1232
#define GAUGE_OUTPUT_LEN 2464     /* an output that is enough for each of the calls but gauge_changes */
#define GAUGE_SEND_LEN 116        /* what gauge_send writes, always */
#define GAUGE_TICK_LEN 64         /* what gauge_tick asks for, always */
#define GAUGE_LIST_LEN 320        /* what gauge_neighbours asks for, always */
#define GAUGE_CHANGE_LEN 101      /* an entry of gauge_changes: its kind, and a record */
/* What is always enough for gauge_changes with caches of C records: all keys of one gone, all of the other new. */
#define GAUGE_CHANGES_LEN(c) (2 * GAUGE_TO(size_t, GAUGE_CHANGE_LEN) * GAUGE_TO(size_t, c))
#define GAUGE_CARRY_LEN 20        /* what a reading adds to an AUTHORITY that has no payload, whatever its kind */
#define GAUGE_STACK_MOST 2048     /* no call takes more stack than this */

/* A record, by place: key (32), port (2, most significant byte first), how many addresses (1, always 1), a zero byte,
 * the address of 16 bytes as it stands on the wire, and 48 zero bytes. A record has one address since version 1.3; of a
 * gauge that tells of two to four in a FLOOD or LOOKUP the first is kept. Before, the count was 1 to 4, and the 48
 * bytes were three more addresses, zero where they were not used: the old form, which gauge_convert alone takes. */
#define GAUGE_RECORD_KEY 0
#define GAUGE_RECORD_PORT 32
#define GAUGE_RECORD_COUNT 34
#define GAUGE_RECORD_ADDRESSES 36
#define GAUGE_ADDRESS_LEN 16

/* A route entry in a datagram, by place from `entry_at` of gauge_look: key (32), major, minor, port (2), flags, how
 * many addresses, the addresses. */
#define GAUGE_ENTRY_KEY 0
#define GAUGE_ENTRY_MAJOR 32
#define GAUGE_ENTRY_MINOR 33
#define GAUGE_ENTRY_PORT 34
#define GAUGE_ENTRY_COUNT 37
#define GAUGE_ENTRY_ADDRESSES 38

/* The numbers. For each what is the matter, whose it is, and what to do. Which one is given where several apply is
 * told by the list above. */
enum gauge_number {
    GAUGE_OK = 0,          /* accepted */
    GAUGE_MEMORY = 1,      /* what you have lent is not in form: own records, CPAs, cache, firsts, waiting table, or a
                              nonce, key or target of another length, or a path of endpoints that are not whole, or two
                              caches of unequal length. Yours: mend it (gauge_host.h tells which; records of a version
                              before 1.3 need gauge_convert). */
    GAUGE_LENGTH = 2,      /* datagram shorter than 12 or longer than 1,232 bytes. The sender's, as up to 7: drop the
                              datagram. */
    GAUGE_HEADER = 3,      /* its first five bytes are not 00 10 00 0C 51 */
    GAUGE_MAJOR = 4,       /* its major version is not the given one */
    GAUGE_TYPE = 5,        /* its type is unknown */
    GAUGE_FIELD = 6,       /* a field malformed, misplaced, missing or running past the end, an address count outside
                              1 to 4, or bytes left over */
    GAUGE_NOT_TAKEN = 7,   /* SOLICIT, ADVERTISE or REQUEST, or an AUTHORITY in part */
    GAUGE_STRAY = 8,       /* an ACK to no waiting flood, an AUTHORITY to no waiting inquiry: late or stray. Drop it. */
    GAUGE_UNTRUSTED = 9,   /* an AUTHORITY without a CPA, or a verdict that is not 1 where a CPA is needed. Not
                              trusted: drop it. */
    GAUGE_OTHER_KEY = 10,  /* the AUTHORITY's CPA is good for another key than the one inquired about. Not trusted:
                              drop it. */
    GAUGE_OWN_KEY = 11,    /* a route entry or revocation in a FLOOD names a key of ours: of several ponds one may be
                              told of another. Drop it. */
    GAUGE_NOT_OURS = 12,   /* an INQUIRE for a key that is none of ours: drop it. A neighbour list asked for by such a
                              key. Or a FLOOD to send whose neighbour is not held, or whose record is neither ours nor
                              held. */
    GAUGE_ID_WAITING = 13, /* a place must be opened, and its ID is waiting already. Call again with another ID. */
    GAUGE_FULL = 14,       /* a place must be opened, and all 16 are used. Try later: answers and ticks free them. A
                              FLOOD or LOOKUP that comes with a route entry to inquire about is then not answered. */
    GAUGE_ROOM = 15        /* the output has too little room. Call again with more: GAUGE_OUTPUT_LEN is always
                              enough, GAUGE_CHANGES_LEN for gauge_changes. */
};

/* The types of messages, as gauge_look tells them. */
enum gauge_kind {
    GAUGE_SOLICIT = 1,
    GAUGE_ADVERTISE = 2,
    GAUGE_REQUEST = 3,
    GAUGE_FLOOD = 4,
    GAUGE_INQUIRE = 7,
    GAUGE_AUTHORITY = 8,
    GAUGE_ACK = 9,
    GAUGE_LOOKUP = 11
};

/* The kinds of a change between two caches. */
enum gauge_change {
    GAUGE_CHANGE_GONE = 1, /* held in the first, and not in the second */
    GAUGE_CHANGE_NEW = 2,  /* held in the second, and not in the first */
    GAUGE_CHANGE_OTHER = 3 /* held in both, with another port or address in the second */
};

/* The kinds of a reading. */
#define GAUGE_READING_DEPTH 1
#define GAUGE_READING_FAULT 2

/* The numbers of a reading, in `reading` of the two answers below. They have nothing to do with those above, and are
 * never mixed with them. */
enum gauge_reading_number {
    GAUGE_READING_OK = 0,
    GAUGE_READING_LENGTH = 1, /* a payload that is shorter or longer than a reading of its kind is, or than it says; a
                                 fault number over 65535 */
    GAUGE_READING_KIND = 2,   /* its kind is unknown */
    GAUGE_READING_OUTSIDE = 3 /* its depth is not from 0 to 20 metres, or not a number */
};

/* The verdict on a CPA that is good. Any other number is not good. */
#define GAUGE_GOOD 1

/* gauge_closest: what it tells of the cache's first record; the next ones have the numbers that follow. Those below it
 * are our own, in their order from 0. */
#define GAUGE_CLOSEST_HELD 4

/* gauge_closest, gauge_search: the most keys that are compared, as 256, the most that are held, has 9 binary digits. */
#define GAUGE_COMPARED_MOST 9

/* What the first eight calls answer. `first` and `second`: lengths of datagrams (receive, send), how many IDs (tick),
 * how many keys below and above (neighbours), which record and how many keys were compared (closest, search), how many
 * entries and how many bytes (changes); 0 where a call has nothing to tell. */
struct gauge_answer {
    uint32_t number, first, second;
};

/* What gauge_look answers. A place (`_at`) counts from the start of the datagram, and is that of the contents behind
 * a field's number and length; place and length are both 0 for what is not there. Contents that are there and empty
 * have a place, and length 0. */
struct gauge_look_answer {
    uint32_t number;                /* GAUGE_OK, GAUGE_LENGTH to GAUGE_FIELD, or GAUGE_NOT_TAKEN for an AUTHORITY in
                                       part. Not 0: the rest is 0. */
    uint32_t kind;                  /* one of enum gauge_kind */
    uint32_t id;                    /* the message ID */
    uint32_t acked;                 /* the ID that an ADVERTISE, AUTHORITY or ACK answers; 0 in the others */
    uint32_t cpa_at, cpa_len;       /* AUTHORITY: the CPA. FLOOD: the revoke CPA. */
    uint32_t nonce_at, nonce_len;   /* INQUIRE, REQUEST: the nonce, 16 bytes. SOLICIT, ADVERTISE: the hashed nonce, 20
                                       bytes. */
    uint32_t entry_at, entry_len;   /* SOLICIT, FLOOD, AUTHORITY, LOOKUP: the route entry, 38 bytes and 16 for each
                                       address */
    uint32_t target_at, target_len; /* LOOKUP: the target key, 32 bytes */
};

/* What gauge_carry answers. */
struct gauge_carry_answer {
    uint32_t number;  /* GAUGE_OK, GAUGE_LENGTH to GAUGE_NOT_TAKEN, or GAUGE_ROOM. Not 0: the rest is 0. */
    uint32_t length;  /* how many bytes were written; 0 where `reading` is not 0 */
    uint32_t reading; /* one of enum gauge_reading_number */
};

/* What gauge_carried answers. */
struct gauge_reading {
    uint32_t number;  /* GAUGE_OK, or GAUGE_LENGTH to GAUGE_NOT_TAKEN. Not 0: the rest is 0. */
    uint32_t reading; /* one of enum gauge_reading_number. Not 0: the rest is 0. */
    uint32_t kind;    /* GAUGE_READING_DEPTH or GAUGE_READING_FAULT; 0 where the AUTHORITY carries none */
    uint32_t measure; /* the 32 bits of the depth, a binary32 (float) in metres; or the fault number */
    uint32_t litres_in, litres_out;
};

/* A datagram has come.
 *
 *   own       our own records, one behind the other: 100 bytes each, one to GAUGE_OWN_MOST of them, their keys strictly
 *             increasing. Ports and addresses may change from call to call. Keys and their number may not, as long as
 *             cache and waiting table are in use: for others begin with all zero. That is yours to see to, as no
 *             call can see such a change: an own key that is held or inquired about gives GAUGE_MEMORY, and any other
 *             is taken, with a cache that was kept for other keys: neighbours of the new one may have been dropped.
 *   cpas      the CPAs of our own records, in the same order: for each its length in 2 bytes, the least significant
 *             first, 1 to 1,024, then so many bytes; nothing behind the last. Read only; it is no memory that begins
 *             all zero. The AUTHORITY that answers an INQUIRE has the one of the record with the key that it is for.
 *             Where that INQUIRE has a nonce (gauge_look), the CPA should hold it, of several each: only you can see
 *             to that.
 *   cache     for writing: GAUGE_CACHE_LEN(C) bytes, C at least ten times the number of own records. All zero is the
 *             empty cache. None of our keys is held.
 *   firsts    for writing: GAUGE_FIRSTS_LEN bytes. How many of the keys held, so none of ours, begin with each byte:
 *             number b, of those that begin with b, stands at 2 * b in 2 bytes, the least significant first. All zero
 *             belongs to the empty cache. It is kept beside the cache by this call alone, the only one that learns,
 *             drops or removes a key, and changes then by one at the first byte of each such key. Numbers that are
 *             not those of the cache lent with them are not in form: keep the two together, and count afresh for a
 *             cache that was saved without them (gauge_firsts_count of gauge_host.h).
 *   waiting   for writing: 2,240 bytes. All zero is the empty table. None of our keys is inquired about.
 *   major     our major version. A datagram with another one gives GAUGE_MAJOR. It stands in what is sent.
 *   minor     our minor version, which stands in what is sent.
 *   id        a message ID that you have not used of late. The ACK or AUTHORITY that is sent has it; an INQUIRE has
 *             id + 1 (4294967295 is followed by 0), also where it goes out alone. So a receive may use up both.
 *   nonce     16 bytes, random, which go into an INQUIRE. Lend them with every receive.
 *   verdict   your verdict on the CPA or revoke CPA in the datagram (gauge_look tells where it stands): GAUGE_GOOD if
 *             it is good for the key below. Ignored where the message has none.
 *   key       32 bytes: the key that the verdict is given with, zeros where there is none. Lend them with every
 *             receive.
 *   datagram  as it came.
 *   output    for writing: what is to be sent. On GAUGE_OK the first `first` bytes are a datagram, and the next
 *             `second` bytes another one; 0 for one that is not there. No other byte of it has changed.
 *
 * What is done, and where what is written goes:
 *
 *   FLOOD with a route entry   an ACK to the sender, unless the FLOOD asks for none; an INQUIRE to an address of the
 *                              route entry (gauge_look), and a place that waits for its answer, unless that very
 *                              record is held (the same port and first address; others do not count) or an inquiry
 *                              for its key waits already. Nothing is learned yet. Where both are written the ACK is
 *                              the first; an INQUIRE alone is the first.
 *   FLOOD with a revocation    the key of the verdict is removed from the cache, and a waiting inquiry for it freed;
 *                              an ACK to the sender, as above.
 *   INQUIRE for a key of ours  an AUTHORITY with the CPA of that own record, to the sender.
 *   AUTHORITY                  the record that was inquired about is learned, with the first address that its FLOOD
 *                              or LOOKUP told of, and its place freed. Nothing is sent. A full cache drops, of the
 *                              keys that are then in no neighbour list of ours, the one farthest round the ring from
 *                              our first key, of two equally far the lower number; that may be the one just learned.
 *   ACK                        the flood's place is freed. If it says that the neighbour has not the key that we hold
 *                              it for, the key is removed. (Our ACK says so for a key that is none of ours.)
 *   LOOKUP                     an AUTHORITY with the record closest to the target, 96 bytes, to the sender, as
 *                              gauge_closest tells it for the LOOKUP's path: so nobody is sent back where the LOOKUP
 *                              came from. Where it has a route entry, behind it an INQUIRE to an address of that
 *                              (gauge_look), and a place that waits for its answer, unless that very record is held,
 *                              an inquiry for its key waits already, or the key is one of ours. Nothing is learned
 *                              yet.
 *                              Where no place can be opened (GAUGE_ID_WAITING, GAUGE_FULL), nothing is answered
 *                              either.
 *
 * Keep each FLOOD and INQUIRE that you send, with its ID and where it went: gauge_tick says when to send it again,
 * and when to forget it. A gauge that falls silent stays in the cache until it is revoked or such an ACK comes.
 *
 * Gives GAUGE_OK or any number from GAUGE_MEMORY to GAUGE_ROOM. */
struct gauge_answer gauge_receive(const uint8_t *own, size_t own_len, const uint8_t *cpas, size_t cpas_len,
                                  uint8_t *cache, size_t cache_len, uint8_t *firsts, size_t firsts_len,
                                  uint8_t *waiting, size_t waiting_len, uint8_t major, uint8_t minor, uint32_t id,
                                  const uint8_t *nonce, size_t nonce_len, uint32_t verdict, const uint8_t *key,
                                  size_t key_len, const uint8_t *datagram, size_t datagram_len, uint8_t *output,
                                  size_t output_len);

/* A FLOOD of a record is to go to a neighbour. A place opens that waits for its ACK.
 *
 *   own, major, minor  as above. cache: for reading. waiting: for writing.
 *   id         the FLOOD's message ID.
 *   neighbour  32 bytes: the key of the neighbour, which must be held.
 *   key        32 bytes: the key of the record to send, which must be one of our own or held.
 *   output     for writing: on GAUGE_OK the first `first` bytes are the FLOOD, to be sent to an address of the
 *              neighbour's record in the cache. `first` is 116 (GAUGE_SEND_LEN), and `second` is 0.
 *
 * A first FLOOD to a gauge that is not held yet is written by gauge_first_flood of gauge_host.h.
 *
 * Gives GAUGE_OK, GAUGE_MEMORY, GAUGE_NOT_OURS, GAUGE_ID_WAITING, GAUGE_FULL or GAUGE_ROOM. */
struct gauge_answer gauge_send(const uint8_t *own, size_t own_len, const uint8_t *cache, size_t cache_len,
                               uint8_t *waiting, size_t waiting_len, uint8_t major, uint8_t minor, uint32_t id,
                               const uint8_t *neighbour, size_t neighbour_len, const uint8_t *key, size_t key_len,
                               uint8_t *output, size_t output_len);

/* A second has passed. Each place that waits has one try less, and is listed; one that had none left is freed.
 *
 *   own      as above.
 *   waiting  for writing.
 *   output   for writing: GAUGE_TICK_LEN bytes or more. On GAUGE_OK the first 4 * `first` bytes are message IDs,
 *            increasing, each of 4 bytes, least significant first: send those FLOODs and INQUIREs again, and forget
 *            those that you kept and that are not listed. `second` is 0.
 *
 * A place is listed at two ticks, and gone with the third.
 *
 * Gives GAUGE_OK, GAUGE_MEMORY or GAUGE_ROOM. */
struct gauge_answer gauge_tick(const uint8_t *own, size_t own_len, uint8_t *waiting, size_t waiting_len,
                               uint8_t *output, size_t output_len);

/* The keys held next to one of our own round the ring: up to five below, then up to five above, nearest first. No key
 * is listed twice in it, and none of ours, which are not held; one may be in the lists of several of ours.
 *
 *   own     as above.
 *   cache   for reading.
 *   key     32 bytes: which of our keys.
 *   output  for writing: GAUGE_LIST_LEN bytes or more. On GAUGE_OK the first 32 * `first` bytes are the keys below,
 *           and the next 32 * `second` bytes the keys above.
 *
 * Gives GAUGE_OK, GAUGE_MEMORY, GAUGE_NOT_OURS or GAUGE_ROOM. */
struct gauge_answer gauge_neighbours(const uint8_t *own, size_t own_len, const uint8_t *cache, size_t cache_len,
                                     const uint8_t *key, size_t key_len, uint8_t *output, size_t output_len);

/* Which record is closest to a target: of all our own and those held that are not on the path, the one with the
 * shortest way round to the target; of two equally close the one reached by going down from the target. A record is on
 * the path where its port and its address stand together in one endpoint of it: the one address that is kept, so that a
 * gauge which the LOOKUP passed by another of its addresses is not known by it. Our own are never passed over, so there
 * is always an answer. All is lent for reading, and nothing is written.
 *
 *   own     as above.
 *   cache   for reading.
 *   path    endpoints, one behind the other, GAUGE_ENDPOINT_LEN bytes each: port (2, most significant byte first) and
 *           address, as in a LOOKUP behind its path's first 12 bytes. How many does not matter. Length 0: no path.
 *   target  32 bytes: the key.
 *
 * On GAUGE_OK `first` is i for own record i, i from 0 to 3, and GAUGE_CLOSEST_HELD + j for record j of the cache, j
 * from 0: the bytes from GAUGE_CACHE_LEN(j) on. `second` is how many keys were compared to find the target's place
 * among those held, what gauge_search tells of it, whatever the path is. What is done from that place on does not
 * count: records passed over, and those beside it and our own weighed against each other.
 *
 * Gives GAUGE_OK or GAUGE_MEMORY. */
struct gauge_answer gauge_closest(const uint8_t *own, size_t own_len, const uint8_t *cache, size_t cache_len,
                                  const uint8_t *path, size_t path_len, const uint8_t *target, size_t target_len);

/* Is a key held, where, and how many keys are compared to find that? A battery is planned by the last. All is lent for
 * reading, and nothing is written.
 *
 *   own    as above.
 *   cache  for reading.
 *   key    32 bytes. One of ours is not held: it never stands in the cache.
 *
 * On GAUGE_OK `first` is 0 where the key is not held, and j + 1 where record j of the cache has it, j from 0: the bytes
 * from GAUGE_CACHE_LEN(j) on. `second` is how many keys were compared.
 *
 * Keys are found by halving. Of n keys the one at place n / 2 is compared, from 0 and rounded down: where it is the
 * key, the search ends; where the key is less it goes on among those before that place, where it is more among those
 * behind it; where none is left the key is not held. A comparison tells which of the three it is and counts as one, the
 * last with the key found too. So of 10 20 30 40 50 the search for 30 compares 1 key, for 20 and 50 it compares 2, for
 * 10 and 40 3. Of no key at all it is 0, of one 1, and of n at most as many as n has binary digits: 8 for 255, 9
 * (GAUGE_COMPARED_MOST) for 256.
 *
 * gauge_closest tells the same of its target. The other calls search the cache in the same way, and do not tell how
 * many keys they compared.
 *
 * Gives GAUGE_OK or GAUGE_MEMORY. */
struct gauge_answer gauge_search(const uint8_t *own, size_t own_len, const uint8_t *cache, size_t cache_len,
                                 const uint8_t *key, size_t key_len);

/* Memory of a version before 1.3, where a record could have up to four addresses, is to be used: each record in it,
 * those of waiting inquiries too, keeps the first with its port. The count becomes 1, the 48 bytes behind the address
 * zero, and nothing else changes: keys and order stay, and so do IDs, tries, floods and what is free.
 *
 *   own      for reading: our own records, in the old form or in that of today, one to four of them as above. They are
 *            not changed. Cut them yourself before the other calls: of each byte GAUGE_RECORD_COUNT (34) becomes 1,
 *            bytes 52 to 99 zero. Memory of before 1.5 was kept for one own key: convert it with that one.
 *   cache    for writing, in the old form.
 *   waiting  for writing, in the old form.
 *
 * The form of today is an old one too: to convert what is converted already, or in part, changes nothing more. No key
 * changes, so firsts that belong to the cache belong to it afterwards too; they are not lent here.
 * Inquiries may wait meanwhile: the AUTHORITY that answers one then learns the record that it was cut to.
 *
 * Convert all gauges of a valley at once. What a gauge passes on since 1.3 has one address, and one before 1.3 that
 * holds that record with all four sees another record in it, and inquires again, to and fro while both are about.
 *
 * Gives GAUGE_OK; or GAUGE_MEMORY where own records, cache or waiting table are not in the old form. `first` and
 * `second` are 0. */
struct gauge_answer gauge_convert(const uint8_t *own, size_t own_len, uint8_t *cache, size_t cache_len,
                                  uint8_t *waiting, size_t waiting_len);

/* What changed overnight: two caches of the same own keys and of the same C are compared, each saved at some time or
 * just as it is. Each key that is held in one and not in the other, or with another record, is listed once, in the
 * plain order of keys; and no other. Whoever takes the keys gone out of the first cache, puts the new ones in and
 * replaces the others has the second.
 *
 *   own     our own records, as above: one to four, and one set for both caches. No call can see whose a cache was.
 *   before  the first cache, for reading, in the form of today: convert one of a version before 1.3.
 *   after   the second one, for reading, of the same length. Both may be the same memory: then nothing has changed.
 *   output  for writing: on GAUGE_OK the first `second` bytes are `first` entries, one behind the other, each of
 *           GAUGE_CHANGE_LEN bytes: its kind, one of enum gauge_change, and a record of 100 bytes. Of a key that is
 *           new, or held with another record, it is the record of the second cache; of one gone it is the key and 68
 *           zero bytes, which is no record in form. No other byte of it has changed. So much room as there are entries
 *           is asked for, GAUGE_CHANGES_LEN(C) at most.
 *
 * Gives GAUGE_OK; GAUGE_MEMORY where own records or either cache are not in form, or the caches of unequal length; or
 * GAUGE_ROOM. */
struct gauge_answer gauge_changes(const uint8_t *own, size_t own_len, const uint8_t *before, size_t before_len,
                                  const uint8_t *after, size_t after_len, uint8_t *output, size_t output_len);

/* What a datagram is. Nothing is done, and nothing is lent but the datagram, for reading.
 *
 * Look at an AUTHORITY, and at a FLOOD with a revoke CPA, before gauge_receive: the CPA there is yours to judge. Look
 * at an INQUIRE for the nonce that your CPA should hold, and at a FLOOD or LOOKUP for the addresses to which an INQUIRE
 * goes. */
struct gauge_look_answer gauge_look(uint8_t major, const uint8_t *datagram, size_t datagram_len);

/* An AUTHORITY is to carry a reading of the pond: call this between gauge_receive, which writes the AUTHORITY, and
 * the radio, and send what it writes.
 *
 *   major       our major version.
 *   authority   the AUTHORITY, whole: as the gauge wrote it, or any other.
 *   kind        GAUGE_READING_DEPTH or GAUGE_READING_FAULT.
 *   measure     a depth in metres by its 32 bits (memcpy from a float), from 0 to 20, both ends and negative zero
 *               allowed; or a fault number, up to 65535.
 *   litres_in, litres_out  any.
 *   output      for writing: GAUGE_DATAGRAM_MOST bytes are always enough. Where both numbers are 0, its first
 *               `length` bytes are the same AUTHORITY with the reading as its payload: GAUGE_CARRY_LEN bytes more
 *               where it had none. One that it had is replaced. All else in it is the same, and bits that are ignored
 *               on reading are zero. No other byte of the output has changed.
 *
 * What gauge_receive writes never gets too long by it. Where another AUTHORITY would have more than 1,232 bytes no
 * room is enough: send it as it is.
 *
 * Gives, in this order: in `number` GAUGE_LENGTH to GAUGE_NOT_TAKEN for a datagram that gauge_look would refuse, and
 * GAUGE_TYPE too for a message that is no AUTHORITY; in `reading` GAUGE_READING_LENGTH for a fault number over 65535,
 * GAUGE_READING_KIND or GAUGE_READING_OUTSIDE; in `number` GAUGE_ROOM, where the output is too short or the AUTHORITY
 * would be too long. One of the two at most is not 0, and then nothing is written. */
struct gauge_carry_answer gauge_carry(uint8_t major, const uint8_t *authority, size_t authority_len, uint32_t kind,
                                      uint32_t measure, uint32_t litres_in, uint32_t litres_out, uint8_t *output,
                                      size_t output_len);

/* Which reading a datagram carries. Nothing is done, and nothing is lent but the datagram, for reading.
 *
 * A reading is to be believed as far as the AUTHORITY is: call this when gauge_receive has accepted it. A payload
 * that is no reading, as others may send what they like, is told by `reading`, and is no reason to refuse the
 * AUTHORITY.
 *
 * Gives in `number` GAUGE_LENGTH to GAUGE_NOT_TAKEN for a datagram that gauge_look would refuse, and GAUGE_TYPE too
 * for a message that is no AUTHORITY; then in `reading` the lowest that applies to its payload. One of the two at
 * most is not 0. */
struct gauge_reading gauge_carried(uint8_t major, const uint8_t *datagram, size_t datagram_len);

/* Litres in minus litres out: 3 in and 4 out is -1. */
int64_t gauge_balance(uint32_t litres_in, uint32_t litres_out);

#ifdef __cplusplus
}
#endif

#endif
