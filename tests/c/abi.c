/* How the calls cross to C: sizes and places in the answers, and the constants; each argument in its place; slices of length 0; every type of message
 * looked at. What is wanted is worked out by hand from the layout of the messages (documents 000 and 01) and from include/gauge.h.
 *
 * `arguments`, `counted`, `searched`, `changed`, `readings` and the looks write the calls out, as a radio program does: that each argument stands where
 * the header has it is what they test, and through tests/c/calling.h an exchange of two would be one in their own hands. The rest calls through it. */
#define _DEFAULT_SOURCE
#include "calling.h"
#include <stdio.h>
#include <string.h>
#include <sys/mman.h>

static unsigned tests, failed;

static void check(int holds, const char *what, unsigned line)
{
    tests++;
    if (!holds) {
        failed++;
        printf("abi.c:%u: not so: %s\n", line, what);
    }
}
#define CHECK(c) check(c, #c, __LINE__)

/* Sizes and places. */

static void answers(void)
{
    CHECK(sizeof(struct gauge_answer) == 12);
    CHECK(offsetof(struct gauge_answer, number) == 0);
    CHECK(offsetof(struct gauge_answer, first) == 4);
    CHECK(offsetof(struct gauge_answer, second) == 8);
    CHECK(sizeof(struct gauge_look_answer) == 48);
    CHECK(offsetof(struct gauge_look_answer, number) == 0);
    CHECK(offsetof(struct gauge_look_answer, kind) == 4);
    CHECK(offsetof(struct gauge_look_answer, id) == 8);
    CHECK(offsetof(struct gauge_look_answer, acked) == 12);
    CHECK(offsetof(struct gauge_look_answer, cpa_at) == 16);
    CHECK(offsetof(struct gauge_look_answer, cpa_len) == 20);
    CHECK(offsetof(struct gauge_look_answer, nonce_at) == 24);
    CHECK(offsetof(struct gauge_look_answer, nonce_len) == 28);
    CHECK(offsetof(struct gauge_look_answer, entry_at) == 32);
    CHECK(offsetof(struct gauge_look_answer, entry_len) == 36);
    CHECK(offsetof(struct gauge_look_answer, target_at) == 40);
    CHECK(offsetof(struct gauge_look_answer, target_len) == 44);
    CHECK(sizeof(struct gauge_carry_answer) == 12);
    CHECK(offsetof(struct gauge_carry_answer, number) == 0);
    CHECK(offsetof(struct gauge_carry_answer, length) == 4);
    CHECK(offsetof(struct gauge_carry_answer, reading) == 8);
    CHECK(sizeof(struct gauge_reading) == 24);
    CHECK(offsetof(struct gauge_reading, number) == 0);
    CHECK(offsetof(struct gauge_reading, reading) == 4);
    CHECK(offsetof(struct gauge_reading, kind) == 8);
    CHECK(offsetof(struct gauge_reading, measure) == 12);
    CHECK(offsetof(struct gauge_reading, litres_in) == 16);
    CHECK(offsetof(struct gauge_reading, litres_out) == 20);
}

/* The constants, as documents 01 and 02 have them. */
static void constants(void)
{
    CHECK(GAUGE_KEY_LEN == 32 && GAUGE_NONCE_LEN == 16 && GAUGE_ADDRESS_LEN == 16 && GAUGE_ENDPOINT_LEN == 2 + 16);
    CHECK(GAUGE_CLOSEST_HELD == 4 && GAUGE_COMPARED_MOST == 9);
    CHECK(GAUGE_RECORD_LEN == 100 && GAUGE_RECORD_KEY == 0 && GAUGE_RECORD_PORT == 32 && GAUGE_RECORD_COUNT == 34 && GAUGE_RECORD_ADDRESSES == 36);
    CHECK(GAUGE_ENTRY_KEY == 0 && GAUGE_ENTRY_MAJOR == 32 && GAUGE_ENTRY_MINOR == 33 && GAUGE_ENTRY_PORT == 34);
    CHECK(GAUGE_ENTRY_COUNT == 37 && GAUGE_ENTRY_ADDRESSES == 38);
    CHECK(GAUGE_CPA_LEAST == 1 && GAUGE_CPA_MOST == 1024 && GAUGE_CPAS_LEN(1024) == 2 + 1024 && GAUGE_OWN_MOST == 4);
    CHECK(GAUGE_DATAGRAM_LEAST == 12 && GAUGE_DATAGRAM_MOST == 1232);
    CHECK(GAUGE_CACHE_LEAST == 10 && GAUGE_CACHE_MOST == 256 && GAUGE_CACHE_LEN(256) == 25600 && GAUGE_FIRSTS_LEN == 256 * 2);
    CHECK(GAUGE_PLACES == 16 && GAUGE_PLACE_LEN == 140 && GAUGE_WAITING_LEN == 16 * 140);
    CHECK(GAUGE_OUTPUT_LEN == 2 * 1232 && GAUGE_SEND_LEN == 100 + 16 && GAUGE_TICK_LEN == 16 * 4 && GAUGE_LIST_LEN == 10 * 32);
    CHECK(GAUGE_CHANGE_LEN == 1 + 100 && GAUGE_CHANGES_LEN(10) == 2 * 10 * 101 && GAUGE_CHANGES_LEN(256) == 51712);
    CHECK(GAUGE_CHANGE_GONE == 1 && GAUGE_CHANGE_NEW == 2 && GAUGE_CHANGE_OTHER == 3);
    CHECK(GAUGE_SOLICIT == 1 && GAUGE_ADVERTISE == 2 && GAUGE_REQUEST == 3 && GAUGE_FLOOD == 4);
    CHECK(GAUGE_INQUIRE == 7 && GAUGE_AUTHORITY == 8 && GAUGE_ACK == 9 && GAUGE_LOOKUP == 11);
    CHECK(GAUGE_OK == 0 && GAUGE_MEMORY == 1 && GAUGE_LENGTH == 2 && GAUGE_HEADER == 3 && GAUGE_MAJOR == 4 && GAUGE_TYPE == 5 && GAUGE_FIELD == 6);
    CHECK(GAUGE_NOT_TAKEN == 7 && GAUGE_STRAY == 8 && GAUGE_UNTRUSTED == 9 && GAUGE_OTHER_KEY == 10 && GAUGE_OWN_KEY == 11 && GAUGE_NOT_OURS == 12);
    CHECK(GAUGE_ID_WAITING == 13 && GAUGE_FULL == 14 && GAUGE_ROOM == 15 && GAUGE_GOOD == 1);
    CHECK(GAUGE_READING_DEPTH == 1 && GAUGE_READING_FAULT == 2 && GAUGE_CARRY_LEN == 4 + 16 && GAUGE_CARRY_LEN == 4 + 14 + 2);
    CHECK(GAUGE_READING_OK == 0 && GAUGE_READING_LENGTH == 1 && GAUGE_READING_KIND == 2 && GAUGE_READING_OUTSIDE == 3);
}

/* Datagrams, as hexadecimal digits with spaces between them. */

static unsigned digit(char c)
{
    return (unsigned)(c <= '9' ? c - '0' : c - 'A' + 10);
}

static size_t bytes(const char *text, uint8_t *out)
{
    size_t len = 0;
    for (; *text != '\0'; text += *text == ' ' ? 1 : 2)
        if (*text != ' ')
            out[len++] = (uint8_t)(digit(text[0]) << 4 | digit(text[1]));
    return len;
}

#define HEADER(type, id) "0010000C51 06 65 " type " " id " "
#define ZEROS "000000000000000000000000000000"
#define KEY(last) ZEROS "00" ZEROS last " " /* 32 bytes */
#define NONCE "A0A1A2A3A4A5A6A7A8A9AAABACADAEAF "
#define HASHED "0092 0018 " NONCE "B0B1B2B3 "
#define NONE_LISTED "0060 000C 0000 0008 0030 0020 " /* a list of keys, empty */
#define ACKED(id) "0018 0008 " id " "
#define ENTRY(last) "009A 003A " KEY(last) "06 65 1388 00 01 " ZEROS last " 0000 " /* key and address end alike; two bytes of padding */
#define CONTROLS(d) "0043 0007 00" d " 00 00 " "0039 0024 " /* of a FLOOD, and the validate key's number and length */
#define ONE_ENDPOINT "009E 001E 0001 001A 009D 0012 1388 " ZEROS "14"

/* Every type of message. The header has 12 bytes, and the contents of a field stand 4 bytes behind its start. */

static const struct {
    const char *text;
    struct gauge_look_answer wanted;
} messages[] = {
    {HEADER("01", "00000101") ENTRY("11") HASHED, {0, GAUGE_SOLICIT, 0x101, 0, 0, 0, 76, 20, 16, 54, 0, 0}},
    {HEADER("02", "00000102") ACKED("00000201") NONE_LISTED HASHED, {0, GAUGE_ADVERTISE, 0x102, 0x201, 0, 0, 36, 20, 0, 0, 0, 0}},
    {HEADER("03", "00000103") "0093 0014 " NONCE NONE_LISTED, {0, GAUGE_REQUEST, 0x103, 0, 0, 0, 16, 16, 0, 0, 0, 0}},
    {HEADER("04", "00000104") CONTROLS("00") KEY("12") ENTRY("11"), {0, GAUGE_FLOOD, 0x104, 0, 0, 0, 0, 0, 60, 54, 0, 0}},
    {HEADER("04", "00000105") CONTROLS("01") KEY("12") "009C 0007 C1C2C3 00", {0, GAUGE_FLOOD, 0x105, 0, 60, 3, 0, 0, 0, 0, 0, 0}},
    {HEADER("04", "00000106") CONTROLS("01") KEY("12") "009C 0004", {0, GAUGE_FLOOD, 0x106, 0, 60, 0, 0, 0, 0, 0, 0, 0}},
    {HEADER("07", "00000107") "0040 0006 0010 0000 0039 0024 " KEY("12") "0093 0014 " NONCE, {0, GAUGE_INQUIRE, 0x107, 0, 0, 0, 60, 16, 0, 0, 0, 0}},
    {HEADER("08", "00000108") ACKED("00000208") "0098 0008 000E 0000 0040 0006 0000 0000 009B 0006 D1D2",
     {0, GAUGE_AUTHORITY, 0x108, 0x208, 40, 2, 0, 0, 0, 0, 0, 0}},
    {HEADER("09", "00000109") ACKED("D8859CF5"), {0, GAUGE_ACK, 0x109, 0xD8859CF5, 0, 0, 0, 0, 0, 0, 0, 0}},
    {HEADER("0B", "0000010A") "0045 000C 0000 0000 00 00 0000 0038 0024 " KEY("13") "0039 0024 " KEY("12") ENTRY("11") ONE_ENDPOINT,
     {0, GAUGE_LOOKUP, 0x10A, 0, 0, 0, 0, 0, 100, 54, 28, 32}},
    /* an AUTHORITY in part; and what is refused, for each number once */
    {HEADER("08", "0000010B") ACKED("00000208") "0098 0008 000F 0000 0040 0006 0000 0000 009B 0006 D1D2",
     {GAUGE_NOT_TAKEN, 0, 0, 0, 0, 0, 0, 0, 0, 0, 0, 0}},
    {"0010000C51 06 65 09 000001", {GAUGE_LENGTH, 0, 0, 0, 0, 0, 0, 0, 0, 0, 0, 0}},
    {"0010000C50 06 65 09 0000010C", {GAUGE_HEADER, 0, 0, 0, 0, 0, 0, 0, 0, 0, 0, 0}},
    {"0010000C51 05 65 09 0000010D", {GAUGE_MAJOR, 0, 0, 0, 0, 0, 0, 0, 0, 0, 0, 0}},
    {HEADER("0A", "0000010E"), {GAUGE_TYPE, 0, 0, 0, 0, 0, 0, 0, 0, 0, 0, 0}},
    {HEADER("09", "0000010F"), {GAUGE_FIELD, 0, 0, 0, 0, 0, 0, 0, 0, 0, 0, 0}},
};

static void looks(void)
{
    for (size_t i = 0; i < sizeof messages / sizeof *messages; i++) {
        uint8_t datagram[GAUGE_DATAGRAM_MOST];
        size_t len = bytes(messages[i].text, datagram);
        struct gauge_look_answer seen = gauge_look(6, datagram, len);
        check(memcmp(&seen, &messages[i].wanted, sizeof seen) == 0, messages[i].text, __LINE__);
    }
}

/* A gauge with key 12 (hex), versions 6 and 101. */

static uint8_t own[GAUGE_RECORD_LEN], cpas[4] = {2, 0, 0xE1, 0xE2}, cache[GAUGE_CACHE_LEN(10)], firsts[GAUGE_FIRSTS_LEN], waiting[GAUGE_WAITING_LEN],
    nonce[GAUGE_NONCE_LEN], key[GAUGE_KEY_LEN], neighbour[GAUGE_KEY_LEN], output[GAUGE_OUTPUT_LEN], datagram[GAUGE_DATAGRAM_MOST];
static size_t datagram_len;

static struct gauge_answer receive(uint32_t id, uint32_t verdict, const char *text)
{
    datagram_len = bytes(text, datagram);
    memset(output, 0xEE, sizeof output);
    return gauge_receive(own, sizeof own, cpas, sizeof cpas, cache, sizeof cache, firsts, sizeof firsts, waiting, sizeof waiting, 6, 101, id, nonce,
                         sizeof nonce, verdict, key, sizeof key, datagram, datagram_len, output, sizeof output);
}

static int wrote(const char *text)
{
    uint8_t wanted[GAUGE_OUTPUT_LEN];
    size_t len = bytes(text, wanted);
    return memcmp(output, wanted, len) == 0 && output[len] == 0xEE;
}

#define INQUIRE(key, id) HEADER("07", id) "0040 0006 0010 0000 0039 0024 " key "0093 0014 " NONCE
#define AUTHORITY(acked) HEADER("08", "00000001") ACKED(acked) "0098 0008 0010 0000 0040 0006 0000 0000 009B 0008 F1F2F3F4"

#define POINT(port, last) port " " ZEROS last " "
#define LOOKUP(entry, point) \
    HEADER("0B", "00000001") "0045 000C 0000 0000 00 00 0000 0038 0024 " KEY("11") "0039 0024 " KEY("00") entry "009E 001E 0001 001A 009D 0012 " point
#define SHOWN(id, last) HEADER("08", id) ACKED("00000001") "0098 0008 0044 0000 0040 0006 0000 0000 " ENTRY(last)

static int answer_is(struct gauge_answer a, uint32_t number, uint32_t first)
{
    return a.number == number && a.first == first && a.second == 0;
}

/* Of a search: which record, and how many keys were compared. */
static int found_is(struct gauge_answer a, uint32_t first, uint32_t compared)
{
    return a.number == GAUGE_OK && a.first == first && a.second == compared;
}

/* Each argument has something in it that shows in what is written, or in what is kept. */
static void arguments(void)
{
    memset(own, 0, sizeof own);
    bytes(KEY("12") "1388 01 00 " ZEROS "12", own);
    bytes(NONCE, nonce);

    struct gauge_answer a = receive(7, 0, INQUIRE(KEY("12"), "D8859CF5")); /* own, cpas, major, minor, id, datagram, output */
    CHECK(a.number == GAUGE_OK && a.first == 42 && a.second == 0);
    CHECK(wrote(HEADER("08", "00000007") ACKED("D8859CF5") "0098 0008 000E 0000 0040 0006 0000 0000 009B 0006 E1E2"));

    a = receive(8, 0, HEADER("04", "00000001") CONTROLS("00") KEY("12") ENTRY("11")); /* waiting, nonce */
    CHECK(a.number == GAUGE_OK && a.first == 20 && a.second == 76);
    CHECK(wrote(HEADER("09", "00000008") ACKED("00000001") INQUIRE(KEY("11"), "00000009")));
    CHECK(waiting[0] == 9 && waiting[4] == 2);

    bytes(KEY("11"), key); /* verdict, key, cache */
    CHECK(receive(10, 257, AUTHORITY("00000009")).number == GAUGE_UNTRUSTED);
    CHECK(receive(10, 0, AUTHORITY("00000009")).number == GAUGE_UNTRUSTED);
    key[0] = 1;
    CHECK(receive(10, GAUGE_GOOD, AUTHORITY("00000009")).number == GAUGE_OTHER_KEY);
    key[0] = 0;
    CHECK(receive(10, GAUGE_GOOD, AUTHORITY("00000009")).number == GAUGE_OK);
    CHECK(cache[31] == 0x11 && waiting[4] == 0 && firsts[0] == 1 && firsts[1] == 0); /* its first byte is 00 */

    memset(output, 0xEE, sizeof output); /* the neighbour comes before the record's key */
    bytes(KEY("11"), neighbour);
    bytes(KEY("12"), key);
    a = gauge_send(own, sizeof own, cache, sizeof cache, waiting, sizeof waiting, 6, 101, 12, neighbour, sizeof neighbour, key, sizeof key, output,
                   sizeof output);
    CHECK(a.number == GAUGE_OK && a.first == 116 && a.second == 0);
    CHECK(wrote(HEADER("04", "0000000C") CONTROLS("00") KEY("11") ENTRY("12")));

    memset(output, 0xEE, sizeof output);
    a = gauge_tick(own, sizeof own, waiting, sizeof waiting, output, sizeof output);
    CHECK(a.number == GAUGE_OK && a.first == 1 && a.second == 0 && wrote("0C000000"));

    memset(output, 0xEE, sizeof output); /* the key comes behind the cache, and below is the first count */
    a = gauge_neighbours(own, sizeof own, cache, sizeof cache, key, sizeof key, output, sizeof output);
    CHECK(a.number == GAUGE_OK && a.first == 1 && a.second == 0 && wrote(KEY("11")));
    a = gauge_neighbours(own, sizeof own, cache, sizeof cache, neighbour, sizeof neighbour, output, sizeof output);
    CHECK(answer_is(a, GAUGE_NOT_OURS, 0) && wrote(KEY("11")));
    CHECK(answer_is(gauge_neighbours(own, sizeof own, cache, sizeof cache, key, sizeof key - 1, output, sizeof output), GAUGE_MEMORY, 0));

    uint8_t path[2 * GAUGE_ENDPOINT_LEN]; /* own before cache, path before target: none of them is any other's length or form */
    bytes(POINT("1388", "12") POINT("1388", "11"), path);
    CHECK(found_is(gauge_closest(own, sizeof own, cache, sizeof cache, path, 0, neighbour, sizeof neighbour), 4, 1));
    CHECK(found_is(gauge_closest(own, sizeof own, cache, sizeof cache, path, 0, key, sizeof key), 0, 1));
    CHECK(found_is(gauge_closest(own, sizeof own, cache, sizeof cache, path, GAUGE_ENDPOINT_LEN, neighbour, sizeof neighbour), 4, 1));
    CHECK(found_is(gauge_closest(own, sizeof own, cache, sizeof cache, path, sizeof path, neighbour, sizeof neighbour), 0, 1));
    CHECK(answer_is(gauge_closest(own, sizeof own, cache, sizeof cache, path, sizeof path - 1, neighbour, sizeof neighbour), GAUGE_MEMORY, 0));
    CHECK(answer_is(gauge_closest(own, sizeof own, cache, sizeof cache, path, 0, neighbour, sizeof neighbour - 1), GAUGE_MEMORY, 0));
}

/* Document 02, request 12: firsts behind the cache, before the waiting table, each with its own length; a number is two bytes at twice the first byte,
 * least significant first. A key that begins with 05 is learned, and removed by a revocation; firsts that are not the cache's are refused. */
static void counted(void)
{
    static uint8_t held[GAUGE_CACHE_LEN(10)], counts[GAUGE_FIRSTS_LEN], waits[GAUGE_WAITING_LEN], five[GAUGE_KEY_LEN] = {5}, wanted[GAUGE_FIRSTS_LEN];
    bytes("09000000 02 01 0000 05" ZEROS ZEROS "00 05" ZEROS ZEROS "00 138A 01 00 " NONCE, waits);
    size_t len = bytes(AUTHORITY("00000009"), datagram);
#define RECEIVED(count_len)                                                                                                                       \
    gauge_receive(own, sizeof own, cpas, sizeof cpas, held, sizeof held, counts, count_len, waits, sizeof waits, 6, 101, 1, nonce, sizeof nonce,   \
                  GAUGE_GOOD, five, sizeof five, datagram, len, output, sizeof output)
    CHECK(answer_is(RECEIVED(sizeof counts - 1), GAUGE_MEMORY, 0) && answer_is(RECEIVED(0), GAUGE_MEMORY, 0));
    for (size_t off = 0; off < sizeof counts; off += off == 11 ? 500 : 1) { /* one number off by one, or by 256 */
        counts[off] = 1;
        CHECK(answer_is(RECEIVED(sizeof counts), GAUGE_MEMORY, 0) && counts[off] == 1 && held[0] == 0 && waits[4] == 2);
        counts[off] = 0;
    }
    CHECK(answer_is(RECEIVED(sizeof counts), GAUGE_OK, 0) && held[0] == 5 && waits[4] == 0);
    wanted[10] = 1;
    CHECK(memcmp(counts, wanted, sizeof counts) == 0);
    len = bytes(HEADER("04", "00000105") CONTROLS("01") KEY("12") "009C 0007 C1C2C3 00", datagram);
    counts[10] = 0;
    counts[12] = 1; /* the sum alone is right */
    CHECK(answer_is(RECEIVED(sizeof counts), GAUGE_MEMORY, 0) && held[0] == 5 && counts[12] == 1);
    memcpy(counts, wanted, sizeof counts);
    CHECK(answer_is(RECEIVED(sizeof counts), GAUGE_OK, 0) && held[GAUGE_RECORD_COUNT] == 0 && counts[10] == 0);
    CHECK(answer_is(RECEIVED(sizeof counts), GAUGE_OK, 0) && counts[10] == 0 && counts[11] == 0); /* it is not held any more */
#undef RECEIVED
}

/* Document 02, request 8: keys 10 20 30 40 50, and how many of them are compared. Own before cache before key: each has its own length. */
static void searched(void)
{
    static const struct {
        uint8_t key;
        uint32_t first, compared;
    } cases[] = {{30, 3, 1}, {20, 2, 2}, {50, 5, 2}, {10, 1, 3}, {40, 4, 3}, {5, 0, 3}, {15, 0, 3}, {25, 0, 2}, {35, 0, 3}, {45, 0, 3}, {55, 0, 2}};
    uint8_t ours[GAUGE_RECORD_LEN] = {0}, held[GAUGE_CACHE_LEN(10)] = {0}, wanted[GAUGE_KEY_LEN] = {0}, path[GAUGE_ENDPOINT_LEN] = {0};
    ours[GAUGE_KEY_LEN - 1] = 25;
    ours[GAUGE_RECORD_COUNT] = 1;
    CHECK(found_is(gauge_search(ours, sizeof ours, held, sizeof held, wanted, sizeof wanted), 0, 0));
    for (uint8_t i = 0; i < 5; i++) {
        held[GAUGE_CACHE_LEN(i) + GAUGE_KEY_LEN - 1] = (uint8_t)(10 * (i + 1));
        held[GAUGE_CACHE_LEN(i) + GAUGE_RECORD_COUNT] = 1;
    }
    for (size_t i = 0; i < sizeof cases / sizeof *cases; i++) {
        wanted[GAUGE_KEY_LEN - 1] = cases[i].key;
        CHECK(found_is(gauge_search(ours, sizeof ours, held, sizeof held, wanted, sizeof wanted), cases[i].first, cases[i].compared));
        CHECK(gauge_closest(ours, sizeof ours, held, sizeof held, path, 0, wanted, sizeof wanted).second == cases[i].compared);
        CHECK(gauge_closest(ours, sizeof ours, held, sizeof held, path, sizeof path, wanted, sizeof wanted).second == cases[i].compared);
    }
    CHECK(answer_is(gauge_search(held, GAUGE_RECORD_LEN, held, sizeof held, wanted, sizeof wanted), GAUGE_MEMORY, 0)); /* our own key is held */
    CHECK(answer_is(gauge_search(ours, sizeof ours, held, sizeof held - 1, wanted, sizeof wanted), GAUGE_MEMORY, 0));
    CHECK(answer_is(gauge_search(ours, sizeof ours, held, sizeof held, wanted, sizeof wanted - 1), GAUGE_MEMORY, 0));
}

/* Document 02, request 10: keys 1 2 3 against 2 3 4, 3 with another port. Own before the first cache before the second. */
static void changed(void)
{
    static uint8_t first[GAUGE_CACHE_LEN(10)], second[GAUGE_CACHE_LEN(11)], list[304];
    const size_t len = sizeof first;
    uint8_t ours[GAUGE_RECORD_LEN] = {0};
    bytes(KEY("03") "1388 01", ours);
    for (uint8_t i = 0; i < 3; i++) {
        bytes(KEY("00") "1388 01", first + GAUGE_CACHE_LEN(i));
        bytes(KEY("00") "1388 01", second + GAUGE_CACHE_LEN(i));
        first[GAUGE_CACHE_LEN(i) + GAUGE_KEY_LEN - 1] = (uint8_t)(1 + i);
        second[GAUGE_CACHE_LEN(i) + GAUGE_KEY_LEN - 1] = (uint8_t)(2 + i);
    }
    second[GAUGE_CACHE_LEN(1) + GAUGE_RECORD_PORT] = 0x14;
    memset(list, 0xEE, sizeof list);
    CHECK(answer_is(gauge_changes(own, sizeof own, first, len, second, len, list, 302), GAUGE_ROOM, 0) && list[0] == 0xEE);
    CHECK(answer_is(gauge_changes(ours, sizeof ours, first, len, second, len, list, 303), GAUGE_MEMORY, 0));
    CHECK(answer_is(gauge_changes(own, sizeof own, first, len, second, sizeof second, list, 303), GAUGE_MEMORY, 0));
    CHECK(answer_is(gauge_changes(own, sizeof own, first, len - 100, second, len - 100, list, 303), GAUGE_MEMORY, 0) && list[0] == 0xEE);
    CHECK(found_is(gauge_changes(own, sizeof own, first, len, second, len, list, 303), 3, 303) && list[303] == 0xEE);
    CHECK(list[0] == GAUGE_CHANGE_GONE && list[32] == 1 && list[33] == 0 && list[35] == 0 && memcmp(list + 1, first, GAUGE_KEY_LEN) == 0);
    CHECK(list[101] == GAUGE_CHANGE_OTHER && memcmp(list + 102, second + 100, 100) == 0);
    CHECK(list[202] == GAUGE_CHANGE_NEW && memcmp(list + 203, second + 200, 100) == 0);
    CHECK(found_is(gauge_changes(own, sizeof own, second, len, first, len, list, 303), 3, 303));
    CHECK(list[0] == GAUGE_CHANGE_NEW && list[101] == GAUGE_CHANGE_OTHER && list[102 + 32] == 0x13 && list[202] == GAUGE_CHANGE_GONE);
    memset(list, 0xEE, sizeof list);
    CHECK(found_is(gauge_changes(own, sizeof own, first, len, first, len, list, 0), 0, 0) && list[0] == 0xEE); /* the same memory */
}

/* Memory of the time when a record had up to four addresses. Own before cache before waiting table: each has its own length. */
static void converted(void)
{
    uint8_t old[GAUGE_RECORD_LEN], was[GAUGE_RECORD_LEN], eleven[GAUGE_RECORD_LEN], held[GAUGE_CACHE_LEN(10)] = {0}, waits[GAUGE_WAITING_LEN] = {0};
    uint8_t held_new[sizeof held] = {0}, waits_new[sizeof waits] = {0};
    bytes(KEY("12") "1388 04 00", old);
    memset(old + GAUGE_RECORD_ADDRESSES, 0xA1, 4 * GAUGE_ADDRESS_LEN);
    memcpy(was, old, sizeof was);
    bytes(KEY("11") "1389 03 00 " NONCE NONCE NONCE, held);
    bytes(KEY("11") "1389 01 00 " NONCE, held_new);
    bytes("07000000 01 02 0000 " KEY("11"), waits); /* a flood has no record, and keeps it so */
    bytes("09000000 02 01 0000 " KEY("14") KEY("14") "138A 02 00 " NONCE NONCE, waits + GAUGE_PLACE_LEN);
    bytes("07000000 01 02 0000 " KEY("11"), waits_new);
    bytes("09000000 02 01 0000 " KEY("14") KEY("14") "138A 01 00 " NONCE, waits_new + GAUGE_PLACE_LEN);

    memcpy(eleven, held, sizeof eleven); /* as our own record it would be held */
    CHECK(answer_is(gauge_convert(eleven, sizeof eleven, held, sizeof held, waits, sizeof waits), GAUGE_MEMORY, 0));
    CHECK(answer_is(gauge_convert(old, sizeof old, waits, sizeof waits, held, sizeof held), GAUGE_MEMORY, 0));
    CHECK(answer_is(gauge_tick(own, sizeof own, waits, sizeof waits, output, sizeof output), GAUGE_MEMORY, 0));
    CHECK(answer_is(gauge_neighbours(own, sizeof own, held, sizeof held, key, sizeof key, output, sizeof output), GAUGE_MEMORY, 0));
    for (int times = 0; times < 2; times++) {
        CHECK(answer_is(gauge_convert(old, sizeof old, held, sizeof held, waits, sizeof waits), GAUGE_OK, 0));
        CHECK(memcmp(held, held_new, sizeof held) == 0 && memcmp(waits, waits_new, sizeof waits) == 0 && memcmp(old, was, sizeof old) == 0);
    }
    CHECK(answer_is(gauge_neighbours(old, sizeof old, held, sizeof held, key, sizeof key, output, sizeof output), GAUGE_MEMORY, 0));
    CHECK(answer_is(gauge_neighbours(own, sizeof own, held, sizeof held, key, sizeof key, output, sizeof output), GAUGE_OK, 1));
    CHECK(answer_is(gauge_tick(own, sizeof own, waits, sizeof waits, output, sizeof output), GAUGE_OK, 2));
}

/* A LOOKUP with a route entry: the AUTHORITY with the closest record, then the INQUIRE; and what its path passes over. */
static void lookups(void)
{
    struct gauge_answer a = receive(20, 0, LOOKUP(ENTRY("14"), POINT("1388", "14")));
    CHECK(a.number == GAUGE_OK && a.first == 96 && a.second == 76);
    CHECK(wrote(SHOWN("00000014", "11") INQUIRE(KEY("14"), "00000015")));
    a = receive(22, 0, LOOKUP(ENTRY("14"), POINT("1388", "11")));
    CHECK(a.number == GAUGE_OK && a.first == 96 && a.second == 0);
    CHECK(wrote(SHOWN("00000016", "12")));
    a = receive(20, 0, LOOKUP(ENTRY("15"), POINT("1388", "11")));
    CHECK(a.number == GAUGE_ID_WAITING && a.first == 0 && a.second == 0 && wrote(""));
}

/* Readings carried. An AUTHORITY of 42 bytes with our CPA becomes one of 62: the payload's field, length 4 + 16 or 4 + 14, stands before the CPA's,
 * and a fault's has two bytes of padding. In the payload the least significant byte is first. */

#define CARRYING(size, payload) HEADER("08", "00000007") ACKED("D8859CF5") "0098 0008 " size " 0000 0040 0006 0000 0000 " payload "009B 0006 E1E2"
#define LITRES "04030201 08070605 "
#define DEPTH "005A 0014 0E00 0100 0000C03F " LITRES /* 1.5 m */
#define FAULT "005A 0012 0C00 0200 B2A1 " LITRES "0000 "

static struct gauge_carry_answer carry(uint8_t major, uint32_t kind, uint32_t measure)
{
    memset(output, 0xEE, sizeof output);
    return gauge_carry(major, datagram, datagram_len, kind, measure, 0x01020304, 0x05060708, output, sizeof output);
}

static int carry_is(struct gauge_carry_answer a, uint32_t number, uint32_t length, uint32_t reading)
{
    return a.number == number && a.length == length && a.reading == reading;
}

static int reading_is(const char *text, struct gauge_reading wanted)
{
    datagram_len = bytes(text, datagram);
    struct gauge_reading a = gauge_carried(6, datagram, datagram_len);
    return memcmp(&a, &wanted, sizeof a) == 0;
}

static void readings(uint8_t *nothing)
{
    float metres = 1.5f;
    uint32_t depth;
    memcpy(&depth, &metres, sizeof depth);
    datagram_len = bytes(CARRYING("000E", ""), datagram);
    CHECK(datagram_len == 42);
    CHECK(carry_is(carry(6, GAUGE_READING_DEPTH, depth), 0, 62, 0) && wrote(CARRYING("0022", DEPTH)));
    CHECK(carry_is(carry(6, GAUGE_READING_FAULT, 0xA1B2), 0, 62, 0) && wrote(CARRYING("0022", FAULT)));
    CHECK(carry_is(carry(7, GAUGE_READING_FAULT, 0xA1B2), GAUGE_MAJOR, 0, 0) && wrote(""));
    CHECK(carry_is(carry(6, GAUGE_READING_FAULT, 65536), 0, 0, GAUGE_READING_LENGTH) && wrote(""));
    CHECK(carry_is(carry(6, 257, depth), 0, 0, GAUGE_READING_KIND) && wrote(""));
    CHECK(carry_is(carry(6, GAUGE_READING_DEPTH, 0x41A00001), 0, 0, GAUGE_READING_OUTSIDE) && wrote("")); /* next above 20 */
    CHECK(carry_is(gauge_carry(6, datagram, datagram_len, GAUGE_READING_DEPTH, depth, 0, 0, output, 61), GAUGE_ROOM, 0, 0) && wrote(""));
    CHECK(carry_is(gauge_carry(6, datagram, datagram_len, GAUGE_READING_DEPTH, depth, 0, 0, nothing, 0), GAUGE_ROOM, 0, 0));
    CHECK(carry_is(gauge_carry(6, nothing, 0, GAUGE_READING_DEPTH, depth, 0, 0, output, sizeof output), GAUGE_LENGTH, 0, 0) && wrote(""));

    CHECK(reading_is(CARRYING("0022", DEPTH), (struct gauge_reading){0, 0, GAUGE_READING_DEPTH, depth, 0x01020304, 0x05060708}));
    CHECK(reading_is(CARRYING("0022", FAULT), (struct gauge_reading){0, 0, GAUGE_READING_FAULT, 0xA1B2, 0x01020304, 0x05060708}));
    CHECK(reading_is(CARRYING("000E", ""), (struct gauge_reading){0, 0, 0, 0, 0, 0}));
    CHECK(reading_is(CARRYING("0012", "005A 0004 "), (struct gauge_reading){0, GAUGE_READING_LENGTH, 0, 0, 0, 0})); /* a payload that is empty */
    CHECK(reading_is(HEADER("09", "00000109") ACKED("D8859CF5"), (struct gauge_reading){GAUGE_TYPE, 0, 0, 0, 0, 0}));
    CHECK(gauge_carried(6, nothing, 0).number == GAUGE_LENGTH);

    CHECK(gauge_balance(3, 4) == -1 && gauge_balance(4, 3) == 1 && gauge_balance(7, 7) == 0);
    CHECK(gauge_balance(0, UINT32_MAX) == -INT64_C(4294967295) && gauge_balance(UINT32_MAX, 0) == INT64_C(4294967295));
}

/* Each slice in turn has length 0, and points to where no byte may be touched. */

static uint8_t zeros[SLICES][GAUGE_CACHE_LEN(GAUGE_CACHE_MOST)]; /* as long as any */

static struct lent lend_all(void)
{
    struct lent l;
    memset(&l, 0, sizeof l);
    for (int i = 0; i < SLICES; i++) /* what is not said below is all zero */
        *slice_in(&l, i) = as_room(zeros[i], slices[i].usual);
    l.own = as_room(own, sizeof own);
    l.cpas = as_room(cpas, sizeof cpas);
    l.cache = as_room(cache, sizeof cache);
    l.firsts = as_room(firsts, sizeof firsts);
    l.waiting = as_room(waiting, sizeof waiting);
    l.nonce = as_room(nonce, sizeof nonce);
    l.neighbour = as_room(neighbour, sizeof neighbour);
    l.key = as_room(key, sizeof key);
    l.datagram = as_room(datagram, datagram_len);
    l.output = as_room(output, sizeof output);
    l.major = 6;
    l.minor = 101;
    l.id = 20;
    return l;
}

static struct gauge_answer call(enum call_kind kind, const struct lent *l)
{
    switch (kind) {
    case RECEIVE: return call_receive(gauge_receive, l);
    case SEND: return call_send(gauge_send, l);
    case TICK: return call_tick(gauge_tick, l);
    case NEIGHBOURS: return call_neighbours(gauge_neighbours, l);
    case CLOSEST: return call_closest(gauge_closest, l);
    case SEARCH: return call_search(gauge_search, l);
    case CONVERT: return call_convert(gauge_convert, l);
    default: return call_changes(gauge_changes, l);
    }
}

/* The number for a slice that is left empty: the sender's length, our room, and all else is memory not in form. */
static uint32_t number_of(int slice)
{
    return slice == LENT_datagram ? GAUGE_LENGTH : slice == LENT_output ? GAUGE_ROOM : GAUGE_MEMORY;
}

static void zero_lengths(uint8_t *nothing)
{
    uint8_t cache_was[sizeof cache], firsts_was[sizeof firsts], waiting_was[sizeof waiting];
    memcpy(cache_was, cache, sizeof cache);
    memcpy(firsts_was, firsts, sizeof firsts);
    memcpy(waiting_was, waiting, sizeof waiting);
    memset(output, 0xEE, sizeof output);
    datagram_len = bytes(INQUIRE(KEY("12"), "00000001"), datagram);
    for (int c = RECEIVE; c <= CHANGES; c++)
        for (int empty = 0; empty < SLICES; empty++) {
            if (!is_lent(empty, (enum call_kind)c) || empty == LENT_path || (c == CHANGES && empty == LENT_output)) /* which may be empty */
                continue;
            struct lent l = lend_all();
            *slice_in(&l, empty) = as_room(nothing, 0);
            struct gauge_answer a = call((enum call_kind)c, &l);
            CHECK(a.number == number_of(empty) && a.first == 0 && a.second == 0);
            CHECK(memcmp(cache, cache_was, sizeof cache) == 0 && memcmp(waiting, waiting_was, sizeof waiting) == 0 && output[0] == 0xEE);
            CHECK(memcmp(firsts, firsts_was, sizeof firsts) == 0);
        }
    CHECK(gauge_look(6, nothing, 0).number == GAUGE_LENGTH);
    struct lent none = lend_all(); /* a path may be empty: key 11 is the closest to 0 */
    none.path = as_room(nothing, 0);
    CHECK(found_is(call(CLOSEST, &none), GAUGE_CLOSEST_HELD, 1));
    none = lend_all(); /* nothing has changed, and nothing is written */
    none.output = as_room(nothing, 0);
    CHECK(answer_is(call(CHANGES, &none), GAUGE_OK, 0));
    for (int c = RECEIVE; c <= CHANGES; c++) { /* and all is accepted where none is empty */
        struct lent l = lend_all();
        CHECK(call((enum call_kind)c, &l).number == GAUGE_OK);
    }
}

int main(void)
{
    uint8_t *nothing = mmap(NULL, 4096, PROT_NONE, MAP_PRIVATE | MAP_ANONYMOUS, -1, 0);
    if (nothing == MAP_FAILED)
        return 1;
    answers();
    constants();
    looks();
    arguments();
    counted();
    searched();
    changed();
    converted();
    lookups();
    zero_lengths(nothing);
    readings(nothing);
    printf("abi: %u facts, %u failed\n", tests, failed);
    return failed != 0;
}
