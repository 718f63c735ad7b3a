/* The lengths and numbers of document 01 by name, for the models alone: those of include/gauge.h are held against them by tests/nights/compare. */
#ifndef MODEL_NAMES_H
#define MODEL_NAMES_H

/* Document 01: "Lent memory", in bytes, and where in a record port, count and addresses stand; an endpoint of a path; how many own records there may
 * be (document 02, Wish 11); the counts of Wish 12; the datagram; what a tick and a list need; an entry
 * of Wish 10's list, and the most of them. */
enum {
    KEY_LEN = 32,
    NONCE_LEN = 16,
    RECORD_LEN = 100,
    PORT = 32,
    COUNT = 34,
    ADDRESSES = 36,
    ADDRESS_LEN = 16,
    ENDPOINT_LEN = 18,
    OWN_MOST = 4,
    CPA_MOST = 1024,
    CACHE_MOST = 25600,
    FIRSTS_LEN = 512,
    PLACE_LEN = 140,
    PLACES = 16,
    WAITING_LEN = 2240,
    DATAGRAM_LEAST = 12,
    DATAGRAM_MOST = 1232,
    OUTPUT_LEN = 2464,
    TICK_LEN = 64,
    LIST_LEN = 320,
    CHANGE_LEN = 101,
    CHANGES_MOST = 512
};

/* Document 01: "What comes back". */
enum {
    MEMORY = 1,
    LENGTH = 2,
    HEADER = 3,
    MAJOR = 4,
    TYPE = 5,
    FIELD = 6,
    NOT_TAKEN = 7,
    STRAY = 8,
    UNTRUSTED = 9,
    OTHER_KEY = 10,
    OWN_KEY = 11,
    NOT_OURS = 12,
    ID_WAITING = 13,
    FULL = 14,
    ROOM = 15
};

#endif
