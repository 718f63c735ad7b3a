/* The calls of include/gauge.h, made with what is lent in one struct (tests/models/lent.h): each function takes it apart for one call, and nothing
 * else does. `by` is the function that is called: the archive's, or another with the same signature (bench/). */
#ifndef CALLING_H
#define CALLING_H

#include "gauge.h"
#include "lent.h"

/* The signatures, as the header has them. */
typedef __typeof__(gauge_receive) receive_call;
typedef __typeof__(gauge_send) send_call;
typedef __typeof__(gauge_tick) tick_call;
typedef __typeof__(gauge_neighbours) neighbours_call;
typedef __typeof__(gauge_closest) closest_call;
typedef __typeof__(gauge_search) search_call;
typedef __typeof__(gauge_convert) convert_call;
typedef __typeof__(gauge_changes) changes_call;
typedef __typeof__(gauge_look) look_call;
typedef __typeof__(gauge_carry) carry_call;
typedef __typeof__(gauge_carried) carried_call;
typedef __typeof__(gauge_balance) balance_call;

struct gauge_answer call_receive(receive_call *by, const struct lent *l);
struct gauge_answer call_send(send_call *by, const struct lent *l);
struct gauge_answer call_tick(tick_call *by, const struct lent *l);
struct gauge_answer call_neighbours(neighbours_call *by, const struct lent *l);
struct gauge_answer call_closest(closest_call *by, const struct lent *l);
struct gauge_answer call_search(search_call *by, const struct lent *l);
struct gauge_answer call_convert(convert_call *by, const struct lent *l);
struct gauge_answer call_changes(changes_call *by, const struct lent *l);
struct gauge_look_answer call_look(look_call *by, const struct lent *l);
struct gauge_carry_answer call_carry(carry_call *by, const struct lent *l); /* the AUTHORITY is the datagram */
struct gauge_reading call_carried(carried_call *by, const struct lent *l);
int64_t call_balance(balance_call *by, const struct lent *l);

#endif
