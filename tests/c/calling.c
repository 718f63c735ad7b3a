/* What is lent, taken apart for each call (tests/c/calling.h). For the tests that call through it the order of arguments stands here and in
 * include/gauge.h, and nowhere else. */
#include "calling.h"

#define TAKEN(slice) l->slice.at, l->slice.len

struct gauge_answer call_receive(receive_call *by, const struct lent *l)
{
    return by(TAKEN(own), TAKEN(cpas), TAKEN(cache), TAKEN(firsts), TAKEN(waiting), l->major, l->minor, l->id, TAKEN(nonce), l->verdict, TAKEN(key),
              TAKEN(datagram), TAKEN(output));
}

struct gauge_answer call_send(send_call *by, const struct lent *l)
{
    return by(TAKEN(own), TAKEN(cache), TAKEN(waiting), l->major, l->minor, l->id, TAKEN(neighbour), TAKEN(key), TAKEN(output));
}

struct gauge_answer call_tick(tick_call *by, const struct lent *l)
{
    return by(TAKEN(own), TAKEN(waiting), TAKEN(output));
}

struct gauge_answer call_neighbours(neighbours_call *by, const struct lent *l)
{
    return by(TAKEN(own), TAKEN(cache), TAKEN(key), TAKEN(output));
}

struct gauge_answer call_closest(closest_call *by, const struct lent *l)
{
    return by(TAKEN(own), TAKEN(cache), TAKEN(path), TAKEN(target));
}

struct gauge_answer call_search(search_call *by, const struct lent *l)
{
    return by(TAKEN(own), TAKEN(cache), TAKEN(key));
}

struct gauge_answer call_convert(convert_call *by, const struct lent *l)
{
    return by(TAKEN(own), TAKEN(cache), TAKEN(waiting));
}

struct gauge_answer call_changes(changes_call *by, const struct lent *l)
{
    return by(TAKEN(own), TAKEN(before), TAKEN(after), TAKEN(output));
}

struct gauge_look_answer call_look(look_call *by, const struct lent *l)
{
    return by(l->major, TAKEN(datagram));
}

struct gauge_carry_answer call_carry(carry_call *by, const struct lent *l)
{
    return by(l->major, TAKEN(datagram), l->kind, l->measure, l->litres_in, l->litres_out, TAKEN(output));
}

struct gauge_reading call_carried(carried_call *by, const struct lent *l)
{
    return by(l->major, TAKEN(datagram));
}

int64_t call_balance(balance_call *by, const struct lent *l)
{
    return by(l->litres_in, l->litres_out);
}
