/* Functions that do nothing, for every call: what it costs to call and to measure. They have no parameters, so that they need not change with the
 * header's: on x86-64, for which the bench is, a function may leave what it is handed where it is. */
#include "empty.h"

struct gauge_answer empty_answer(void)
{
    static const struct gauge_answer none = {0, 0, 0};
    return none;
}

struct gauge_look_answer empty_look(void)
{
    static const struct gauge_look_answer nothing;
    return nothing;
}
