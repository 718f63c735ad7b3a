/* A recorded night made again by the model (tests/models/model.h): document 02, request 1, from the documents alone. */
#ifndef MODEL_NIGHT_H
#define MODEL_NIGHT_H

#include "model.h"

/* Hands over each line of the replay, in order: the record's number and the answer. `to` is the caller's own. */
typedef void model_line(void *to, uint32_t number, uint32_t answer);
void model_replay(struct bytes trace, model_line *line, void *to);

/* The same for whoever wants more than the answers: each record of the night in order, of kind 4 the one that opens it and of kind 0 a bad one, at
 * which it ends; the whole answer; and what was lent, as the call left it. Of an empty trace nothing is seen. */
struct model_seen {
    uint32_t number;
    unsigned kind;
    struct model_answer answer;
    const struct lent *lent;
};
typedef void model_watcher(void *to, const struct model_seen *seen);
void model_watch(struct bytes trace, model_watcher *watcher, void *to);

#endif
