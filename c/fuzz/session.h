/* The five calls of the session, each held to what holds of it whatever is lent. */
#ifndef FUZZ_SESSION_H
#define FUZZ_SESSION_H

#include "lent.h"

/* Which calls a record allows. A record that breaks its layout allows none. */
enum phase { EMPTY, LOADED, RUNNING, ANSWERED };

/* All that a session is lent, the list of Start aside. */
struct session {
    struct lent record, plan, rules, nodes, states;
};

/* A fresh session with the plan and the rules of the input, and tables of the length that these name. walks.c */
struct session fresh(struct input *in);
/* One byte of what is lent becomes another; never the record, which nobody else writes. walks.c */
void alter(struct session *s, struct input *in);

/* What Read tells. */
struct answer {
    uint32_t state, yes, parts, links, passed;
};

/* A refused call has altered nothing. After an accepted one the record allows exactly the calls of its phase, and Read in any:
 * Start, Cancel and an advance that does not finish keep what it answers, Load empties it. */
uint32_t load(struct session *s);
uint32_t start(struct session *s, struct lent *listed, struct lent *labels, uint32_t *parts);
uint32_t advance(struct session *s, uint32_t *finished);
uint32_t cancel(struct session *s);
uint32_t tell(struct session *s, struct answer *told);

/* whatif_confirm, compared with the checks that the header lists: 0 where session and fresh run agree, 1 without an answer,
 * else its reason. inlines.c */
uint32_t confirmed(const struct lent *record, const struct lent *plan, const struct lent *rules, const uint16_t *nodes,
                   const uint8_t *labels, size_t count);

#endif
