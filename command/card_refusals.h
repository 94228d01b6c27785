/* Refused plan cards, looked at again for people. */
#ifndef CARD_REFUSALS_H
#define CARD_REFUSALS_H

#include "command.h"

/* Reading this file of cards ended so; says why it is refused, and gives the status. */
int cards_ended(struct plan_end end, const struct source *cards);

#endif
