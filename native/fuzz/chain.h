/* chain.h: a road that is kept, edited, edited again and edited back. */
#ifndef CHAIN_H
#define CHAIN_H

#include "planner.h"
#include "tables.h"

/* The road as the input has it, with one cabinet's record changed, and with another's too. */
enum { PLAIN, EDITED, TWICE, STAGES };

struct stage {
    struct input input;       /* the run's input, with this sheet */
    struct reading reading;   /* of this sheet */
    struct planning planning; /* what gz_keep told of it */
    struct tables tables;     /* what gz_keep left, if it was taken */
};

/* The stages of the last chain that was begun. */
extern struct stage stages[STAGES];

/* True if the road is too large to be planned more often than needed. */
int is_large(const struct reading *reading);

/* Makes the sheets of all stages, and the first stage: the road of an input that was taken, with
 * what gz_keep told and left. */
void begin_chain(const struct input *input, const struct reading *reading,
                 const struct planning *planning, const struct tables *tables);

/* Makes the other stages with gz_keep on the other run's memory. Goes through them and back with
 * gz_edit: it must do at each what gz_keep did. The last stage is for inputs that go far. A large
 * road is only edited back. */
void run_chain(const struct run *run, const struct run *other);

#endif
