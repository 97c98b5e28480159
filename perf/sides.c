/* sides.c: Thymeflask and plain C. */
#include "sides.h"

#include "plain.h"

const struct side sides[SIDES] = {
    {"thymeflask", thymeflask_write, thymeflask_check, thymeflask_write_picture,
     thymeflask_read_picture, thymeflask_plan, thymeflask_session},
    {"plain", plain_write, plain_check, plain_write_picture,
     plain_read_picture, plain_plan, plain_session},
};
