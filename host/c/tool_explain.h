/* What a board answers, in plain words on standard output. */
#ifndef BUJORELM_TOOL_EXPLAIN_H
#define BUJORELM_TOOL_EXPLAIN_H

#include "tool_frames.h"

/* Says what an answer is. `id` is the ID that a lock was asked for, six bytes, or NULL where it is not known. Returns whether all is well: not
   where the board rejected, a read or a write failed, a lock that was asked for is another's, the answer is W3 or its frames are out of order. */
bool explain(const struct answer *answer, const uint8_t *id);

#endif
