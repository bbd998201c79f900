/* SPDX-License-Identifier: Apache-2.0 */
/* A call that was made: its arguments, and what came of it. beside.rs has the same struct. */
#ifndef MADE_H
#define MADE_H
#include "voqlisna.h"

enum { PUSH, FLUSH, RESET, MAKE, MAKE_WITH, HOLD, RELEASE };

typedef struct {
  uint32_t entry, rate, samples, objects, stride, layout, object;
  uint8_t *state, *out;           /* after the call */
  const uint8_t *before, *kept;   /* the same before it */
  const uint8_t *pcm, *meta, *codes, *table;
  size_t state_length, out_length, pcm_length, meta_length, codes_length, table_length;
  hall_answer answer;
} made;

#ifdef BESIDE
void beside(const made *call); /* the model's answer to it; aborts where it is another */
#else
static inline void beside(const made *call) { (void)call; }
#endif
#endif
