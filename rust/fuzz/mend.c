/* SPDX-License-Identifier: Apache-2.0 */
/* Metadata that a mutation has broken, put right again: kinds, counts, codes, flags, absent values, ranges and depth factors. What
   is drawn beside these stays as the mutation left it. */
#include "mend.h"
#include <string.h>

static void put_span(uint8_t *p) { /* an offset or a ramp: its sign and low 20 bits, where it is more */
  int64_t n, most = 1 << 20;
  memcpy(&n, p, 8);
  if (n < -most || n > most) n = n < 0 ? -(n & (most - 1)) : n & (most - 1);
  memcpy(p, &n, 8);
}

void mend_table(uint8_t *table, size_t length) {
  for (size_t at = 0; at + 4 <= length; at += 4) {
    float x;
    memcpy(&x, table + at, 4);
    if (!(x >= -1.0f && x <= 1.0f)) x = (float)table[at] / 127.5f - 1.0f;
    memcpy(table + at, &x, 4);
  }
}

static void put_float(uint8_t *p, float most) { /* from 0 to `most`, where it is not */
  float x;
  memcpy(&x, p, 4);
  if (!(x >= 0.0f && x <= most)) x = most * (float)p[0] / 255.0f;
  memcpy(p, &x, 4);
}

static void mend_update(uint8_t *r) {
  uint8_t least;
  int far = r[0] == 9;
  r[0] = far ? 9 : 1, r[1] = 0;
  r[4] %= 33;
  least = r[4] > 16 ? (uint8_t)(r[4] - 16) : 0;
  if (r[5] < least) r[5] = least;
  r[6] %= (r[4] < 18 ? r[4] : 18) + 1;
  r[7] %= 3;
  for (int i = 0; i < r[6]; i++) r[8 + i] %= 18;
  memset(r + 8 + r[6], 0, (far ? 20u : 32u) - r[6]);
  if (far) memset(r + 2, 0, 2), memset(r + 32, 0, 8);
}

static void mend_block(uint8_t *r) {
  r[0] = 3;
  memset(r + 1, 0, 7);
  put_span(r + 8);
  put_span(r + 16);
  memset(r + 24, 0, 16);
}

static void mend_object(uint8_t *r) {
  static const float depths[4] = {0.25f, 0.5f, 1.0f, 2.0f};
  r[0] = 4, r[1] %= 3, r[2] &= 63, r[3] = 0;
  if (r[2] & 4) put_float(r + 4, 8.0f); else memset(r + 4, 0, 4);
  if (!(r[2] & 8)) memset(r + 8, 0, 12);
  if (!(r[2] & 16)) memset(r + 20, 0, 4);
  if (r[2] & 32) put_float(r + 24, 1.0f); else memset(r + 24, 0, 4);
  memcpy(r + 32, depths + ((r[34] >> 6 | r[35] << 2) & 3), 4);
  put_float(r + 36, 1.0f);
}

/* An element and what it holds, in at most `left` records: as many blocks as there is room for. */
static size_t mend_element(uint8_t *r, size_t left, size_t objects) {
  size_t blocks = r[1] % 9, used = 1;
  while (blocks > 0 && 1 + blocks * (1 + objects) > left) blocks--;
  memset(r, 0, 40);
  r[0] = 2, r[1] = (uint8_t)blocks;
  for (size_t b = 0; b < blocks; b++) mend_block(r + 40 * used++);
  for (size_t o = 0; o < blocks * objects; o++) mend_object(r + 40 * used++);
  return used;
}

size_t mend(uint8_t *records, size_t count) {
  size_t at = 0;
  for (int updates = 0; updates < 16 && at < count; updates++) {
    uint8_t *update = records + 40 * at++;
    mend_update(update);
    for (uint8_t e = 0; e < update[7]; e++) {
      if (at == count) update[7] = e;
      else at += mend_element(records + 40 * at, count - at, update[4]);
    }
  }
  return at;
}
