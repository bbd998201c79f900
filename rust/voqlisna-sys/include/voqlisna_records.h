/* SPDX-License-Identifier: Apache-2.0 */
/* Metadata records for hall_push, and its refusals in words. C99 to C++17.

   Records stand in this order: an update; for each of its elements the element, its blocks, then for each object all
   its blocks (object 0 in block 0, object 0 in block 1, ..). Each function writes the 40 bytes at `to` and gives the
   place behind them. What is out of its range is written as it is: hall_push refuses it by 5 or 6.

     uint8_t meta[5 * HALL_RECORD], *end = meta;
     const uint8_t beds[] = {HALL_BED_CENTER};
     hall_object moved = {0};
     moved.flags = HALL_VALID | HALL_POSITION; moved.x = 0.5f; moved.y = 0.5f;
     end = hall_put_update(end, 0, 2, 1, beds, 1, 1);
     end = hall_put_element(end, 1);
     end = hall_put_block(end, 0, 256);
     end = hall_put_object(end, &hall_keep);
     end = hall_put_object(end, &moved); */
#ifndef VOQLISNA_RECORDS_H
#define VOQLISNA_RECORDS_H

#include "voqlisna.h"
#include <string.h>

#define HALL_RECORD 40u

enum { HALL_ROOM = 0, HALL_SCREEN = 1, HALL_SPEAKER = 2 };
enum { HALL_VALID = 1, HALL_DIFFERENTIAL = 2, HALL_GAIN = 4, HALL_POSITION = 8, HALL_DISTANCE = 16, HALL_SIZE = 32 };
enum { HALL_DEPTH_ONE = 0, HALL_DEPTH_QUARTER, HALL_DEPTH_HALF, HALL_DEPTH_TWO };

/* An object in a block. A value counts where its flag is set, the send always. All zeros: a bed, or an object that keeps
   what it has but for its send, which becomes 0. */
typedef struct {
  uint8_t anchor; /* HALL_ROOM .. */
  uint8_t flags;  /* HALL_VALID | .. */
  uint8_t depth;  /* HALL_DEPTH_ONE .. */
  float gain;     /* 0 to 8 */
  float x, y, z;  /* to the right, to the rear, up, from 0 to 1 in the room */
  float distance;
  float size; /* 0 to 1 */
  float screen_factor;
  float send; /* 0 to 1: what goes into the bass feed, times the gain */
} hall_object;

static const hall_object hall_keep = {0, 0, 0, 0.0f, 0.0f, 0.0f, 0.0f, 0.0f, 0.0f, 0.0f, 0.0f};

static inline uint8_t *hall_put_kind(uint8_t *to, uint8_t kind) {
  memset(to, 0, HALL_RECORD);
  to[0] = kind;
  return to + HALL_RECORD;
}

/* From sample `at` of the frame on: `objects` in all, at most 32, of which the first `fixed` are not dynamic; `beds`,
   at most 18 and no more than objects, with their codes; `elements` that follow, at most 2. */
static inline uint8_t *hall_put_update(uint8_t *to, uint16_t at, uint8_t objects, uint8_t fixed, const uint8_t *codes,
                                       uint8_t beds, uint8_t elements) {
  uint8_t *end = hall_put_kind(to, 1), i;
  to[2] = (uint8_t)(at & 255);
  to[3] = (uint8_t)(at >> 8);
  to[4] = objects;
  to[5] = fixed;
  to[6] = beds;
  to[7] = elements;
  for (i = 0; i < beds && i < 18; i++) to[8 + i] = codes[i];
  return end;
}

/* The same with an offset of 32 bits (kind 9): at or past the frame's end the update is not dropped, but waits, and is
   applied in the frame in which its sample falls. `at` counts from the start of the frame that brings it. */
static inline uint8_t *hall_put_update_ahead(uint8_t *to, uint32_t at, uint8_t objects, uint8_t fixed,
                                             const uint8_t *codes, uint8_t beds, uint8_t elements) {
  uint8_t *end = hall_put_update(to, 0, objects, fixed, codes, beds, elements), i;
  to[0] = 9;
  for (i = 0; i < 4; i++) to[28 + i] = (uint8_t)(at >> (8 * i));
  return end;
}

/* An element of at most 8 blocks. */
static inline uint8_t *hall_put_element(uint8_t *to, uint8_t blocks) {
  uint8_t *end = hall_put_kind(to, 2);
  to[1] = blocks;
  return end;
}

/* When the block starts, counted from the update, and how long its ramp is: samples, within +-1,048,576. */
static inline uint8_t *hall_put_block(uint8_t *to, int64_t offset, int64_t ramp) {
  uint8_t *end = hall_put_kind(to, 3);
  memcpy(to + 8, &offset, 8);
  memcpy(to + 16, &ramp, 8);
  return end;
}

static inline void hall_put_float(uint8_t *to, int present, float value) {
  if (present) memcpy(to, &value, 4);
}

static inline uint8_t *hall_put_object(uint8_t *to, const hall_object *object) {
  static const float depths[4] = {1.0f, 0.25f, 0.5f, 2.0f};
  uint8_t *end = hall_put_kind(to, 4);
  to[1] = object->anchor;
  to[2] = object->flags;
  hall_put_float(to + 4, object->flags & HALL_GAIN, object->gain);
  hall_put_float(to + 8, object->flags & HALL_POSITION, object->x);
  hall_put_float(to + 12, object->flags & HALL_POSITION, object->y);
  hall_put_float(to + 16, object->flags & HALL_POSITION, object->z);
  hall_put_float(to + 20, object->flags & HALL_DISTANCE, object->distance);
  hall_put_float(to + 24, object->flags & HALL_SIZE, object->size);
  hall_put_float(to + 28, 1, object->screen_factor);
  hall_put_float(to + 32, object->depth < 4, depths[object->depth & 3]);
  hall_put_float(to + 36, 1, object->send);
  return end;
}

/* An object at a place that hall_find has found: there it sounds from the speakers that were asked for. */
static inline void hall_set_place(hall_object *object, const hall_place *place) {
  object->anchor = HALL_ROOM;
  object->flags = (uint8_t)((object->flags | HALL_VALID | HALL_POSITION) & ~(HALL_DIFFERENTIAL | HALL_DISTANCE));
  object->x = (place->x + 1.0f) / 2.0f;
  object->y = (1.0f - place->z) / 2.0f;
  object->z = place->y;
}

/* A sentence for a person. */
static inline const char *hall_refusal_text(uint32_t number) {
  switch (number) {
    case 1: return "the stride, the output or the state block is not as it must be";
    case 2: return "too many samples, beds or objects, an unknown bed, or PCM of another length";
    case 3: return "the rate is outside 8,000 to 192,000 Hz";
    case 4: return "the stream would pass 2^40 samples: reset";
    case 5: return "metadata records are not as laid out, or a count is over its limit";
    case 6: return "a value in the metadata is out of its range";
    case 8: return "a sample is not finite or beyond +-16";
    case 9: return "the frame has another rate than the stream: flush and reset first";
    case 10: return "no metadata has come yet";
    case 11: return "the metadata has another number of dynamic objects than the frame";
    case 12: return "the frame has no samples";
    case 13: return "the frame lacks a bed of the metadata";
    case 14: return "the metadata has a bed of rear center, which no speaker plays";
    case 15: return "the layout's code is above 3";
    case 16: return "the hall table has not 144 bytes";
    case 17: return "a coordinate of the hall table is not from -1 to 1";
    case 18: return "two full-range speakers of the hall table are at the same place";
    case 19: return "24-bit samples of no whole number of 36 bytes";
    case 20: return "too little memory for samples to or from 24 bits";
    case 21: return "a sample to be written in 24 bits is NaN or outside -1 to 1";
    case 22: return "more than 1,536 samples to convert";
    case 23: return "the samples to convert have another length, or the destination is too short";
    case 24: return "no such object: its number is not below the dynamic objects of the last update";
    case 25: return "more than 8 updates would wait, or more than 1,200 records of them";
    default: return "an unknown refusal";
  }
}

#endif
