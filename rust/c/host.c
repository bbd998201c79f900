/* SPDX-License-Identifier: Apache-2.0 */
/* A host in C: in a hall of each layout, and in one with a table of its own, one bed and one object that moves, once by an
   update that is sent a frame ahead, and is held on its way, frames of 480 samples, one too loud, one broken, a flush. It prints what it hears: each answer, and peak, gain
   and each ready sample of the layout's channels as the eight digits of their bits. Then it asks where to put a sound, makes
   planes of some bytes and 24-bit integers of some samples, and prints these too. */
#include "voqlisna.h"
#include "voqlisna_records.h"
#include <stdio.h>
#include <stdlib.h>

enum { SAMPLES = 480, STRIDE = 512, FRAMES = 8, LOUD = 3, HELD = 4, BROKEN = 5, EARLY = 6, RELEASED = 7, RATE = 48000, ARCHIVED = 2, HEARD = 64, PLAYED = 3 };

/* Float modes, without the flags of bits 0 to 5. This thread flushes to zero and rounds up. */
enum { USUAL = 0x1f80, AUDIO = 0xdf80, CONTROL = 0xffc0 };

static uint32_t bits(const void *x) {
  uint32_t word;
  memcpy(&word, x, 4);
  return word;
}

static void print_answer(const char *call, hall_answer answer) {
  printf("%s %u %u %u %u %zu", call, answer.kind, answer.number, answer.first, answer.second, answer.ready);
  printf(" %08x %08x", bits(&answer.peak), bits(&answer.gain));
  if (answer.kind == HALL_REFUSED) printf(" %s", hall_refusal_text(answer.number));
  printf("\n");
}

static void print(const char *call, hall_answer answer, uint32_t layout, const uint8_t *out) {
  size_t i;
  uint32_t c;
  print_answer(call, answer);
  for (i = 0; i < answer.ready; i++) {
    for (c = 0; c < HALL_CHANNELS; c++)
      if (hall_has(layout, c)) printf("%s%08x", c > 0 ? " " : "", bits(out + 4 * (c * STRIDE + i)));
    printf("\n");
  }
}

/* One update: the bed stays, the object goes to (x, 0.25, 0.5) within the frame and shakes the floor; at the frame's start,
   or so many samples ahead. Gives the records' length. */
static size_t move(uint8_t *meta, float x, uint32_t ahead) {
  const uint8_t beds[] = {HALL_BED_BASS};
  uint8_t *end = meta;
  hall_object object = hall_keep;
  object.flags = HALL_VALID | HALL_POSITION | HALL_GAIN | HALL_SIZE;
  object.gain = 0.5f;
  object.x = x;
  object.y = 0.25f;
  object.z = 0.5f;
  object.size = 0.125f;
  object.send = 0.75f;
  if (ahead > 0) end = hall_put_update_ahead(end, ahead, 2, 1, beds, 1, 1);
  else end = hall_put_update(end, 0, 2, 1, beds, 1, 1);
  end = hall_put_element(end, 1);
  end = hall_put_block(end, 0, SAMPLES);
  end = hall_put_object(end, &hall_keep);
  end = hall_put_object(end, &object);
  return (size_t)(end - meta);
}

/* A ramp on each channel, the object's eight times as loud in one frame, a NaN in the broken one. */
static void sound(float *pcm, int frame) {
  const float level = frame == LOUD ? 8.0f : 1.0f;
  int i;
  for (i = 0; i < SAMPLES; i++) {
    pcm[i] = (float)((frame * SAMPLES + i) % 100) / 64.0f;
    pcm[SAMPLES + i] = level * ((float)((frame * SAMPLES + i) % 37) / 32.0f - 0.5f);
  }
  if (frame == BROKEN) memset(pcm + 7, 0xff, 4);
}

/* Where these speakers sound alone, as panned and as a record has it. */
static void find(const uint8_t *state, size_t size, uint32_t mask) {
  const hall_place place = hall_find(state, size, mask);
  hall_object object = hall_keep;
  printf("find %u %u %08x %08x %08x\n", place.kind, place.number, bits(&place.x), bits(&place.y), bits(&place.z));
  if (place.kind != HALL_FOUND) return;
  hall_set_place(&object, &place);
  printf("record %u %u %08x %08x %08x\n", object.anchor, object.flags, bits(&object.x), bits(&object.y), bits(&object.z));
}

/* Planes of samples whose bytes count up, and these samples again. */
static void archive(void) {
  uint8_t sound[48 * ARCHIVED], planes[48 * ARCHIVED], back[48 * ARCHIVED];
  size_t i;
  for (i = 0; i < sizeof sound; i++) sound[i] = (uint8_t)i;
  print_answer("to_planes", hall_to_planes(sound, sizeof sound, ARCHIVED, planes, sizeof planes));
  for (i = 0; i < sizeof planes; i++) printf("%02x", planes[i]);
  printf("\n");
  print_answer("from_planes", hall_from_planes(planes, sizeof planes, ARCHIVED, back, sizeof back));
  printf("%s\n", memcmp(back, sound, sizeof sound) == 0 ? "the same" : "others");
  print_answer("to_planes", hall_to_planes(sound, sizeof sound, HALL_MAX_SAMPLES + 1, planes, sizeof planes));
  print_answer("to_planes", hall_to_planes(sound, sizeof sound, ARCHIVED, planes, sizeof planes - 1));
}

/* Samples of two channels as an amplifier takes them, and again as floats, in the usual float mode. */
static void amplifier(void) {
  static const int channels[2] = {HALL_FL, HALL_TBR};
  static float out[HALL_CHANNELS * HEARD];
  const float step = 1.0f / 8388608;
  const uint8_t *const sound = (const uint8_t *)out;
  uint8_t pcm[36 * PLAYED], back[48 * PLAYED];
  const uint32_t mode = hall_enter_floats();
  size_t c, i;
  out[HEARD * HALL_FL] = 0.5f * step, out[HEARD * HALL_FL + 1] = 1.5f * step, out[HEARD * HALL_FL + 2] = 1;
  out[HEARD * HALL_TBR] = -1, out[HEARD * HALL_TBR + 1] = -2.5f * step, out[HEARD * HALL_TBR + 2] = 0.5f;
  print_answer("write_24", hall_write_24(sound, sizeof out, HEARD, PLAYED, pcm, sizeof pcm));
  for (c = 0; c < 2; c++)
    for (i = 0; i < PLAYED; i++) {
      const uint8_t *at = pcm + 36 * i + 3 * channels[c];
      printf("%02x%02x%02x%c", at[0], at[1], at[2], i + 1 < PLAYED ? ' ' : '\n');
    }
  print_answer("read_24", hall_read_24(pcm, sizeof pcm, back, sizeof back));
  for (c = 0; c < 2; c++)
    for (i = 0; i < PLAYED; i++)
      printf("%08x%c", bits(back + 4 * (channels[c] * PLAYED + i)), i + 1 < PLAYED ? ' ' : '\n');
  print_answer("write_24", hall_write_24(sound, sizeof out, HEARD - 1, PLAYED, pcm, sizeof pcm));
  print_answer("write_24", hall_write_24(sound, sizeof out, HEARD, HEARD + 1, pcm, sizeof pcm));
  print_answer("write_24", hall_write_24(sound, sizeof out, HEARD, PLAYED, pcm, sizeof pcm - 1));
  out[HEARD + 2] = 1 + 2 * step;
  print_answer("write_24", hall_write_24(sound, sizeof out, HEARD, PLAYED, pcm, sizeof pcm));
  print_answer("read_24", hall_read_24(pcm, sizeof pcm - 1, back, sizeof back));
  print_answer("read_24", hall_read_24(pcm, sizeof pcm, back, sizeof back - 1));
  hall_leave_floats(mode);
}

/* A hall table as it was measured: the built-in places, but the side speakers halfway up. Gives its bytes. */
static const uint8_t *measured(void) {
  static float table[HALL_CHANNELS][3] = {
    {-0.7f, 0, 1}, {0.7f, 0, 1}, {0, 0, 1}, {0, 0, 1}, {-0.7f, 0, -1}, {0.7f, 0, -1},
    {-1, 0.5f, -0.5f}, {1, 0.5f, -0.5f}, {-1, 1, 0.5f}, {1, 1, 0.5f}, {-0.7f, 1, -1}, {0.7f, 1, -1}};
  return (const uint8_t *)table;
}

/* Tables that are refused: a byte short, with a coordinate outside, with two speakers at one place. */
static void wrong_tables(uint8_t *state, size_t size) {
  float table[HALL_CHANNELS][3];
  memcpy(table, measured(), sizeof table);
  print_answer("make_with_table", hall_make_with_table(state, size, HALL_714, (uint8_t *)table, sizeof table - 1));
  table[HALL_LFE][2] = 1.5f;
  print_answer("make_with_table", hall_make_with_table(state, size, HALL_714, (uint8_t *)table, sizeof table));
  memcpy(table, measured(), sizeof table);
  memcpy(table[HALL_BL], table[HALL_FL], sizeof table[0]);
  print_answer("make_with_table", hall_make_with_table(state, size, HALL_714, (uint8_t *)table, sizeof table));
}

/* The show in a hall of that layout, with that table if there is one, in the thread's float mode; the mode before the last
   two calls, and between them. */
static void show(uint8_t *state, size_t size, uint32_t layout, const uint8_t *table, uint32_t modes[2]) {
  const uint8_t codes[] = {HALL_BED_BASS};
  static float pcm[2 * SAMPLES];
  static uint8_t out[48 * STRIDE], meta[5 * HALL_RECORD];
  uint32_t mode;
  int frame;
  if (table) print_answer("make_with_table", hall_make_with_table(state, size, layout, table, HALL_TABLE_SIZE));
  else print_answer("make", hall_make(state, size, layout));
  for (frame = 0; frame < FRAMES; frame++) {
    const size_t length = frame % 2 == 0 ? move(meta, (float)frame / 8.0f, frame == EARLY ? SAMPLES + 20 : 0) : 0;
    hall_answer answer;
    sound(pcm, frame);
    mode = hall_enter_floats();
    if (frame == HELD) print_answer("hold", hall_hold(state, size, 0));
    if (frame == RELEASED) print_answer("release", hall_release(state, size, 0));
    answer = hall_push(state, size, (const uint8_t *)pcm, sizeof pcm, meta, length, out, sizeof out, codes, sizeof codes,
                       RATE, SAMPLES, 1, STRIDE);
    hall_leave_floats(mode);
    print("push", answer, layout, out);
  }
  modes[0] = hall_enter_floats();
  modes[1] = hall_enter_floats();
  print("flush", hall_flush(state, size, out, sizeof out, STRIDE), layout, out);
  print("flush", hall_flush(state, size, out, sizeof out, STRIDE), layout, out);
  print_answer("hold", hall_hold(state, size, 1));
  find(state, size, 1u << HALL_FL | 1u << HALL_FC);
  find(state, size, 1u << HALL_BL | 1u << HALL_SL);
  find(state, size, 1u << HALL_LFE);
  find(state, size - 1, 1u << HALL_FL);
  hall_leave_floats(modes[0]);
  print_answer("reset", hall_reset(state, size));
}

/* With an argument the thread keeps the usual float mode: valgrind knows no other. */
int main(int count, char **words) {
  const size_t size = hall_state_size();
  uint8_t *state = (uint8_t *)malloc(size);
  const uint32_t thread = count > 1 ? USUAL : AUDIO;
  uint32_t number, layout, modes[2];
  int kept = 1;
  if (hall_version() != HALL_VERSION || size != HALL_STATE_SIZE || !state) return 1;
  (void)words;
  hall_leave_floats(thread);
  print_answer("make", hall_make(state, size - 1, HALL_LAYOUTS));
  print_answer("make", hall_make(state, size, HALL_LAYOUTS));
  wrong_tables(state, size);
  for (layout = HALL_714; layout <= HALL_LAYOUTS; layout++) {
    show(state, size, layout % HALL_LAYOUTS, layout < HALL_LAYOUTS ? NULL : measured(), modes);
    kept = kept && (modes[0] & CONTROL) == thread && (modes[1] & CONTROL) == USUAL;
  }
  archive();
  amplifier();
  for (number = 0; number < 26; number++) printf("%u: %s\n", number, hall_refusal_text(number));
  free(state);
  return kept ? 0 : 2;
}
