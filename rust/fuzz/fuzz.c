/* SPDX-License-Identifier: Apache-2.0 */
/* The entries under a coverage-guided fuzzer. The input is a list of calls on one state block, each a head of 32 bytes and its
   metadata (README.md). Aborts at: a refused call that changed a byte; an answer that cannot be; a ready count that does not follow
   from the pending one; a peak or gain that cannot be; a sample out of range; a byte written behind the ready samples or behind the block; a block out of range after
   an accepted call; beside the model, anything that differs from it. */
#include "made.h"
#include "mend.h"
#include "spots.h"
#include <stdio.h>
#include <stdlib.h>
#include <string.h>
#include <unistd.h>

enum { CALLS = 24, HEAD = 32, STRIDE = 1536, CHANNELS = 34, RECORDS = 1024, STREAM = 40, BEHIND = 64 };
/* Of the block: where sources, elements, infos, the layout's code, the hall table and the area stand, and how long a source and an element are
   (docs/STATE-BLOCK.md). */
enum { SOURCES = 240, SOURCE = 28, ELEMENTS = SOURCES + 16 * SOURCE, ELEMENT = 368, INFOS = ELEMENTS + 2 * ELEMENT, MARKS = 20 };
enum { AREA = 29220, TABLE = AREA - HALL_TABLE_SIZE, LAYOUT = TABLE - 4 };

/* One renderer's memory, longer than what is lent of it. */
static uint8_t state[1 << 17], before[1 << 17], out[48 * STRIDE], kept[48 * STRIDE], records[40 * RECORDS], codes[255];
static float pcm[CHANNELS * STRIDE];
static int damaged; /* the block was written from outside since it was new: its floats may be any */
static int printing; /* each answer, where one input is run again */

static uint32_t half(const uint8_t *p) { return (uint32_t)(p[0] | p[1] << 8); }
static uint32_t word(const uint8_t *p) { return half(p) | half(p + 2) << 16; }
static uint64_t both(const uint8_t *p) { return word(p) | (uint64_t)word(p + 4) << 32; }
static void put_both(uint8_t *p, uint64_t n) { memcpy(p, &n, 8); }
static void fail(const char *why) { fputs(why, stderr), fputc('\n', stderr), abort(); }

/* Mostly a stride, else a number beside one. */
static uint32_t stride_of(uint8_t b) {
  static const uint32_t others[16] = {0, 1, 63, 65, 96, 1535, 1537, 1600, 1 << 16, 1 << 26, 1u << 31, UINT32_MAX, 32, 127, 129, 1504};
  return b < 240 ? 64u * (1u + b % 24u) : others[b - 240];
}

/* PCM for the counts, of that loudness; now and then some bytes too many or too few. */
static size_t fill_pcm(const made *m, uint8_t loudness, int8_t more) {
  static const float peaks[8] = {0.0f, 0.25f, 0.5f, 1.0f, 2.0f, 16.0f, 16.000002f, __builtin_nanf("")};
  size_t values = (m->codes_length + m->objects) * m->samples, most = CHANNELS * STRIDE;
  if (values > most) values = most;
  for (size_t i = 0; i < values; i++) pcm[i] = peaks[loudness] * (float)((int)(i % 7) - 3) / 3.0f;
  if (more >= 120 && values < most - 2) return 4 * values + (size_t)(more - 119);
  if (more <= -120 && values > 1) return 4 * values - (size_t)(-119 - more) % 8;
  return 4 * values;
}

/* As many bed channels and objects as the first update has. */
static void fit(made *m) {
  if (m->meta_length < 40) return;
  m->objects = records[4] > records[5] ? (uint32_t)(records[4] - records[5]) : 0;
  m->codes_length = records[6] <= 18 ? records[6] : 18;
  memcpy(codes, records + 8, m->codes_length);
}

/* A push, from its head and the records behind it. */
static void push_of(made *m, const uint8_t *head, size_t count) {
  m->rate = word(head + 2), m->samples = half(head + 6), m->objects = head[8];
  m->codes = codes, m->codes_length = head[9];
  for (size_t i = 0; i < m->codes_length; i++) codes[i] = head[14 + i % 18];
  m->meta = records, m->meta_length = 40 * (head[0] & 8 ? mend(records, count) : count);
  if (head[0] & 16) fit(m);
  if (head[13] == 253 && m->meta_length) m->meta_length--;
  m->pcm = (uint8_t *)pcm, m->pcm_length = fill_pcm(m, head[0] >> 5, (int8_t)head[12]);
}

/* The table of a making call: as many bytes as the head says, of the records behind it. */
static void table_of(made *m, const uint8_t *head, size_t count) {
  m->table = records, m->table_length = half(head + 6);
  if (m->table_length > 40 * count) m->table_length = 40 * count;
  if (head[0] & 8) mend_table(records, m->table_length);
}

/* Bytes of the output that is lent: as few as may be, one fewer, or all. */
static size_t room_of(uint32_t stride, uint8_t b) {
  if (b == 252 || stride == 0 || stride > STRIDE) return sizeof out;
  return 48 * (size_t)stride - (b == 255);
}

static unsigned entry_of(const uint8_t *head) {
  if ((head[0] & 7) == 5 && head[9] & 1) return head[9] & 2 ? RELEASE : HOLD;
  if ((head[0] & 7) == 6) return !(head[1] & 1) ? RESET : head[1] & 2 ? MAKE_WITH : MAKE;
  return (head[0] & 7) == 5 ? FLUSH : PUSH;
}

/* The call of a head. */
static made call(const uint8_t *head, size_t count, size_t size) {
  made m = {.entry = entry_of(head), .stride = stride_of(head[1])};
  m.layout = head[8] < 240 ? head[8] % 5 : word(head + 2);
  m.object = head[8] < 240 ? head[8] : word(head + 2);
  m.state = state, m.before = before, m.state_length = size - (head[13] == 254);
  m.out = out, m.kept = kept, m.out_length = room_of(m.stride, head[13]);
  m.pcm = m.meta = m.codes = m.table = records;
  if (m.entry == PUSH) push_of(&m, head, count);
  if (m.entry == MAKE_WITH) table_of(&m, head, count);
  memcpy(before, state, size + BEHIND), memset(out, 0x5a, sizeof out), memcpy(kept, out, sizeof out);
  if (m.entry == RESET) m.answer = hall_reset(m.state, m.state_length);
  else if (m.entry == MAKE) m.answer = hall_make(m.state, m.state_length, m.layout);
  else if (m.entry == MAKE_WITH)
    m.answer = hall_make_with_table(m.state, m.state_length, m.layout, m.table, m.table_length);
  else if (m.entry == HOLD) m.answer = hall_hold(m.state, m.state_length, m.object);
  else if (m.entry == RELEASE) m.answer = hall_release(m.state, m.state_length, m.object);
  else if (m.entry == FLUSH) m.answer = hall_flush(m.state, m.state_length, m.out, m.out_length, m.stride);
  else
    m.answer = hall_push(m.state, m.state_length, m.pcm, m.pcm_length, m.meta, m.meta_length, m.out, m.out_length, m.codes,
                         m.codes_length, m.rate, m.samples, m.objects, m.stride);
  return m;
}

/* Moves the stream to so many samples before its end, or writes a byte of the block. */
static void damage(const uint8_t *head, size_t size) {
  uint64_t room = half(head + 6), position = both(state + 8), end = (uint64_t)1 << STREAM;
  if (head[1] & 1) {
    if (position > end / 2) return;
    const int places[3] = {8, 16, 72}; /* position, slot start, payload position */
    for (int i = 0; i < 3; i++) put_both(state + places[i], both(state + places[i]) + end - room - position);
  } else {
    size_t place = word(head + 2) % (INFOS + 1 + HALL_TABLE_SIZE); /* behind the rest the layout and the table */
    size_t behind = place == INFOS ? LAYOUT : TABLE + place - INFOS - 1;
    state[head[1] & 2 ? word(head + 2) % size : place < INFOS ? place : behind] = head[8];
    damaged = 1;
  }
}

/* By a number above 1. */
static int can_refuse(unsigned entry, uint32_t number) {
  if (entry == PUSH) return number < 15 || number == 25;
  if (entry == HOLD || entry == RELEASE) return number == 24;
  return entry == MAKE ? number == 15 : entry == MAKE_WITH && number >= 15;
}

static void check_answer(const made *m) {
  hall_answer a = m->answer;
  if (!(a.peak >= 0.0f) || a.gain != a.gain) fail("a peak or gain that cannot be");
  if (!a.ready && (a.peak != 0.0f || a.gain != 1.0f)) fail("a peak or gain of no block");
  if (!damaged && !(__builtin_isfinite(a.peak) && a.gain > 0.0f && a.gain <= 1.0f)) fail("a peak or gain out of range");
  if (a.kind > 3 || (a.kind != HALL_REFUSED && (a.number || a.first || a.second))) fail("an answer that cannot be");
  if (a.kind != HALL_REFUSED) return;
  if (a.number < 1 || (a.number > 18 && a.number != 24 && a.number != 25) || a.number == 7 || a.ready) fail("a refusal that cannot be");
  if (a.number != 1 && !can_refuse(m->entry, a.number)) fail("a refusal that is not this entry's");
  int counts = a.number == 9 || a.number == 11 || a.number == 13 || a.number == 14;
  if (!counts && (a.first || a.second)) fail("counts that cannot be");
}

/* Channels that the block's layout lacks have no samples. */
static void check_output(size_t ready, size_t stride) {
  uint32_t layout = word(state + LAYOUT);
  for (uint32_t c = 0; c < 12; c++) {
    if (!hall_has(layout, c)) {
      if (memcmp(out + 4 * c * stride, kept, 4 * stride)) fail("a byte of an absent channel");
      continue;
    }
    for (size_t i = 0; i < ready; i++) {
      float x;
      memcpy(&x, out + 4 * (c * stride + i), 4);
      if (!damaged && !(x >= -1.0f && x <= 1.0f)) fail("a sample out of range");
    }
    if (memcmp(out + 4 * (c * stride + ready), kept, 4 * (stride - ready))) fail("a byte behind the ready samples");
  }
  if (memcmp(out + 48 * stride, kept, sizeof out - 48 * stride)) fail("a byte behind the channels");
}

/* A push of no samples looks at the block first: 1 says that it is out of range. */
static int refused_by_1(size_t size) {
  static uint8_t room[48 * 64];
  return hall_push(state, size, room, 0, room, 0, room, sizeof room, room, 0, 48000, 0, 0, 64).number == 1;
}

/* How many heights the block's table has, of the full-range channels. */
static unsigned heights(void) {
  float y[HALL_CHANNELS];
  unsigned found = 0;
  for (uint32_t c = 0; c < HALL_CHANNELS; c++) {
    uint32_t k = 0;
    memcpy(y + c, state + TABLE + 12 * c + 4, 4);
    while (k < c && (k == HALL_LFE || y[k] != y[c])) k++;
    found += k == c && c != HALL_LFE;
  }
  return found;
}

/* What the fuzzer is told of the answer and of the block that it left. */
static void tell(hall_answer a, size_t stride, uint32_t last) {
  spot(a.kind == HALL_REFUSED ? a.number : 26 + a.kind);
  spot(1024 + 26 * last + a.number);                            /* the refusal, and the one before */
  spot(288 + word(state + 80) % 33);                            /* objects */
  spot(328 + word(state + 88) % 19 * 3 + word(state + 92) % 3); /* beds, elements */
  spot(392 + (unsigned)a.ready / 64);
  spot(424 + (word(state + 64) / 8 & 7) + 8 * (word(state + 4) / 8 & 7)); /* pending samples, phase */
  for (unsigned e = 0; e < word(state + 92) % 3; e++) {
    const uint8_t *element = state + ELEMENTS + ELEMENT * e;
    unsigned used = 0, moves = 0;
    for (unsigned b = 0; b < 8; b++) used |= (element[24 + 12 * b] & 1u) << b;
    for (unsigned t = 0; t < 16; t++) moves += element[112 + 16 * t] & 1u;
    spot(512 + used);                                            /* blocks applied */
    spot(768 + 17 * e + moves);                                  /* objects that move */
    spot(804 + 2 * e + (both(element + 8) > (uint64_t)1 << 47)); /* a ramp goes on */
  }
  spot(808 + (word(state + 24) != 0x3f800000u) + 2 * (state[68] & 1u)); /* limiter gain, initialized */
  unsigned heard = 0;
  for (uint32_t c = 0; c < 12 && a.ready; c++) heard += hall_has(word(state + LAYOUT), c) && word(out + 4 * c * stride) != 0;
  spot(820 + heard); /* channels that are heard */
  unsigned sent = 0, marks = 0;
  for (size_t i = 0; i < 16; i++) sent += word(state + SOURCES + SOURCE * i + 24) << 1 != 0;
  for (size_t i = 0; i < 16; i++) marks |= 1u << (word(state + SOURCES + SOURCE * i + MARKS) & 7);
  spot(840 + sent);          /* objects with a send */
  spot(1760 + (marks & 255)); /* which marks some object has */
  spot(900 + word(state + AREA) % 9); /* updates that wait */
  spot(860 + word(state + LAYOUT) % 5);
  spot(870 + heights());
}

/* A hold or a release changes at most its object's mark; NaNs that a write has left may get other bits. */
static void check_mark(const made *m, size_t size) {
  size_t at = SOURCES + SOURCE * (size_t)m->object + MARKS;
  uint32_t was = word(before + at), marks = m->entry == HOLD ? was | 2 : was & ~2u;
  if (word(state + at) != marks || memcmp(out, kept, sizeof out)) fail("a mark");
  if (damaged && marks != was) return;
  if (memcmp(before, state, at) || memcmp(before + at + 4, state + at + 4, size - at - 4)) fail("a byte beside the mark");
}

static void check(const made *m, size_t size) {
  hall_answer a = m->answer;
  uint32_t pending = word(before + 64);
  check_answer(m);
  if (memcmp(before + size, state + size, BEHIND)) fail("a byte behind the block");
  if (a.kind == HALL_REFUSED || a.kind == HALL_NONE) {
    if (memcmp(before, state, size) || memcmp(out, kept, sizeof out)) fail("a refused call changed a byte");
    return;
  }
  if (m->entry == PUSH && a.ready != (pending + m->samples) / 64 * 64) fail("ready of a push");
  if (m->entry == FLUSH && a.ready != pending) fail("ready of a flush");
  if (m->entry == RESET || m->entry == MAKE || m->entry == MAKE_WITH) damaged = 0;
  else if (m->entry == HOLD || m->entry == RELEASE) check_mark(m, size);
  else check_output(a.ready, m->stride);
  if (refused_by_1(size)) fail("an accepted call left a block out of range");
}

static void print(hall_answer a) {
  printf("%u %u %u %u %zu %a %a\n", a.kind, a.number, a.first, a.second, a.ready, (double)a.peak, (double)a.gain);
}

static void run(const uint8_t *p, size_t n) {
  size_t size = hall_state_size();
  uint32_t last = 0;
  const uint8_t *end = p + n;
  memset(state, 0xa5, sizeof state);
  if (hall_make(state, size, HALL_714).kind != HALL_DONE) fail("make");
  damaged = 0;
  for (int calls = 0; calls < CALLS && end - p >= HEAD; calls++) {
    const uint8_t *head = p;
    int op = head[0] & 7;
    size_t count = op < 5 || op == 6 ? half(head + 10) : 0, left = (size_t)(end - p - HEAD) / 40;
    p += HEAD;
    if (op == 7) { damage(head, size); continue; }
    if (count > left) count = left;
    if (count > RECORDS) count = RECORDS;
    memcpy(records, p, 40 * count), p += 40 * count;
    made m = call(head, count, size);
    if (printing) print(m.answer);
    tell(m.answer, m.stride, last), last = m.answer.number;
    beside(&m);
    check(&m, size);
  }
}

#ifdef __AFL_FUZZ_TESTCASE_LEN
__AFL_FUZZ_INIT();
int main(void) {
  __AFL_INIT();
  const uint8_t *input = __AFL_FUZZ_TESTCASE_BUF;
  while (__AFL_LOOP(10000)) run(input, (size_t)__AFL_FUZZ_TESTCASE_LEN);
  return 0;
}
#else
/* Runs one input and prints its answers: `replay < FILE`. */
int main(void) {
  static uint8_t input[1 << 20];
  size_t n = 0;
  for (ssize_t k; (k = read(0, input + n, sizeof input - n)) > 0;) n += (size_t)k;
  printing = 1;
  run(input, n);
  return 0;
}
#endif
