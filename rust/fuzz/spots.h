/* SPDX-License-Identifier: Apache-2.0 */
/* A branch for each number below 2,048, so that the fuzzer, which sees branches of this program alone, tells the numbers apart. */
#ifndef SPOTS_H
#define SPOTS_H
#define ONE(n) case n: __asm__ volatile("nop # " #n); break;
#define FOUR(n) ONE(n) ONE(n + 1) ONE(n + 2) ONE(n + 3)
#define SIXTEEN(n) FOUR(n) FOUR(n + 4) FOUR(n + 8) FOUR(n + 12)
#define MANY(n) SIXTEEN(n) SIXTEEN(n + 16) SIXTEEN(n + 32) SIXTEEN(n + 48)
#define MOST(n) MANY(n) MANY(n + 64) MANY(n + 128) MANY(n + 192)

__attribute__((noinline)) static void spot(unsigned n) {
  switch (n & 2047) { MOST(0) MOST(256) MOST(512) MOST(768) MOST(1024) MOST(1280) MOST(1536) MOST(1792) }
}
#endif
