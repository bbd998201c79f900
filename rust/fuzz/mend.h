/* SPDX-License-Identifier: Apache-2.0 */
#ifndef MEND_H
#define MEND_H
#include <stddef.h>
#include <stdint.h>

/* Makes of `count` records of 40 bytes metadata as it is laid out; gives the number of records that are left. */
size_t mend(uint8_t *records, size_t count);

/* Takes the coordinates of a hall table into their range. */
void mend_table(uint8_t *table, size_t length);
#endif
