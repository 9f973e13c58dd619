/* The lane board's placer for a C installer. Link with libinstaller.a. */
#ifndef LANES_H
#define LANES_H

#include <stddef.h>
#include <stdint.h>

#ifdef __cplusplus
extern "C" {
#endif

/* The most tasks that a sheet can hold: a plan of so many bytes is always long enough. */
#define LANES_MOST_TASKS 32

/*
 * Reads the task sheet, places its n tasks on the lanes of the box by the linear test, and writes the lane of task k
 * (0 to 3) into plan[k], for each k below n. Bytes of the plan after the first n are not touched.
 *
 * Returns 0, or the number of the first fault that applies: 1 to 9 for the sheet, 10 if there are fewer than n plan bytes,
 * 12 if some task finds no lane. Then no byte of the plan is touched.
 *
 * The caller owes, and nothing checks:
 *   - sheet points to sheet_len bytes that may be read, and plan to plan_len bytes that may be read and written;
 *   - these bytes do not overlap, and nobody else writes to them during the call;
 *   - neither pointer is NULL, even where its length is 0: point to any byte then.
 *
 * The call keeps nothing between calls, allocates nothing and never writes to the sheet. Several threads may call it at
 * once, each with a plan of its own.
 */
uint32_t lanes_place(const uint8_t *sheet, size_t sheet_len, uint8_t *plan, size_t plan_len);

#ifdef __cplusplus
}
#endif

#endif
