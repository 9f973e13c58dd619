/*
 * Places the tasks of a sheet and prints the lane of each, or the number for which the sheet is refused.
 *
 *     cc -I crates/installer/include examples/place.c crates/installer/out/libinstaller.a -o place
 *     ./place examples/office.sheet
 */
#include <stdio.h>
#include <string.h>

#include "lanes.h"

/* The largest sheet has 3 bytes and a body of 65,535. One byte more shows that a file is too long. */
static uint8_t sheet[3 + 65535 + 1];

int main(int argc, char **argv)
{
    if (argc != 2) {
        fprintf(stderr, "usage: place SHEET\n");
        return 2;
    }
    FILE *file = fopen(argv[1], "rb");
    if (file == NULL) {
        perror(argv[1]);
        return 2;
    }
    size_t length = fread(sheet, 1, sizeof sheet, file);
    int failed = ferror(file);
    fclose(file);
    if (failed) {
        fprintf(stderr, "%s: cannot be read\n", argv[1]);
        return 2;
    }

    /* No lane has this number, so the bytes that still have it after the call are those after the plan. */
    uint8_t plan[LANES_MOST_TASKS];
    memset(plan, 0xFF, sizeof plan);

    uint32_t code = lanes_place(sheet, length, plan, sizeof plan);
    if (code != 0) {
        printf("refused %u\n", (unsigned)code);
        return 1;
    }
    for (size_t task = 0; task < sizeof plan && plan[task] != 0xFF; task++)
        printf("task %zu lane %u\n", task, (unsigned)plan[task]);
    return 0;
}
