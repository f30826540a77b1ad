/* Runs two scripts over the guide's vertical sequence, one that finishes and one that stops at a step, and prints how each ended.
 * From the repository's root:
 *
 *   (cd crates/nick_c && rt lib)
 *   cc -std=c11 -Wall -Wextra -Werror -Iinclude examples/c/script.c crates/nick_c/out/libnick_c.a -o nick-script
 */
#include <inttypes.h>
#include <stdio.h>
#include <string.h>

#include "nick.h"

/* Scanlines that the buffers have room for: each script paints two at most. */
#define HEIGHT 2

static uint8_t state[NICK_STATE_BYTES];
static uint8_t ram[NICK_RAM_BYTES];
static uint8_t dots[NICK_LINE_DOTS * HEIGHT];
static uint8_t records[NICK_RECORD_BYTES * HEIGHT];
static const uint8_t nothing_connected[1];

/* SC, MB, LM, RM, LD1, LD2, COL0 to COL7. The first block has VINT: its first scanline has the edge of VIRQ. The last block has
 * VRES and RELOAD. */
static const uint8_t table[5][16] = {
    {253, 128, 63, 0},
    {254, 0, 6, 63},
    {255, 0, 63, 32},
    {237, 2, 6, 63, 8192 % 256, 8192 / 256},
    {252, 19, 10, 52, 1000 % 256, 1000 / 256, 0, 0, 36, 73},
};

/* Runs a script from the fresh state, with room for the scanlines that it asks for, and prints the first byte of each record. */
static void print_run(const uint8_t script[][NICK_STEP_BYTES], size_t steps)
{
    uint64_t place = 0;
    size_t height = 0;

    for (size_t i = 0; i < steps; i++)
        height += script[i][0] == 1;
    nick_fresh(state, sizeof state);
    uint32_t told = nick_run(state, sizeof state, ram, sizeof ram, script[0], NICK_STEP_BYTES * steps, dots,
                             NICK_LINE_DOTS * height, records, NICK_RECORD_BYTES * height, nothing_connected, 0, &place);

    printf("run: refusal %d, latch %d, enable %d, request %d", (int)(told & 255), (int)(told >> 8 & 1), (int)(told >> 9 & 1),
           (int)(told >> 10 & 1));
    if (told >> 11 & 1)
        printf(", stopped at step %" PRIu64, place);
    printf("; records begin with");
    for (size_t y = 0; y < height; y++)
        printf(" %d", records[NICK_RECORD_BYTES * y]);
    printf("\n");
}

int main(void)
{
    /* Enable interrupts, write BORDER, paint two scanlines. */
    static const uint8_t finishes[][NICK_STEP_BYTES] = {{2, 0, 1}, {0, 129, 146}, {1}, {1}};
    /* Paint a scanline, reset the latch, write a reserved port, paint another scanline. */
    static const uint8_t stops[][NICK_STEP_BYTES] = {{1}, {3}, {0, 132, 7}, {1}};

    memcpy(ram, table, sizeof table);
    print_run(finishes, sizeof finishes / sizeof finishes[0]);
    print_run(stops, sizeof stops / sizeof stops[0]);
    return 0;
}
