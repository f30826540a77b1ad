/* Paints the guide's vertical sequence and a PIXEL mode line, prints a few records and dots, and compares the frame with one that has
 * two dots changed. From the repository's root:
 *
 *   (cd crates/nick_c && rt lib)
 *   cc -std=c11 -Wall -Wextra -Werror -Iinclude examples/c/main.c crates/nick_c/out/libnick_c.a -o nick-example
 */
#include <inttypes.h>
#include <stdio.h>
#include <string.h>

#include "nick.h"

/* 3 + 2 + 1 scanlines of VSYNC, 19 black ones, 4 with a picture. */
#define HEIGHT 29
#define FIRST_PICTURE_LINE 25

static uint8_t state[NICK_STATE_BYTES];
static uint8_t ram[NICK_RAM_BYTES];
static uint8_t dots[NICK_LINE_DOTS * HEIGHT];
static uint8_t records[NICK_RECORD_BYTES * HEIGHT];
static uint8_t text[1000];
static uint8_t capture[sizeof dots];
static uint8_t stamped[sizeof records];
static const uint8_t nothing_connected[1];

/* SC, MB, LM, RM, LD1, LD2, COL0 to COL7. The last block has VRES and RELOAD. */
static const uint8_t table[5][16] = {
    {253, 0, 63, 0},
    {254, 0, 6, 63},
    {255, 0, 63, 32},
    {237, 2, 6, 63, 8192 % 256, 8192 / 256},
    {252, 19, 10, 52, 1000 % 256, 1000 / 256, 0, 0, 36, 73},
};

static void print_line(size_t y)
{
    const uint8_t *record = records + NICK_RECORD_BYTES * y;
    const uint8_t *line = dots + NICK_LINE_DOTS * y;

    printf("line %zu: record", y);
    for (int i = 0; i < NICK_RECORD_BYTES; i++)
        printf(" %d", record[i]);
    printf(", dots 30 to 41:");
    for (int x = 30; x < 42; x++)
        printf(" %d", line[x]);
    printf("\n");
}

/* Compares the capture with the painted frame, the capture's records being as given. */
static void print_comparison(const uint8_t *capture_records)
{
    uint8_t answer[NICK_COMPARISON_BYTES] = {0};
    uint32_t told = nick_compare(HEIGHT, capture, sizeof capture, capture_records, sizeof records, dots, sizeof dots, records,
                                 sizeof records, answer, sizeof answer);
    const int8_t *ranges = (const int8_t *)answer + 8;

    printf("comparison: refusal %d, side %d", (int)(told & 255), (int)(told >> 8));
    if (told == 0)
        printf(", %d dots differ, first line %d, dot %d; red %d to %d, green %d to %d, blue %d to %d", answer[0] + 256 * answer[1],
               answer[4] + 256 * answer[5], answer[6] + 256 * answer[7], ranges[0], ranges[1], ranges[2], ranges[3], ranges[4],
               ranges[5]);
    printf("\n");
}

int main(void)
{
    static const size_t shown[] = {0, 3, 4, 5, 6, 25, 26};
    uint8_t before[NICK_STATE_BYTES];

    memcpy(ram, table, sizeof table);
    ram[1000] = 165;
    if (nick_fresh(state, sizeof state) != 0)
        return 1;
    /* FIXBIAS with VC1 set, and BORDER. */
    if (nick_write(state, sizeof state, 128, 128) != 0)
        return 1;
    if (nick_write(state, sizeof state, 129, 146) != 0)
        return 1;
    printf("a write to port 132: refusal %" PRIu32 "\n", nick_write(state, sizeof state, 132, 7));

    memcpy(before, state, sizeof state);
    if (nick_paint(state, sizeof state, ram, sizeof ram, HEIGHT, dots, sizeof dots, records, sizeof records,
                   nothing_connected, 0) != 0)
        return 1;
    for (size_t i = 0; i < sizeof shown / sizeof shown[0]; i++)
        print_line(shown[i]);

    memcpy(capture, dots, sizeof dots);
    capture[NICK_LINE_DOTS * 25 + 32] = 0;
    capture[NICK_LINE_DOTS * 26 + 40] = 219;
    print_comparison(records);
    memset(stamped, 255, sizeof stamped);
    print_comparison(stamped);

    /* The same dot without painting, from the state before. */
    uint64_t answer = nick_dot(before, sizeof before, ram, sizeof ram, FIRST_PICTURE_LINE, 32, 0);
    uint32_t levels = nick_levels(answer >> 8 & 255);
    printf("line %d, dot 32: refusal %d, colour %d, %d address: %d; red %d of 7\n", FIRST_PICTURE_LINE, (int)(answer & 255),
           (int)(answer >> 8 & 255), (int)(answer >> 16 & 255), (int)(answer >> 24 & 65535), (int)(levels & 255));

    uint64_t listed = nick_list(state, sizeof state, ram, sizeof ram, text, sizeof text);
    if ((uint32_t)listed != 0)
        return 1;
    fwrite(text, 1, listed >> 32, stdout);
    return 0;
}
