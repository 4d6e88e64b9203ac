/* Draws a tile in a border of 8 pixels outside it, four times: above with square corners, below with corners of radius 2;
 * on the left as a crate box, whose corners become round, on the right as a W3C box, whose square ones remain square.
 * Looks at both ends of the first and the last row of each border, and writes the canvas as a Netpbm P5 file to standard
 * output; ends with status 1 where a call is refused or a row ends elsewhere. docs/pictures/corners.png is made of that
 * file. */
#include <stdio.h>
#include <string.h>

#include "wunqaber.h"

enum {
    WIDTH = 136,
    HEIGHT = 112,
    HEADER = sizeof "P5\n136 112\n255\n" - 1,
    /* A tile and its oval, its border, tile and border together, what lies between two of them, and the canvas's byte. */
    BORDER = 8,
    TILE_WIDTH = 40,
    TILE_HEIGHT = 28,
    OVAL = 16,
    OUTER_WIDTH = TILE_WIDTH + 2 * BORDER,
    OUTER_HEIGHT = TILE_HEIGHT + 2 * BORDER,
    MARGIN = 8,
    WHITE = 255
};

static uint8_t canvas[WIDTH * HEIGHT];
static uint8_t file[HEADER + WIDTH * HEIGHT];

static const struct {
    int32_t kind, radius;
    /* How many pixels of the border's first and last row each corner leaves white. A crate box's corners grow by 8, to 8
     * or 10; a W3C box's remain 0, or grow to 6. */
    int white;
} tiles[2][2] = {
    {{WUNQABER_CRATE_BOX, 0, 5}, {WUNQABER_W3C_BOX, 0, 0}},
    {{WUNQABER_CRATE_BOX, 2, 7}, {WUNQABER_W3C_BOX, 2, 4}},
};

/* The tile whose border begins at (x, y), painted. */
static uint32_t paint_tile(int32_t kind, int32_t radius, int32_t x, int32_t y)
{
    wunqaber_figure box = {0, 0, 0, TILE_WIDTH, TILE_HEIGHT, {0, 0, 0, 0, 0, 0, 0, 0}};
    wunqaber_figure oval = {WUNQABER_ELLIPSE, 0, 0, OVAL, OVAL, {0, 0, 0, 0, 0, 0, 0, 0}};
    const wunqaber_style bordered = {40, 220, BORDER, WUNQABER_OUTSIDE}, filled = {WUNQABER_ABSENT, 40, 0, WUNQABER_INSIDE};
    uint32_t answer;
    int i;

    box.kind = kind;
    box.x = x + BORDER;
    box.y = y + BORDER;
    for (i = 0; i < 8; i++)
        box.radii[i] = radius;
    oval.x = box.x + (TILE_WIDTH - OVAL) / 2;
    oval.y = box.y + (TILE_HEIGHT - OVAL) / 2;
    answer = wunqaber_paint(&box, &bordered, WIDTH, HEIGHT, canvas, sizeof canvas);
    if (answer != WUNQABER_DONE)
        return answer;
    return wunqaber_paint(&oval, &filled, WIDTH, HEIGHT, canvas, sizeof canvas);
}

/* How many pixels from one on, each so far from the last, are white: at most a row of a border. */
static int white_from(const uint8_t *pixel, int step)
{
    int count = 0;

    while (count < OUTER_WIDTH && pixel[count * step] == WHITE)
        count++;
    return count;
}

/* Whether the border that begins at (x, y) leaves so many pixels white at each of its corners. */
static int has_corners(int x, int y, int white)
{
    const uint8_t *first = canvas + y * WIDTH + x, *last = first + (OUTER_HEIGHT - 1) * WIDTH;
    const int found[4] = {white_from(first, 1), white_from(first + OUTER_WIDTH - 1, -1), white_from(last, 1),
                          white_from(last + OUTER_WIDTH - 1, -1)};
    int i;

    for (i = 0; i < 4; i++) {
        if (found[i] != white) {
            fprintf(stderr, "corners: corner %d of the border at (%d, %d): expected %d white pixels, found %d\n", i, x, y,
                    white, found[i]);
            return 0;
        }
    }
    return 1;
}

int main(void)
{
    int32_t length = 0;
    uint32_t answer;
    int row, column;

    memset(canvas, WHITE, sizeof canvas);
    for (row = 0; row < 2; row++) {
        for (column = 0; column < 2; column++) {
            const int x = MARGIN + column * (OUTER_WIDTH + MARGIN), y = MARGIN + row * (OUTER_HEIGHT + MARGIN);

            answer = paint_tile(tiles[row][column].kind, tiles[row][column].radius, x, y);
            if (answer != WUNQABER_DONE) {
                fprintf(stderr, "corners: refused by %lu\n", (unsigned long)answer);
                return 1;
            }
            if (!has_corners(x, y, tiles[row][column].white))
                return 1;
        }
    }
    answer = wunqaber_encode_p5(WIDTH, HEIGHT, canvas, sizeof canvas, file, sizeof file, &length);
    if (answer != WUNQABER_DONE || (size_t)length != sizeof file) {
        fprintf(stderr, "corners: the file: answer %lu, length %ld\n", (unsigned long)answer, (long)length);
        return 1;
    }
    if (fwrite(file, 1, sizeof file, stdout) != sizeof file || fflush(stdout) != 0) {
        fputs("corners: the file could not be written\n", stderr);
        return 1;
    }
    return 0;
}
