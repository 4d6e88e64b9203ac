/* Draws the page of crates/cafe, on a striped background, while two jobs end: a tile is removed when each layer has been
 * asked for half as many rows as a box has, another when all the rest is painted. Then draws the page of the four tiles that stayed on a
 * canvas of its own. Writes the first as a Netpbm P5 file to standard output; ends with status 1 where a call is answered
 * otherwise than it must be, where the two canvases differ, or where the background is no longer what it was.
 * docs/pictures/leaving.png is made of that file. */
#include <stdio.h>
#include <stdlib.h>
#include <string.h>

#include "wunqaber.h"

enum {
    WIDTH = 232,
    HEIGHT = 120,
    HEADER = sizeof "P5\n232 120\n255\n" - 1,
    TILES = 6,
    /* The tiles that leave, counted from 0: one half painted, one finished. */
    LEAVES_EARLY = 1,
    LEAVES_LATE = 4,
    BOX_ROWS = 48
};

static const struct {
    int32_t x, y;
    int clocked_in;
} tiles[TILES] = {{8, 8, 1}, {84, 8, 0}, {160, 8, 1}, {8, 64, 0}, {84, 64, 0}, {160, 64, 1}};

static uint8_t background[WIDTH * HEIGHT], as_lent[WIDTH * HEIGHT];
static uint8_t file[HEADER + WIDTH * HEIGHT];

/* A page: its sheet and its canvas. */
typedef struct {
    wunqaber_sheet sheet;
    uint8_t canvas[WIDTH * HEIGHT];
} page;

static page left, drawn_anew;

static void expect(const char *what, uint32_t expected, uint32_t found)
{
    if (found != expected) {
        fprintf(stderr, "leaving: %s: expected %lu, found %lu\n", what, (unsigned long)expected, (unsigned long)found);
        exit(1);
    }
}

static void open_page(page *p)
{
    memcpy(p->canvas, background, sizeof p->canvas);
    expect("open", WUNQABER_DONE, wunqaber_open(WIDTH, HEIGHT, &p->sheet));
}

/* A box 64 by 48 with corners of radius 12, and an oval 24 by 24 in its middle: two layers, in borders of 2 pixels. */
static void add_tile(page *p, int tile)
{
    wunqaber_figure box = {WUNQABER_W3C_BOX, 0, 0, 64, BOX_ROWS, {12, 12, 12, 12, 12, 12, 12, 12}};
    wunqaber_figure oval = {WUNQABER_ELLIPSE, 0, 0, 24, 24, {0, 0, 0, 0, 0, 0, 0, 0}};
    wunqaber_style style = {40, 220, 2, WUNQABER_INSIDE};

    box.x = tiles[tile].x;
    box.y = tiles[tile].y;
    oval.x = box.x + 20;
    oval.y = box.y + 12;
    expect("add", WUNQABER_DONE, wunqaber_add(&p->sheet, &box, &style));
    style.fill = tiles[tile].clocked_in ? 40 : WUNQABER_ABSENT;
    expect("add", WUNQABER_DONE, wunqaber_add(&p->sheet, &oval, &style));
}

/* Asks each of so many layers for so many rows, one in turn; an oval waits for the rows that its box owes, and has fewer. */
static void paint(page *p, int layers, int rows)
{
    int row, layer;

    for (row = 0; row < rows; row++) {
        for (layer = layers; layer-- > 0;) {
            uint32_t answer = wunqaber_paint_next_row(&p->sheet, (uint32_t)layer, p->canvas, sizeof p->canvas);

            if (answer != WUNQABER_NO_ROW_LEFT && answer != WUNQABER_ROW_OWED)
                expect("paint_next_row", WUNQABER_DONE, answer);
        }
    }
    /* No layer that is not there is painted. */
    expect("paint_next_row", WUNQABER_NO_LAYER,
           wunqaber_paint_next_row(&p->sheet, (uint32_t)layers, p->canvas, sizeof p->canvas));
}

/* Removes a tile: the tile that stands at this number, which is its own less one for each earlier tile that has left. */
static void remove_tile(page *p, int number)
{
    const uint32_t box = (uint32_t)(2 * number);

    expect("remove_layer", WUNQABER_DONE,
           wunqaber_remove_layer(&p->sheet, box + 1, p->canvas, sizeof p->canvas, background, sizeof background));
    expect("remove_layer", WUNQABER_DONE,
           wunqaber_remove_layer(&p->sheet, box, p->canvas, sizeof p->canvas, background, sizeof background));
}

int main(void)
{
    int32_t length = 0;
    int i;

    for (i = 0; i < WIDTH * HEIGHT; i++)
        background[i] = (i % WIDTH + i / WIDTH) / 4 % 2 ? 255 : 232;
    memcpy(as_lent, background, sizeof as_lent);

    open_page(&left);
    for (i = 0; i < TILES; i++)
        add_tile(&left, i);
    paint(&left, 2 * TILES, BOX_ROWS / 2);
    remove_tile(&left, LEAVES_EARLY);
    paint(&left, 2 * (TILES - 1), BOX_ROWS);
    remove_tile(&left, LEAVES_LATE - 1);
    expect("remove_layer", WUNQABER_NO_LAYER,
           wunqaber_remove_layer(&left.sheet, 2 * (TILES - 2), left.canvas, sizeof left.canvas, background, sizeof background));

    open_page(&drawn_anew);
    for (i = 0; i < TILES; i++)
        if (i != LEAVES_EARLY && i != LEAVES_LATE)
            add_tile(&drawn_anew, i);
    paint(&drawn_anew, 2 * (TILES - 2), 2 * BOX_ROWS);

    if (memcmp(left.canvas, drawn_anew.canvas, sizeof left.canvas) != 0) {
        fputs("leaving: the page differs from the one without the tiles that left\n", stderr);
        return 1;
    }
    if (memcmp(&left.sheet, &drawn_anew.sheet, sizeof left.sheet) != 0) {
        fputs("leaving: the sheet differs from the one without the tiles that left\n", stderr);
        return 1;
    }
    if (memcmp(background, as_lent, sizeof as_lent) != 0) {
        fputs("leaving: the background was written\n", stderr);
        return 1;
    }
    expect("encode_p5", WUNQABER_DONE,
           wunqaber_encode_p5(WIDTH, HEIGHT, left.canvas, sizeof left.canvas, file, sizeof file, &length));
    expect("length of the file", sizeof file, (uint32_t)length);
    if (fwrite(file, 1, sizeof file, stdout) != sizeof file || fflush(stdout) != 0) {
        fputs("leaving: the file could not be written\n", stderr);
        return 1;
    }
    return 0;
}
