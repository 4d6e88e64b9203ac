/* Draws the page of crates/cafe from C, by include/wunqaber.h alone, and writes it as a Netpbm P5 file
 * to standard output: six tiles, each a box and an oval that is filled or hollow. A row of each layer is
 * painted in turn, the uppermost layer asked first, so that some calls are refused because a lower layer
 * owes the row. A seventh tile, across four of the others, is painted with them and then leaves: its two
 * layers are removed, and what it had covered shows again. Any other answer than the expected one ends the
 * program with status 1. */
#include <stdio.h>
#include <stdlib.h>
#include <string.h>

#include "wunqaber.h"

enum {
    WIDTH = 232,
    HEIGHT = 120,
    HEADER = sizeof "P5\n232 120\n255\n" - 1,
    TILES = 7,
    LAYERS = 2 * TILES,
    /* The box of the tile that leaves, and its oval behind it. */
    LEAVING = 4,
    /* More rounds than the page has rows: a layer waits for the rows that lower ones owe. */
    ROUNDS = 128,
    /* What comes of the ROUNDS * LAYERS calls: each box has 48 rows, each oval 24. */
    PAINTED = TILES * (48 + 24),
    OWED = 554,
    WITHOUT_ROW = ROUNDS * LAYERS - PAINTED - OWED
};

static wunqaber_sheet sheet;
static uint8_t background[WIDTH * HEIGHT], canvas[WIDTH * HEIGHT];
static uint8_t file[HEADER + WIDTH * HEIGHT];

static void expect(const char *what, uint32_t expected, uint32_t found)
{
    if (found != expected) {
        fprintf(stderr, "page: %s: expected %lu, found %lu\n", what, (unsigned long)expected, (unsigned long)found);
        exit(1);
    }
}

/* Puts a figure on top, in a border of 2 pixels. */
static void add(const wunqaber_figure *figure, int32_t fill)
{
    wunqaber_style style = {40, WUNQABER_ABSENT, 2, WUNQABER_INSIDE};

    style.fill = fill;
    expect("add", WUNQABER_DONE, wunqaber_add(&sheet, figure, &style));
}

/* A box 64 by 48 with corners of radius 12, and an oval 24 by 24 in its middle: filled for a person who is
 * clocked in, else hollow. */
static void add_tile(int32_t x, int32_t y, int clocked_in)
{
    wunqaber_figure tile = {WUNQABER_W3C_BOX, 0, 0, 64, 48, {12, 12, 12, 12, 12, 12, 12, 12}};
    wunqaber_figure oval = {WUNQABER_ELLIPSE, 0, 0, 24, 24, {0, 0, 0, 0, 0, 0, 0, 0}};

    tile.x = x;
    tile.y = y;
    oval.x = x + 20;
    oval.y = y + 12;
    add(&tile, 220);
    add(&oval, clocked_in ? 40 : WUNQABER_ABSENT);
}

/* Paints a row of each layer in every round, the uppermost first. */
static void paint(void)
{
    uint32_t painted = 0, without_row = 0, owed = 0;
    int round, layer;

    for (round = 0; round < ROUNDS; round++) {
        for (layer = LAYERS; layer-- > 0;) {
            uint32_t answer = wunqaber_paint_next_row(&sheet, (uint32_t)layer, canvas, sizeof canvas);

            switch (answer) {
            case WUNQABER_DONE: painted++; break;
            case WUNQABER_NO_ROW_LEFT: without_row++; break;
            case WUNQABER_ROW_OWED: owed++; break;
            default: expect("paint_next_row", WUNQABER_DONE, answer);
            }
        }
    }
    expect("calls accepted", PAINTED, painted);
    expect("calls refused by 11", WITHOUT_ROW, without_row);
    expect("calls refused by 12", OWED, owed);
}

/* Removes a layer; later ones move down one number. */
static void remove_layer(uint32_t layer)
{
    expect("remove_layer", WUNQABER_DONE,
           wunqaber_remove_layer(&sheet, layer, canvas, sizeof canvas, background, sizeof background));
}

int main(void)
{
    int32_t length = 0;

    memset(background, 255, sizeof background);
    memcpy(canvas, background, sizeof canvas);
    expect("open", WUNQABER_DONE, wunqaber_open(WIDTH, HEIGHT, &sheet));
    add_tile(8, 8, 1);
    add_tile(84, 8, 0);
    add_tile(122, 36, 1);
    add_tile(160, 8, 1);
    add_tile(8, 64, 0);
    add_tile(84, 64, 0);
    add_tile(160, 64, 1);
    paint();
    remove_layer(LEAVING + 1);
    remove_layer(LEAVING);
    expect("encode_p5", WUNQABER_DONE,
           wunqaber_encode_p5(WIDTH, HEIGHT, canvas, sizeof canvas, file, sizeof file, &length));
    expect("length of the file", sizeof file, (uint32_t)length);
    if (fwrite(file, 1, sizeof file, stdout) != sizeof file || fflush(stdout) != 0) {
        fputs("page: the file could not be written\n", stderr);
        return 1;
    }
    return 0;
}
