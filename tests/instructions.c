/* Calls of the library for tests/instructions.sh to count: `instructions N` makes those of measure N and prints the measure's
 * name and how many calls it made; without a measure N it ends with status 2, and where a call is refused with status 1. */
#include <stdio.h>
#include <stdlib.h>

#include "wunqaber.h"

enum { MOST_FIGURES = 16, MOST_PIXELS = 1000 * 1000 };

/* Figures from the lowest to the uppermost, as in oracle/bench.rs. */
typedef struct {
    uint32_t width, height;
    int count;
    wunqaber_figure figures[MOST_FIGURES];
    wunqaber_style styles[MOST_FIGURES];
} scene;

static uint8_t canvas[MOST_PIXELS];

static wunqaber_figure oval(int x, int y, int width, int height)
{
    const wunqaber_figure figure = {WUNQABER_ELLIPSE, x, y, width, height, {0, 0, 0, 0, 0, 0, 0, 0}};

    return figure;
}

static wunqaber_figure rounded(int x, int y, int width, int height, int r)
{
    const wunqaber_figure figure = {WUNQABER_CRATE_BOX, x, y, width, height, {r, r, r, r, r, r, r, r}};

    return figure;
}

static wunqaber_figure w3c(int width, int height, int r)
{
    wunqaber_figure figure = rounded(8, 8, width, height, r);

    figure.kind = WUNQABER_W3C_BOX;
    return figure;
}

static wunqaber_style inside(int width, int fill)
{
    const wunqaber_style style = {40, fill, width, WUNQABER_INSIDE};

    return style;
}

static wunqaber_style outside(int width, int fill)
{
    const wunqaber_style style = {40, fill, width, WUNQABER_OUTSIDE};

    return style;
}

static void add(scene *s, wunqaber_figure figure, wunqaber_style style)
{
    s->figures[s->count] = figure;
    s->styles[s->count] = style;
    s->count++;
}

static scene one(uint32_t width, uint32_t height, wunqaber_figure figure, wunqaber_style style)
{
    scene s = {0};

    s.width = width;
    s.height = height;
    add(&s, figure, style);
    return s;
}

/* Tiles in rows of four; one alone lies at 0, 0. */
static scene tiles(uint32_t width, uint32_t height, int margin, int count)
{
    scene s = {0};
    int i;

    s.width = width;
    s.height = height;
    for (i = 0; i < count; i++) {
        int x = margin + 76 * (i % 4), y = margin + 56 * (i / 4);

        add(&s, rounded(x, y, 64, 48, 8), inside(2, 220));
        add(&s, oval(x + 20, y + 12, 24, 24), inside(2, 90));
    }
    return s;
}

static void must(uint32_t answer)
{
    if (answer != WUNQABER_DONE) {
        fprintf(stderr, "instructions: refused by %lu\n", (unsigned long)answer);
        exit(1);
    }
}

/* The first rows of a figure, each asked for alone; how many calls that were. */
static long rows(wunqaber_figure figure, int count)
{
    wunqaber_scanline row;
    int y;

    for (y = 0; y < count; y++)
        must(wunqaber_find_row(&figure, y, &row));
    return count;
}

static long styled_rows_by(wunqaber_figure figure, wunqaber_style style, int first, int count)
{
    wunqaber_styled_scanline row;
    int y;

    for (y = first; y < first + count; y++)
        must(wunqaber_find_styled_row(&figure, &style, y, &row));
    return count;
}

static long styled_rows(wunqaber_figure figure, int count)
{
    return styled_rows_by(figure, inside(2, 90), 0, count);
}

static long offset(wunqaber_figure figure, int k)
{
    wunqaber_figure made;

    must(wunqaber_grow(&figure, k, &made));
    return 1;
}

/* All figures of a scene, a call each: counted as one. */
static long painted(scene s)
{
    int i;

    for (i = 0; i < s.count; i++)
        must(wunqaber_paint(&s.figures[i], &s.styles[i], s.width, s.height, canvas, (size_t)s.width * s.height));
    return 1;
}

/* All rows of a scene on a sheet, layer by layer; the calls that found no row left are among them. */
static long on_sheet(scene s)
{
    static wunqaber_sheet sheet;
    long calls = 0;
    int i;

    must(wunqaber_open(s.width, s.height, &sheet));
    for (i = 0; i < s.count; i++)
        must(wunqaber_add(&sheet, &s.figures[i], &s.styles[i]));
    for (i = 0; i < s.count; i++) {
        uint32_t answer;

        do {
            answer = wunqaber_paint_next_row(&sheet, (uint32_t)i, canvas, (size_t)s.width * s.height);
            calls++;
        } while (answer == WUNQABER_DONE);
        must(answer == WUNQABER_NO_ROW_LEFT ? WUNQABER_DONE : answer);
    }
    return calls;
}

int main(int count, char **words)
{
    const char *name = NULL;
    long calls = 0;

/* A measure: its number, its name, and what makes its calls. */
#define MEASURE(number, what, made) case number: name = what; calls = made; break;
    switch (count == 2 ? atoi(words[1]) : 0) {
    MEASURE(1, "row, ellipse 64 x 64", rows(oval(0, 0, 64, 64), 64))
    MEASURE(2, "row, ellipse 64 x 48", rows(oval(0, 0, 64, 48), 48))
    MEASURE(3, "row, ellipse 256 x 256", rows(oval(0, 0, 256, 256), 256))
    MEASURE(4, "row, ellipse 256 x 192", rows(oval(0, 0, 256, 192), 192))
    MEASURE(5, "row, ellipse 1000 x 1000", rows(oval(0, 0, 1000, 1000), 1000))
    MEASURE(6, "row, ellipse 1000 x 750", rows(oval(0, 0, 1000, 750), 750))
    MEASURE(7, "corner row, box 64 x 48, radius 8", rows(rounded(0, 0, 64, 48, 8), 8))
    MEASURE(8, "corner row, box 300 x 200, radius 40", rows(rounded(0, 0, 300, 200, 40), 40))
    MEASURE(9, "styled row, ellipse 24 x 24", styled_rows(oval(0, 0, 24, 24), 24))
    MEASURE(10, "styled row, ellipse 64 x 48", styled_rows(oval(0, 0, 64, 48), 48))
    MEASURE(11, "styled row, ellipse 256 x 192", styled_rows(oval(0, 0, 256, 192), 192))
    MEASURE(12, "styled row, ellipse 1000 x 750", styled_rows(oval(0, 0, 1000, 750), 750))
    MEASURE(13, "styled corner row, box 64 x 48, radius 8", styled_rows(rounded(0, 0, 64, 48, 8), 8))
    MEASURE(14, "styled corner row, box 300 x 200, radius 40", styled_rows(rounded(0, 0, 300, 200, 40), 40))
    MEASURE(15, "paint call on a sheet, the tile", on_sheet(tiles(64, 48, 0, 1)))
    MEASURE(16, "paint call on a sheet, its box alone", on_sheet(one(64, 48, rounded(0, 0, 64, 48, 8), inside(2, 220))))
    MEASURE(17, "paint call on a sheet, its oval alone", on_sheet(one(64, 48, oval(20, 12, 24, 24), inside(2, 90))))
    MEASURE(18, "paint call on a sheet, page of 8 tiles", on_sheet(tiles(308, 120, 8, 8)))
    MEASURE(19, "one call, tile", painted(tiles(64, 48, 0, 1)))
    MEASURE(20, "one call, box 300 x 200", painted(one(300, 200, rounded(0, 0, 300, 200, 40), inside(5, 220))))
    MEASURE(21, "one call, ellipse 1000 x 1000", painted(one(1000, 1000, oval(0, 0, 1000, 1000), inside(10, 220))))
    MEASURE(22, "one call, ellipse 200 x 180", painted(one(200, 180, oval(0, 0, 200, 180), inside(5, 220))))
    MEASURE(23, "one call, page of 8 tiles", painted(tiles(308, 120, 8, 8)))
    MEASURE(24, "one call, ellipse 1000 x 1000 cut at the top", painted(one(1000, 1000, oval(0, -100, 1000, 1000), inside(10, 220))))
    MEASURE(25, "offset by 4, W3C box 64 x 48, radius 8", offset(w3c(64, 48, 8), 4))
    MEASURE(26, "offset by 4, W3C box 64 x 48, radius 1", offset(w3c(64, 48, 1), 4))
    MEASURE(27, "offset by -4, W3C box 64 x 48, radius 8", offset(w3c(64, 48, 8), -4))
    MEASURE(28, "styled corner row, W3C box 64 x 48, radius 8", styled_rows_by(w3c(64, 48, 8), inside(2, 90), 8, 8))
    MEASURE(29, "the same, border 4 outside", styled_rows_by(w3c(64, 48, 8), outside(4, 90), 4, 12))
    MEASURE(30, "the same, radius 2, border 4 outside", styled_rows_by(w3c(64, 48, 2), outside(4, 90), 4, 5))
    MEASURE(31, "paint call on a sheet, W3C box 64 x 48, radius 8, border 4 outside",
            on_sheet(one(80, 64, w3c(64, 48, 8), outside(4, 220))))
    MEASURE(32, "paint call on a sheet, the same with radius 2", on_sheet(one(80, 64, w3c(64, 48, 2), outside(4, 220))))
    MEASURE(33, "one call, W3C box 64 x 48, radius 8", painted(one(80, 64, w3c(64, 48, 8), inside(2, 220))))
    MEASURE(34, "one call, the same, border 4 outside", painted(one(80, 64, w3c(64, 48, 8), outside(4, 220))))
    MEASURE(35, "one call, the same, radius 2, border 4 outside", painted(one(80, 64, w3c(64, 48, 2), outside(4, 220))))
    default:
        return 2;
    }
    printf("%s\t%ld\n", name, calls);
    return 0;
}
