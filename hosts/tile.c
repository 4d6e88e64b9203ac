/* Draws one tile, the first program for a host in C: a box with a border and an oval that is filled, painted onto
 * a white canvas. Looks at five bytes and writes the canvas as a Netpbm P5 file to standard output; ends with
 * status 1 where a call is refused or a byte is not as expected. It needs the installed header and library alone:
 *
 *     cc -o tile tile.c $(pkg-config --cflags --libs wunqaber) && ./tile > tile.pgm */
#include <stdio.h>
#include <string.h>

#include <wunqaber.h>

enum { WIDTH = 72, HEIGHT = 56, HEADER = sizeof "P5\n72 56\n255\n" - 1 };

int main(void)
{
    static uint8_t canvas[WIDTH * HEIGHT], file[HEADER + WIDTH * HEIGHT];
    const wunqaber_figure box = {WUNQABER_W3C_BOX, 4, 4, 64, 48, {12, 12, 12, 12, 12, 12, 12, 12}};
    const wunqaber_figure oval = {WUNQABER_ELLIPSE, 24, 16, 24, 24, {0, 0, 0, 0, 0, 0, 0, 0}};
    const wunqaber_style bordered = {40, 220, 2, WUNQABER_INSIDE}, filled = {40, 40, 2, WUNQABER_INSIDE};
    /* a corner that the box leaves white, its border left and right, its fill, the oval's middle */
    static const struct {
        int x, y, byte;
    } expected[] = {{4, 4, 255}, {4, 28, 40}, {67, 28, 40}, {14, 28, 220}, {36, 28, 40}};
    int32_t length = 0;
    uint32_t answer;
    size_t i;

    memset(canvas, 255, sizeof canvas);
    answer = wunqaber_paint(&box, &bordered, WIDTH, HEIGHT, canvas, sizeof canvas);
    if (answer == WUNQABER_DONE)
        answer = wunqaber_paint(&oval, &filled, WIDTH, HEIGHT, canvas, sizeof canvas);
    if (answer == WUNQABER_DONE)
        answer = wunqaber_encode_p5(WIDTH, HEIGHT, canvas, sizeof canvas, file, sizeof file, &length);
    if (answer != WUNQABER_DONE) {
        fprintf(stderr, "tile: refused by %lu\n", (unsigned long)answer);
        return 1;
    }
    for (i = 0; i < sizeof expected / sizeof expected[0]; i++) {
        int found = canvas[expected[i].y * WIDTH + expected[i].x];

        if (found != expected[i].byte) {
            fprintf(stderr, "tile: at (%d, %d): expected %d, found %d\n", expected[i].x, expected[i].y,
                    expected[i].byte, found);
            return 1;
        }
    }
    if (fwrite(file, 1, (size_t)length, stdout) != sizeof file || fflush(stdout) != 0) {
        fputs("tile: the file could not be written\n", stderr);
        return 1;
    }
    return 0;
}
