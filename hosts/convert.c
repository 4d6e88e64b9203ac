/* Converts a picture: reads a Netpbm P4 or P5 file from standard input and writes it to standard output, as P4 or as
 * P5, as the first word says. The sizes behind that are those of the panels that the picture may be for:
 *
 *     cc -o convert convert.c $(pkg-config --cflags --libs wunqaber)
 *     ./convert p4 WIDTH HEIGHT [WIDTH HEIGHT]... < background.pgm > background.pbm
 *
 * A host does not look into a file's header. It lends a canvas for each size that it can show, and the library refuses
 * by 8 where the picture has another number of pixels. A refusal is said in a sentence, and the status is 1. */
#include <stdio.h>
#include <stdlib.h>
#include <string.h>

#include <wunqaber.h>

enum { MOST = 1024, ROOM = 1 << 21 };

/* The file that is read, its picture, and the file that is written, whose header takes at most 17 bytes. */
static uint8_t given[ROOM], canvas[MOST * MOST], made[17 + MOST * MOST];

/* Ends the program with what is wrong. */
static void fail(const char *what)
{
    fprintf(stderr, "convert: %s\n", what);
    exit(1);
}

/* Ends the program where a call is refused, with what the sender of the file can mend. */
static void check(uint32_t answer)
{
    switch (answer) {
    case WUNQABER_DONE: return;
    case WUNQABER_FILE_HEADER: fail("refused by 14: the file is neither P4 nor P5 with the maximum 255"); break;
    case WUNQABER_CANVAS_SIDE: fail("refused by 6: a side of the picture is outside 1 to 1024"); break;
    case WUNQABER_CANVAS_LENGTH: fail("refused by 8: the picture has none of the sizes given"); break;
    case WUNQABER_RASTER_LENGTH: fail("refused by 15: the file ends before its picture does"); break;
    default: fail("refused by a number that is not expected");
    }
}

/* A side of a panel. */
static uint32_t side(const char *word)
{
    char *end;
    unsigned long number = strtoul(word, &end, 10);

    if (*word < '0' || *word > '9' || *end != '\0' || number < 1 || number > MOST)
        fail("a WIDTH or HEIGHT is no number from 1 to 1024");
    return (uint32_t)number;
}

/* Reads the file for each panel in turn, up to the one that it is for. A picture with other sides may have as many
 * pixels as the panel, and the library reads it: so the host compares the width, and takes that as another size. */
static uint32_t read_picture(size_t length, char **words, wunqaber_size *size)
{
    for (; words[0] != NULL; words += 2) {
        uint32_t width = side(words[0]), height = side(words[1]);
        uint32_t answer = wunqaber_decode_netpbm(given, length, canvas, (size_t)width * height, size);

        if (answer == WUNQABER_DONE && (uint32_t)size->width != width)
            answer = WUNQABER_CANVAS_LENGTH;
        if (answer != WUNQABER_CANVAS_LENGTH)
            return answer;
    }
    return WUNQABER_CANVAS_LENGTH;
}

/* Writes the picture by the call that the format names. */
static uint32_t write_picture(const char *format, const wunqaber_size *size, int32_t *length)
{
    uint32_t width = (uint32_t)size->width, height = (uint32_t)size->height;

    if (strcmp(format, "p4") == 0)
        return wunqaber_encode_p4(width, height, canvas, (size_t)width * height, made, sizeof made, length);
    return wunqaber_encode_p5(width, height, canvas, (size_t)width * height, made, sizeof made, length);
}

int main(int count, char **words)
{
    wunqaber_size size = {0, 0};
    int32_t length = 0;
    size_t given_length;

    if (count < 4 || count % 2 != 0 || (strcmp(words[1], "p4") != 0 && strcmp(words[1], "p5") != 0)) {
        fputs("usage: convert p4|p5 WIDTH HEIGHT [WIDTH HEIGHT]...\n", stderr);
        return 2;
    }
    given_length = fread(given, 1, sizeof given, stdin);
    if (ferror(stdin))
        fail("the file could not be read");
    if (given_length == sizeof given)
        fail("the file has 2 MiB or more");
    check(read_picture(given_length, words + 2, &size));
    check(write_picture(words[1], &size, &length));
    if (fwrite(made, 1, (size_t)length, stdout) != (size_t)length || fflush(stdout) != 0)
        fail("the file could not be written");
    return 0;
}
