/* Makes every call of include/wunqaber.h once as it is accepted and once for each answer that the header
 * names for it, from a table: a call, what is changed in its arguments, and the answer. The answer must be
 * the one in the table, and all buffers lent must be as expected: the numbers and bytes written below where
 * the call is accepted, else unchanged. Each call is made on numbers; and by its typed form, unless a length is
 * changed that this does not take: the answer and every buffer must then be the same. */
#include <stdio.h>
#include <string.h>

#include "wunqaber.h"

enum call {
    CONTAINS, ROW, POINTS, OFFSET, CONFINED_RADII, ELLIPSE_WITH_CENTER, STYLED_ROW, STYLED_BOUNDING_BOX,
    PAINT_FIGURE, SHEET_OPEN, SHEET_ADD, SHEET_PAINT, SHEET_REMOVE, RUN_CALLS, WRITE_P5, WRITE_P4, READ_NETPBM
};

static const char *const names[] = {
    "contains", "row", "points", "offset", "confined_radii", "ellipse_with_center", "styled_row",
    "styled_bounding_box", "paint_figure", "sheet_open", "sheet_add", "sheet_paint", "sheet_remove", "run_calls",
    "write_p5", "write_p4", "read_netpbm"
};

/* What is changed in the arguments: one of them gets the table's value. A length of the sheet, of a list or
 * of a buffer is the length that the call is told. UNEVEN_BOX, BORDERED and OBLONG are another figure, another
 * style and a canvas 8 by 2, for which numbers exchanged with each other would show. NINE_BY_TWO is a canvas whose
 * rows have a bit more than a byte. CORNERS is a box with other radii, PICTURE another file to read. THIRD_LAYER puts a
 * third oval on the sheet, of which that layer is removed. REMOVAL makes the last call of the list a removal of that
 * layer; REMOVAL_BETWEEN has one between the figure's adding and its painting, with a background of that length. The
 * last ones change two arguments, so that two refusals apply: BOTH_LENGTHS is the length of canvas and background;
 * sheet or layer are changed where the background, or it and the canvas, are empty; and the canvas gets the table's
 * length where there is no `out`, and where the file is cut off; or `out` gets it where the file is cut off. */
enum change {
    AS_IS, UNEVEN_BOX, BORDERED, OBLONG, NINE_BY_TWO, CORNERS, KIND, X, WIDTH, RADIUS, FIGURE_LENGTH, STROKE, FILL,
    STROKE_WIDTH, ALIGNMENT, STYLE_LENGTH, ASKED, CENTER_X, CENTER_WIDTH, CANVAS_WIDTH, CANVAS_LENGTH, LIST_LENGTH,
    FILE_LENGTH, OUT_LENGTH, ANSWERS_LENGTH, SHEET_COUNT, SHEET_NEXT_ROW, SHEET_LAYER_KIND, SHEET_LENGTH,
    SHEET_LAYER_X, SHEET_LAYER_Y, SHEET_LAYER_HEIGHT, LAYER, THIRD_LAYER, CALL_KIND, CALL_LAYER, CALLS_LENGTH,
    BACKGROUND_LENGTH, REMOVAL, REMOVAL_BETWEEN, PICTURE, BOTH_LENGTHS, SHEET_LENGTH_WITHOUT_BUFFERS,
    SHEET_COUNT_WITHOUT_BUFFERS, LAYER_WITHOUT_BACKGROUND, CANVAS_LENGTH_WITHOUT_OUT, CANVAS_LENGTH_CUT_OFF,
    OUT_LENGTH_CUT_OFF
};

/* The boxes with other radii, by what is of note in them: radii that touch and fit, so that none is reduced; no
 * column, so that L is 0; a ratio that is less than another by little; and two edges that are equal, of which the
 * first decides. By the crate's rule those have the same overlap S - L, by the W3C's the same ratio L / S. */
enum cornered {
    TOUCHING, WITHOUT_COLUMN, NEARLY_EQUAL, OVERLAP_TOP_RIGHT, OVERLAP_RIGHT_BOTTOM, OVERLAP_BOTTOM_LEFT,
    RATIO_TOP_RIGHT, RATIO_RIGHT_BOTTOM, RATIO_BOTTOM_LEFT
};

/* The files to read, by what is of note in them. Those of BITS are P4, all others P5 or nothing that is read. */
enum picture {
    GREY, GREY_OBLONG, COMMENTED, LONG_NUMBERS, BITS, BITS_OBLONG, BITS_NINE_BY_TWO, PLAIN, OTHER_MAXIMUM, NO_WIDTH,
    NO_GAP, FORM_FEED, COMMENT_LAST, TOO_WIDE, NO_ROWS, WIDE_WITH_OTHER_MAXIMUM
};

/* The arguments of all calls. The figure is the oval 4 by 4 at (0, 0), or a box for the call that asks for
 * radii; an oval of 9 without a stroke. */
typedef struct {
    wunqaber_figure figure;
    wunqaber_style style;
    int32_t asked;
    int32_t center_x, center_y;
    uint32_t center_width, center_height;
    uint32_t width, height, layer;
    int32_t calls[3][20];
    size_t figure_length, style_length, list_length, out_length, canvas_length, file_length, sheet_length;
    size_t calls_length, answers_length, background_length;
} arguments;

/* What a call may write: more of each than it is told of; and the background, which no call writes. */
typedef struct {
    int32_t out[16];
    int32_t list[28];
    wunqaber_sheet sheet;
    uint32_t answers[4];
    uint8_t canvas[20];
    uint8_t background[20];
    uint8_t file[48];
} buffers;

typedef struct {
    enum call call;
    enum change change;
    int32_t value;
    uint32_t answer;
} check;

static const check checks[] = {
    {CONTAINS, AS_IS, 0, 0},
    {CONTAINS, X, -2, 0},
    {CONTAINS, WIDTH, 1025, 1},
    {CONTAINS, RADIUS, 1025, 2},
    {CONTAINS, X, -4097, 3},
    {CONTAINS, ASKED, 8193, 4},
    {CONTAINS, OUT_LENGTH, 0, 13},
    {CONTAINS, KIND, 3, 100},
    {CONTAINS, WIDTH, -1, 100},
    {CONTAINS, RADIUS, -1, 100},
    {CONTAINS, FIGURE_LENGTH, 12, 100},

    {ROW, AS_IS, 0, 0},
    {ROW, WIDTH, 1025, 1},
    {ROW, RADIUS, 1025, 2},
    {ROW, X, 4097, 3},
    {ROW, ASKED, -8193, 4},
    {ROW, OUT_LENGTH, 2, 13},
    {ROW, KIND, -1, 100},
    {ROW, FIGURE_LENGTH, 0, 100},
    {ROW, ASKED, 4, 101},

    {POINTS, AS_IS, 0, 0},
    {POINTS, WIDTH, 1025, 1},
    {POINTS, RADIUS, 1025, 2},
    {POINTS, X, -4097, 3},
    {POINTS, LIST_LENGTH, 23, 13},
    {POINTS, OUT_LENGTH, 0, 13},
    {POINTS, KIND, 3, 100},

    {OFFSET, AS_IS, 0, 0},
    {OFFSET, UNEVEN_BOX, 0, 0},
    {OFFSET, WIDTH, 1025, 1},
    {OFFSET, RADIUS, 1025, 2},
    {OFFSET, X, -4097, 3},
    {OFFSET, ASKED, -257, 5},
    {OFFSET, OUT_LENGTH, 4, 13},
    {OFFSET, KIND, 3, 100},

    {CONFINED_RADII, AS_IS, 0, 0},
    {CONFINED_RADII, UNEVEN_BOX, 0, 0},
    {CONFINED_RADII, KIND, WUNQABER_W3C_BOX, 0},
    {CONFINED_RADII, CORNERS, TOUCHING, 0},
    {CONFINED_RADII, CORNERS, WITHOUT_COLUMN, 0},
    {CONFINED_RADII, CORNERS, NEARLY_EQUAL, 0},
    {CONFINED_RADII, CORNERS, OVERLAP_TOP_RIGHT, 0},
    {CONFINED_RADII, CORNERS, OVERLAP_RIGHT_BOTTOM, 0},
    {CONFINED_RADII, CORNERS, OVERLAP_BOTTOM_LEFT, 0},
    {CONFINED_RADII, CORNERS, RATIO_TOP_RIGHT, 0},
    {CONFINED_RADII, CORNERS, RATIO_RIGHT_BOTTOM, 0},
    {CONFINED_RADII, CORNERS, RATIO_BOTTOM_LEFT, 0},
    {CONFINED_RADII, OUT_LENGTH, 10, 0},
    {CONFINED_RADII, WIDTH, 1025, 1},
    {CONFINED_RADII, RADIUS, 1025, 2},
    {CONFINED_RADII, X, -4097, 3},
    {CONFINED_RADII, OUT_LENGTH, 9, 13},
    {CONFINED_RADII, KIND, 3, 100},
    {CONFINED_RADII, KIND, WUNQABER_ELLIPSE, 101},

    {ELLIPSE_WITH_CENTER, AS_IS, 0, 0},
    {ELLIPSE_WITH_CENTER, CENTER_X, 9, 0},
    {ELLIPSE_WITH_CENTER, CENTER_WIDTH, 1025, 1},
    {ELLIPSE_WITH_CENTER, CENTER_X, 4100, 3},
    {ELLIPSE_WITH_CENTER, OUT_LENGTH, 4, 13},

    {STYLED_ROW, AS_IS, 0, 0},
    {STYLED_ROW, BORDERED, 0, 0},
    {STYLED_ROW, WIDTH, 1025, 1},
    {STYLED_ROW, RADIUS, 1025, 2},
    {STYLED_ROW, X, -4097, 3},
    {STYLED_ROW, ASKED, 8193, 4},
    {STYLED_ROW, STROKE_WIDTH, 257, 5},
    {STYLED_ROW, OUT_LENGTH, 6, 13},
    {STYLED_ROW, KIND, 3, 100},
    {STYLED_ROW, STROKE, 256, 100},
    {STYLED_ROW, FILL, -2, 100},
    {STYLED_ROW, STROKE_WIDTH, -1, 100},
    {STYLED_ROW, ALIGNMENT, 3, 100},
    {STYLED_ROW, STYLE_LENGTH, 3, 100},
    {STYLED_ROW, ASKED, -1, 101},

    {STYLED_BOUNDING_BOX, AS_IS, 0, 0},
    {STYLED_BOUNDING_BOX, UNEVEN_BOX, 0, 0},
    {STYLED_BOUNDING_BOX, WIDTH, 1025, 1},
    {STYLED_BOUNDING_BOX, RADIUS, 1025, 2},
    {STYLED_BOUNDING_BOX, X, -4097, 3},
    {STYLED_BOUNDING_BOX, STROKE_WIDTH, 257, 5},
    {STYLED_BOUNDING_BOX, OUT_LENGTH, 3, 13},
    {STYLED_BOUNDING_BOX, ALIGNMENT, -1, 100},

    {PAINT_FIGURE, AS_IS, 0, 0},
    {PAINT_FIGURE, OBLONG, 0, 0},
    {PAINT_FIGURE, WIDTH, 1025, 1},
    {PAINT_FIGURE, RADIUS, 1025, 2},
    {PAINT_FIGURE, X, -4097, 3},
    {PAINT_FIGURE, STROKE_WIDTH, 257, 5},
    {PAINT_FIGURE, CANVAS_WIDTH, 0, 6},
    {PAINT_FIGURE, CANVAS_WIDTH, 1025, 6},
    {PAINT_FIGURE, CANVAS_LENGTH, 15, 8},
    {PAINT_FIGURE, STYLE_LENGTH, 5, 100},

    {SHEET_OPEN, AS_IS, 0, 0},
    {SHEET_OPEN, OBLONG, 0, 0},
    {SHEET_OPEN, CANVAS_WIDTH, 0, 6},
    {SHEET_OPEN, SHEET_LENGTH, 290, 13},

    {SHEET_ADD, AS_IS, 0, 0},
    {SHEET_ADD, WIDTH, 1025, 1},
    {SHEET_ADD, RADIUS, 1025, 2},
    {SHEET_ADD, X, -4097, 3},
    {SHEET_ADD, STROKE_WIDTH, 257, 5},
    {SHEET_ADD, SHEET_COUNT, 17, 7},
    {SHEET_ADD, SHEET_NEXT_ROW, 5, 7},
    {SHEET_ADD, SHEET_COUNT, 16, 9},
    {SHEET_ADD, FIGURE_LENGTH, 12, 100},
    {SHEET_ADD, STYLE_LENGTH, 3, 100},
    {SHEET_ADD, SHEET_LENGTH, 290, 100},
    {SHEET_ADD, SHEET_COUNT, -1, 7},
    {SHEET_ADD, SHEET_LAYER_KIND, 3, 7},

    {SHEET_PAINT, AS_IS, 0, 0},
    {SHEET_PAINT, SHEET_COUNT, 17, 7},
    {SHEET_PAINT, SHEET_NEXT_ROW, -1, 7},
    {SHEET_PAINT, CANVAS_LENGTH, 15, 8},
    {SHEET_PAINT, LAYER, 2, 10},
    {SHEET_PAINT, SHEET_NEXT_ROW, 4, 11},
    {SHEET_PAINT, LAYER, 1, 12},
    {SHEET_PAINT, SHEET_LENGTH, 290, 100},

    {SHEET_REMOVE, AS_IS, 0, 0},
    {SHEET_REMOVE, LAYER, 1, 0},
    {SHEET_REMOVE, THIRD_LAYER, 0, 0},
    {SHEET_REMOVE, THIRD_LAYER, 1, 0},
    {SHEET_REMOVE, THIRD_LAYER, 2, 0},
    {SHEET_REMOVE, SHEET_COUNT, 16, 0},
    {SHEET_REMOVE, SHEET_NEXT_ROW, 2, 0},
    {SHEET_REMOVE, SHEET_NEXT_ROW, 4, 0},
    {SHEET_REMOVE, SHEET_LAYER_X, 4, 0},
    {SHEET_REMOVE, SHEET_LAYER_Y, -4, 0},
    {SHEET_REMOVE, SHEET_LAYER_Y, 4, 0},
    {SHEET_REMOVE, SHEET_LAYER_HEIGHT, 0, 0},
    {SHEET_REMOVE, SHEET_COUNT, 17, 7},
    {SHEET_REMOVE, SHEET_COUNT, -1, 7},
    {SHEET_REMOVE, SHEET_NEXT_ROW, -1, 7},
    {SHEET_REMOVE, SHEET_NEXT_ROW, 1, 7},
    {SHEET_REMOVE, SHEET_NEXT_ROW, 5, 7},
    {SHEET_REMOVE, SHEET_LAYER_KIND, 3, 7},
    {SHEET_REMOVE, SHEET_COUNT_WITHOUT_BUFFERS, 17, 7},
    {SHEET_REMOVE, CANVAS_LENGTH, 15, 8},
    {SHEET_REMOVE, CANVAS_LENGTH, 17, 8},
    {SHEET_REMOVE, CANVAS_LENGTH, 0, 8},
    {SHEET_REMOVE, BACKGROUND_LENGTH, 15, 8},
    {SHEET_REMOVE, BACKGROUND_LENGTH, 17, 8},
    {SHEET_REMOVE, BACKGROUND_LENGTH, 0, 8},
    {SHEET_REMOVE, BOTH_LENGTHS, 15, 8},
    {SHEET_REMOVE, LAYER_WITHOUT_BACKGROUND, 2, 8},
    {SHEET_REMOVE, LAYER, 2, 10},
    {SHEET_REMOVE, LAYER, 16, 10},
    {SHEET_REMOVE, LAYER, -1, 10},
    {SHEET_REMOVE, SHEET_COUNT, 0, 10},
    {SHEET_REMOVE, SHEET_LENGTH, 290, 100},
    {SHEET_REMOVE, SHEET_LENGTH_WITHOUT_BUFFERS, 0, 100},

    {RUN_CALLS, AS_IS, 0, 0},
    {RUN_CALLS, OBLONG, 0, 0},
    {RUN_CALLS, BACKGROUND_LENGTH, 0, 0},
    {RUN_CALLS, CALL_KIND, WUNQABER_CALL_REMOVE, 0},
    {RUN_CALLS, REMOVAL, 0, 0},
    {RUN_CALLS, REMOVAL, 1, 0},
    {RUN_CALLS, REMOVAL_BETWEEN, 16, 0},
    {RUN_CALLS, REMOVAL_BETWEEN, 15, 0},
    {RUN_CALLS, REMOVAL_BETWEEN, 17, 0},
    {RUN_CALLS, REMOVAL_BETWEEN, 0, 0},
    {RUN_CALLS, CANVAS_WIDTH, 1025, 6},
    {RUN_CALLS, CANVAS_LENGTH, 17, 8},
    {RUN_CALLS, BOTH_LENGTHS, 17, 8},
    {RUN_CALLS, ANSWERS_LENGTH, 2, 13},
    {RUN_CALLS, CALLS_LENGTH, 59, 100},
    {RUN_CALLS, CALL_KIND, 3, 100},
    {RUN_CALLS, CALL_KIND, -1, 100},
    {RUN_CALLS, CALL_LAYER, -1, 100},
    {RUN_CALLS, REMOVAL, -1, 100},

    {WRITE_P5, AS_IS, 0, 0},
    {WRITE_P5, OBLONG, 0, 0},
    {WRITE_P5, CANVAS_WIDTH, 0, 6},
    {WRITE_P5, CANVAS_LENGTH, 15, 8},
    {WRITE_P5, FILE_LENGTH, 26, 13},
    {WRITE_P5, OUT_LENGTH, 0, 13},
    {WRITE_P5, CANVAS_LENGTH_WITHOUT_OUT, 15, 8},

    {WRITE_P4, AS_IS, 0, 0},
    {WRITE_P4, OBLONG, 0, 0},
    {WRITE_P4, NINE_BY_TWO, 0, 0},
    {WRITE_P4, FILE_LENGTH, 11, 0},
    {WRITE_P4, CANVAS_WIDTH, 0, 6},
    {WRITE_P4, CANVAS_WIDTH, 1025, 6},
    {WRITE_P4, CANVAS_LENGTH, 15, 8},
    {WRITE_P4, CANVAS_LENGTH, 17, 8},
    {WRITE_P4, CANVAS_LENGTH_WITHOUT_OUT, 15, 8},
    {WRITE_P4, FILE_LENGTH, 10, 13},
    {WRITE_P4, OUT_LENGTH, 0, 13},

    {READ_NETPBM, AS_IS, 0, 0},
    {READ_NETPBM, PICTURE, GREY_OBLONG, 0},
    {READ_NETPBM, PICTURE, COMMENTED, 0},
    {READ_NETPBM, PICTURE, LONG_NUMBERS, 0},
    {READ_NETPBM, PICTURE, BITS, 0},
    {READ_NETPBM, PICTURE, BITS_OBLONG, 0},
    {READ_NETPBM, PICTURE, BITS_NINE_BY_TWO, 0},
    {READ_NETPBM, FILE_LENGTH, 48, 0},
    {READ_NETPBM, OUT_LENGTH, 2, 0},
    {READ_NETPBM, PICTURE, PLAIN, 14},
    {READ_NETPBM, PICTURE, OTHER_MAXIMUM, 14},
    {READ_NETPBM, PICTURE, NO_WIDTH, 14},
    {READ_NETPBM, PICTURE, NO_GAP, 14},
    {READ_NETPBM, PICTURE, FORM_FEED, 14},
    {READ_NETPBM, PICTURE, COMMENT_LAST, 14},
    {READ_NETPBM, FILE_LENGTH, 0, 14},
    {READ_NETPBM, FILE_LENGTH, 10, 14},
    {READ_NETPBM, PICTURE, WIDE_WITH_OTHER_MAXIMUM, 14},
    {READ_NETPBM, PICTURE, TOO_WIDE, 6},
    {READ_NETPBM, PICTURE, NO_ROWS, 6},
    {READ_NETPBM, CANVAS_LENGTH, 15, 8},
    {READ_NETPBM, CANVAS_LENGTH, 17, 8},
    {READ_NETPBM, CANVAS_LENGTH_WITHOUT_OUT, 15, 8},
    {READ_NETPBM, CANVAS_LENGTH_CUT_OFF, 15, 8},
    {READ_NETPBM, OUT_LENGTH, 1, 13},
    {READ_NETPBM, OUT_LENGTH_CUT_OFF, 1, 13},
    {READ_NETPBM, FILE_LENGTH, 26, 15},
    {READ_NETPBM, FILE_LENGTH, 11, 15},
};

static const wunqaber_figure oval = {WUNQABER_ELLIPSE, 0, 0, 4, 4, {0, 0, 0, 0, 0, 0, 0, 0}};
static const wunqaber_figure crate_box = {WUNQABER_CRATE_BOX, 0, 0, 10, 100, {9, 60, 9, 60, 9, 60, 9, 60}};
static const wunqaber_figure uneven_box = {WUNQABER_CRATE_BOX, 5, 7, 10, 100, {1, 11, 2, 12, 3, 13, 4, 14}};
static const wunqaber_style filled = {WUNQABER_ABSENT, 9, 0, WUNQABER_CENTER};
static const wunqaber_style bordered = {40, 9, 1, WUNQABER_INSIDE};

/* The boxes with other radii, and what they give. Of two equal edges the other rule would take the second. */
static const struct {
    wunqaber_figure box;
    int32_t confined[10];
} cornered[] = {
    [TOUCHING] =
        {{WUNQABER_CRATE_BOX, 0, 0, 10, 100, {5, 50, 5, 50, 5, 50, 5, 50}}, {5, 50, 5, 50, 5, 50, 5, 50, 1, 1}},
    [WITHOUT_COLUMN] = {{WUNQABER_W3C_BOX, 0, 0, 0, 9, {4, 1, 0, 2, 0, 3, 0, 4}}, {0, 0, 0, 0, 0, 0, 0, 0, 0, 4}},
    [NEARLY_EQUAL] =
        {{WUNQABER_W3C_BOX, 0, 0, 1023, 1024, {1021, 0, 1024, 1023, 0, 1024, 0, 0}},
         {510, 0, 512, 511, 0, 512, 0, 0, 1024, 2047}},
    [OVERLAP_TOP_RIGHT] =
        {{WUNQABER_CRATE_BOX, 0, 0, 20, 10, {13, 8, 13, 8, 13, 8, 13, 8}}, {10, 6, 10, 6, 10, 6, 10, 6, 20, 26}},
    [OVERLAP_RIGHT_BOTTOM] =
        {{WUNQABER_CRATE_BOX, 0, 0, 10, 20, {1, 3, 1, 13, 8, 13, 8, 4}}, {0, 2, 0, 10, 6, 10, 6, 3, 20, 26}},
    [OVERLAP_BOTTOM_LEFT] =
        {{WUNQABER_CRATE_BOX, 0, 0, 20, 10, {1, 8, 1, 1, 13, 1, 13, 8}}, {0, 6, 0, 0, 10, 0, 10, 6, 20, 26}},
    [RATIO_TOP_RIGHT] =
        {{WUNQABER_W3C_BOX, 0, 0, 10, 15, {10, 15, 10, 15, 10, 15, 10, 15}}, {5, 7, 5, 7, 5, 7, 5, 7, 10, 20}},
    [RATIO_RIGHT_BOTTOM] =
        {{WUNQABER_W3C_BOX, 0, 0, 15, 10, {1, 2, 1, 10, 15, 10, 15, 3}}, {0, 1, 0, 5, 7, 5, 7, 1, 10, 20}},
    [RATIO_BOTTOM_LEFT] =
        {{WUNQABER_W3C_BOX, 0, 0, 10, 15, {1, 15, 1, 1, 10, 1, 10, 15}}, {0, 7, 0, 0, 5, 0, 5, 7, 10, 20}},
};

/* The canvas that is written as P4, and the rasters of it: 4 by 4, 8 by 2 and 9 by 2. The rasters to read have other
 * filling bits, of which nothing may be seen. */
static const uint8_t dotted[] = {0, 1, 255, 0, 7, 0, 0, 128, 2, 0, 3, 0, 0, 5, 0, 4, 90, 9};
static const uint8_t packed[] = {0x60, 0x90, 0xa0, 0x50}, to_unpack[] = {0x6f, 0x95, 0xaa, 0x5b};
static const uint8_t packed_oblong[] = {0x69, 0xa5};
static const uint8_t packed_nine[] = {0x69, 0x80, 0x4b, 0x80}, to_unpack_nine[] = {0x69, 0xff, 0x4b, 0xd5};

/* The files to read: header and raster, and what they give where they are accepted. */
static const struct {
    const char *header;
    const uint8_t *raster;
    size_t raster_length;
    int32_t width, height;
} pictures[] = {
    [GREY] = {"P5\n4 4\n255\n", dotted, 16, 4, 4},
    [GREY_OBLONG] = {"P5\n8 2\n255\n", dotted, 16, 8, 2},
    [COMMENTED] = {"P5#5\r4# 9\n\t4 \r#255\n255\t", dotted, 16, 4, 4},
    [LONG_NUMBERS] = {"P5\n0000000000004\n4\n0255\n", dotted, 16, 4, 4},
    [BITS] = {"P4\n4 4\n", to_unpack, 4, 4, 4},
    [BITS_OBLONG] = {"P4\n8 2\n", packed_oblong, 2, 8, 2},
    [BITS_NINE_BY_TWO] = {"P4\n9 2\n", to_unpack_nine, 4, 9, 2},
    [PLAIN] = {"P2\n4 4\n255\n", dotted, 16, 0, 0},
    [OTHER_MAXIMUM] = {"P5\n4 4\n254\n", dotted, 16, 0, 0},
    [NO_WIDTH] = {"P5\n-4 4\n255\n", dotted, 16, 0, 0},
    [NO_GAP] = {"P54 4\n255\n", dotted, 16, 0, 0},
    [FORM_FEED] = {"P5\f4 4\n255\n", dotted, 16, 0, 0},
    [COMMENT_LAST] = {"P5\n4 4\n255#\n", dotted, 16, 0, 0},
    [TOO_WIDE] = {"P5\n1025 4\n255\n", dotted, 16, 0, 0},
    [NO_ROWS] = {"P5\n4 0\n255\n", dotted, 16, 0, 0},
    [WIDE_WITH_OTHER_MAXIMUM] = {"P5\n1025 4\n254\n", dotted, 16, 0, 0},
};

/* The arguments as they are accepted. Calls that may be refused for a radius get the box. */
static arguments accepted(const check *c)
{
    arguments a;

    memset(&a, 0, sizeof a);
    a.figure = c->call == CONFINED_RADII || c->change == RADIUS ? crate_box : oval;
    a.style = filled;
    a.asked = 1;
    a.center_x = a.center_y = 5;
    a.center_width = 4;
    a.center_height = 3;
    a.width = a.height = 4;
    /* an oval added, its first row painted, a layer that is not there */
    memcpy(&a.calls[0][1], &oval, sizeof oval);
    memcpy(&a.calls[0][14], &filled, sizeof filled);
    a.calls[1][0] = 1;
    a.calls[2][0] = 1;
    a.calls[2][1] = 7;
    a.figure_length = 13;
    a.style_length = 4;
    a.list_length = 24;
    a.out_length = 13;
    a.canvas_length = 16;
    a.file_length = 27;
    a.sheet_length = 291;
    a.calls_length = 60;
    a.answers_length = 3;
    a.background_length = 16;
    return a;
}

/* Puts a file to read, and gives its length. */
static size_t put_picture(buffers *b, enum picture picture)
{
    size_t header_length = strlen(pictures[picture].header);

    memcpy(b->file, pictures[picture].header, header_length);
    memcpy(b->file + header_length, pictures[picture].raster, pictures[picture].raster_length);
    return header_length + pictures[picture].raster_length;
}

/* The buffers before a call: a pattern, and a sheet 4 by 4 with the oval twice; to write P4 the dotted canvas, to
 * read a file with it. To remove a layer, three rows of the first oval are painted and two of the second, which has a
 * border. */
static buffers lent(const check *c)
{
    buffers b;
    int i;

    memset(&b, 0x5a, sizeof b);
    for (i = 0; i < (int)sizeof b.background; i++)
        b.background[i] = (uint8_t)(100 + i);
    if (c->call == SHEET_OPEN)
        return b;
    /* The unused places keep what the memset left: no call looks at them. */
    b.sheet.width = b.sheet.height = 4;
    b.sheet.count = 2;
    for (i = 0; i < 2; i++) {
        b.sheet.layers[i].figure = oval;
        b.sheet.layers[i].style = filled;
        b.sheet.layers[i].next_row = 0;
    }
    if (c->call == SHEET_REMOVE) {
        b.sheet.layers[0].next_row = 3;
        b.sheet.layers[1].next_row = 2;
        b.sheet.layers[1].style = bordered;
    }
    if (c->call == WRITE_P4)
        memcpy(b.canvas, dotted, sizeof dotted);
    if (c->call == READ_NETPBM)
        put_picture(&b, GREY);
    return b;
}

static void change(const check *c, arguments *a, buffers *b)
{
    int32_t value = c->value, i;

    switch (c->change) {
    case AS_IS: break;
    case UNEVEN_BOX: a->figure = uneven_box; break;
    case BORDERED: a->style = bordered; break;
    case OBLONG:
        a->width = 8;
        a->height = 2;
        break;
    case NINE_BY_TWO:
        a->width = 9;
        a->height = 2;
        a->canvas_length = 18;
        break;
    case CORNERS: a->figure = cornered[value].box; break;
    case KIND: a->figure.kind = value; break;
    case X: a->figure.x = value; break;
    case WIDTH: a->figure.width = value; break;
    case RADIUS: a->figure.radii[7] = value; break;
    case FIGURE_LENGTH: a->figure_length = (size_t)value; break;
    case STROKE: a->style.stroke = value; break;
    case FILL: a->style.fill = value; break;
    case STROKE_WIDTH: a->style.stroke_width = value; break;
    case ALIGNMENT: a->style.alignment = value; break;
    case STYLE_LENGTH: a->style_length = (size_t)value; break;
    case ASKED: a->asked = value; break;
    case CENTER_X: a->center_x = value; break;
    case CENTER_WIDTH: a->center_width = (uint32_t)value; break;
    case CANVAS_WIDTH: a->width = (uint32_t)value; break;
    case CANVAS_LENGTH: a->canvas_length = (size_t)value; break;
    case LIST_LENGTH: a->list_length = (size_t)value; break;
    case FILE_LENGTH: a->file_length = (size_t)value; break;
    case OUT_LENGTH: a->out_length = (size_t)value; break;
    case ANSWERS_LENGTH: a->answers_length = (size_t)value; break;
    case SHEET_COUNT:
        b->sheet.count = value;
        for (i = 2; i < value && i < 16; i++)
            b->sheet.layers[i] = b->sheet.layers[1];
        break;
    case SHEET_NEXT_ROW: b->sheet.layers[0].next_row = value; break;
    case SHEET_LAYER_KIND: b->sheet.layers[0].figure.kind = value; break;
    case SHEET_LENGTH: a->sheet_length = (size_t)value; break;
    case SHEET_LAYER_X: b->sheet.layers[0].figure.x = value; break;
    case SHEET_LAYER_Y:
        b->sheet.layers[0].figure.y = value;
        b->sheet.layers[0].next_row = value + 3;
        break;
    case SHEET_LAYER_HEIGHT:
        b->sheet.layers[0].figure.height = value;
        b->sheet.layers[0].next_row = 0;
        break;
    case LAYER: a->layer = (uint32_t)value; break;
    case THIRD_LAYER:
        /* two rows of each are painted, and the third is on top */
        b->sheet.count = 3;
        b->sheet.layers[0].next_row = 2;
        b->sheet.layers[2] = b->sheet.layers[0];
        a->layer = (uint32_t)value;
        break;
    case CALL_KIND: a->calls[2][0] = value; break;
    case CALL_LAYER: a->calls[2][1] = value; break;
    case CALLS_LENGTH: a->calls_length = (size_t)value; break;
    case BACKGROUND_LENGTH: a->background_length = (size_t)value; break;
    case REMOVAL:
        a->calls[2][0] = WUNQABER_CALL_REMOVE;
        a->calls[2][1] = value;
        break;
    case REMOVAL_BETWEEN:
        a->calls[1][0] = WUNQABER_CALL_REMOVE;
        a->calls[2][1] = 0;
        a->background_length = (size_t)value;
        break;
    case BOTH_LENGTHS: a->canvas_length = a->background_length = (size_t)value; break;
    case SHEET_LENGTH_WITHOUT_BUFFERS:
        a->sheet_length = (size_t)value;
        a->canvas_length = a->background_length = 0;
        break;
    case SHEET_COUNT_WITHOUT_BUFFERS:
        b->sheet.count = value;
        a->canvas_length = a->background_length = 0;
        break;
    case LAYER_WITHOUT_BACKGROUND:
        a->layer = (uint32_t)value;
        a->background_length = 0;
        break;
    case PICTURE:
        a->file_length = put_picture(b, (enum picture)value);
        if (value == BITS_NINE_BY_TWO)
            a->canvas_length = 18;
        break;
    case CANVAS_LENGTH_WITHOUT_OUT:
        a->canvas_length = (size_t)value;
        a->out_length = 0;
        break;
    case CANVAS_LENGTH_CUT_OFF:
        a->canvas_length = (size_t)value;
        a->file_length--;
        break;
    case OUT_LENGTH_CUT_OFF:
        a->out_length = (size_t)value;
        a->file_length--;
        break;
    }
}

static uint32_t make(enum call call, const arguments *a, buffers *b)
{
    const int32_t *figure = (const int32_t *)&a->figure, *style = (const int32_t *)&a->style;
    int32_t *sheet = (int32_t *)&b->sheet;

    switch (call) {
    case CONTAINS:
        return wunqaber_contains(figure, a->figure_length, a->asked, 0, b->out, a->out_length);
    case ROW:
        return wunqaber_row(figure, a->figure_length, a->asked, b->out, a->out_length);
    case POINTS:
        return wunqaber_points(figure, a->figure_length, b->list, a->list_length, b->out, a->out_length);
    case OFFSET:
        return wunqaber_offset(figure, a->figure_length, a->asked, b->out, a->out_length);
    case CONFINED_RADII:
        return wunqaber_confined_radii(figure, a->figure_length, b->out, a->out_length);
    case ELLIPSE_WITH_CENTER:
        return wunqaber_ellipse_with_center(a->center_x, a->center_y, a->center_width, a->center_height,
                                            b->out, a->out_length);
    case STYLED_ROW:
        return wunqaber_styled_row(figure, a->figure_length, style, a->style_length, a->asked,
                                   b->out, a->out_length);
    case STYLED_BOUNDING_BOX:
        return wunqaber_styled_bounding_box(figure, a->figure_length, style, a->style_length,
                                            b->out, a->out_length);
    case PAINT_FIGURE:
        return wunqaber_paint_figure(figure, a->figure_length, style, a->style_length, a->width, a->height,
                                     b->canvas, a->canvas_length);
    case SHEET_OPEN:
        return wunqaber_sheet_open(a->width, a->height, sheet, a->sheet_length);
    case SHEET_ADD:
        return wunqaber_sheet_add(sheet, a->sheet_length, figure, a->figure_length, style, a->style_length);
    case SHEET_PAINT:
        return wunqaber_sheet_paint(sheet, a->sheet_length, a->layer, b->canvas, a->canvas_length);
    case SHEET_REMOVE:
        return wunqaber_sheet_remove(sheet, a->sheet_length, a->layer, b->canvas, a->canvas_length,
                                     b->background, a->background_length);
    case RUN_CALLS:
        return wunqaber_run_calls(a->width, a->height, a->calls[0], a->calls_length, b->canvas, a->canvas_length,
                                  b->background, a->background_length, b->answers, a->answers_length);
    case WRITE_P5:
        return wunqaber_write_p5(a->width, a->height, b->canvas, a->canvas_length, b->file, a->file_length,
                                 b->out, a->out_length);
    case WRITE_P4:
        return wunqaber_write_p4(a->width, a->height, b->canvas, a->canvas_length, b->file, a->file_length,
                                 b->out, a->out_length);
    case READ_NETPBM:
        return wunqaber_read_netpbm(b->file, a->file_length, b->canvas, a->canvas_length, b->out, a->out_length);
    }
    return UINT32_MAX;
}

/* Whether the typed form can make the call too: it takes no length of a record, and lists of whole calls alone. */
static int has_typed_form(const check *c)
{
    switch (c->change) {
    case FIGURE_LENGTH: case STYLE_LENGTH: case OUT_LENGTH: case SHEET_LENGTH: case CALLS_LENGTH:
    case SHEET_LENGTH_WITHOUT_BUFFERS: case CANVAS_LENGTH_WITHOUT_OUT: case OUT_LENGTH_CUT_OFF: return 0;
    default: return 1;
    }
}

/* A call of a list that has a layer. */
static wunqaber_call layer_call(const int32_t *numbers)
{
    return numbers[0] == WUNQABER_CALL_REMOVE ? wunqaber_make_remove(numbers[1]) : wunqaber_make_paint(numbers[1]);
}

static void put_figure(int32_t *out, const wunqaber_figure *figure)
{
    out[0] = figure->kind;
    out[1] = figure->x;
    out[2] = figure->y;
    out[3] = figure->width;
    out[4] = figure->height;
    memcpy(out + 5, figure->radii, sizeof figure->radii);
}

/* The same call by its typed form. What it may give holds what stands in the buffers before, and goes back there
 * field by field. */
static uint32_t make_typed(enum call call, const arguments *a, buffers *b)
{
    uint32_t answer = UINT32_MAX;
    int32_t *out = b->out;

    switch (call) {
    case CONTAINS:
        return wunqaber_test_point(&a->figure, a->asked, 0, out);
    case ROW: {
        wunqaber_scanline row;

        memcpy(&row, out, sizeof row);
        answer = wunqaber_find_row(&a->figure, a->asked, &row);
        out[0] = row.y;
        out[1] = row.start;
        out[2] = row.end;
        return answer;
    }
    case POINTS: {
        wunqaber_point points[14];
        size_t i;

        memcpy(points, b->list, sizeof points);
        answer = wunqaber_list_points(&a->figure, points, a->list_length / 2, out);
        for (i = 0; i < 14; i++) {
            b->list[2 * i] = points[i].x;
            b->list[2 * i + 1] = points[i].y;
        }
        return answer;
    }
    case OFFSET: {
        wunqaber_figure grown;

        memcpy(&grown, out, sizeof grown);
        answer = wunqaber_grow(&a->figure, a->asked, &grown);
        put_figure(out, &grown);
        return answer;
    }
    case CONFINED_RADII: {
        wunqaber_confined confined;

        memcpy(&confined, out, sizeof confined);
        answer = wunqaber_confine_radii(&a->figure, &confined);
        out[0] = confined.radii.top_left_width;
        out[1] = confined.radii.top_left_height;
        out[2] = confined.radii.top_right_width;
        out[3] = confined.radii.top_right_height;
        out[4] = confined.radii.bottom_right_width;
        out[5] = confined.radii.bottom_right_height;
        out[6] = confined.radii.bottom_left_width;
        out[7] = confined.radii.bottom_left_height;
        out[8] = confined.length;
        out[9] = confined.sum;
        return answer;
    }
    case ELLIPSE_WITH_CENTER: {
        wunqaber_figure ellipse;

        memcpy(&ellipse, out, sizeof ellipse);
        answer = wunqaber_center_ellipse(a->center_x, a->center_y, a->center_width, a->center_height, &ellipse);
        put_figure(out, &ellipse);
        return answer;
    }
    case STYLED_ROW: {
        wunqaber_styled_scanline row;

        memcpy(&row, out, sizeof row);
        answer = wunqaber_find_styled_row(&a->figure, &a->style, a->asked, &row);
        out[0] = row.y;
        out[1] = row.left_start;
        out[2] = row.left_end;
        out[3] = row.fill_start;
        out[4] = row.fill_end;
        out[5] = row.right_start;
        out[6] = row.right_end;
        return answer;
    }
    case STYLED_BOUNDING_BOX: {
        wunqaber_rectangle bounds;

        memcpy(&bounds, out, sizeof bounds);
        answer = wunqaber_find_bounds(&a->figure, &a->style, &bounds);
        out[0] = bounds.x;
        out[1] = bounds.y;
        out[2] = bounds.width;
        out[3] = bounds.height;
        return answer;
    }
    case PAINT_FIGURE:
        return wunqaber_paint(&a->figure, &a->style, a->width, a->height, b->canvas, a->canvas_length);
    case SHEET_OPEN:
        return wunqaber_open(a->width, a->height, &b->sheet);
    case SHEET_ADD:
        return wunqaber_add(&b->sheet, &a->figure, &a->style);
    case SHEET_PAINT:
        return wunqaber_paint_next_row(&b->sheet, a->layer, b->canvas, a->canvas_length);
    case SHEET_REMOVE:
        return wunqaber_remove_layer(&b->sheet, a->layer, b->canvas, a->canvas_length,
                                     b->background, a->background_length);
    case RUN_CALLS: {
        wunqaber_call calls[3];

        calls[0] = wunqaber_make_add(&oval, &filled);
        calls[1] = layer_call(a->calls[1]);
        calls[2] = layer_call(a->calls[2]);
        calls[2].kind = a->calls[2][0];
        /* The numbers that are looked at: kind, figure and style of the first, kind and layer of the others. */
        if (memcmp(&calls[0], a->calls[0], 18 * sizeof(int32_t)) != 0
            || memcmp(&calls[1], a->calls[1], 2 * sizeof(int32_t)) != 0
            || memcmp(&calls[2], a->calls[2], 2 * sizeof(int32_t)) != 0)
            return UINT32_MAX;
        return wunqaber_run(a->width, a->height, calls, 3, b->canvas, a->canvas_length,
                            b->background, a->background_length, b->answers, a->answers_length);
    }
    case WRITE_P5:
        return wunqaber_encode_p5(a->width, a->height, b->canvas, a->canvas_length, b->file, a->file_length, out);
    case WRITE_P4:
        return wunqaber_encode_p4(a->width, a->height, b->canvas, a->canvas_length, b->file, a->file_length, out);
    case READ_NETPBM: {
        wunqaber_size size;

        memcpy(&size, out, sizeof size);
        answer = wunqaber_decode_netpbm(b->file, a->file_length, b->canvas, a->canvas_length, &size);
        out[0] = size.width;
        out[1] = size.height;
        return answer;
    }
    }
    return answer;
}

/* What the typed form writes and the call on numbers does not: 0 for the radii of an ellipse that is given. */
static void written_typed(const check *c, buffers *b)
{
    if ((c->call == OFFSET || c->call == ELLIPSE_WITH_CENTER) && b->out[0] == WUNQABER_ELLIPSE)
        memset(b->out + 5, 0, 8 * sizeof(int32_t));
}

/* The file of the dotted canvas as P4, and its length. */
static void written_p4(const check *c, buffers *b)
{
    static const char headers[][8] = {"P4\n4 4\n", "P4\n8 2\n", "P4\n9 2\n"};
    size_t header_length = sizeof headers[0] - 1;

    switch (c->change) {
    case OBLONG:
        memcpy(b->file, headers[1], header_length);
        memcpy(b->file + header_length, packed_oblong, sizeof packed_oblong);
        b->out[0] = 9;
        break;
    case NINE_BY_TWO:
        memcpy(b->file, headers[2], header_length);
        memcpy(b->file + header_length, packed_nine, sizeof packed_nine);
        b->out[0] = 11;
        break;
    default:
        memcpy(b->file, headers[0], header_length);
        memcpy(b->file + header_length, packed, sizeof packed);
        b->out[0] = 11;
    }
}

/* The canvas that is read, and its size: the dotted bytes, or of P4 a 1 for each that is not 0. */
static void written_canvas(const check *c, buffers *b)
{
    enum picture picture = c->change == PICTURE ? (enum picture)c->value : GREY;
    int32_t i, count = pictures[picture].width * pictures[picture].height;
    int bits = pictures[picture].header[1] == '4';

    for (i = 0; i < count; i++)
        b->canvas[i] = bits ? dotted[i] != 0 : dotted[i];
    b->out[0] = pictures[picture].width;
    b->out[1] = pictures[picture].height;
}

/* The radii as confined to the box, then L and S. */
static void written_radii(const check *c, buffers *b)
{
    static const int32_t by_crate[] = {7, 50, 7, 50, 7, 50, 7, 50, 100, 120};
    static const int32_t by_w3c[] = {5, 33, 5, 33, 5, 33, 5, 33, 10, 18};

    switch (c->change) {
    case UNEVEN_BOX:
        memcpy(b->out, uneven_box.radii, sizeof uneven_box.radii);
        b->out[8] = b->out[9] = 1;
        break;
    case CORNERS: memcpy(b->out, cornered[c->value].confined, sizeof by_crate); break;
    case KIND: memcpy(b->out, by_w3c, sizeof by_w3c); break;
    default: memcpy(b->out, by_crate, sizeof by_crate);
    }
}

/* The sheet without a layer, and its canvas: on the rows that the layer had painted the background, and over it what
 * the other ovals had painted there, the first in 9 on three rows, the second with a border of 40 on two, the third, if
 * there is one, in 9. Where the first lies beside the canvas its rows are copied all the same; where it lies above or
 * below it, or has no row, none is. */
static void written_without(const check *c, buffers *b)
{
    static const uint8_t plain[] = {100, 9, 9, 103, 9, 9, 9, 9};
    static const uint8_t border[] = {100, 40, 40, 103, 40, 9, 9, 40, 108, 109, 110, 111, 112, 113, 114, 115};
    int three = c->change == THIRD_LAYER, layer = three || c->change == LAYER ? c->value : 0;
    int32_t rows = c->change == SHEET_NEXT_ROW ? c->value : three ? 2 : 3;

    if (layer == 1 || (three && layer == 0))
        memcpy(b->canvas, plain, sizeof plain);
    else if (c->change != SHEET_LAYER_Y && c->change != SHEET_LAYER_HEIGHT)
        memcpy(b->canvas, border, (size_t)rows * 4);
    memmove(&b->sheet.layers[layer], &b->sheet.layers[layer + 1], (15 - (size_t)layer) * sizeof b->sheet.layers[0]);
    memset(&b->sheet.layers[15], 0, sizeof b->sheet.layers[15]);
    b->sheet.layers[15].style.stroke = b->sheet.layers[15].style.fill = WUNQABER_ABSENT;
    b->sheet.count--;
}

/* The answers to a list of calls, and its canvas. */
static void written_list(const check *c, buffers *b)
{
    static const uint32_t all_done[] = {0, 0, 0}, no_layer_last[] = {0, 0, WUNQABER_NO_LAYER};
    static const uint32_t not_removed[] = {0, WUNQABER_CANVAS_LENGTH, 0};
    int between = c->change == REMOVAL_BETWEEN && c->value == 16, last = c->change == REMOVAL && c->value == 0;

    if (c->change == REMOVAL_BETWEEN && !between)
        memcpy(b->answers, not_removed, sizeof not_removed);
    else
        memcpy(b->answers, last ? all_done : no_layer_last, sizeof all_done);
    if (last)
        memcpy(b->canvas, b->background, 4);
    else if (!between)
        b->canvas[1] = b->canvas[2] = 9;
}

/* What each call writes into the buffers where it is accepted. */
static void written(const check *c, buffers *b)
{
    static const int32_t row[] = {1, 0, 4};
    static const int32_t points[] = {1, 0, 2, 0, 0, 1, 1, 1, 2, 1, 3, 1, 0, 2, 1, 2, 2, 2, 3, 2, 1, 3, 2, 3};
    static const int32_t offset[] = {WUNQABER_ELLIPSE, -1, -1, 6, 6};
    static const int32_t offset_box[] = {WUNQABER_CRATE_BOX, 4, 6, 12, 102, 2, 12, 3, 13, 4, 14, 5, 15};
    static const int32_t about[] = {WUNQABER_ELLIPSE, 4, 4, 4, 3};
    static const int32_t styled[] = {1, 0, 0, 0, 4, 4, 4};
    static const int32_t styled_border[] = {1, 0, 1, 1, 3, 3, 4};
    static const int32_t bounds[] = {0, 0, 4, 4};
    static const int32_t bounds_of_box[] = {5, 7, 10, 100};
    static const char header[] = "P5\n4 4\n255\n", header_oblong[] = "P5\n8 2\n255\n";
    static const uint8_t pixels[] = {1, 2, 4, 5, 6, 7, 8, 9, 10, 11, 13, 14};
    static const uint8_t pixels_oblong[] = {1, 2, 8, 9, 10, 11};
    int uneven = c->change == UNEVEN_BOX, oblong = c->change == OBLONG;
    size_t i;

    switch (c->call) {
    case CONTAINS: b->out[0] = c->change == AS_IS; break;
    case ROW: memcpy(b->out, row, sizeof row); break;
    case POINTS:
        memcpy(b->list, points, sizeof points);
        b->out[0] = 12;
        break;
    case OFFSET:
        if (uneven)
            memcpy(b->out, offset_box, sizeof offset_box);
        else
            memcpy(b->out, offset, sizeof offset);
        break;
    case CONFINED_RADII: written_radii(c, b); break;
    case ELLIPSE_WITH_CENTER:
        memcpy(b->out, about, sizeof about);
        if (c->change == CENTER_X)
            b->out[1] = 8;
        break;
    case STYLED_ROW: memcpy(b->out, c->change == BORDERED ? styled_border : styled, sizeof styled); break;
    case STYLED_BOUNDING_BOX: memcpy(b->out, uneven ? bounds_of_box : bounds, sizeof bounds); break;
    case PAINT_FIGURE:
        for (i = 0; i < (oblong ? sizeof pixels_oblong : sizeof pixels); i++)
            b->canvas[oblong ? pixels_oblong[i] : pixels[i]] = 9;
        break;
    case SHEET_OPEN:
        memset(&b->sheet, 0, sizeof b->sheet);
        b->sheet.width = oblong ? 8 : 4;
        b->sheet.height = oblong ? 2 : 4;
        for (i = 0; i < 16; i++)
            b->sheet.layers[i].style.stroke = b->sheet.layers[i].style.fill = WUNQABER_ABSENT;
        break;
    case SHEET_ADD:
        b->sheet.layers[2].figure = oval;
        b->sheet.layers[2].style = filled;
        b->sheet.layers[2].next_row = 0;
        b->sheet.count = 3;
        break;
    case SHEET_PAINT:
        b->sheet.layers[0].next_row = 1;
        b->canvas[1] = b->canvas[2] = 9;
        break;
    case SHEET_REMOVE: written_without(c, b); break;
    case RUN_CALLS: written_list(c, b); break;
    case WRITE_P5:
        memcpy(b->file, oblong ? header_oblong : header, sizeof header - 1);
        memcpy(b->file + sizeof header - 1, b->canvas, 16);
        b->out[0] = 27;
        break;
    case WRITE_P4: written_p4(c, b); break;
    case READ_NETPBM: written_canvas(c, b); break;
    }
}

/* Whether a call has answered as the table says and left the buffers as expected; says what has not. */
static int is_right(const check *c, const char *form, uint32_t answer, const buffers *expected, const buffers *found)
{
    unsigned long line = (unsigned long)(c - checks) + 1;

    if (answer != c->answer) {
        fprintf(stderr, "refusals: line %lu, %s%s: expected %lu, found %lu\n", line, names[c->call], form,
                (unsigned long)c->answer, (unsigned long)answer);
        return 0;
    }
    if (memcmp(expected, found, sizeof *found) != 0) {
        fprintf(stderr, "refusals: line %lu, %s%s, answered %lu: a buffer is not as expected\n", line, names[c->call],
                form, (unsigned long)answer);
        return 0;
    }
    return 1;
}

int main(void)
{
    size_t i, count = sizeof checks / sizeof checks[0], typed_count = 0;

    for (i = 0; i < count; i++) {
        const check *c = &checks[i];
        arguments given = accepted(c);
        buffers before = lent(c), expected, found, typed;
        uint32_t answer;

        change(c, &given, &before);
        memcpy(&expected, &before, sizeof expected);
        memcpy(&found, &before, sizeof found);
        memcpy(&typed, &before, sizeof typed);
        if (c->answer == WUNQABER_DONE)
            written(c, &expected);
        answer = make(c->call, &given, &found);
        if (!is_right(c, "", answer, &expected, &found))
            return 1;
        if (!has_typed_form(c))
            continue;
        if (answer == WUNQABER_DONE)
            written_typed(c, &found);
        if (!is_right(c, " by its typed form", make_typed(c->call, &given, &typed), &found, &typed))
            return 1;
        typed_count++;
    }
    printf("refusals: %lu calls answered as the header says, and %lu of them alike by the typed form\n",
           (unsigned long)count, (unsigned long)typed_count);
    return 0;
}
