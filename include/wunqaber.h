/* Wunqaber for C: rounded boxes and ovals on a canvas of bytes.
 *
 * Link crates/wunqaber/out/libwunqaber.a, which `rt lib` in crates/wunqaber proves and builds. What each call
 * promises stands in crates/wunqaber: for every list of numbers and every length, an equation for the
 * answer and for each buffer lent (for wunqaber_run_calls, that answers and canvas are those of the sheet calls made one
 * after the other, and those of a plain book where removals have the canvas as lent for their background).
 *
 * Each call stands here twice. The library's own take numbers: int32_t in and out, records as runs of them in
 * the order of the structs below. The typed forms at the end take the structs themselves, and are what a host
 * writes; docs/C.md has a table of both. Every buffer is a pointer and its length in elements. Pointers are
 * not NULL, except where the length is 0, and a buffer that is written overlaps no other. That is all that a
 * caller has to see to.
 *
 * Every call answers
 *     0           done
 *     1 .. 15     refused, by the lowest number that applies (below), but by 14 before any other: no buffer differs
 *     100         the numbers are no record: a length, a kind, a paint or an alignment that there is not,
 *                 or a negative side, radius, stroke width or layer: no buffer differs. It comes before any
 *                 refusal, but in wunqaber_run_calls after 6, 8 and 13. What stands in a sheet's numbers and is
 *                 no record breaks a rule: that is 7
 *     101         there is no such row, or the figure has no corners: no buffer differs. It needs no room
 * Where a call gives numbers it writes them from the start of `out`; what stands behind them stays. */
#ifndef WUNQABER_H
#define WUNQABER_H

#include <stddef.h>
#include <stdint.h>

enum {
    WUNQABER_DONE = 0,
    WUNQABER_SIDE = 1,          /* a side is above 1024 */
    WUNQABER_RADIUS = 2,        /* a radius is above 1024 */
    WUNQABER_POSITION = 3,      /* a rectangle's x or y is beyond -4096 .. 4096 */
    WUNQABER_ASKED = 4,         /* an asked point or row is beyond -8192 .. 8192 */
    WUNQABER_OFFSET = 5,        /* a stroke width is above 256, or an offset beyond -256 .. 256 */
    WUNQABER_CANVAS_SIDE = 6,   /* a canvas side is outside 1 .. 1024 */
    WUNQABER_SHEET_RULE = 7,    /* the sheet given breaks a rule */
    WUNQABER_CANVAS_LENGTH = 8, /* the length of the canvas, or of a background, is not width times height */
    WUNQABER_SHEET_FULL = 9,    /* a figure is added to 16 layers */
    WUNQABER_NO_LAYER = 10,     /* there is no such layer */
    WUNQABER_NO_ROW_LEFT = 11,  /* the layer has no row left */
    WUNQABER_ROW_OWED = 12,     /* an earlier layer owes that row */
    WUNQABER_BUFFER_LENGTH = 13, /* the lent list, file buffer or `out` is too short */
    WUNQABER_FILE_HEADER = 14,  /* the file's header is not one of P4, nor one of P5 with the maximum 255 */
    WUNQABER_RASTER_LENGTH = 15, /* the file ends before its picture does */
    WUNQABER_NO_RECORD = 100,
    WUNQABER_NOTHING = 101
};

/* The corners of a crate box are those of embedded-graphics; those of a W3C box go by the rules of the W3C's borders
 * module, Level 3, for colliding corners and, under what of a border lies outside the box, for growing ones. */
enum { WUNQABER_ELLIPSE = 0, WUNQABER_CRATE_BOX = 1, WUNQABER_W3C_BOX = 2 };
enum { WUNQABER_INSIDE = 0, WUNQABER_CENTER = 1, WUNQABER_OUTSIDE = 2 };
enum { WUNQABER_ABSENT = -1 };

/* 13 numbers. The radii are width and height of each corner, clockwise from the top-left. An ellipse has
 * none: its eight must not be negative and play no part, so set them to 0 where a call wrote the first five. */
typedef struct {
    int32_t kind, x, y, width, height;
    int32_t radii[8];
} wunqaber_figure;

/* 4 numbers. A paint is a colour from 0 to 255, or WUNQABER_ABSENT. There is no alignment by default. */
typedef struct {
    int32_t stroke, fill, stroke_width, alignment;
} wunqaber_style;

/* 291 numbers, made by wunqaber_sheet_open or wunqaber_open. Places from `count` on are not looked at. */
typedef struct {
    int32_t width, height, count;
    struct {
        wunqaber_figure figure;
        wunqaber_style style;
        int32_t next_row;
    } layers[16];
} wunqaber_sheet;

/* 20 numbers: a call in a list of them (crates/sheet_call_numbers/specs/CallNumbers.antt). To add it has a figure and
 * a style; to paint, and to remove, it has a layer, counted from 0, and the numbers behind that are not looked at. Nor
 * are the last two of any call. wunqaber_make_add, wunqaber_make_paint and wunqaber_make_remove fill it. */
enum { WUNQABER_CALL_ADD = 0, WUNQABER_CALL_PAINT = 1, WUNQABER_CALL_REMOVE = 2 };
typedef struct {
    int32_t kind;
    union {
        wunqaber_figure figure;
        int32_t layer;
    } subject;
    wunqaber_style style;
    int32_t unused[2];
} wunqaber_call;

/* What calls give: a point; a row, whose run has the columns from start up to but not end; a styled row with
 * three such runs; a rectangle; the radii of a box, corner by corner, and as confined to it: with the length of the
 * edge that decided and the sum of the two radii given along it, 1 and 1 where no radius was reduced; the size of a
 * picture that is read. */
typedef struct {
    int32_t x, y;
} wunqaber_point;

typedef struct {
    int32_t y, start, end;
} wunqaber_scanline;

typedef struct {
    int32_t y, left_start, left_end, fill_start, fill_end, right_start, right_end;
} wunqaber_styled_scanline;

typedef struct {
    int32_t x, y, width, height;
} wunqaber_rectangle;

typedef struct {
    int32_t top_left_width, top_left_height, top_right_width, top_right_height;
    int32_t bottom_right_width, bottom_right_height, bottom_left_width, bottom_left_height;
} wunqaber_radii;

typedef struct {
    wunqaber_radii radii;
    int32_t length, sum;
} wunqaber_confined;

typedef struct {
    int32_t width, height;
} wunqaber_size;

/* A record is its numbers and nothing between or behind them, else an array of size -1 ends the compilation:
 * so a record may be handed on as a run of numbers. */
#define WUNQABER_HAS(record, count) \
    typedef char record##_has_##count##_numbers[sizeof(record) == (count) * sizeof(int32_t) ? 1 : -1]
WUNQABER_HAS(wunqaber_figure, 13);
WUNQABER_HAS(wunqaber_style, 4);
WUNQABER_HAS(wunqaber_sheet, 291);
WUNQABER_HAS(wunqaber_call, 20);
WUNQABER_HAS(wunqaber_point, 2);
WUNQABER_HAS(wunqaber_scanline, 3);
WUNQABER_HAS(wunqaber_styled_scanline, 7);
WUNQABER_HAS(wunqaber_rectangle, 4);
WUNQABER_HAS(wunqaber_radii, 8);
WUNQABER_HAS(wunqaber_confined, 10);
WUNQABER_HAS(wunqaber_size, 2);
#undef WUNQABER_HAS

/* The two arguments for a record: where its numbers are and how many. The second is for a record that is const. */
#define WUNQABER_NUMBERS(record) ((int32_t *)&(record)), (sizeof(record) / sizeof(int32_t))
#define WUNQABER_CONST_NUMBERS(record) ((const int32_t *)&(record)), (sizeof(record) / sizeof(int32_t))

#ifdef __cplusplus
extern "C" {
#endif

/* The library's calls, on numbers. */

/* 1 or 0: whether the point is inside. Refused by 1, 2, 3, 4, 13. */
uint32_t wunqaber_contains(const int32_t *figure, size_t figure_length, int32_t x, int32_t y,
                           int32_t *out, size_t out_length);

/* y, start, end: row y and its run; or 101. Refused by 1, 2, 3, 4, 13. */
uint32_t wunqaber_row(const int32_t *figure, size_t figure_length, int32_t y,
                      int32_t *out, size_t out_length);

/* The points as x, y pairs into list, and their number. Refused by 1, 2, 3, 13. */
uint32_t wunqaber_points(const int32_t *figure, size_t figure_length, int32_t *list, size_t list_length,
                         int32_t *out, size_t out_length);

/* The figure offset by k: 5 numbers for an ellipse, 13 for a box. The radii of a crate box change by k, never below 0,
 * and are not confined. Those of a W3C box are confined before and after: outward they grow by k, but by less where
 * they are below k, and 0 remains 0; inward they change like a crate box's. The figure may lie beyond the limits.
 * Refused by 1, 2, 3, 5, 13. */
uint32_t wunqaber_offset(const int32_t *figure, size_t figure_length, int32_t k,
                         int32_t *out, size_t out_length);

/* Ten numbers: the eight radii as confined to the box; then the length L of the edge that decided, and the sum S of
 * the two radii given along it; or 101. Each radius is the one given times L / S, rounded down. L and S are not
 * cancelled; of equal edges the first of top, right, bottom, left decides; they are 1 and 1 where no radius was
 * reduced. S is never 0, and L is 0 where that edge has no length. Refused by 1, 2, 3, 13. */
uint32_t wunqaber_confined_radii(const int32_t *figure, size_t figure_length,
                                 int32_t *out, size_t out_length);

/* The ellipse of a size about a centre, 5 numbers. Refused by 1, 3 (of what is made), 13. */
uint32_t wunqaber_ellipse_with_center(int32_t x, int32_t y, uint32_t width, uint32_t height,
                                      int32_t *out, size_t out_length);

/* y, then start, end of the left stroke, the fill and the right stroke; or 101. Refused by 1, 2, 3, 4, 5, 13. */
uint32_t wunqaber_styled_row(const int32_t *figure, size_t figure_length,
                             const int32_t *style, size_t style_length, int32_t y,
                             int32_t *out, size_t out_length);

/* x, y, width, height that the styled figure keeps to. Refused by 1, 2, 3, 5, 13. */
uint32_t wunqaber_styled_bounding_box(const int32_t *figure, size_t figure_length,
                                      const int32_t *style, size_t style_length,
                                      int32_t *out, size_t out_length);

/* The figure painted on the canvas. Refused by 1, 2, 3, 5, 6, 8. */
uint32_t wunqaber_paint_figure(const int32_t *figure, size_t figure_length,
                               const int32_t *style, size_t style_length,
                               uint32_t width, uint32_t height, uint8_t *canvas, size_t canvas_length);

/* A sheet without layers. Refused by 6, 13. */
uint32_t wunqaber_sheet_open(uint32_t width, uint32_t height, int32_t *sheet, size_t sheet_length);

/* A figure more on top. Refused by 1, 2, 3, 5, 7, 9. */
uint32_t wunqaber_sheet_add(int32_t *sheet, size_t sheet_length,
                            const int32_t *figure, size_t figure_length,
                            const int32_t *style, size_t style_length);

/* The next row of a layer, counted from 0, painted. Refused by 7, 8, 10, 11, 12. */
uint32_t wunqaber_sheet_paint(int32_t *sheet, size_t sheet_length, uint32_t layer,
                              uint8_t *canvas, size_t canvas_length);

/* A layer, counted from 0, removed: later layers move down one number and keep their next rows. Every row of the canvas
 * that the layer had painted is copied whole from the background, and painted over again by the other layers that had
 * painted it, in the order of adding; all other rows stay. Whether the layer has rows left does not matter, nor whether
 * others wait for them. The background is the canvas as it was at opening: a copy, since the canvas overlaps no other
 * buffer; other bytes of that length show on the rows that are copied. Refused by 7, 8 (for either length), 10. */
uint32_t wunqaber_sheet_remove(int32_t *sheet, size_t sheet_length, uint32_t layer,
                               uint8_t *canvas, size_t canvas_length,
                               const uint8_t *background, size_t background_length);

/* A list of add, paint and remove calls, 20 numbers each (crates/sheet_call_numbers/specs/CallNumbers.antt), run from
 * a sheet just opened; the answer of each, 0 for accepted. All removals of the list get the one background, a copy of
 * the canvas as it is lent; it may have any length, 0 too, but a removal is answered 8 if that is not the canvas's.
 * Refused by 6, 8 (for the canvas), 13; 100 for no list of calls. */
uint32_t wunqaber_run_calls(uint32_t width, uint32_t height, const int32_t *calls, size_t calls_length,
                            uint8_t *canvas, size_t canvas_length,
                            const uint8_t *background, size_t background_length,
                            uint32_t *answers, size_t answers_length);

/* The canvas as a Netpbm P5 file, and the file's length. Refused by 6, 8, 13. */
uint32_t wunqaber_write_p5(uint32_t width, uint32_t height, const uint8_t *canvas, size_t canvas_length,
                           uint8_t *file, size_t file_length, int32_t *out, size_t out_length);

/* The canvas as a Netpbm P4 file, and the file's length. A byte that is not 0 is a 1 bit. Refused by 6, 8, 13. */
uint32_t wunqaber_write_p4(uint32_t width, uint32_t height, const uint8_t *canvas, size_t canvas_length,
                           uint8_t *file, size_t file_length, int32_t *out, size_t out_length);

/* The picture of a Netpbm P4 or P5 file into the canvas, which has as many bytes as the picture has pixels, and width
 * and height from the file's header. A bit of P4 becomes 1 or 0. What stands behind the raster is not read. Refused by
 * 14, 6, 8, 13, 15, in this order; 6 and 8 test what the header says.
 * A header is P4 or P5, then width, height and for P5 the maximum 255. Each is one or more decimal digits and follows
 * whitespace (space, TAB, CR, LF) or comments, from # through the next CR or LF; and one byte of whitespace, right
 * after the last number, precedes the raster. */
uint32_t wunqaber_read_netpbm(const uint8_t *file, size_t file_length, uint8_t *canvas, size_t canvas_length,
                              int32_t *out, size_t out_length);

/* The typed forms. Each is one call of the library on the numbers of its structs and answers what that answers;
 * where it is not 0, nothing that a pointer names differs. 100 then says that a number in a struct is wrong, since
 * lengths cannot be, and 13 that a list, a file buffer or the room for answers is too short.
 *
 * Their names begin with a verb, and go on with what it is about where the verb leaves that open:
 * wunqaber_paint, wunqaber_find_row. None is a name that the library exports; those are the proved boundary and
 * stay as they are. Values are given through the last pointers. */

/* `inside`: 1 or 0. */
static inline uint32_t wunqaber_test_point(const wunqaber_figure *figure, int32_t x, int32_t y, int32_t *inside)
{
    return wunqaber_contains(WUNQABER_CONST_NUMBERS(*figure), x, y, inside, 1);
}

/* Row y and its run; or 101. */
static inline uint32_t wunqaber_find_row(const wunqaber_figure *figure, int32_t y, wunqaber_scanline *row)
{
    return wunqaber_row(WUNQABER_CONST_NUMBERS(*figure), y, WUNQABER_NUMBERS(*row));
}

/* The points, and how many they are. `points_length` is in points. */
static inline uint32_t wunqaber_list_points(const wunqaber_figure *figure,
                                            wunqaber_point *points, size_t points_length, int32_t *count)
{
    return wunqaber_points(WUNQABER_CONST_NUMBERS(*figure), (int32_t *)points, 2 * points_length, count, 1);
}

/* The figure offset by k: larger by k on each side, or smaller where k is negative. An ellipse's radii are 0, so
 * that it can be handed on. */
static inline uint32_t wunqaber_grow(const wunqaber_figure *figure, int32_t k, wunqaber_figure *grown)
{
    wunqaber_figure made = {0, 0, 0, 0, 0, {0, 0, 0, 0, 0, 0, 0, 0}};
    uint32_t answer = wunqaber_offset(WUNQABER_CONST_NUMBERS(*figure), k, WUNQABER_NUMBERS(made));

    if (answer == WUNQABER_DONE)
        *grown = made;
    return answer;
}

/* The radii as confined to the box, and by which fraction, length / sum; or 101. */
static inline uint32_t wunqaber_confine_radii(const wunqaber_figure *figure, wunqaber_confined *confined)
{
    return wunqaber_confined_radii(WUNQABER_CONST_NUMBERS(*figure), WUNQABER_NUMBERS(*confined));
}

/* The ellipse of a size about the centre (x, y). Its radii are 0, so that it can be handed on. */
static inline uint32_t wunqaber_center_ellipse(int32_t x, int32_t y, uint32_t width, uint32_t height,
                                               wunqaber_figure *ellipse)
{
    wunqaber_figure made = {0, 0, 0, 0, 0, {0, 0, 0, 0, 0, 0, 0, 0}};
    uint32_t answer = wunqaber_ellipse_with_center(x, y, width, height, WUNQABER_NUMBERS(made));

    if (answer == WUNQABER_DONE)
        *ellipse = made;
    return answer;
}

/* Row y with its left stroke, its fill and its right stroke; or 101. */
static inline uint32_t wunqaber_find_styled_row(const wunqaber_figure *figure, const wunqaber_style *style, int32_t y,
                                                wunqaber_styled_scanline *row)
{
    return wunqaber_styled_row(WUNQABER_CONST_NUMBERS(*figure), WUNQABER_CONST_NUMBERS(*style), y,
                               WUNQABER_NUMBERS(*row));
}

/* The rectangle that the styled figure keeps to. */
static inline uint32_t wunqaber_find_bounds(const wunqaber_figure *figure, const wunqaber_style *style,
                                            wunqaber_rectangle *bounds)
{
    return wunqaber_styled_bounding_box(WUNQABER_CONST_NUMBERS(*figure), WUNQABER_CONST_NUMBERS(*style),
                                        WUNQABER_NUMBERS(*bounds));
}

/* The figure painted on the canvas. */
static inline uint32_t wunqaber_paint(const wunqaber_figure *figure, const wunqaber_style *style,
                                      uint32_t width, uint32_t height, uint8_t *canvas, size_t canvas_length)
{
    return wunqaber_paint_figure(WUNQABER_CONST_NUMBERS(*figure), WUNQABER_CONST_NUMBERS(*style), width, height,
                                 canvas, canvas_length);
}

/* A sheet without layers. */
static inline uint32_t wunqaber_open(uint32_t width, uint32_t height, wunqaber_sheet *sheet)
{
    return wunqaber_sheet_open(width, height, WUNQABER_NUMBERS(*sheet));
}

/* A figure more on top. Figure and style must not lie in the sheet itself: copy them out first. */
static inline uint32_t wunqaber_add(wunqaber_sheet *sheet, const wunqaber_figure *figure, const wunqaber_style *style)
{
    return wunqaber_sheet_add(WUNQABER_NUMBERS(*sheet), WUNQABER_CONST_NUMBERS(*figure),
                              WUNQABER_CONST_NUMBERS(*style));
}

/* The next row of a layer, counted from 0, painted. */
static inline uint32_t wunqaber_paint_next_row(wunqaber_sheet *sheet, uint32_t layer,
                                               uint8_t *canvas, size_t canvas_length)
{
    return wunqaber_sheet_paint(WUNQABER_NUMBERS(*sheet), layer, canvas, canvas_length);
}

/* A layer, counted from 0, removed, and what it had painted with it. The background is the canvas as it was at opening,
 * and must not overlap the canvas: keep a copy. */
static inline uint32_t wunqaber_remove_layer(wunqaber_sheet *sheet, uint32_t layer,
                                             uint8_t *canvas, size_t canvas_length,
                                             const uint8_t *background, size_t background_length)
{
    return wunqaber_sheet_remove(WUNQABER_NUMBERS(*sheet), layer, canvas, canvas_length,
                                 background, background_length);
}

/* A call for a list: to add a figure. */
static inline wunqaber_call wunqaber_make_add(const wunqaber_figure *figure, const wunqaber_style *style)
{
    wunqaber_call call = {WUNQABER_CALL_ADD, {{0, 0, 0, 0, 0, {0, 0, 0, 0, 0, 0, 0, 0}}}, {0, 0, 0, 0}, {0, 0}};

    call.subject.figure = *figure;
    call.style = *style;
    return call;
}

/* A call for a list: to paint the next row of a layer. A negative layer is no call: 100. */
static inline wunqaber_call wunqaber_make_paint(int32_t layer)
{
    wunqaber_call call = {WUNQABER_CALL_PAINT, {{0, 0, 0, 0, 0, {0, 0, 0, 0, 0, 0, 0, 0}}}, {0, 0, 0, 0}, {0, 0}};

    call.subject.layer = layer;
    return call;
}

/* A call for a list: to remove a layer. A negative layer is no call: 100. */
static inline wunqaber_call wunqaber_make_remove(int32_t layer)
{
    wunqaber_call call = {WUNQABER_CALL_REMOVE, {{0, 0, 0, 0, 0, {0, 0, 0, 0, 0, 0, 0, 0}}}, {0, 0, 0, 0}, {0, 0}};

    call.subject.layer = layer;
    return call;
}

/* A list of calls run from a sheet just opened; the answer of each, 0 for accepted. `calls_length` is in calls. The
 * background is for removals, and must not overlap the canvas: a copy of it, or without removals none, NULL and 0. */
static inline uint32_t wunqaber_run(uint32_t width, uint32_t height, const wunqaber_call *calls, size_t calls_length,
                                    uint8_t *canvas, size_t canvas_length,
                                    const uint8_t *background, size_t background_length,
                                    uint32_t *answers, size_t answers_length)
{
    return wunqaber_run_calls(width, height, (const int32_t *)calls, calls_length * (sizeof *calls / sizeof(int32_t)),
                              canvas, canvas_length, background, background_length, answers, answers_length);
}

/* The canvas as a Netpbm P5 file, and the file's length in bytes. */
static inline uint32_t wunqaber_encode_p5(uint32_t width, uint32_t height,
                                          const uint8_t *canvas, size_t canvas_length,
                                          uint8_t *file, size_t file_length, int32_t *length)
{
    return wunqaber_write_p5(width, height, canvas, canvas_length, file, file_length, length, 1);
}

/* The canvas as a Netpbm P4 file, a bit for each pixel, and the file's length in bytes. */
static inline uint32_t wunqaber_encode_p4(uint32_t width, uint32_t height,
                                          const uint8_t *canvas, size_t canvas_length,
                                          uint8_t *file, size_t file_length, int32_t *length)
{
    return wunqaber_write_p4(width, height, canvas, canvas_length, file, file_length, length, 1);
}

/* The picture of a Netpbm P4 or P5 file into the canvas, and its size. */
static inline uint32_t wunqaber_decode_netpbm(const uint8_t *file, size_t file_length,
                                              uint8_t *canvas, size_t canvas_length, wunqaber_size *size)
{
    return wunqaber_read_netpbm(file, file_length, canvas, canvas_length, WUNQABER_NUMBERS(*size));
}

#ifdef __cplusplus
}
#endif

#endif
