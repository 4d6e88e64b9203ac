/* The pixels of a P4 raster, unpacked by the byte as one writes it plainly in C: for each byte of a row its eight pixels, the
 * high bit first, and of a row's last byte as many as the row has. bench_reads.rs times the library beside it. */
#include <stddef.h>
#include <stdint.h>

void oracle_unpack_p4(const uint8_t *raster, size_t width, size_t height, uint8_t *canvas)
{
    for (size_t y = 0; y < height; y++) {
        for (size_t whole = 0; whole < width / 8; whole++) {
            unsigned byte = *raster++;
            canvas[0] = byte >> 7 & 1;
            canvas[1] = byte >> 6 & 1;
            canvas[2] = byte >> 5 & 1;
            canvas[3] = byte >> 4 & 1;
            canvas[4] = byte >> 3 & 1;
            canvas[5] = byte >> 2 & 1;
            canvas[6] = byte >> 1 & 1;
            canvas[7] = byte & 1;
            canvas += 8;
        }
        if (width % 8 != 0) {
            unsigned byte = *raster++;
            for (size_t bit = 0; bit < width % 8; bit++)
                *canvas++ = byte >> (7 - bit) & 1;
        }
    }
}
