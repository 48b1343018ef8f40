/* Made by `rust/check --write` from the source of the crate `capi`: not to be edited.
 * A slice is a pointer and the number of its elements; with 0 elements the pointer is not read. */
#ifndef SILLBADGER_H
#define SILLBADGER_H

#include <stdbool.h>
#include <stddef.h>
#include <stdint.h>

#ifdef __cplusplus
extern "C" {
#endif

/* What a call answers. A refused call has its number, and all else is 0; a call that is done has 0, and what it works out: all that it does not work out is 0. */
typedef struct SillbadgerAnswer {
    uint32_t refusal;
    uint32_t count;
    float opacity;
    float change;
    float red;
    float green;
    float blue;
    uint64_t passes;
    uint64_t trials;
    uint64_t acceptances;
    double total;
} SillbadgerAnswer;

/* The pattern of an f32 from that of an f64. Nothing is refused. */
int64_t sillbadger_narrow_bits(uint64_t bits);

/* How many pixels of a picture of w by h a shape covers. */
int64_t sillbadger_count_circle(uint32_t w, uint32_t h, int32_t cx, int32_t cy, int32_t r);

int64_t sillbadger_count_triangle(uint32_t w, uint32_t h, int32_t x0, int32_t y0, int32_t x1, int32_t y1, int32_t x2, int32_t y2);

int64_t sillbadger_count_quad(uint32_t w, uint32_t h, int32_t x0, int32_t y0, int32_t x1, int32_t y1, int32_t x2, int32_t y2, int32_t x3, int32_t y3);

/* The first and the last covered column of row y. */
int64_t sillbadger_left_circle(uint32_t w, uint32_t h, int32_t cx, int32_t cy, int32_t r, int32_t y);

int64_t sillbadger_right_circle(uint32_t w, uint32_t h, int32_t cx, int32_t cy, int32_t r, int32_t y);

int64_t sillbadger_left_triangle(uint32_t w, uint32_t h, int32_t x0, int32_t y0, int32_t x1, int32_t y1, int32_t x2, int32_t y2, int32_t y);

int64_t sillbadger_right_triangle(uint32_t w, uint32_t h, int32_t x0, int32_t y0, int32_t x1, int32_t y1, int32_t x2, int32_t y2, int32_t y);

int64_t sillbadger_left_quad(uint32_t w, uint32_t h, int32_t x0, int32_t y0, int32_t x1, int32_t y1, int32_t x2, int32_t y2, int32_t x3, int32_t y3, int32_t y);

int64_t sillbadger_right_quad(uint32_t w, uint32_t h, int32_t x0, int32_t y0, int32_t x1, int32_t y1, int32_t x2, int32_t y2, int32_t x3, int32_t y3, int32_t y);

/* Blends a shape into the canvas, then updates the table over the shape's rows. */
uint8_t sillbadger_paint(uint32_t w, uint32_t h, const int32_t *shape, size_t shape_count, float opacity, float red, float green, float blue, const float *target, size_t target_count, float *canvas, size_t canvas_count, double *table, size_t table_count);

/* Fills 64 lent places with the opacity levels of a number of level bits; the unused are 0. */
uint8_t sillbadger_levels(uint32_t bits, float *levels, size_t levels_count);

/* Every pixel has the colour. */
uint8_t sillbadger_fill(uint32_t w, uint32_t h, float red, float green, float blue, float *canvas, size_t canvas_count);

/* The mean colour of a picture: red, green, blue. */
SillbadgerAnswer sillbadger_mean(uint32_t w, uint32_t h, const float *target, size_t target_count);

/* The total squared difference of two pictures: total. */
SillbadgerAnswer sillbadger_total(uint32_t w, uint32_t h, const float *target, size_t target_count, const float *canvas, size_t canvas_count);

/* Refines the list over the background: passes, trials, acceptances. The list comes back in its slices; both work pictures end holding it drawn. */
SillbadgerAnswer sillbadger_refine(uint32_t w, uint32_t h, float red, float green, float blue, uint8_t *sizes, size_t sizes_count, int32_t *places, size_t places_count, float *paints, size_t paints_count, const uint8_t *offered_sizes, size_t offered_sizes_count, const int32_t *offered_places, size_t offered_places_count, const float *offered_paints, size_t offered_paints_count, uint32_t passes, const float *target, size_t target_count, float *first, size_t first_count, float *second, size_t second_count);

/* The score of a shape at one opacity, from a table: count, opacity, change, colour. */
SillbadgerAnswer sillbadger_span_score(uint32_t w, uint32_t h, const int32_t *shape, size_t shape_count, float opacity, const double *table, size_t table_count);

/* The best score of a shape over the first `count` of 64 lent levels, from a table. */
SillbadgerAnswer sillbadger_span_sweep(uint32_t w, uint32_t h, const int32_t *shape, size_t shape_count, const float *levels, size_t levels_count, uint32_t count, const double *table, size_t table_count);

/* The score of a circle or a triangle at one opacity, pixel by pixel from the pictures: count, opacity, change, colour. */
SillbadgerAnswer sillbadger_point_score(uint32_t w, uint32_t h, const int32_t *shape, size_t shape_count, float opacity, const float *target, size_t target_count, const float *canvas, size_t canvas_count);

/* The best score of a circle or a triangle over the first `count` of 64 lent levels, pixel by pixel from the pictures. */
SillbadgerAnswer sillbadger_point_sweep(uint32_t w, uint32_t h, const int32_t *shape, size_t shape_count, const float *levels, size_t levels_count, uint32_t count, const float *target, size_t target_count, const float *canvas, size_t canvas_count);

/* Writes the table of a target and a canvas. */
uint8_t sillbadger_build(uint32_t w, uint32_t h, const float *target, size_t target_count, const float *canvas, size_t canvas_count, double *table, size_t table_count);

/* Rewrites the canvas's sums in rows ymin to ymax, any numbers; with a negative ymax in every row from ymin on. */
uint8_t sillbadger_update(uint32_t w, uint32_t h, const float *target, size_t target_count, const float *canvas, size_t canvas_count, int32_t ymin, int32_t ymax, double *table, size_t table_count);

#ifdef __cplusplus
}
#endif

#endif
