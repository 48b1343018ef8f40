/* The header from C: document 01's example, a list that crosses, refusals, slices of no elements. */
#include "sillbadger.h"
#include <math.h>
#include <stdio.h>
#include <string.h>

static int passed, failed;

static void expect(int ok, const char *what) {
    if (ok) {
        passed++;
    } else {
        failed++;
        printf("FAILED: %s\n", what);
    }
}

int main(void) {
    const float target[3] = {1, 1, 1};
    float canvas[3] = {0, 0, 0}, first[3] = {0, 0, 0}, second[3] = {0, 0, 0}, levels[64];
    double table[30];
    const int32_t circle[3] = {0, 0, 1};
    expect(sillbadger_build(1, 1, target, 3, canvas, 3, table, 30) == 0, "build");
    SillbadgerAnswer a = sillbadger_span_score(1, 1, circle, 3, 0.5f, table, 30);
    expect(a.refusal == 0 && a.count == 1 && a.change == -2.25f && a.red == 1 && a.green == 1 && a.blue == 1, "span score");
    a = sillbadger_point_score(1, 1, circle, 3, 0.5f, target, 3, canvas, 3);
    expect(a.refusal == 0 && a.count == 1 && a.change == -2.25f, "point score");
    expect(sillbadger_paint(1, 1, circle, 3, 0.5f, 1, 1, 1, target, 3, canvas, 3, table, 30) == 0, "paint");
    a = sillbadger_total(1, 1, target, 3, canvas, 3);
    expect(a.refusal == 0 && a.total == 0.75, "total");
    expect(sillbadger_levels(1, levels, 64) == 0 && levels[0] == 0.2f && levels[1] == 0.9f && levels[2] == 0, "levels");
    a = sillbadger_span_sweep(1, 1, circle, 3, levels, 64, 2, table, 30);
    expect(a.refusal == 0 && a.count == 1, "sweep");
    expect(sillbadger_count_circle(16, 16, 8, 8, 5) == 81, "count");

    uint8_t sizes[2] = {3, 3}, offered[1] = {3};
    int32_t places[16] = {0, 0, 1, 7, 7, 7, 7, 7, 0, 0, 2}, spots[8] = {0, 0, 1};
    float paints[8] = {0.5f, 0.5f, 0.5f, 0.5f, 0.5f, 0.5f, 0.5f, 0.5f}, tints[4] = {1, 1, 1, 1};
    a = sillbadger_refine(1, 1, 0, 0, 0, sizes, 2, places, 16, paints, 8, offered, 1, spots, 8, tints, 4, 1, target, 3, first, 3, second, 3);
    expect(a.refusal == 0 && a.passes == 1 && a.trials == 2 && a.acceptances == 1, "refine");
    expect(places[2] == 2 && places[3] == 0 && places[10] == 1 && paints[4] == 1 && first[0] == 1 && second[2] == 1, "the list after it");
    offered[0] = 4;
    a = sillbadger_refine(1, 1, 0, 0, 0, sizes, 2, places, 16, paints, 8, offered, 1, spots, 8, tints, 4, 1, target, 3, first, 3, second, 3);
    expect(a.refusal == 2 && a.trials == 0, "a number of coordinates that no kind has");

    /* Slices of no elements, with no pointer at all. */
    expect(sillbadger_build(1, 1, NULL, 0, NULL, 0, NULL, 0) == 2, "build of nothing");
    expect(sillbadger_levels(7, NULL, 0) == 2, "levels of nothing");
    a = sillbadger_span_score(1, 1, NULL, 0, NAN, NULL, 0);
    expect(a.refusal == 2 && a.count == 0 && a.change == 0, "no coordinates");
    a = sillbadger_span_score(0, 1, NULL, 0, NAN, NULL, 0);
    expect(a.refusal == 1, "the lowest number is given");
    a = sillbadger_refine(1, 1, 0, 0, 0, NULL, 0, NULL, 0, NULL, 0, NULL, 0, NULL, 0, NULL, 0, 0, target, 3, first, 3, second, 3);
    expect(a.refusal == 0 && a.passes == 0 && first[0] == 0, "an empty list");
    printf("test result: the header from C. %d passed; %d failed\n", passed, failed);
    return failed != 0;
}
