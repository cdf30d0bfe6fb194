/* W9 of document 01 through every function of the border, and a refusal of each kind that a good state can give. */
#include "rotlantern.h"

#include <stdio.h>
#include <string.h>

#define N 8
#define TABLES starts, N, bases, N, offsets, N, widths, N, data, N

static int checks, failures;

static void expect(const char *what, uint64_t found, uint64_t due) {
    checks++;
    if (found != due) {
        failures++;
        printf("%s: found %llu, due %llu\n", what, (unsigned long long)found, (unsigned long long)due);
    }
}

int main(void) {
    uint64_t starts[N], bases[N], offsets[N];
    uint8_t widths[N], data[N];
    memset(starts, 7, sizeof starts);
    memset(bases, 7, sizeof bases);
    memset(offsets, 7, sizeof offsets);
    memset(widths, 7, sizeof widths);
    memset(data, 7, sizeof data);
    rotlantern_state s = {9, 9, 9, 9, 9};
    uint64_t at = 99, v = 99, d = 99;

    expect("open 0", rotlantern_open(0, &s), ROTLANTERN_MINIMUM);
    expect("a refused open changes nothing", s.minimum + s.length + s.segments + s.widths + s.used, 45);
    expect("open 1", rotlantern_open(1, &s), 0);
    expect("fresh", s.minimum + s.length + s.segments + s.widths + s.used, 1);
    s.minimum = 9;
    expect("open with the default", rotlantern_open_default(&s), 0);
    expect("the default minimum", s.minimum, 1);
    expect("a table of no entry", rotlantern_push(&s, NULL, 0, NULL, 0, NULL, 0, NULL, 0, NULL, 0, 5, &at), ROTLANTERN_SEGMENT_ROOM);
    expect("a refused push gives no position", at, 99);

    const uint64_t w9[5] = {0, 0, 256, 256, 512};
    for (uint64_t i = 0; i < 5; i++) {
        expect("push", rotlantern_push(&s, TABLES, w9[i], &at), 0);
        expect("position", at, i);
    }
    expect("push below the base", rotlantern_push(&s, TABLES, 511, &at), ROTLANTERN_BELOW);
    expect("segments", s.segments, 3);
    expect("starts", starts[0] * 100 + starts[1] * 10 + starts[2], 24);
    expect("offsets", offsets[0] * 100 + offsets[1] * 10 + offsets[2], 12);
    expect("a spare entry stays", starts[3], 0x0707070707070707);
    expect("a spare byte stays", data[2], 7);
    expect("length", rotlantern_length(&s, TABLES, &v), 0);
    expect("length is", v, 5);
    expect("size", rotlantern_size(&s, TABLES, &v), 0);
    expect("size is", v, 76);
    expect("get", rotlantern_get(&s, TABLES, 3, &v), 0);
    expect("get(3) is", v, 256);
    expect("get past the end", rotlantern_get(&s, TABLES, 5, &v), ROTLANTERN_POSITION);
    expect("a refused get gives no value", v, 256);

    uint64_t out[4] = {7, 7, 7, 7};
    expect("get_range", rotlantern_get_range(&s, TABLES, 1, 4, out, 4, &v), 0);
    expect("get_range writes", v, 3);
    expect("get_range is", out[0] * 1000000 + out[1] * 1000 + out[2], 256256);
    expect("the rest of the output stays", out[3], 7);
    expect("get_range past the end", rotlantern_get_range(&s, TABLES, 1, 6, out, 4, &v), ROTLANTERN_RANGE_END);
    expect("get_range reversed", rotlantern_get_range(&s, TABLES, 4, 1, out, 4, &v), ROTLANTERN_REVERSED);
    expect("get_range without room", rotlantern_get_range(&s, TABLES, 0, 5, out, 4, &v), ROTLANTERN_OUTPUT_ROOM);

    rotlantern_cursor c = {0, 0};
    expect("iter", rotlantern_iter(&s, TABLES, 3, 5, &c), 0);
    expect("first step", rotlantern_next(&c, &s, TABLES, &v, &d), 0);
    expect("gives", v * 10 + d, 2560);
    expect("second step", rotlantern_next(&c, &s, TABLES, &v, &d), 0);
    expect("gives", v * 10 + d, 5120);
    expect("third step", rotlantern_next(&c, &s, TABLES, &v, &d), 0);
    expect("is done", d, 1);
    expect("the cursor stands at", c.next * 10 + c.end, 55);

    uint64_t from = 0, to = 0;
    expect("target_range", rotlantern_target_range(&s, TABLES, 3, 300, &from, &to), 0);
    expect("target_range is", from * 1000 + to, 256300);
    expect("bisect_left", rotlantern_bisect_left(&s, TABLES, 257, &at), 0);
    expect("bisect_left is", at, 4);
    expect("bisect_range_left", rotlantern_bisect_range_left(&s, TABLES, 0, 1, 513, &at), 0);
    expect("bisect_range_left is", at, 1);
    expect("run_count", rotlantern_run_count(data, 2, 1, &v), 0);
    expect("run_count is", v, 2);
    expect("run_count of width 9", rotlantern_run_count(data, 2, 9, &v), ROTLANTERN_DAMAGED);
    expect("run_value", rotlantern_run_value(data, 1, 256, 1, 0, &v), 0);
    expect("run_value is", v, 256);
    expect("run_value past the count", rotlantern_run_value(data, 1, 256, 1, 1, &v), ROTLANTERN_POSITION);

    uint64_t letter = 9, segment = 9;
    expect("audit", rotlantern_audit(&s, TABLES, &letter, &segment), 0);
    expect("well formed", letter + segment, 0);
    widths[1] = 9;
    expect("audit", rotlantern_audit(&s, TABLES, &letter, &segment), 0);
    expect("C of segment 1", letter * 10 + segment, 31);
    expect("a damaged width", rotlantern_get(&s, TABLES, 3, &v), ROTLANTERN_DAMAGED);
    s.used = 9;
    expect("counts that cannot be", rotlantern_get(&s, TABLES, 0, &v), ROTLANTERN_COUNTS);

    printf("%d passed, %d failed\n", checks - failures, failures);
    return failures != 0;
}
