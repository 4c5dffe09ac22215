/* Tests of the calls from C: every refusal that they give, with its values, and granted calls worked out by hand from
 * docs/FAMILIES.md, docs/STAGES.md and docs/PLANS.md. */
#include "japotuhe.h"

#include <stdio.h>
#include <string.h>

enum { BILINEAR = 0, NEAREST = 1, CUBIC = 2, BOX = 29 };
enum {
    U8 = 1,
    U16 = 2,
    LIMITED = 4,
    F32 = 8,
    LEVELS = U8 | U16 | LIMITED,
    SIXTEEN = U16 | LIMITED,
    ALL = LEVELS | F32
};
enum { ROOM = 32, CHANGES = 20 };

#define LARGE ((size_t)1 << 62)

/* All numbers of a call; a table states how a case differs from one that is granted. */
struct call {
    size_t function, multi_step, supersampling, whole, channels, sw, sh, tw, th;
    japotuhe_numbers source, sheet;
    japotuhe_part window;
    size_t from, into, work, first, second;
};

static const struct call granted = {
    .channels = 1,
    .sw = 3,
    .sh = 2,
    .tw = 2,
    .th = 3,
    .source = {1, 3, 2, 0, 16},
    .sheet = {1, 2, 3, 0, 16},
    .window = {0, 0, 2, 3},
    .from = 6,
    .into = 6,
    .work = 3,
};

struct change {
    size_t at, to; /* `at` is one more than the offset, so that 0 ends the list */
};

#define SET(field, value)                                                                                              \
    { offsetof(struct call, field) + 1, value }
/* A resize by plan, source and sheet alike, with room enough. */
#define SIZES(w, h, x, y)                                                                                              \
    SET(sw, w), SET(sh, h), SET(tw, x), SET(th, y), SET(source.width, w), SET(source.height, h), SET(sheet.width, x),  \
        SET(sheet.height, y), SET(from, (w) * (h)), SET(into, (x) * (y)), SET(work, ROOM)

struct test {
    const char *what;
    int families;
    struct change changes[CHANGES]; /* never all of them */
    size_t number, values[6];
    double from[12], made[12];
};

/* Elements are 7 in a sheet before a call. */
static const struct test whole_sheets[] = {
    {"granted as it stands", ALL, {SET(work, 3)}, 0, {0}, {1, 1, 1, 1, 1, 1}, {1, 1, 1, 1, 1, 1}},
    {"1 no source width", ALL, {SET(sw, 0)}, 1, {0}, {0}, {0}},
    {"1 no target height", ALL, {SET(th, 0)}, 1, {0}, {0}, {0}},
    {"1 sheet without rows", ALL, {SET(sheet.height, 0)}, 1, {0}, {0}, {0}},
    {"1 source without columns", ALL, {SET(source.width, 0)}, 1, {0}, {0}, {0}},
    {"2 source too large", ALL, {SET(source.width, 2 * LARGE)}, 2, {0}, {0}, {0}},
    {"2 source's stride too large", ALL, {SET(source.stride, 2 * LARGE)}, 2, {0}, {0}, {0}},
    {"2 two bytes an element", SIXTEEN, {SET(source.width, LARGE), SET(source.height, 1)}, 2, {0}, {0}, {0}},
    {"3 sheet too large", ALL, {SET(sheet.width, SIZE_MAX)}, 3, {0}, {0}, {0}},
    {"3 sheet's stride too large", ALL, {SET(sheet.stride, 2 * LARGE)}, 3, {0}, {0}, {0}},
    {"3 before 2", ALL, {SET(sheet.width, 2 * LARGE), SET(source.width, 2 * LARGE)}, 3, {0}, {0}, {0}},
    {"4 sheet too short", ALL, {SET(into, 5)}, 4, {6, 2, 3, 1, 5}, {0}, {0}},
    {"4 sheet too short for its gaps", ALL, {SET(sheet.stride, 4), SET(into, 9)}, 4, {10, 2, 3, 1, 9}, {0}, {0}},
    {"4 source too short", ALL, {SET(from, 0)}, 4, {6, 3, 2, 1, 0}, {0}, {0}},
    {"4 just not too large", U8, {SET(source.width, LARGE), SET(source.height, 1)}, 4, {LARGE, LARGE, 1, 1, 6}, {0},
        {0}},
    {"5 sheet's rows overlap", ALL, {SET(sheet.stride, 1)}, 5, {2, 1}, {0}, {0}},
    {"5 source's rows overlap", ALL, {SET(source.stride, 2)}, 5, {3, 2}, {0}, {0}},
    {"5 before 4", ALL, {SET(sheet.stride, 1), SET(into, 0)}, 5, {2, 1}, {0}, {0}},
    {"6 no depth", SIXTEEN, {SET(sheet.bit_depth, 0)}, 6, {0}, {0}, {0}},
    {"6 depth 17", SIXTEEN, {SET(sheet.bit_depth, 17)}, 6, {17}, {0}, {0}},
    {"7 unknown function", ALL, {SET(function, CUBIC)}, 7, {0}, {0}, {0}},
    {"7 Box on floats", F32, {SET(function, BOX)}, 7, {0}, {0}, {0}},
    {"7 no such function", ALL, {SET(function, 53)}, 7, {0}, {0}, {0}},
    {"7 no such function, before 12", ALL, {SET(function, 255), SET(channels, 0)}, 7, {0}, {0}, {0}},
    {"8 work buffer", ALL, {SET(work, 2)}, 8, {3, 2}, {0}, {0}},
    {"8 work buffer, Whole", ALL, {SET(whole, 1), SET(work, 8)}, 8, {9, 8}, {0}, {0}},
    {"8 first half", ALL, {SIZES(1, 1, 2, 3), SET(multi_step, 1), SET(first, 3)}, 8, {4, 3}, {0}, {0}},
    {"8 second half", ALL, {SIZES(1, 1, 2, 3), SET(multi_step, 1), SET(first, 4)}, 8, {4, 0}, {0}, {0}},
    {"8 before 6", SIXTEEN, {SET(work, 0), SET(sheet.bit_depth, 0)}, 8, {3, 0}, {0}, {0}},
    {"9 other source", ALL, {SET(source.width, 2)}, 9, {3, 2, 2, 2}, {0}, {0}},
    {"10 other sheet", ALL, {SET(sheet.height, 2)}, 10, {2, 3, 2, 2}, {0}, {0}},
    {"9 before 10", ALL, {SET(source.height, 1), SET(sheet.height, 2)}, 9, {3, 2, 3, 1}, {0}, {0}},
    {"12 planned channels", ALL, {SET(channels, 5)}, 12, {5}, {0}, {0}},
    {"12 no planned channels", ALL, {SET(channels, 0)}, 12, {0}, {0}, {0}},
    {"12 sheet's channels", ALL, {SET(sheet.channels, 9)}, 12, {9}, {0}, {0}},
    {"12 source's channels", ALL, {SET(source.channels, SIZE_MAX)}, 12, {SIZE_MAX}, {0}, {0}},
    {"13 sheet", ALL, {SET(sheet.channels, 2), SET(into, 12)}, 13, {1, 2}, {0}, {0}},
    {"13 source", ALL, {SET(source.channels, 3), SET(from, 18)}, 13, {1, 3}, {0}, {0}},
    {"14 source width", ALL, {SET(sw, 65536), SET(th, 70000)}, 14, {65536}, {0}, {0}},
    {"14 target height", ALL, {SET(th, SIZE_MAX)}, 14, {SIZE_MAX}, {0}, {0}},
    {"Tent, one row to four", ALL, {SIZES(2, 1, 4, 1)}, 0, {0}, {0, 100}, {0, 25, 75, 100}},
    {"Tent, one column to four", ALL, {SIZES(1, 2, 1, 4)}, 0, {0}, {0, 100}, {0, 25, 75, 100}},
    {"Tent, two channels", ALL,
        {SIZES(2, 1, 4, 1), SET(channels, 2), SET(source.channels, 2), SET(sheet.channels, 2), SET(from, 4),
            SET(into, 8)},
        0, {0}, {0, 10, 100, 50}, {0, 10, 25, 20, 75, 40, 100, 50}},
    {"Span, three to two", LEVELS, {SIZES(3, 1, 2, 1), SET(function, BOX)}, 0, {0}, {10, 20, 31}, {15, 26}},
    {"Span, two to three", LEVELS, {SIZES(2, 1, 3, 1), SET(function, BOX)}, 0, {0}, {10, 20}, {10, 15, 20}},
    {"nearest, two to three", ALL, {SIZES(2, 1, 3, 1), SET(function, NEAREST)}, 0, {0}, {5, 6}, {5, 5, 6}},
    {"nearest, three to two", ALL, {SIZES(3, 1, 2, 1), SET(function, NEAREST)}, 0, {0}, {4, 5, 6}, {4, 6}},
    {"rows before columns, Single", LEVELS, {SIZES(2, 2, 1, 1), SET(function, BOX)}, 0, {0}, {0, 0, 1, 3}, {2}},
    {"rows before columns, Whole", LEVELS, {SIZES(2, 2, 1, 1), SET(function, BOX), SET(whole, 1)}, 0, {0}, {0, 0, 1, 3},
        {2}},
    {"limit at depth 10", LIMITED, {SIZES(2, 1, 1, 1), SET(function, BOX), SET(sheet.bit_depth, 10)}, 0, {0},
        {1000, 2000}, {1023}},
    {"no limit at depth 11", LIMITED, {SIZES(2, 1, 1, 1), SET(function, BOX), SET(sheet.bit_depth, 11)}, 0, {0},
        {1000, 2000}, {1500}},
    {"no limit without Limit", U16, {SIZES(2, 1, 1, 1), SET(function, BOX), SET(sheet.bit_depth, 10)}, 0, {0},
        {1000, 2000}, {1500}},
    {"copy without buffers or depth", ALL, {SIZES(2, 1, 2, 1), SET(work, 0), SET(sheet.bit_depth, 0)}, 0, {0}, {8, 9},
        {8, 9}},
    {"copy by an unknown function", ALL, {SIZES(2, 1, 2, 1), SET(function, CUBIC)}, 0, {0}, {8, 9}, {8, 9}},
    {"nearest without depth", ALL, {SIZES(1, 1, 2, 1), SET(function, NEAREST), SET(sheet.bit_depth, 0)}, 0, {0}, {8},
        {8, 8}},
    {"chain over 2 by 2", ALL, {SIZES(1, 1, 2, 3), SET(multi_step, 1), SET(first, 4), SET(second, 4)}, 0, {0}, {9},
        {9, 9, 9, 9, 9, 9}},
    {"gaps of sheet and source", ALL,
        {SIZES(2, 2, 2, 2), SET(source.stride, 3), SET(from, 5), SET(sheet.stride, 4), SET(into, 6)}, 0, {0},
        {1, 2, 99, 3, 4}, {1, 2, 7, 7, 3, 4}},
};

/* A sheet of 4 by 4, and a window of 2 by 3 at column 1 of row 1. */
#define SHEET SET(sheet.width, 4), SET(sheet.height, 4), SET(into, 16), SET(window.x, 1), SET(window.y, 1)

static const struct test windows[] = {
    {"1 window without columns", ALL, {SHEET, SET(window.width, 0)}, 1, {0}, {0}, {0}},
    {"1 window without rows", ALL, {SHEET, SET(window.height, 0)}, 1, {0}, {0}, {0}},
    {"10 window of another size", ALL, {SHEET, SET(window.height, 2)}, 10, {2, 3, 2, 2}, {0}, {0}},
    {"11 past the last column", ALL, {SHEET, SET(window.x, 3)}, 11, {3, 1, 2, 3, 4, 4}, {0}, {0}},
    {"11 past the last row", ALL, {SHEET, SET(window.y, 2)}, 11, {1, 2, 2, 3, 4, 4}, {0}, {0}},
    {"11 in exact sums", ALL, {SHEET, SET(window.x, SIZE_MAX)}, 11, {SIZE_MAX, 1, 2, 3, 4, 4}, {0}, {0}},
    {"11 wider than the sheet", ALL, {SHEET, SET(window.width, SIZE_MAX)}, 11, {1, 1, SIZE_MAX, 3, 4, 4}, {0}, {0}},
    {"4 before 11", ALL, {SHEET, SET(window.x, 3), SET(into, 15)}, 4, {16, 4, 4, 1, 15}, {0}, {0}},
    {"11 before 9", ALL, {SHEET, SET(window.x, 3), SET(source.width, 2)}, 11, {3, 1, 2, 3, 4, 4}, {0}, {0}},
    {"6 in a window", SIXTEEN, {SHEET, SET(sheet.bit_depth, 99)}, 6, {99}, {0}, {0}},
    {"8 in a window", ALL, {SHEET, SET(work, 1)}, 8, {3, 1}, {0}, {0}},
    {"only the window is written", ALL,
        {SIZES(2, 1, 4, 1), SET(window.x, 1), SET(window.y, 1), SET(window.width, 4), SET(window.height, 1),
            SET(sheet.width, 6), SET(sheet.height, 2), SET(into, 12)},
        0, {0}, {0, 100}, {7, 7, 7, 7, 7, 7, 7, 0, 25, 75, 100, 7}},
};

struct buffers {
    double from[ROOM], into[ROOM], work[ROOM], first[ROOM], second[ROOM]; /* room for the elements of each family */
};

static japotuhe_request request_of(const struct call *c) {
    return (japotuhe_request){(uint8_t)c->function, (uint8_t)c->multi_step, (uint8_t)c->supersampling,
        (uint8_t)c->whole, c->channels, c->sw, c->sh, c->tw, c->th};
}

struct family {
    const char *name;
    int bit;
    size_t size; /* of an element */
    size_t (*resample)(const struct call *, struct buffers *, japotuhe_values *);
    size_t (*window)(const struct call *, struct buffers *, japotuhe_values *);
    size_t (*plan)(const japotuhe_request *, size_t, japotuhe_plan *, japotuhe_stage *, japotuhe_values *);
    void (*put)(void *, size_t, double);
};

#define FAMILY(name, element)                                                                                          \
    static size_t resample_##name(const struct call *c, struct buffers *b, japotuhe_values *told) {                    \
        japotuhe_request request = request_of(c);                                                                      \
        return japotuhe_resample_##name(&request, (element *)b->from, c->from, &c->source, (element *)b->into,         \
            c->into, &c->sheet, (element *)b->work, c->work, (element *)b->first, c->first, (element *)b->second,      \
            c->second, told);                                                                                          \
    }                                                                                                                  \
    static size_t window_##name(const struct call *c, struct buffers *b, japotuhe_values *told) {                      \
        japotuhe_request request = request_of(c);                                                                      \
        return japotuhe_window_##name(&request, (element *)b->from, c->from, &c->source, (element *)b->into, c->into,  \
            &c->sheet, &c->window, (element *)b->work, c->work, (element *)b->first, c->first, (element *)b->second,   \
            c->second, told);                                                                                          \
    }                                                                                                                  \
    static void put_##name(void *elements, size_t at, double value) {                                                  \
        element e = (element)value;                                                                                    \
        memcpy((char *)elements + at * sizeof e, &e, sizeof e);                                                        \
    }

FAMILY(u8, uint8_t)
FAMILY(u16, uint16_t)
FAMILY(u16_limited, uint16_t)
FAMILY(f32, float)

static const struct family families[] = {
    {"u8", U8, sizeof(uint8_t), resample_u8, window_u8, japotuhe_plan_u8, put_u8},
    {"u16", U16, sizeof(uint16_t), resample_u16, window_u16, japotuhe_plan_u16, put_u16},
    {"u16_limited", LIMITED, sizeof(uint16_t), resample_u16_limited, window_u16_limited, japotuhe_plan_u16_limited,
        put_u16_limited},
    {"f32", F32, sizeof(float), resample_f32, window_f32, japotuhe_plan_f32, put_f32},
};

static int passed, failed;

static void count(int good, const char *call, const char *family, const char *what) {
    good ? passed++ : failed++;
    if (!good) {
        printf("failed: %s_%s: %s\n", call, family, what);
    }
}

static int told_is(const japotuhe_values *told, const size_t values[6]) {
    return memcmp(told, values, sizeof *told) == 0;
}

static struct call call_of(const struct test *t) {
    struct call c = granted;
    for (const struct change *change = t->changes; change->at != 0; change++) {
        memcpy((char *)&c + change->at - 1, &change->to, sizeof change->to);
    }
    return c;
}

static struct buffers before_of(const struct family *family, const struct test *t) {
    struct buffers b;
    memset(&b, 0x55, sizeof b);
    for (size_t i = 0; i < ROOM; i++) {
        family->put(b.from, i, i < 12 ? t->from[i] : 0);
        family->put(b.into, i, 7);
    }
    return b;
}

/* Of a buffer of which a call was told `length` elements, the others are as they were. */
static int rest_kept(const struct family *family, const double *buffer, const double *before, size_t length) {
    size_t told = length * family->size;
    return memcmp((const char *)buffer + told, (const char *)before + told, sizeof(double[ROOM]) - told) == 0;
}

/* A granted call makes what the table says, reads the source only, and stays within the buffers. */
static int made(const struct family *family, const struct test *t, const struct call *c, const struct buffers *b) {
    struct buffers before = before_of(family, t), after = before;
    for (size_t i = 0; i < c->into && i < 12; i++) {
        family->put(after.into, i, t->made[i]);
    }
    return memcmp(b->into, after.into, sizeof b->into) == 0 && memcmp(b->from, before.from, sizeof b->from) == 0 &&
           rest_kept(family, b->work, before.work, c->work) && rest_kept(family, b->first, before.first, c->first) &&
           rest_kept(family, b->second, before.second, c->second);
}

/* A refused call alters nothing but `told`. */
static int runs(const struct family *family, const struct test *t, const struct call *c, int window) {
    struct buffers before = before_of(family, t), b = before;
    japotuhe_values told = {1, 1, 1, 1, 1, 1};
    size_t number = (window ? family->window : family->resample)(c, &b, &told);
    if (number != t->number || !told_is(&told, t->values)) {
        return 0;
    }
    return number == 0 ? made(family, t, c, &b) : memcmp(&b, &before, sizeof b) == 0;
}

/* What is said of a whole sheet holds of the window that is the whole of it. */
static void test_whole_sheet(const struct family *family, const struct test *t) {
    struct call c = call_of(t);
    count(runs(family, t, &c, 0), "resample", family->name, t->what);
    c.window = (japotuhe_part){0, 0, c.sheet.width, c.sheet.height};
    count(runs(family, t, &c, 1), "window", family->name, t->what);
}

static void test_calls(const struct family *family) {
    for (size_t i = 0; i < sizeof whole_sheets / sizeof *whole_sheets; i++) {
        if (whole_sheets[i].families & family->bit) {
            test_whole_sheet(family, &whole_sheets[i]);
        }
    }
    for (size_t i = 0; i < sizeof windows / sizeof *windows; i++) {
        if (windows[i].families & family->bit) {
            struct call c = call_of(&windows[i]);
            count(runs(family, &windows[i], &c, 1), "window", family->name, windows[i].what);
        }
    }
}

#define UNTOUCHED                                                                                                      \
    { 1, 2, 3, 4, 5, 6 }

struct plan_test {
    const char *what;
    int families;
    japotuhe_request request;
    size_t at, number, values[6];
    japotuhe_plan plan;
    japotuhe_stage stage;
};

/* What is not written stays as `UNTOUCHED` and 1 2 3 say. */
static const struct plan_test plans[] = {
    {"one stage", ALL, {BILINEAR, 0, 0, 0, 3, 10, 10, 20, 20}, 0, 0, {0}, {1, 120, 0}, {'B', 0, 10, 10, 20, 20}},
    {"route Whole", ALL, {BILINEAR, 0, 0, 1, 3, 10, 10, 20, 20}, 0, 0, {0}, {1, 600, 0}, {'B', 0, 10, 10, 20, 20}},
    {"three rows", ALL, {BILINEAR, 0, 0, 0, 3, 10, 10, 20, 3}, 0, 0, {0}, {1, 30, 0}, {'B', 0, 10, 10, 20, 3}},
    {"chain, first", ALL, {BILINEAR, 1, 0, 0, 1, 1, 1, 2, 3}, 0, 0, {0}, {2, 1, 4}, {'B', 0, 1, 1, 2, 2}},
    {"chain, second", ALL, {BILINEAR, 255, 0, 0, 1, 1, 1, 2, 3}, 1, 0, {0}, {2, 1, 4}, {'V', 0, 2, 2, 2, 3}},
    {"chain, no third", ALL, {BILINEAR, 1, 0, 0, 1, 1, 1, 2, 3}, 2, 0, {0}, {2, 1, 4}, UNTOUCHED},
    {"nearest first", ALL, {BILINEAR, 0, 1, 0, 1, 400, 100, 100, 100}, 0, 0, {0}, {2, 0, 20000},
        {'N', 1, 400, 100, 200, 100}},
    {"then Tent", ALL, {BILINEAR, 0, 1, 0, 1, 400, 100, 100, 100}, 1, 0, {0}, {2, 0, 20000},
        {'H', 0, 200, 100, 100, 100}},
    {"Box first", LEVELS, {BILINEAR, 0, 1, 0, 1, 399, 100, 100, 100}, 0, 0, {0}, {2, 0, 20000},
        {'H', 29, 399, 100, 200, 100}},
    {"no prefilter", ALL, {BILINEAR, 0, 1, 0, 1, 299, 100, 100, 100}, 0, 0, {0}, {1, 0, 0},
        {'H', 0, 299, 100, 100, 100}},
    {"copy", ALL, {CUBIC, 0, 0, 0, 1, 5, 5, 5, 5}, 0, 0, {0}, {1, 0, 0}, {'C', 2, 5, 5, 5, 5}},
    {"no stage so far on", ALL, {CUBIC, 0, 0, 0, 1, 5, 5, 5, 5}, SIZE_MAX, 0, {0}, {1, 0, 0}, UNTOUCHED},
    {"7 Box on floats", F32, {BILINEAR, 0, 1, 0, 1, 399, 100, 100, 100}, 0, 7, {0}, {1, 2, 3}, UNTOUCHED},
    {"7 no such function", ALL, {53, 0, 0, 0, 0, 0, 0, 0, 0}, 0, 7, {0}, {1, 2, 3}, UNTOUCHED},
    {"12", ALL, {BILINEAR, 0, 0, 0, 5, 0, 1, 1, 1}, 0, 12, {5}, {1, 2, 3}, UNTOUCHED},
    {"1", ALL, {BILINEAR, 0, 0, 0, 4, 70000, 1, 1, 0}, 0, 1, {0}, {1, 2, 3}, UNTOUCHED},
    {"14", ALL, {BILINEAR, 0, 0, 0, 4, 1, 65535, 65536, 70000}, 0, 14, {65536}, {1, 2, 3}, UNTOUCHED},
};

static int stage_is(const japotuhe_stage *s, const japotuhe_stage *t) {
    return s->letter == t->letter && s->function == t->function && s->source_width == t->source_width &&
           s->source_height == t->source_height && s->target_width == t->target_width &&
           s->target_height == t->target_height;
}

static void test_plans(const struct family *family) {
    for (size_t i = 0; i < sizeof plans / sizeof *plans; i++) {
        const struct plan_test *t = &plans[i];
        japotuhe_plan plan = {1, 2, 3};
        japotuhe_stage stage = UNTOUCHED;
        japotuhe_values told = {1, 1, 1, 1, 1, 1};
        if (t->families & family->bit) {
            size_t number = family->plan(&t->request, t->at, &plan, &stage, &told);
            int good = number == t->number && told_is(&told, t->values) && memcmp(&plan, &t->plan, sizeof plan) == 0;
            count(good && stage_is(&stage, &t->stage), "plan", family->name, t->what);
        }
    }
}

struct crop_test {
    const char *what;
    japotuhe_numbers source;
    size_t length;
    japotuhe_part part;
    size_t number, values[6];
    japotuhe_numbers cropped;
    size_t cropped_length;
};

/* Of 3 by 2 pixels with 2 channels, and a stride of 8 or none: 14 or 12 elements. */
static const struct crop_test crops[] = {
    {"a pixel", {2, 3, 2, 8, 5}, 14, {2, 1, 1, 1}, 0, {0}, {2, 1, 1, 8, 5}, 2},
    {"a column", {2, 3, 2, 0, 0}, 12, {1, 0, 1, 2}, 0, {0}, {2, 1, 2, 6, 0}, 10},
    {"all, of a longer buffer", {2, 3, 2, 8, 0}, 20, {0, 0, 3, 2}, 0, {0}, {2, 3, 2, 8, 0}, 20},
    {"1 no column", {2, 3, 2, 8, 0}, 14, {3, 0, 0, 1}, 1, {0}, {1, 2, 3, 4, 5}, 9},
    {"1 source without rows", {2, 3, 0, 8, 0}, 14, {0, 0, 1, 1}, 1, {0}, {1, 2, 3, 4, 5}, 9},
    {"2 source too large", {2, LARGE, 4, 0, 0}, 14, {0, 0, 1, 1}, 2, {0}, {1, 2, 3, 4, 5}, 9},
    {"4 source too short", {2, 3, 2, 8, 0}, 13, {0, 0, 1, 1}, 4, {14, 3, 2, 2, 13}, {1, 2, 3, 4, 5}, 9},
    {"5 rows overlap", {2, 3, 2, 5, 0}, 14, {0, 0, 1, 1}, 5, {6, 5}, {1, 2, 3, 4, 5}, 9},
    {"11 past the last column", {2, 3, 2, 8, 0}, 14, {1, 0, 3, 1}, 11, {1, 0, 3, 1, 3, 2}, {1, 2, 3, 4, 5}, 9},
    {"11 before 1", {2, 3, 2, 8, 0}, 14, {0, 3, 1, 0}, 11, {0, 3, 1, 0, 3, 2}, {1, 2, 3, 4, 5}, 9},
    {"12 channels", {5, 3, 2, 8, 0}, 14, {0, 0, 1, 1}, 12, {5}, {1, 2, 3, 4, 5}, 9},
};

#define TEST_CROPS(name, element)                                                                                      \
    static void test_crops_##name(void) {                                                                              \
        static const element elements[ROOM];                                                                           \
        for (size_t i = 0; i < sizeof crops / sizeof *crops; i++) {                                                    \
            const struct crop_test *t = &crops[i];                                                                     \
            japotuhe_numbers cropped = {1, 2, 3, 4, 5};                                                                \
            size_t length = 9;                                                                                         \
            japotuhe_values told = {1, 1, 1, 1, 1, 1};                                                                 \
            size_t number = japotuhe_crop_##name(elements, t->length, &t->source, &t->part, &cropped, &length, &told); \
            int good = number == t->number && told_is(&told, t->values) && length == t->cropped_length;                \
            count(good &&memcmp(&cropped, &t->cropped, sizeof cropped) == 0, "crop", #name, t->what);                  \
        }                                                                                                              \
    }

TEST_CROPS(u8, uint8_t)
TEST_CROPS(u16, uint16_t)
TEST_CROPS(f32, float)

int main(void) {
    for (size_t i = 0; i < sizeof families / sizeof *families; i++) {
        test_calls(&families[i]);
        test_plans(&families[i]);
    }
    test_crops_u8();
    test_crops_u16();
    test_crops_f32();
    printf("%d passed, %d failed\n", passed, failed);
    return failed != 0;
}
