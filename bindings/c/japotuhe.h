/* The calls of the resizer for programs in other languages.
 *
 * Link crates/boundary/out/libboundary.a, which `bindings/library` makes, and liblibc_c.a of the toolchain.
 *
 * Every call returns 0 where it is granted, else the number of its refusal (docs/REFUSALS.md). The values that the
 * refusal carries are written to `told`; those that it does not carry, and all of them where the call is granted, are
 * 0. A refused call alters nothing else. No call asks anything of its numbers: every number has an answer. A pointer
 * must be to memory of the stated length that nothing else writes to during the call, aligned for its elements; an
 * array of length 0 needs a pointer too, which is never read. What a call writes to must overlap nothing else of the
 * call.
 *
 * The families are Pair of Tent and Span on uint8_t and uint16_t (and `u16_limited`, the same held to the depth), and
 * FloatTent on float (docs/FAMILIES.md). All NaNs count as one and the same float element: nothing is asked of the bits
 * of a NaN, and nothing is said of those of a NaN that a call writes. */
#ifndef JAPOTUHE_H
#define JAPOTUHE_H

#include <assert.h>
#include <stddef.h>
#include <stdint.h>

#ifdef __cplusplus
extern "C" {
#endif

/* The values of a refusal, in the order of docs/REFUSALS.md. */
typedef struct {
    size_t first, second, third, fourth, fifth, sixth;
} japotuhe_values;

/* What is planned. A function is given by its place (docs/FUNCTIONS.md); a place above 52 is refused (7) before all
 * else. A flag is off at 0 and on at every other number. */
typedef struct {
    uint8_t function;
    uint8_t multi_step;
    uint8_t supersampling;
    uint8_t whole; /* the route Whole instead of Single */
    size_t channels;
    size_t source_width, source_height;
    size_t target_width, target_height;
} japotuhe_request;

/* The numbers of a store, in elements; a stride of 0 means rows without gaps. The depth counts in the sheet of a call
 * on uint16_t only. */
typedef struct {
    size_t channels, width, height, stride, bit_depth;
} japotuhe_numbers;

/* A window of a sheet, or a crop of a source, in pixels. */
typedef struct {
    size_t x, y, width, height;
} japotuhe_part;

/* What a plan has: its stages, and the elements that its work buffer and each of its halves need. */
typedef struct {
    size_t stages, work, half;
} japotuhe_plan;

/* One stage: its letter ('B', 'V', 'H', 'N' or 'C'), function by its place, and sizes. */
typedef struct {
    uint32_t letter;
    uint8_t function;
    size_t source_width, source_height, target_width, target_height;
} japotuhe_stage;

/* The archive is of a machine whose numbers have 64 bits. */
static_assert(sizeof(japotuhe_values) == 48, "six numbers");
static_assert(sizeof(japotuhe_request) == 48, "four bytes and five numbers");
static_assert(sizeof(japotuhe_numbers) == 40, "five numbers");
static_assert(sizeof(japotuhe_part) == 32, "four numbers");
static_assert(sizeof(japotuhe_plan) == 24, "three numbers");
static_assert(sizeof(japotuhe_stage) == 40, "a letter, a byte and four numbers");

/* Planning: writes the plan's numbers to `plan`, and its stage `number`, from 0, to `stage`. Where the plan has no such
 * stage, `stage` is left as it is. Its refusals: 12, 1, 14, 7, 100. */
size_t japotuhe_plan_u8(
    const japotuhe_request *request, size_t number, japotuhe_plan *plan, japotuhe_stage *stage, japotuhe_values *told);
size_t japotuhe_plan_u16(
    const japotuhe_request *request, size_t number, japotuhe_plan *plan, japotuhe_stage *stage, japotuhe_values *told);
size_t japotuhe_plan_u16_limited(
    const japotuhe_request *request, size_t number, japotuhe_plan *plan, japotuhe_stage *stage, japotuhe_values *told);
size_t japotuhe_plan_f32(
    const japotuhe_request *request, size_t number, japotuhe_plan *plan, japotuhe_stage *stage, japotuhe_values *told);

/* Plans, and resamples the source over `from` into the whole of the sheet over `into`; the gaps of the sheet stay as
 * they are. The plan's sizes and channels must be the source's and the sheet's. `work` needs as many elements as
 * `plan.work` says, `first` and `second` each as many as `plan.half`; what they hold before changes nothing, and what
 * they hold afterwards is not said. Its refusals: those of planning, then those of resample. */
size_t japotuhe_resample_u8(const japotuhe_request *request, const uint8_t *from, size_t from_length,
    const japotuhe_numbers *source, uint8_t *into, size_t into_length, const japotuhe_numbers *sheet, uint8_t *work,
    size_t work_length, uint8_t *first, size_t first_length, uint8_t *second, size_t second_length,
    japotuhe_values *told);
size_t japotuhe_resample_u16(const japotuhe_request *request, const uint16_t *from, size_t from_length,
    const japotuhe_numbers *source, uint16_t *into, size_t into_length, const japotuhe_numbers *sheet, uint16_t *work,
    size_t work_length, uint16_t *first, size_t first_length, uint16_t *second, size_t second_length,
    japotuhe_values *told);
size_t japotuhe_resample_u16_limited(const japotuhe_request *request, const uint16_t *from, size_t from_length,
    const japotuhe_numbers *source, uint16_t *into, size_t into_length, const japotuhe_numbers *sheet, uint16_t *work,
    size_t work_length, uint16_t *first, size_t first_length, uint16_t *second, size_t second_length,
    japotuhe_values *told);
size_t japotuhe_resample_f32(const japotuhe_request *request, const float *from, size_t from_length,
    const japotuhe_numbers *source, float *into, size_t into_length, const japotuhe_numbers *sheet, float *work,
    size_t work_length, float *first, size_t first_length, float *second, size_t second_length, japotuhe_values *told);

/* The same into a window of the sheet: the plan's target is the window, and the rest of the sheet stays as it is. Its
 * refusals: those of planning, then those of the window call. */
size_t japotuhe_window_u8(const japotuhe_request *request, const uint8_t *from, size_t from_length,
    const japotuhe_numbers *source, uint8_t *into, size_t into_length, const japotuhe_numbers *sheet,
    const japotuhe_part *window, uint8_t *work, size_t work_length, uint8_t *first, size_t first_length,
    uint8_t *second, size_t second_length, japotuhe_values *told);
size_t japotuhe_window_u16(const japotuhe_request *request, const uint16_t *from, size_t from_length,
    const japotuhe_numbers *source, uint16_t *into, size_t into_length, const japotuhe_numbers *sheet,
    const japotuhe_part *window, uint16_t *work, size_t work_length, uint16_t *first, size_t first_length,
    uint16_t *second, size_t second_length, japotuhe_values *told);
size_t japotuhe_window_u16_limited(const japotuhe_request *request, const uint16_t *from, size_t from_length,
    const japotuhe_numbers *source, uint16_t *into, size_t into_length, const japotuhe_numbers *sheet,
    const japotuhe_part *window, uint16_t *work, size_t work_length, uint16_t *first, size_t first_length,
    uint16_t *second, size_t second_length, japotuhe_values *told);
size_t japotuhe_window_f32(const japotuhe_request *request, const float *from, size_t from_length,
    const japotuhe_numbers *source, float *into, size_t into_length, const japotuhe_numbers *sheet,
    const japotuhe_part *window, float *work, size_t work_length, float *first, size_t first_length, float *second,
    size_t second_length, japotuhe_values *told);

/* A part of a source, over the same buffer: writes its numbers to `cropped`, whose stride is never 0, and to `length`
 * how many elements it has, which are the last ones of the buffer: they begin at from + (from_length - length). No
 * element is read. Its refusals: those of a crop. */
size_t japotuhe_crop_u8(const uint8_t *from, size_t from_length, const japotuhe_numbers *source,
    const japotuhe_part *part, japotuhe_numbers *cropped, size_t *length, japotuhe_values *told);
size_t japotuhe_crop_u16(const uint16_t *from, size_t from_length, const japotuhe_numbers *source,
    const japotuhe_part *part, japotuhe_numbers *cropped, size_t *length, japotuhe_values *told);
size_t japotuhe_crop_f32(const float *from, size_t from_length, const japotuhe_numbers *source,
    const japotuhe_part *part, japotuhe_numbers *cropped, size_t *length, japotuhe_values *told);

#ifdef __cplusplus
}
#endif

#endif
