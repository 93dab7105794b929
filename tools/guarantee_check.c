/* What include/bedside.h and docs/LIMITS.md say of stack and floating-point environment, tried by tools/guarantee_check:
 *
 *     program update               the most bytes of stack that frames took
 *     program why                  the most that questions about boxes of the same frames took
 *     program others               the most that any other call took, drops of tracks too
 *     program match_detections     what that call took on the direct path, and by lapjv
 *     program linear_assignment    the same of this call
 *     program tiny                 the refusal of a box of the width 1e-40
 *     program rounding             "same" or "other": a frame after fesetround(FE_UPWARD) beside one before
 *
 * The stack is one of its own, painted before each call. */
#include <fenv.h>
#include <stdio.h>
#include <string.h>
#include <ucontext.h>

#include "bedside.h"

enum { PLACES = BEDSIDE_MOST_PLACES, CELLS = PLACES * PLACES, STACK = 1 << 20, PAINT = 0xa5, FRAMES = 400 };

static float floats[BEDSIDE_FLOATS_LEN(PLACES)], boxes[BEDSIDE_BOXES_LEN(PLACES)];
static uint64_t counters[BEDSIDE_COUNTERS_LEN(PLACES)];
static uint8_t labels[BEDSIDE_LABELS_LEN(PLACES)], box_labels[BEDSIDE_LABELS_LEN(PLACES)], out[BEDSIDE_OUT_LEN(PLACES)];
static double work64[BEDSIDE_WORK64_LEN(PLACES)], costs[CELLS];
static float work32[BEDSIDE_WORK32_LEN(PLACES)];
static float detections[4 * PLACES], corners[4 * PLACES], confidences[PLACES], cells[CELLS], result[CELLS];
static const float *pairing = cells;
static size_t list[4][PLACES];
static bedside_settings settings;
static bedside_state state;
static size_t frame_boxes;
static uint32_t refusal;
static uint64_t turns;

/* From 0 to below 1, the same in each run. */
static float chance(void)
{
    static uint32_t seed = 1;
    seed = seed * 1664525u + 1013904223u;
    return (float)(seed >> 8) / 16777216.0f;
}

static void fill(float *values, size_t n)
{
    for (size_t k = 0; k < n; k++)
        values[k] = chance();
}

static void nothing(void) {}

static void update(void)
{
    bedside_update_answer a = bedside_update(settings, state, floats, BEDSIDE_FLOATS_LEN(PLACES), counters,
                                             BEDSIDE_COUNTERS_LEN(PLACES), labels, sizeof labels, boxes,
                                             bedside_boxes_len(frame_boxes), box_labels, frame_boxes, out, sizeof out,
                                             work64, CELLS, work32, 4 * CELLS);
    state = a.state;
    refusal = a.refusal;
}

/* About the last box; where there is none, that is said by 81. */
static void why(void)
{
    size_t box = frame_boxes == 0 ? 0 : frame_boxes - 1;
    bedside_explanation e = bedside_why(settings, state, floats, BEDSIDE_FLOATS_LEN(PLACES), counters,
                                        BEDSIDE_COUNTERS_LEN(PLACES), labels, sizeof labels, boxes,
                                        bedside_boxes_len(frame_boxes), box_labels, frame_boxes, out, sizeof out, work64,
                                        CELLS, work32, 4 * CELLS, box);
    refusal = frame_boxes == 0 && e.refusal == BEDSIDE_NO_BOX ? 0 : e.refusal;
}

static void lapjv(void)
{
    refusal = bedside_lapjv(PLACES, costs, CELLS, list[0], PLACES, list[1], PLACES).refusal;
}

static void iou_batch(void)
{
    refusal = bedside_iou_batch(PLACES, PLACES, detections, 4 * PLACES, corners, 4 * PLACES, result, CELLS);
}

static void soft_biou_batch(void)
{
    refusal = bedside_soft_biou_batch(PLACES, PLACES, detections, 4 * PLACES, corners, 4 * PLACES, confidences, PLACES,
                                      result, CELLS);
}

static void shape_similarity_v1(void)
{
    refusal = bedside_shape_similarity_v1(PLACES, PLACES, detections, 4 * PLACES, corners, 4 * PLACES, result, CELLS);
}

static void shape_similarity_v2(void)
{
    refusal = bedside_shape_similarity_v2(PLACES, PLACES, detections, 4 * PLACES, corners, 4 * PLACES, result, CELLS);
}

static void mh_dist_similarity(void)
{
    refusal = bedside_mh_dist_similarity(PLACES, PLACES, cells, CELLS, 1.0f, result, CELLS);
}

static void match_detections(void)
{
    bedside_matched a = bedside_match_detections(PLACES, PLACES, pairing, CELLS, 0.3f, list[0], PLACES, list[1],
                                                 PLACES, work64, CELLS);
    refusal = a.refusal;
    turns = a.turns;
}

static void linear_assignment(void)
{
    bedside_assignment a = bedside_linear_assignment(PLACES, PLACES, pairing, CELLS, pairing, CELLS, 0.3f, list[0], PLACES,
                                                     list[1], PLACES, list[2], PLACES, list[3], PLACES, work64, CELLS);
    refusal = a.refusal;
    turns = a.turns;
}

static void associate(void)
{
    const bedside_associate_params params = {0.3f, 0.5f, 0.25f, 0.25f, true, true, true};
    refusal = bedside_associate(params, PLACES, PLACES, detections, 4 * PLACES, corners, 4 * PLACES, cells, CELLS,
                                confidences, PLACES, confidences, PLACES, box_labels, PLACES, box_labels, PLACES, list[0],
                                PLACES, list[1], PLACES, list[2], PLACES, list[3], PLACES, work64, CELLS, work32,
                                4 * CELLS).refusal;
}

/* All tracks of a full table, the last one first. */
static void forget_set(void)
{
    static uint64_t ids[PLACES];
    for (size_t k = 0; k < PLACES; k++) {
        ids[k] = PLACES - k;
        counters[BEDSIDE_PLACE_COUNTERS * k] = k + 1;
        labels[k] = BEDSIDE_STAFF;
    }
    const bedside_state full = {PLACES, PLACES, 1};
    refusal = bedside_forget_set(full, floats, BEDSIDE_FLOATS_LEN(PLACES), counters, BEDSIDE_COUNTERS_LEN(PLACES),
                                 labels, sizeof labels, ids, PLACES).refusal;
}

static void forget(void)
{
    counters[0] = 1;
    labels[0] = BEDSIDE_SLEEPER;
    const bedside_state one = {1, 1, 1};
    refusal = bedside_forget(one, floats, BEDSIDE_FLOATS_LEN(PLACES), counters, BEDSIDE_COUNTERS_LEN(PLACES), labels,
                             sizeof labels, 1).refusal;
}

static void small_calls(void)
{
    float x = bedside_max(bedside_exp(0.3f), bedside_min(bedside_sqrt(2.0f), bedside_powf_1_5(3.0f)));
    bedside_pair pair = bedside_pair_predict(bedside_pair_new(bedside_powi(x, -7)));
    refusal = bedside_pair_correct(pair, bedside_confidence(9, 3, 0.9f), 1.0f).refusal;
    bedside_convert_bbox_to_z(detections, result);
    result[4] = bedside_overlap(detections, corners).union_area;
    bedside_convert_z_to_bbox(result, corners);
}

static void mot_line(void)
{
    static const uint8_t line[] = "1,-1,10.123456,-20.5,32,64.999999,0.75,-1,-1,-1\n";
    refusal = bedside_mot_line(line, sizeof line - 1, 0, out, sizeof out).refusal;
}

/* The bytes of a painted stack that a call of f changed; all of them where it was refused. */
static size_t taken(void (*f)(void))
{
    static unsigned char stack[STACK];
    static ucontext_t here, there;
    memset(stack, PAINT, sizeof stack);
    refusal = 0;
    getcontext(&there);
    there.uc_stack.ss_sp = stack;
    there.uc_stack.ss_size = sizeof stack;
    there.uc_link = &here;
    makecontext(&there, f, 0);
    swapcontext(&here, &there);
    size_t k = 0;
    while (k < STACK && stack[k] == PAINT)
        k++;
    return refusal == 0 ? STACK - k : STACK;
}

static size_t larger(size_t a, size_t b)
{
    return a < b ? b : a;
}

static size_t others(void)
{
    static void (*const calls[])(void) = {lapjv, iou_batch, soft_biou_batch, shape_similarity_v1, shape_similarity_v2,
                                          mh_dist_similarity, match_detections, linear_assignment, associate,
                                          forget_set, forget, small_calls, mot_line};
    size_t most = 0;
    for (size_t k = 0; k < sizeof calls / sizeof calls[0]; k++)
        most = larger(most, taken(calls[k]));
    return most - taken(nothing);
}

/* A call on the direct path, of costs above the threshold on the diagonal alone, and one by lapjv, which has row turns. */
static void paths(void (*f)(void))
{
    static float diagonal[CELLS];
    for (size_t k = 0; k < PLACES; k++)
        diagonal[k * PLACES + k] = 1.0f;
    pairing = diagonal;
    size_t directly = taken(f);
    if (turns != 0)
        directly = STACK;
    pairing = cells;
    size_t by_lapjv = taken(f);
    if (turns == 0)
        by_lapjv = STACK;
    size_t own = taken(nothing);
    printf("%zu %zu\n", directly - own, by_lapjv - own);
}

static void make_boxes(size_t n)
{
    frame_boxes = n;
    for (size_t k = 0; k < n; k++) {
        float *box = boxes + BEDSIDE_BOX_FLOATS * k;
        fill(box, BEDSIDE_BOX_FLOATS);
        box[0] *= 300.0f;
        box[1] *= 300.0f;
        box[2] = 20.0f + 50.0f * box[2];
        box[3] = 20.0f + 50.0f * box[3];
        box_labels[k] = 1 + (uint8_t)(3.0f * chance());
    }
}

/* Frames of any number of boxes that fits, a new table for each dozen, with and without the options: the most that f
 * took, update or a question before it. */
static size_t frames(void (*f)(void))
{
    size_t most = 0;
    for (size_t k = 0; k < FRAMES; k++) {
        if (k % 12 == 0)
            memset(&state, 0, sizeof state);
        settings.use_rich_similarity = settings.use_soft_boost = settings.use_varying_threshold = k >= FRAMES / 2;
        settings.cap_confidence = k % 2 == 0;
        make_boxes((size_t)(chance() * (float)(PLACES + 1 - state.count)));
        most = larger(most, taken(f));
        if (f != update)
            update();
    }
    return most - taken(nothing);
}

static void one_box(float width)
{
    const float box[BEDSIDE_BOX_FLOATS] = {10.3f, 20.7f, width, 64.9f, 0.75f};
    memcpy(boxes, box, sizeof box);
    box_labels[0] = BEDSIDE_SLEEPER;
    memset(&state, 0, sizeof state);
    frame_boxes = 1;
    update();
}

static void tiny(void)
{
    const uint32_t bits = 71362; /* of 1e-40: it is not computed, as that might flush it */
    float width;
    memcpy(&width, &bits, sizeof width);
    one_box(width);
    printf("%u\n", (unsigned)refusal);
}

static void rounding(void)
{
    uint8_t before[BEDSIDE_TRACK_RECORD_BYTES];
    one_box(32.1f);
    memcpy(before, out, sizeof before);
    fesetround(FE_UPWARD);
    one_box(32.1f);
    puts(memcmp(before, out, sizeof before) == 0 ? "same" : "other");
}

int main(int count, char **words)
{
    const char *what = count == 2 ? words[1] : "";
    settings = bedside_settings_new(0.6f, 0.3f, 30, 3);
    fill(detections, 4 * PLACES);
    fill(corners, 4 * PLACES);
    fill(confidences, PLACES);
    fill(cells, CELLS);
    memset(box_labels, BEDSIDE_SLEEPER, sizeof box_labels);
    for (size_t k = 0; k < CELLS; k++)
        costs[k] = cells[k];
    if (strcmp(what, "update") == 0)
        printf("%zu\n", frames(update));
    else if (strcmp(what, "why") == 0)
        printf("%zu\n", frames(why));
    else if (strcmp(what, "others") == 0)
        printf("%zu\n", others());
    else if (strcmp(what, "match_detections") == 0)
        paths(match_detections);
    else if (strcmp(what, "linear_assignment") == 0)
        paths(linear_assignment);
    else if (strcmp(what, "tiny") == 0)
        tiny();
    else if (strcmp(what, "rounding") == 0)
        rounding();
    else
        return 2;
    return 0;
}
