/* Calls functions of each part of libbedside.a and prints what came back: the call, the bits, the value. */
#include <math.h>
#include <stdio.h>
#include <string.h>

#include "bedside.h"

#define LENGTH(array) (sizeof(array) / sizeof(array)[0])

static void show(const char *call, float result)
{
    uint32_t bits;
    memcpy(&bits, &result, sizeof bits);
    if (result != result)
        printf("%-15s a NaN\n", call);
    else
        printf("%-15s %08x %.6f\n", call, (unsigned)bits, result);
}

static void float_functions(void)
{
    show("max(1, NaN)", bedside_max(1.0f, NAN));
    show("max(-0, 0)", bedside_max(-0.0f, 0.0f));
    show("min(NaN, 2)", bedside_min(NAN, 2.0f));
    show("min(1, 2)", bedside_min(1.0f, 2.0f));
    show("sqrt(2)", bedside_sqrt(2.0f));
    show("sqrt(-1)", bedside_sqrt(-1.0f));
    show("powi(0.9, -1)", bedside_powi(0.9f, -1));
    show("powi(0.9, 7)", bedside_powi(0.9f, 7));
    show("powf_1_5(4)", bedside_powf_1_5(4.0f));
    show("exp(1)", bedside_exp(1.0f));
    show("exp(-1)", bedside_exp(-1.0f));
    show("exp(89)", bedside_exp(89.0f));
    show("exp(-104)", bedside_exp(-104.0f));
}

/* A position measured at 10 and, after one prediction, at 12; then a correction that is refused. */
static void filter(void)
{
    bedside_pair pair = bedside_pair_predict(bedside_pair_new(10.0f));
    show("predicted a", pair.a);
    show("predicted d", pair.d);
    bedside_corrected corrected = bedside_pair_correct(pair, 12.0f, 1.0f);
    show("corrected p", corrected.pair.p);
    show("corrected v", corrected.pair.v);
    pair.a = -1.0f;
    corrected = bedside_pair_correct(pair, 12.0f, 1.0f);
    printf("%-15s %u\n", "refusal", (unsigned)corrected.refusal);

    const float bbox[4] = {10.0f, 20.0f, 42.0f, 84.0f};
    float z[4], back[4];
    bedside_convert_bbox_to_z(bbox, z);
    bedside_convert_z_to_bbox(z, back);
    show("z: height", z[2]);
    show("z: aspect", z[3]);
    show("bbox: right", back[2]);
    show("confidence", bedside_confidence(1, 1, 0.9f));
}

/* Four equal costs, and a side that is refused. */
static void assignment(void)
{
    const double cost[4] = {0.5, 0.5, 0.5, 0.5};
    size_t x[2] = {0, 0}, y[2] = {0, 0};
    bedside_lapjv_answer answer = bedside_lapjv(2, cost, 4, x, 2, y, 2);
    printf("%-15s refusal %u turns %u scans %u x %u %u y %u %u\n", "lapjv", (unsigned)answer.refusal,
           (unsigned)answer.turns, (unsigned)answer.scans, (unsigned)x[0], (unsigned)x[1], (unsigned)y[0], (unsigned)y[1]);
    answer = bedside_lapjv(0, cost, 0, x, 0, y, 0);
    printf("%-15s refusal %u turns %u scans %u\n", "lapjv, side 0", (unsigned)answer.refusal, (unsigned)answer.turns,
           (unsigned)answer.scans);
}

/* Two boxes and two tracks in each other's order, one pair after the other; the same with labels that keep one of them
 * apart; then a list that is too short. */
static void pairs(void)
{
    const float detections[8] = {0, 0, 10, 10, 20, 0, 30, 10};
    const float corners[8] = {21, 0, 31, 10, 5, 0, 15, 10};
    float iou[4];
    uint32_t refusal = bedside_iou_batch(2, 2, detections, 8, corners, 8, iou, 4);
    printf("%-15s refusal %u\n", "iou_batch", (unsigned)refusal);
    show("iou of 0, 1", iou[1]);
    bedside_overlap_areas areas = bedside_overlap(detections, corners + 4);
    show("shared area", areas.intersection);
    show("of the union", areas.union_area);

    const bedside_associate_params params = {0.3f, 0.5f, 0.25f, 0.25f, true, false, false};
    const uint8_t sleepers[2] = {BEDSIDE_SLEEPER, BEDSIDE_SLEEPER};
    const uint8_t with_staff[2] = {BEDSIDE_STAFF, BEDSIDE_SLEEPER};
    size_t pair_boxes[2], pair_tracks[2], left_boxes[2], left_tracks[2];
    double work64[4];
    float work32[16];
    bedside_assignment answer =
        bedside_associate(params, 2, 2, detections, 8, corners, 8, NULL, 0, NULL, 0, NULL, 0, sleepers, 2, sleepers, 2,
                          pair_boxes, 2, pair_tracks, 2, left_boxes, 2, left_tracks, 2, work64, 4, work32, 16);
    printf("%-15s refusal %u pairs %u: %u %u, %u %u\n", "associate", (unsigned)answer.refusal,
           (unsigned)answer.pairs, (unsigned)pair_boxes[0], (unsigned)pair_tracks[0], (unsigned)pair_boxes[1],
           (unsigned)pair_tracks[1]);
    answer = bedside_associate(params, 2, 2, detections, 8, corners, 8, NULL, 0, NULL, 0, NULL, 0, with_staff, 2,
                               sleepers, 2, pair_boxes, 2, pair_tracks, 2, left_boxes, 2, left_tracks, 2, work64, 4,
                               work32, 16);
    printf("%-15s refusal %u pairs %u: %u %u left %u %u\n", "with labels", (unsigned)answer.refusal,
           (unsigned)answer.pairs, (unsigned)pair_boxes[0], (unsigned)pair_tracks[0], (unsigned)left_boxes[0],
           (unsigned)left_tracks[0]);

    const float equal[4] = {0.5f, 0.5f, 0.5f, 0.5f};
    bedside_matched matched =
        bedside_match_detections(2, 2, equal, 4, 0.3f, pair_boxes, 2, pair_tracks, 2, work64, 4);
    printf("%-15s refusal %u pairs %u: %u %u, %u %u turns %u scans %u\n", "match, equal", (unsigned)matched.refusal,
           (unsigned)matched.pairs, (unsigned)pair_boxes[0], (unsigned)pair_tracks[0], (unsigned)pair_boxes[1],
           (unsigned)pair_tracks[1], (unsigned)matched.turns, (unsigned)matched.scans);
    answer = bedside_linear_assignment(2, 2, iou, 4, iou, 4, 0.5f, pair_boxes, 2, pair_tracks, 2, left_boxes, 2,
                                       left_tracks, 2, work64, 4);
    printf("%-15s refusal %u pairs %u: %u %u left %u %u\n", "linear, 0.5", (unsigned)answer.refusal,
           (unsigned)answer.pairs, (unsigned)pair_boxes[0], (unsigned)pair_tracks[0], (unsigned)left_boxes[0],
           (unsigned)left_tracks[0]);
    matched = bedside_match_detections(2, 2, equal, 4, 0.3f, pair_boxes, 1, pair_tracks, 2, work64, 4);
    printf("%-15s refusal %u pairs %u\n", "match, short", (unsigned)matched.refusal, (unsigned)matched.pairs);
}

enum { PLACES = 6 };

/* A tracker, and what a frame needs. */
typedef struct {
    bedside_state state;
    float floats[BEDSIDE_FLOATS_LEN(PLACES)];
    uint64_t counters[BEDSIDE_COUNTERS_LEN(PLACES)];
    uint8_t labels[BEDSIDE_LABELS_LEN(PLACES)];
    uint8_t out[BEDSIDE_OUT_LEN(PLACES)];
    double work64[BEDSIDE_WORK64_LEN(PLACES)];
    float work32[BEDSIDE_WORK32_LEN(PLACES)];
} tracker;

static void show_track(bedside_track track)
{
    printf("%-15s %u label %u at %.6f %.6f size %.6f %.6f confidence %.6f\n", "track", (unsigned)track.id,
           (unsigned)track.label, track.left, track.top, track.width, track.height, track.confidence);
}

/* One frame; a box is five floats and a label. */
static void frame(tracker *t, const float *boxes, size_t boxes_len, const uint8_t *box_labels)
{
    const bedside_settings settings = bedside_settings_new(0.6f, 0.3f, 30, 3);
    bedside_update_answer answer =
        bedside_update(settings, t->state, t->floats, BEDSIDE_FLOATS_LEN(PLACES), t->counters,
                       BEDSIDE_COUNTERS_LEN(PLACES), t->labels, BEDSIDE_LABELS_LEN(PLACES), boxes, boxes_len,
                       box_labels, boxes_len / BEDSIDE_BOX_FLOATS, t->out, BEDSIDE_OUT_LEN(PLACES), t->work64,
                       BEDSIDE_WORK64_LEN(PLACES), t->work32, BEDSIDE_WORK32_LEN(PLACES));
    t->state = answer.state; /* the one given, where the frame is refused */
    printf("%-15s refusal %u index %u frames %u held %u\n", "update", (unsigned)answer.refusal,
           (unsigned)answer.index, (unsigned)answer.state.frame_count, (unsigned)answer.state.count);
    for (size_t k = 0; k < answer.emitted; k++)
        show_track(bedside_track_at(t->out, k));
}

/* What the next frame would do with one of its boxes; the tracker is left as it is. */
static void ask(tracker *t, const float *boxes, size_t boxes_len, const uint8_t *box_labels, size_t box)
{
    static const char *const fates[] = {"none", "matched", "started", "under the threshold", "rejected"};
    const bedside_settings settings = bedside_settings_new(0.6f, 0.3f, 30, 3);
    bedside_explanation e =
        bedside_why(settings, t->state, t->floats, BEDSIDE_FLOATS_LEN(PLACES), t->counters,
                    BEDSIDE_COUNTERS_LEN(PLACES), t->labels, BEDSIDE_LABELS_LEN(PLACES), boxes, boxes_len, box_labels,
                    boxes_len / BEDSIDE_BOX_FLOATS, t->out, BEDSIDE_OUT_LEN(PLACES), t->work64,
                    BEDSIDE_WORK64_LEN(PLACES), t->work32, BEDSIDE_WORK32_LEN(PLACES), box);
    printf("%-15s refusal %u box %u: %s id %u, scores %.6f %.6f %.6f, with %u: %.6f of %.6f over %.6f\n", "why",
           (unsigned)e.refusal, (unsigned)box, fates[e.fate], (unsigned)e.id, e.score, e.score_dlo, e.score_duo,
           (unsigned)e.paired_id, e.iou, e.intersection, e.union_area);
}

/* Drops the tracks with these ids. */
static void forget(tracker *t, const uint64_t *ids, size_t ids_len)
{
    bedside_forgotten answer =
        bedside_forget_set(t->state, t->floats, BEDSIDE_FLOATS_LEN(PLACES), t->counters, BEDSIDE_COUNTERS_LEN(PLACES),
                           t->labels, BEDSIDE_LABELS_LEN(PLACES), ids, ids_len);
    t->state = answer.state;
    printf("%-15s refusal %u held %u last id %u\n", "forget", (unsigned)answer.refusal, (unsigned)answer.state.count,
           (unsigned)answer.state.last_id);
}

/* A sleeper and a partner, who is missed once. A nurse stands before the sleeper, and starts a track of their own; the
 * sleeper is seen again and goes on with the old id. Before that it is asked what will become of each box, and of one
 * that is not there. Then a box without width, a label that is none, and more boxes than places are left. The bed is
 * empty, and all tracks are dropped, after lists that are turned away; the sleeper who comes back has a new id. */
static void frames(void)
{
    static tracker t;
    static const float first[] = {10, 20, 32, 64, 0.75f, 60, 20, 30, 60, 0.875f};
    static const float second[] = {60.5f, 20.25f, 30, 60, 0.875f, 10.5f, 20, 32, 64, 0.75f};
    static const float missed[] = {11, 20.5f, 32, 64, 0.75f};
    static const float fourth[] = {11, 20.5f, 32, 64, 0.75f, 61, 20, 30, 60, 0.875f};
    static const float nurse[] = {12, 20, 32, 64, 0.875f, 61, 20, 30, 60, 0.875f};
    static const float all[] = {11, 20.5f, 32, 64, 0.75f, 61, 20, 30, 60, 0.875f, 18, 20, 32, 64, 0.875f};
    static const float no_width[] = {11, 20, 32, 64, 0.75f, 61, 20, 0, 60, 0.875f};
    static const float four[] = {11, 20, 32, 64, 0.75f, 61, 20, 30, 60, 0.875f,
                                 90, 20, 30, 60, 0.75f, 99, 20, 30, 60, 0.75f};
    static const uint8_t two[] = {BEDSIDE_SLEEPER, BEDSIDE_PARTNER};
    static const uint8_t back[] = {BEDSIDE_PARTNER, BEDSIDE_SLEEPER};
    static const uint8_t with_nurse[] = {BEDSIDE_STAFF, BEDSIDE_PARTNER};
    static const uint8_t three[] = {BEDSIDE_SLEEPER, BEDSIDE_PARTNER, BEDSIDE_STAFF, BEDSIDE_STAFF};
    static const uint8_t none[] = {BEDSIDE_SLEEPER, 0};
    frame(&t, first, LENGTH(first), two);
    frame(&t, second, LENGTH(second), back);
    frame(&t, missed, LENGTH(missed), two);
    frame(&t, fourth, LENGTH(fourth), two);
    for (size_t box = 0; box < 3; box++)
        ask(&t, nurse, LENGTH(nurse), with_nurse, box);
    frame(&t, nurse, LENGTH(nurse), with_nurse);
    for (int k = 0; k < 3; k++)
        frame(&t, all, LENGTH(all), three);
    frame(&t, no_width, LENGTH(no_width), two);
    frame(&t, fourth, LENGTH(fourth), none);
    frame(&t, four, LENGTH(four), three);
    static const uint64_t twice[] = {3, 9, 3}, not_held[] = {3, 9}, ghosts[] = {3, 1, 2};
    forget(&t, twice, LENGTH(twice));
    forget(&t, not_held, LENGTH(not_held));
    forget(&t, ghosts, LENGTH(ghosts));
    frame(&t, missed, LENGTH(missed), two);
    printf("%-15s %u\n", "id in place 0", (unsigned)t.counters[0]);
}

/* Lines of detection text as box records, each behind the frame of the one before; then a confidence above 1, and a line
 * without its line feed. */
static void lines(void)
{
    static const char *const text[] = {
        "1,-1,10,20.5,32,64,0.75,-1,-1,-1\n",
        "4,-1,10.1,-0,32,64,0.1,-1,-1,-1\n",
        "4,-1,10,20,32,64,1.5,-1,-1,-1\n",
        "4,-1,10,20,32,64,0.75,-1,-1,-1",
    };
    uint8_t record[BEDSIDE_BOX_RECORD_BYTES];
    uint32_t previous = 0;
    for (size_t k = 0; k < LENGTH(text); k++) {
        bedside_mot_answer answer =
            bedside_mot_line((const uint8_t *)text[k], strlen(text[k]), previous, record, sizeof record);
        printf("%-15s refusal %u frame %u\n", "mot_line", (unsigned)answer.refusal, (unsigned)answer.frame);
        if (answer.refusal != BEDSIDE_ACCEPTED)
            continue; /* and the record is as it was */
        previous = answer.frame;
        show("left", bedside_f32_at(record + 4));
        show("top", bedside_f32_at(record + 8));
        show("confidence", bedside_f32_at(record + 20));
    }
}

int main(void)
{
    float_functions();
    filter();
    assignment();
    pairs();
    frames();
    lines();
    return 0;
}
