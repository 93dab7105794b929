/* bedside.h: the proved tracker, for a recorder's firmware in C, C++ or Rust.
 *
 * Link libbedside.a: `make install` puts both in place, and `pkg-config --cflags --libs bedside` names them. What a
 * call returns is what the definition that its contract in crates/bedside cites gives, bit for bit; only the sign and
 * the payload of a NaN are left open. CHANGELOG.md says what each version changed for callers.
 *
 * ---- What the library does not do ----
 * It allocates nothing, keeps nothing between calls and has no data of its own: 49 kB of code, no variables. Every call
 * is reentrant, from any thread, and two trackers are two tables. No call fails but by its refusal number, overflows,
 * runs forever, or touches memory that it was not lent. Of other code it calls memset alone.
 *
 * ---- What a caller guarantees ----
 * - x86-64 Linux, with its calling convention. The code needs no more than SSE2, and links into programs and shared
 *   objects at any address.
 * - The floating-point environment that a process starts with: rounding to the nearest, nothing flushed to zero,
 *   exceptions masked. A program that is linked with -ffast-math has flush to zero and denormals-are-zero set at its
 *   start, whatever its objects were compiled with: a box of the width 1e-40, which is above 0, is then refused with
 *   16. After fesetround(FE_UPWARD) the last bits of results differ. A call leaves rounding and flushing as they are,
 *   and may raise exception flags.
 * - A pointer comes with the number of its elements, its _len, or points to as many as its type says. That number is
 *   true; the pointer is aligned for its type, and may be anything, NULL too, where the number is 0.
 * - Slices that are lent together do not overlap.
 * - A bool is 0 or 1.
 * - Table and state go on from frame to frame as the last call left them. A call accepts whatever is sound (11), but
 *   only then do tracks go on, and no id is given twice.
 * - Stack, below the caller's frame: 38 KiB for bedside_update, 37 KiB for bedside_why,
 *   at most 17 KiB for every other call; measured, as the 49 kB above.
 *
 * ---- Refusals ----
 * A call that is turned down says the number why, and 0 where it is accepted (enum bedside_refusal below). It changes
 * no lent memory, and every other field of its answer is 0 unless the field's comment says otherwise.
 *
 * ---- Memory to lend to bedside_update, in bytes ----
 *
 *   a table of places     16       32        64       128         255    for p places
 *   floats             1,536    3,072     6,144    12,288      24,480    96 p
 *   counters             512    1,024     2,048     4,096       8,160    32 p
 *   labels                16       32        64       128         255    p
 *   boxes                320      640     1,280     2,560       5,100    20 p
 *   box_labels            16       32        64       128         255    p
 *   out                  528    1,056     2,112     4,224       8,415    33 p
 *   work64             2,048    8,192    32,768   131,072     520,200    8 p p
 *   work32             4,096   16,384    65,536   262,144   1,040,400    16 p p
 *   together           9,072   30,432   110,016   416,640   1,607,265
 *
 * Held tracks and boxes of a frame together fit into the places, so p boxes are the most, and p is the most that the
 * work needs as its side. n people in view all the time are n held tracks and n boxes: 2 n places. The floats, the
 * counters, the labels and the state are the tracker and stay; the others are needed during a call, and may be shared
 * by several trackers that take turns. Work slices that are lent are cleared whole: a frame that is lent no more than
 * the functions bedside_.._len say for its tracks and boxes is the fastest.
 *
 * Matrices are flat, row by row, a row for each box and a cell for each track.
 */
#ifndef BEDSIDE_H
#define BEDSIDE_H

#include <stdbool.h>
#include <stddef.h>
#include <stdint.h>
#include <string.h>

#ifdef __cplusplus
extern "C" {
#endif

/* ---- version ---- */
#define BEDSIDE_VERSION_MAJOR 3
#define BEDSIDE_VERSION_MINOR 3
#define BEDSIDE_VERSION_PATCH 0
#define BEDSIDE_VERSION (BEDSIDE_VERSION_MAJOR * 10000 + BEDSIDE_VERSION_MINOR * 100 + BEDSIDE_VERSION_PATCH)
#define BEDSIDE_VERSION_STRING "3.3.0"

/* ---- sizes ---- */
#define BEDSIDE_PLACE_FLOATS 24       /* a place of the table */
#define BEDSIDE_PLACE_COUNTERS 4
#define BEDSIDE_BOX_FLOATS 5          /* a box of a frame: left, top, width, height, score */
#define BEDSIDE_CORNER_FLOATS 4       /* a box or a track of the pairs: x1, y1, x2, y2 */
#define BEDSIDE_BOX_RECORD_BYTES 25   /* a record that trackbox reads: frame, a box, its label */
#define BEDSIDE_TRACK_RECORD_BYTES 33 /* a record of out */

/* ---- labels: a byte for each box, and for each place of the table ---- */
#define BEDSIDE_SLEEPER 1
#define BEDSIDE_PARTNER 2
#define BEDSIDE_STAFF 3

/* ---- limits ---- */
#define BEDSIDE_MOST_PLACES 255         /* of a table; what is lent beyond them is not used */
#define BEDSIDE_MOST_TRACKS 255         /* of a call of the pairs */
#define BEDSIDE_MOST_BOXES 255          /* of a frame or a call of the pairs */
#define BEDSIDE_MOST_SIDE 255           /* of an assignment */
#define BEDSIDE_MOST_LENGTH 65536       /* left, top, width and height, in magnitude */
#define BEDSIDE_MOST_FRAMES 2147483647  /* a table that has worked so many takes no further one */

/* Lengths for arrays of a fixed size, enough for every frame of a table of so many places. */
#define BEDSIDE_FLOATS_LEN(places) ((places) * BEDSIDE_PLACE_FLOATS)
#define BEDSIDE_COUNTERS_LEN(places) ((places) * BEDSIDE_PLACE_COUNTERS)
#define BEDSIDE_LABELS_LEN(places) (places)
#define BEDSIDE_BOXES_LEN(boxes) ((boxes) * BEDSIDE_BOX_FLOATS)
#define BEDSIDE_OUT_LEN(places) ((places) * BEDSIDE_TRACK_RECORD_BYTES)
#define BEDSIDE_WORK64_LEN(places) ((places) * (places))
#define BEDSIDE_WORK32_LEN(places) (4 * (places) * (places))

/* ---- refusals ---- */
enum bedside_refusal {
    BEDSIDE_ACCEPTED = 0,
    /* a frame; a correction by itself has 12 alone */
    BEDSIDE_TRACK_NOT_LABELLED = 10,
    BEDSIDE_TABLE_NOT_SOUND = 11,
    BEDSIDE_TRACK_NOT_WORKABLE = 12,
    BEDSIDE_SETTING_NOT_FINITE = 13,
    BEDSIDE_TOO_MANY_BOXES = 14,
    BEDSIDE_TABLE_FULL = 15,
    BEDSIDE_BAD_BOX = 16,
    BEDSIDE_TOO_MANY_FRAMES = 17,
    BEDSIDE_OUTPUT_SHORT = 18,
    BEDSIDE_WORK_SHORT = 19,
    BEDSIDE_BOX_NOT_LABELLED = 20,
    /* the assignment */
    BEDSIDE_NO_SIDE = 21,
    BEDSIDE_SIDE_ABOVE_255 = 22,
    BEDSIDE_WRONG_SIZE = 23,
    /* the pairs */
    BEDSIDE_TOO_MANY = 31,
    BEDSIDE_OTHER_SIZE = 32,
    BEDSIDE_TOO_SHORT = 33,
    BEDSIDE_NOT_LABELLED = 34,
    /* a line of text */
    BEDSIDE_LINE_NOT_OF_THE_FORM = 51,
    BEDSIDE_LINE_BAD_VALUE = 52,
    BEDSIDE_LINE_NO_ROOM = 53,
    /* why a box has no track: besides those of a frame */
    BEDSIDE_NO_BOX = 81,
    /* dropping tracks, besides 10 and 11 */
    BEDSIDE_ID_TWICE = 101,
    BEDSIDE_ID_NOT_HELD = 102
};

/* The number in words, for a log. */
static inline const char *bedside_refusal_text(uint32_t refusal)
{
    switch (refusal) {
    case BEDSIDE_ACCEPTED: return "accepted";
    case BEDSIDE_TRACK_NOT_LABELLED: return "a track has a label other than 1 to 3";
    case BEDSIDE_TABLE_NOT_SOUND: return "the table is not sound";
    case BEDSIDE_TRACK_NOT_WORKABLE: return "a track cannot be predicted and corrected";
    case BEDSIDE_SETTING_NOT_FINITE: return "a float setting is not finite";
    case BEDSIDE_TOO_MANY_BOXES: return "more than 255 boxes";
    case BEDSIDE_TABLE_FULL: return "held tracks and boxes exceed the places of the table";
    case BEDSIDE_BAD_BOX: return "a box has a value outside its limits";
    case BEDSIDE_TOO_MANY_FRAMES: return "the frame count has reached its limit";
    case BEDSIDE_OUTPUT_SHORT: return "out is shorter than held tracks and boxes need";
    case BEDSIDE_WORK_SHORT: return "a work slice is too short";
    case BEDSIDE_BOX_NOT_LABELLED: return "a box has a label other than 1 to 3";
    case BEDSIDE_NO_SIDE: return "the side is 0";
    case BEDSIDE_SIDE_ABOVE_255: return "the side is above 255";
    case BEDSIDE_WRONG_SIZE: return "a slice is not as long as the side says";
    case BEDSIDE_TOO_MANY: return "more than 255 boxes or tracks";
    case BEDSIDE_OTHER_SIZE: return "an input is not as long as the sides say";
    case BEDSIDE_TOO_SHORT: return "a result or work slice is too short";
    case BEDSIDE_NOT_LABELLED: return "a label is other than 1 to 3";
    case BEDSIDE_LINE_NOT_OF_THE_FORM: return "the line is not of the form";
    case BEDSIDE_LINE_BAD_VALUE: return "a value of the line is outside its limits";
    case BEDSIDE_LINE_NO_ROOM: return "out has no room for the record";
    case BEDSIDE_NO_BOX: return "the frame has no box of this index";
    case BEDSIDE_ID_TWICE: return "an id stands twice in the list";
    case BEDSIDE_ID_NOT_HELD: return "an id is not that of a held track";
    default: return "no refusal of this library";
    }
}

/* ---- float functions: accept everything ---- */
float bedside_max(float a, float b);    /* where one is a NaN, the other; on equality, the first */
float bedside_min(float a, float b);
float bedside_sqrt(float x);            /* to the nearest, ties to even; a NaN below zero */
float bedside_powi(float c, int32_t e); /* c to the power e */
float bedside_powf_1_5(float m);        /* m * bedside_sqrt(m) */
float bedside_exp(float a);             /* e to the power a */

/* ---- filter: predict and the conversions accept everything; correct alone may refuse, with 12, where
 * a + r is not positive and finite; r is the noise: 1 for x and y, 10 for h, 0.01 for r ---- */
typedef struct {
    float p, v, a, b, c, d; /* position, speed, covariances (rows: a b, c d) */
} bedside_pair;

typedef struct {
    uint32_t refusal;
    bedside_pair pair; /* where refused, the one given */
} bedside_corrected;

bedside_pair bedside_pair_new(float z);
bedside_pair bedside_pair_predict(bedside_pair pair);
bedside_corrected bedside_pair_correct(bedside_pair pair, float z, float r);
void bedside_convert_bbox_to_z(const float bbox[4], float z[4]); /* x1, y1, x2, y2 to x, y, h, r */
void bedside_convert_z_to_bbox(const float z[4], float bbox[4]);
/* coef to the power 7 - age for an age below 7, else to the power time_since_update - 1 */
float bedside_confidence(uint64_t age, uint64_t time_since_update, float coef);

/* ---- assignment: 21 side 0, 22 side above 255, 23 cost_len not n * n, or x_len or y_len not n ----
 * x[i] is the column of row i, y[j] the row of column j. */
typedef struct {
    uint32_t refusal;
    uint64_t turns; /* row turns: at most 2 n (n - 1) */
    uint64_t scans; /* column scans: at most n (n - 1) / 2 */
} bedside_lapjv_answer;

bedside_lapjv_answer bedside_lapjv(size_t n, const double *cost, size_t cost_len, size_t *x, size_t x_len,
                                   size_t *y, size_t y_len);

/* ---- overlap of a box and a track, each by its corners x1, y1, x2, y2: accepts everything ----
 * The areas are given as they come, 0, below 0, an infinity or a NaN. Both may be the same four floats. */
typedef struct {
    float intersection; /* what is divided in a cell of bedside_iou_batch */
    float union_area;   /* what it is divided by, also where that is not above 0 and nothing is divided */
    float ratio;        /* the cell: 0 unless the union is above 0 */
} bedside_overlap_areas;

bedside_overlap_areas bedside_overlap(const float detection[4], const float track[4]);

/* ---- pairs: 31 more than 255 boxes or tracks, 32 an input of another length than the sides say, 33 a
 * result or work slice too short; of associate 34 a label other than 1 to 3; the lowest that applies is said ----
 * detections are the boxes' corners and corners the tracks', 4 floats each: x1, y1, x2, y2. A matrix has
 * boxes * tracks cells. Results may be longer than they have to be: what is not needed of them is left as it
 * was. Work slices have at least n * n doubles, and for associate 4 * n * n floats, n the larger side even
 * where the other is 0 (bedside_work64_len, bedside_work32_len); after an accepted call every lent cell of
 * them is 0. Zero boxes or zero tracks is accepted. */
uint32_t bedside_iou_batch(size_t boxes, size_t tracks, const float *detections, size_t detections_len,
                           const float *corners, size_t corners_len, float *out, size_t out_len);
uint32_t bedside_soft_biou_batch(size_t boxes, size_t tracks, const float *detections, size_t detections_len,
                                 const float *corners, size_t corners_len, const float *track_confidences,
                                 size_t track_confidences_len, float *out, size_t out_len);
uint32_t bedside_shape_similarity_v1(size_t boxes, size_t tracks, const float *detections, size_t detections_len,
                                     const float *corners, size_t corners_len, float *out, size_t out_len);
uint32_t bedside_shape_similarity_v2(size_t boxes, size_t tracks, const float *detections, size_t detections_len,
                                     const float *corners, size_t corners_len, float *out, size_t out_len);
uint32_t bedside_mh_dist_similarity(size_t boxes, size_t tracks, const float *distance, size_t distance_len,
                                    float softmax_temp, float *out, size_t out_len);

typedef struct {
    uint32_t refusal;
    uint64_t pairs; /* pair k is pair_boxes[k] and pair_tracks[k], boxes ascending */
    uint64_t turns; /* lapjv's, both 0 on the direct path */
    uint64_t scans;
} bedside_matched;

/* The two halves of the pairs have at least the smaller side's length. */
bedside_matched bedside_match_detections(size_t boxes, size_t tracks, const float *cost, size_t cost_len,
                                         float threshold, size_t *pair_boxes, size_t pair_boxes_len,
                                         size_t *pair_tracks, size_t pair_tracks_len, double *work,
                                         size_t work_len);

typedef struct {
    uint32_t refusal;
    uint64_t pairs;
    uint64_t unmatched_detections;
    uint64_t unmatched_tracks;
    uint64_t turns;
    uint64_t scans;
} bedside_assignment;

/* The pairs whose IoU is at least the threshold. An unmatched list has at least as many places as there are
 * boxes or tracks: ascending, then those of the rejected pairs in pair order. */
bedside_assignment bedside_linear_assignment(size_t boxes, size_t tracks, const float *iou, size_t iou_len,
                                             const float *cost, size_t cost_len, float threshold,
                                             size_t *pair_boxes, size_t pair_boxes_len, size_t *pair_tracks,
                                             size_t pair_tracks_len, size_t *unmatched_detections,
                                             size_t unmatched_detections_len, size_t *unmatched_tracks,
                                             size_t unmatched_tracks_len, double *work, size_t work_len);

typedef struct {
    float iou_threshold;
    float lambda_iou;
    float lambda_mhd;
    float lambda_shape;
    bool use_shape_similarity_correction;
    bool has_mahalanobis; /* where false, the slice's length and cells are not looked at */
    bool has_confidence;  /* both confidences together, in the same way */
} bedside_associate_params;

/* The labels: one for each box and one for each track, looked at also where the other side is 0. Where the labels
 * of a box and a track differ, their IoU and their cost are taken as 0, and they are no pair at any threshold: where
 * the assignment or the direct path proposes it, it is among the rejected pairs. */
bedside_assignment bedside_associate(bedside_associate_params params, size_t boxes, size_t tracks,
                                     const float *detections, size_t detections_len, const float *corners,
                                     size_t corners_len, const float *mahalanobis, size_t mahalanobis_len,
                                     const float *track_confidence, size_t track_confidence_len,
                                     const float *detection_confidence, size_t detection_confidence_len,
                                     const uint8_t *detection_labels, size_t detection_labels_len,
                                     const uint8_t *track_labels, size_t track_labels_len,
                                     size_t *pair_boxes, size_t pair_boxes_len, size_t *pair_tracks,
                                     size_t pair_tracks_len, size_t *unmatched_detections,
                                     size_t unmatched_detections_len, size_t *unmatched_tracks,
                                     size_t unmatched_tracks_len, double *work64, size_t work64_len,
                                     float *work32, size_t work32_len);

/* ---- a frame: 11 table not sound, 10 a held track's label other than 1 to 3, 12 a track that cannot be corrected,
 * 13 a float setting not finite, 14 more than 255 boxes, 15 table full, 16 a bad box, 20 a box's label other than
 * 1 to 3, 17 frame count 2147483647 or more, 18 out too short, 19 a work slice too short; the first that applies, in
 * this order, is said ---- */
typedef struct {
    float det_thresh;
    float iou_threshold;
    float lambda_iou;
    float lambda_mhd;
    float lambda_shape;
    float dlo_boost_coef;
    uint64_t max_age;
    uint64_t min_hits;
    bool use_dlo_boost;
    bool use_duo_boost;
    bool use_rich_similarity;
    bool use_shape_similarity_correction;
    bool use_soft_boost;
    bool use_varying_threshold;
    bool cap_confidence; /* a confidence above 1 is written to out as 1; all else is the same as without it */
} bedside_settings;

/* The Rust's new: lambdas 0.5, 0.25 and 0.25, dlo_boost_coef 0.65; both boosts and the shape similarity
 * correction on, the other three off. Its with_ options are these fields. cap_confidence, which the Rust does not
 * have, is off. */
bedside_settings bedside_settings_new(float det_thresh, float iou_threshold, uint64_t max_age, uint64_t min_hits);

/* What stands beside the lent table, all 0 before the first frame. */
typedef struct {
    uint64_t count; /* held tracks: the first places of the table */
    uint64_t last_id;
    uint64_t frame_count;
} bedside_state;

typedef struct {
    uint32_t refusal;
    uint64_t index;      /* with 16 and 20: the lowest box concerned; 0 otherwise */
    bedside_state state; /* the new one; where refused, the one given */
    uint64_t emitted;    /* track records written to out */
    uint64_t turns;      /* lapjv's, both 0 where it was not called */
    uint64_t scans;
} bedside_update_answer;

/* The table: 24 floats, 4 counters and a label for each place, as many places as the three slices allow, at most 255;
 * cells past them are never written. A place's floats are p, v, a, b, c, d for each of x, y, h, r in turn; its
 * counters are id, time since update, streak, age. Places beyond count may hold anything on entry, and are 0
 * after an accepted frame. Held tracks and boxes together need as many places, and as many records of out.
 * A track has the label of the box that started it, and keeps it: where a box's label is another, DLO similarity,
 * IoU and cost of the two are taken as 0, and they are not paired.
 * boxes: 5 floats each, left, top, width, height, score: all finite, the first four at most 65536 in
 * magnitude, width and height above 0, score 0 to 1.
 * box_labels: a byte a box. A box without one is as one with label 0; bytes past the boxes are not looked at.
 * out: 33 bytes a record (bedside_track_at reads them); what is not needed of it is left as it was. A rest of
 * fewer than 5 floats or 33 bytes is not looked at.
 * Work slices have at least n * n doubles and 4 * n * n floats, n the larger of held tracks and boxes; after
 * an accepted frame every lent cell of them is 0. */
bedside_update_answer bedside_update(bedside_settings settings, bedside_state state, float *floats,
                                     size_t floats_len, uint64_t *counters, size_t counters_len, uint8_t *labels,
                                     size_t labels_len, const float *boxes, size_t boxes_len,
                                     const uint8_t *box_labels, size_t box_labels_len, uint8_t *out, size_t out_len,
                                     double *work64, size_t work64_len, float *work32, size_t work32_len);

/* ---- why a box has no track: the frame's refusals in their order, then 81 where box is not below the number of boxes
 * ---- */
enum bedside_fate {
    BEDSIDE_MATCHED = 1,         /* to a held track */
    BEDSIDE_STARTED = 2,         /* as a new track; it was in no pair */
    BEDSIDE_UNDER_THRESHOLD = 3, /* its score after both boosts is below det_thresh: the frame drops it */
    BEDSIDE_REJECTED = 4         /* as a pair, for its IoU or its label, and started as a new track */
};

typedef struct {
    uint32_t refusal;
    uint64_t index;     /* with 16 and 20: the lowest box concerned; 0 otherwise */
    uint32_t fate;      /* enum bedside_fate */
    uint64_t id;        /* of the track matched (1) or started (2, 4); 0 with 3 */
    float score;        /* as given */
    float score_dlo;    /* after the DLO boost */
    float score_duo;    /* after the DUO boost: what is held to det_thresh */
    uint64_t paired_id; /* the track that it was paired with (1, 4); else 0, and so are the next three */
    float iou;          /* of the two, as the frame compares them: of the predicted track; 0 under unequal labels */
    float intersection; /* the areas are as computed */
    float union_area;
} bedside_explanation;

/* What bedside_update with the same arguments would do with the box of this index. It is lent what a frame is; table
 * and out are not written, and out is not read: only its length counts, for 18. After an accepted call every lent cell
 * of the work slices is 0. A scorer's question is asked with the table as it was before the frame. */
bedside_explanation bedside_why(bedside_settings settings, bedside_state state, const float *floats,
                                size_t floats_len, const uint64_t *counters, size_t counters_len,
                                const uint8_t *labels, size_t labels_len, const float *boxes, size_t boxes_len,
                                const uint8_t *box_labels, size_t box_labels_len, const uint8_t *out,
                                size_t out_len, double *work64, size_t work64_len, float *work32,
                                size_t work32_len, size_t box);

/* ---- dropping tracks, one or a set of them: 11 and 10 of a frame, also where there is no id; 101 an id twice in the
 * list; 102 an id that is not held; the first that applies, in this order, is said ----
 * A set is dropped whole or not at all. An empty set changes nothing. Otherwise the remaining tracks move up in their
 * order, with their labels, and the places beyond the new count become 0; last_id and frame_count are unchanged, so no
 * id is given again. An accepted call leaves what calls for one id after the other leave, in any order. The ids are
 * those in the records of out, and the first counter of each place of the table.
 * A list may have any length and is only read. One of more than state.count ids is always turned away; to know whether
 * with 101 or 102 takes up to ids_len * (ids_len - 1) / 2 comparisons. A caller whose lists come from elsewhere
 * therefore compares ids_len with state.count first: that turns away no list that would be accepted. */
typedef struct {
    uint32_t refusal;
    bedside_state state; /* the new one; where refused, the one given */
} bedside_forgotten;

bedside_forgotten bedside_forget(bedside_state state, float *floats, size_t floats_len, uint64_t *counters,
                                 size_t counters_len, uint8_t *labels, size_t labels_len, uint64_t id);
bedside_forgotten bedside_forget_set(bedside_state state, float *floats, size_t floats_len, uint64_t *counters,
                                     size_t counters_len, uint8_t *labels, size_t labels_len, const uint64_t *ids,
                                     size_t ids_len);

/* ---- a line of MOTChallenge detection text: 51 a line that is not of the form, 52 a value of it that a frame turns
 * down with 16 or trackbox with 42 or 43, 53 out shorter than a record; the lowest that applies is said ----
 * A line ends with its line feed, and has ten fields with a comma between two: frame, id, left, top, width, height,
 * confidence and three coordinates; id and coordinates are -1. A frame is one to six digits; a number is an optional
 * minus, one to six digits, and optionally a point with one to six digits. No line of the form is longer than 94 bytes.
 * The record is written to the front of out, as trackbox reads it, with label 1: each number is the nearest float, ties
 * to even, and a minus before zero gives minus zero. What is not needed of out is left as it was. */
typedef struct {
    uint32_t refusal;
    uint32_t frame; /* of the record: the previous one of the next line; 0 where refused */
} bedside_mot_answer;

/* previous is 0 before the first line. A frame is 1 or more, not below previous, and at most 1000 above it. */
bedside_mot_answer bedside_mot_line(const uint8_t *line, size_t line_len, uint32_t previous, uint8_t *out,
                                    size_t out_len);

/* ---- lengths to lend: for a table of so many places, and for a frame of so many held tracks (state.count) and
 * boxes. The work of the pairs has the same lengths. ---- */
static inline size_t bedside_floats_len(size_t places)
{
    return BEDSIDE_FLOATS_LEN(places);
}

static inline size_t bedside_counters_len(size_t places)
{
    return BEDSIDE_COUNTERS_LEN(places);
}

/* of the table's labels for so many places, and of the boxes' for so many boxes */
static inline size_t bedside_labels_len(size_t places)
{
    return BEDSIDE_LABELS_LEN(places);
}

static inline size_t bedside_boxes_len(size_t boxes)
{
    return BEDSIDE_BOXES_LEN(boxes);
}

static inline size_t bedside_out_len(size_t tracks, size_t boxes)
{
    return BEDSIDE_OUT_LEN(tracks + boxes);
}

static inline size_t bedside_work64_len(size_t tracks, size_t boxes)
{
    return tracks < boxes ? BEDSIDE_WORK64_LEN(boxes) : BEDSIDE_WORK64_LEN(tracks);
}

static inline size_t bedside_work32_len(size_t tracks, size_t boxes)
{
    return 4 * bedside_work64_len(tracks, boxes);
}

/* ---- the records of out: little-endian, frame count (4 bytes), id (8), five floats, label (1) ---- */
typedef struct {
    uint32_t frame;
    uint64_t id;
    float left;
    float top;
    float width;
    float height;
    float confidence; /* no NaN; from age 7 on 0.9 to the power -1, which is above 1, or with cap_confidence 1 */
    uint8_t label;
} bedside_track;

static inline uint32_t bedside_u32_at(const uint8_t *bytes)
{
    uint32_t number = bytes[3];
    number = number << 8 | bytes[2];
    number = number << 8 | bytes[1];
    return number << 8 | bytes[0];
}

static inline uint64_t bedside_u64_at(const uint8_t *bytes)
{
    uint64_t high = bedside_u32_at(bytes + 4);
    return high << 32 | bedside_u32_at(bytes);
}

static inline float bedside_f32_at(const uint8_t *bytes)
{
    uint32_t bits = bedside_u32_at(bytes);
    float value;
    memcpy(&value, &bits, sizeof value);
    return value;
}

/* Record k, counted from 0, of the answer's `emitted` ones. */
static inline bedside_track bedside_track_at(const uint8_t *out, size_t k)
{
    const uint8_t *record = out + BEDSIDE_TRACK_RECORD_BYTES * k;
    bedside_track track;
    track.frame = bedside_u32_at(record);
    track.id = bedside_u64_at(record + 4);
    track.left = bedside_f32_at(record + 12);
    track.top = bedside_f32_at(record + 16);
    track.width = bedside_f32_at(record + 20);
    track.height = bedside_f32_at(record + 24);
    track.confidence = bedside_f32_at(record + 28);
    track.label = record[32];
    return track;
}

#ifdef __cplusplus
}
#endif
#endif
