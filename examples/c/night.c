/* A night through bedside_update: reads box records on standard input and prints what the program trackbox prints, a
 * line for each track that a frame emits, and for a stream that cannot go on the refusal and the record that it names.
 * Ends with 0, or 1 where the stream was refused, or 2 where it could not be read or its lines could not be written. */
#include <errno.h>
#include <inttypes.h>
#include <stdio.h>
#include <string.h>

#include "bedside.h"

#define LENGTH(array) (sizeof(array) / sizeof(array)[0])

enum { PLACES = 64, BOXES = 64, MOST_AHEAD = 1000 };

/* The stream's own refusals; those of a frame are the library's. */
enum { RECORD_INCOMPLETE = 41, FRAME_BACK = 42, FRAME_FAR = 43, TOO_MANY_BOXES = 44 };

enum { WHOLE = 0, REFUSED = 1, FAILED = 2 };

/* All that a tracker is: zero at first, but for the settings. */
static bedside_settings settings;
static bedside_state state;
static float floats[BEDSIDE_FLOATS_LEN(PLACES)];
static uint64_t counters[BEDSIDE_COUNTERS_LEN(PLACES)];
static uint8_t labels[BEDSIDE_LABELS_LEN(PLACES)];

/* And what a frame needs. */
static float boxes[BEDSIDE_BOXES_LEN(BOXES)];
static uint8_t box_labels[BEDSIDE_LABELS_LEN(BOXES)];
static uint8_t out[BEDSIDE_OUT_LEN(PLACES)];
static double work64[BEDSIDE_WORK64_LEN(PLACES)];
static float work32[BEDSIDE_WORK32_LEN(PLACES)];

/* The stream between two records. The open frame has records and is not worked yet. */
static uint32_t open_frame;   /* 0 before the first record */
static uint64_t first_record; /* of the open frame */
static size_t open_boxes;
static uint64_t records; /* so far: the number of the last one */

/* False where the line cannot be written. */
static bool print_track(const uint8_t *record)
{
    if (printf("%" PRIu32 " %" PRIu64, bedside_u32_at(record), bedside_u64_at(record + 4)) < 0)
        return false;
    /* left, top, width, height, confidence; the label is not printed */
    for (size_t at = 12; at < 32; at += 4)
        if (printf(" %08" PRIx32, bedside_u32_at(record + at)) < 0)
            return false;
    return putchar('\n') != EOF;
}

static int failed(const char *stream)
{
    fprintf(stderr, "night: standard %s: %s\n", stream, strerror(errno));
    return FAILED;
}

static int refuse(uint32_t number, uint64_t record)
{
    if (printf("refused %" PRIu32 " record %" PRIu64 "\n", number, record) < 0)
        return failed("output");
    return REFUSED;
}

/* The next frame, of the first n boxes; where it is refused it names this record. Of the work slices it is lent what
 * it needs, as every lent cell of them is cleared. */
static int work_frame(size_t n, uint64_t record)
{
    bedside_update_answer answer =
        bedside_update(settings, state, floats, LENGTH(floats), counters, LENGTH(counters), labels, LENGTH(labels),
                       boxes, bedside_boxes_len(n), box_labels, n, out, LENGTH(out), work64,
                       bedside_work64_len(state.count, n), work32, bedside_work32_len(state.count, n));
    if (answer.refusal != BEDSIDE_ACCEPTED)
        return refuse(answer.refusal, record);
    state = answer.state;
    for (size_t k = 0; k < answer.emitted; k++)
        if (!print_track(out + BEDSIDE_TRACK_RECORD_BYTES * k))
            return failed("output");
    return WHOLE;
}

static int work_open_frame(void)
{
    return open_frame == 0 ? WHOLE : work_frame(open_boxes, first_record);
}

/* The open frame, then one without boxes for each number that no record has. The frame count is the number of the
 * last frame worked, so the next one to work is that of `frame` at the end. */
static int work_frames_before(uint32_t frame)
{
    int end = work_open_frame();
    while (end == WHOLE && state.frame_count + 1 < frame)
        end = work_frame(0, records);
    return end;
}

/* Why the record behind those taken cannot go on the stream; 0 where it can. */
static uint32_t refusal_of(uint32_t frame)
{
    if (frame == 0 || frame < open_frame)
        return FRAME_BACK;
    if (frame - open_frame > MOST_AHEAD)
        return FRAME_FAR;
    if (frame == open_frame && open_boxes == BOXES)
        return TOO_MANY_BOXES;
    return 0;
}

static void hold_box(const uint8_t *record)
{
    float *box = boxes + BEDSIDE_BOX_FLOATS * open_boxes;
    for (size_t k = 0; k < BEDSIDE_BOX_FLOATS; k++)
        box[k] = bedside_f32_at(record + 4 + 4 * k);
    box_labels[open_boxes] = record[24];
    open_boxes++;
}

static int take_record(const uint8_t *record)
{
    uint32_t frame = bedside_u32_at(record);
    uint32_t refusal = refusal_of(frame);
    records++;
    if (refusal != 0)
        return refuse(refusal, records);
    if (open_frame < frame) {
        int end = work_frames_before(frame);
        if (end != WHOLE)
            return end;
        open_frame = frame;
        first_record = records;
        open_boxes = 0;
    }
    hold_box(record);
    return WHOLE;
}

/* The input has ended, with so many bytes behind the last whole record. */
static int take_end(size_t rest)
{
    if (ferror(stdin))
        return failed("input");
    if (rest != 0)
        return refuse(RECORD_INCOMPLETE, records + 1);
    return work_open_frame();
}

static int night(void)
{
    uint8_t record[BEDSIDE_BOX_RECORD_BYTES];
    size_t got;
    while ((got = fread(record, 1, sizeof record, stdin)) == sizeof record) {
        int end = take_record(record);
        if (end != WHOLE)
            return end;
    }
    return take_end(got);
}

int main(void)
{
    settings = bedside_settings_new(0.6f, 0.3f, 30, 3);
    int end = night();
    if (end != FAILED && fflush(stdout) != 0)
        return failed("output");
    return end;
}
