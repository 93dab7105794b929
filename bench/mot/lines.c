/* Lines of MOTChallenge detection text as box records: bedside_mot_line, and a plain C loop with strtol and strtof that
 * looks at no form and no value, on the same text in memory. Both write the same records, which is checked first. Prints
 * nanoseconds a line: medians of 61 rounds in which both take turns, and the median of the rounds' ratios. */
#include "bedside.h"
#include <stdio.h>
#include <stdlib.h>
#include <time.h>

enum { ROUNDS = 61 };

static char *text;
static size_t length, lines;
static uint8_t *ours, *plain;

static double seconds(void)
{
    struct timespec t;
    clock_gettime(CLOCK_THREAD_CPUTIME_ID, &t);
    return (double)t.tv_sec + 1e-9 * (double)t.tv_nsec;
}

static void read_ours(void)
{
    uint32_t previous = 0;
    size_t at = 0;
    for (size_t k = 0; k < lines; k++) {
        const char *feed = memchr(text + at, '\n', length - at);
        size_t n = (size_t)(feed - (text + at)) + 1;
        bedside_mot_answer a = bedside_mot_line((const uint8_t *)text + at, n, previous,
                                                ours + k * BEDSIDE_BOX_RECORD_BYTES, BEDSIDE_BOX_RECORD_BYTES);
        if (a.refusal) {
            fprintf(stderr, "refused %u line %zu\n", a.refusal, k + 1);
            exit(1);
        }
        previous = a.frame;
        at += n;
    }
}

static void read_plain(void)
{
    char *at = text;
    for (size_t k = 0; k < lines; k++) {
        uint8_t *record = plain + k * BEDSIDE_BOX_RECORD_BYTES;
        uint32_t frame = (uint32_t)strtol(at, &at, 10);
        strtol(at + 1, &at, 10);
        memcpy(record, &frame, 4);
        for (int i = 0; i < 5; i++) {
            float x = strtof(at + 1, &at);
            memcpy(record + 4 + 4 * i, &x, 4);
        }
        record[24] = BEDSIDE_SLEEPER;
        at = (char *)memchr(at, '\n', length) + 1;
    }
}

static int by_size(const void *a, const void *b)
{
    double x = *(const double *)a, y = *(const double *)b;
    return (x > y) - (x < y);
}

static double median(double *x)
{
    qsort(x, ROUNDS, sizeof *x, by_size);
    return x[ROUNDS / 2];
}

int main(int count, char **names)
{
    FILE *file = count == 2 ? fopen(names[1], "rb") : NULL;
    if (!file)
        return 2;
    text = malloc(1 << 26);
    length = fread(text, 1, (1 << 26) - 1, file);
    text[length] = 0;
    for (size_t i = 0; i < length; i++)
        lines += text[i] == '\n';
    ours = calloc(lines, BEDSIDE_BOX_RECORD_BYTES);
    plain = calloc(lines, BEDSIDE_BOX_RECORD_BYTES);
    read_ours();
    read_plain();
    if (memcmp(ours, plain, lines * BEDSIDE_BOX_RECORD_BYTES)) {
        fprintf(stderr, "the records differ\n");
        return 1;
    }
    double a[ROUNDS], b[ROUNDS], r[ROUNDS];
    for (int k = 0; k < ROUNDS; k++) {
        double t0 = seconds();
        read_ours();
        double t1 = seconds();
        read_plain();
        double t2 = seconds();
        a[k] = (t1 - t0) * 1e9 / (double)lines;
        b[k] = (t2 - t1) * 1e9 / (double)lines;
        r[k] = a[k] / b[k];
    }
    printf("%zu lines, %.1f bytes a line: bedside_mot_line %.0f ns, strtof %.0f ns, ratio %.2f\n", lines,
           (double)length / (double)lines, median(a), median(b), median(r));
    return 0;
}
