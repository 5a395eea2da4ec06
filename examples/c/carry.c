/*
 * A plan carried in a file, from C. The office plans x0 + x1 <= b0, x0 <= b1, x1 <= b2 and writes the plan's file; a
 * newer program puts a note in front of it and one behind. The tablet knows the matrix and reads the plan from the
 * file, then solves with the file lent: the same x as without. Then files that are refused: with one bit flipped in a
 * list, with the last byte cut off, and an empty one. Ends with status 0 if the tablet's plan is the office's, both
 * solves agree to the last bit, and each refusal names its question.
 */
#include <stdio.h>
#include <stdlib.h>
#include <string.h>

#include "ipm.h"

enum { M = 3, N = 2, S = 3, T = 4, LIMIT = 100 };

static const uint32_t offsets[M + 1] = {0, 2, 3, 4};
static const uint32_t columns[T] = {0, 1, 0, 1};
static const double values[T] = {1.0, 1.0, 1.0, 1.0};
static const double b[IPM_LANES * M] = {4.0, 5.0, 2.0, 10.0, 3.0, 3.0, 3.0, 1.0, 2.0, 2.0, 2.0, 1.0};
static const double c[IPM_LANES * N] = {2.0, 2.0, 2.0, 2.0, 1.0, 1.0, 1.0, 1.0};
static const double tolerances[3 * IPM_LANES] = {
    1e-8, 1e-8, 1e-8, 1e-8, /* primal, lanes 0 to 3 */
    1e-8, 1e-8, 1e-8, 1e-8, /* dual */
    1e-8, 1e-8, 1e-8, 1e-8, /* optimality */
};

/* What the newer program notes: who planned, and when. */
static const char front[] = "planned in the office";
static const char behind[] = "2026-11-17";

/* Bytes and how many there are. */
struct file {
    uint8_t *bytes;
    size_t len;
};

/* The tablet's memory: W words of index and F numbers of work, and what a solve gives. */
struct tablet {
    uint32_t *index;
    uint64_t index_len;
    double *work;
    uint64_t work_len;
    double x[IPM_LANES * N], prices[IPM_LANES * M];
};

static void put(struct file *file, const void *bytes, size_t len) {
    memcpy(file->bytes + file->len, bytes, len);
    file->len += len;
}

/* A number of so many bytes, the lowest first. */
static void put_number(struct file *file, size_t number, size_t bytes) {
    for (size_t k = 0; k < bytes; k++) file->bytes[file->len++] = (uint8_t)(number >> 8 * k);
}

/* A note: its length, its kind, its body. */
static void put_note(struct file *file, uint16_t kind, const char *text) {
    put_number(file, sizeof kind + strlen(text), sizeof(uint32_t));
    put_number(file, kind, sizeof kind);
    put(file, text, strlen(text));
}

/* The office: plans, writes the file and notes around it. */
static uint64_t office(uint32_t *plan, size_t w, struct file *carried) {
    struct file written = {malloc(ipm_file_bytes(w)), ipm_file_bytes(w)};
    if (!written.bytes) abort();
    uint64_t answer = ipm_write_plan(M, N, offsets, M + 1, columns, T, plan, w, written.bytes, written.len);
    if (ipm_question(answer) == IPM_YES) {
        printf("office: %u bytes written\n", (unsigned)ipm_place(answer));
        put_note(carried, IPM_FIRST_NOTE, front);
        put(carried, written.bytes, ipm_place(answer));
        put_note(carried, IPM_FIRST_NOTE + 1, behind);
        printf("office: %zu bytes with a note in front and one behind\n", carried->len);
    }
    free(written.bytes);
    return answer;
}

static uint64_t read_plan(const uint8_t *file, size_t len, struct tablet *tablet) {
    return ipm_read_plan(M, N, offsets, M + 1, columns, T, file, len, tablet->index, tablet->index_len);
}

static uint64_t solve(size_t filed, const uint8_t *file, size_t len, struct tablet *tablet) {
    return ipm_solve(M, N, S, offsets, M + 1, columns, T, values, T, b, IPM_LANES * M, c, IPM_LANES * N, tolerances,
                     3 * IPM_LANES, LIMIT, IPM_CENTRING, IPM_DAMPING, filed, file, len, tablet->x, IPM_LANES * N,
                     tablet->prices, IPM_LANES * M, tablet->index, tablet->index_len, tablet->work, tablet->work_len);
}

static int is_yes(const char *what, uint64_t answer) {
    printf("tablet: %s: %s, place %u\n", what, ipm_text(answer), (unsigned)ipm_place(answer));
    return ipm_question(answer) == IPM_YES;
}

/* Whether reading and a solve are both refused at the question, with the index memory as it was. */
static int is_refused(const char *what, unsigned question, const uint8_t *file, size_t len, struct tablet *tablet) {
    memset(tablet->index, 0, tablet->index_len * sizeof *tablet->index);
    uint64_t answer = read_plan(file, len, tablet);
    printf("tablet: %s: question %u, %s\n", what, ipm_question(answer), ipm_text(answer));
    int right = ipm_question(answer) == question && solve(1, file, len, tablet) == answer;
    for (size_t k = 0; k < tablet->index_len; k++) right = right && tablet->index[k] == 0;
    return right;
}

/* The tablet: reads the plan, solves with the file and without, and refuses what is not the file. */
static int tablet_is_right(const uint32_t *plan, struct file *carried, struct tablet *tablet) {
    int right = is_yes("the plan is read", read_plan(carried->bytes, carried->len, tablet));
    right = memcmp(plan, tablet->index, tablet->index_len * sizeof *plan) == 0 && right;

    uint64_t with = solve(1, carried->bytes, carried->len, tablet);
    right = is_yes("solved with the file", with) && right;
    double x[IPM_LANES * N];
    memcpy(x, tablet->x, sizeof x);
    right = solve(0, carried->bytes, 0, tablet) == with && memcmp(x, tablet->x, sizeof x) == 0 && right;

    size_t first_number = 2 * IPM_RECORD_HEAD + strlen(front); /* past the note and the first list's head */
    carried->bytes[first_number] ^= 1;
    right = is_refused("one bit flipped", IPM_FILE_LISTS, carried->bytes, carried->len, tablet) && right;
    carried->bytes[first_number] ^= 1;
    right = is_refused("the last byte cut off", IPM_FILE_CUT, carried->bytes, carried->len - 1, tablet) && right;
    return is_refused("an empty file", IPM_FILE_KINDS, carried->bytes, 0, tablet) && right;
}

int main(void) {
    struct tablet tablet = {.index = NULL};
    uint64_t e, s, d;
    uint64_t answer = ipm_sizes(M, N, S, offsets, M + 1, columns, T, &e, &s, &d, &tablet.index_len, &tablet.work_len);
    if (ipm_question(answer) != IPM_YES) return EXIT_FAILURE;
    size_t notes = 2 * IPM_RECORD_HEAD + strlen(front) + strlen(behind);
    struct file carried = {malloc(ipm_file_bytes(tablet.index_len) + notes), 0};
    uint32_t *plan = malloc(tablet.index_len * sizeof *plan);
    tablet.index = malloc(tablet.index_len * sizeof *tablet.index);
    tablet.work = malloc(tablet.work_len * sizeof *tablet.work);
    if (!carried.bytes || !plan || !tablet.index || !tablet.work) return EXIT_FAILURE;

    answer = office(plan, tablet.index_len, &carried);
    int right = ipm_question(answer) == IPM_YES && tablet_is_right(plan, &carried, &tablet);
    free(carried.bytes);
    free(plan);
    free(tablet.index);
    free(tablet.work);
    return right ? EXIT_SUCCESS : EXIT_FAILURE;
}
