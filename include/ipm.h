/*
 * A four-lane interior-point solver for linear programs that share one matrix. Lane l solves
 *
 *     maximise c.x   where   A x + w = b,   x >= 0,   w >= 0 in the first s rows and absent in the others,
 *
 * with its own b, c and tolerances. All four lanes share A, which is m rows by n columns in compressed rows.
 *
 * Link libipm_c.a, written by `rt lib` in crates/ipm_c to its out/. No function allocates, keeps state, blocks or
 * fails otherwise than by its answer, so calls may run in several threads, each on memory of its own.
 *
 * Pointers: none is NULL, even where the length after it is 0; each is aligned to its element; the parts must not
 * overlap. A length counts elements, not bytes. Parts without `const` are written as said below, the others only read.
 *
 * Lanes: in b, c, output and prices lane l of entry k is at 4 * k + l. An entry of b or prices is a row, an entry of c
 * or output is a column.
 */
#ifndef IPM_H
#define IPM_H

#include <stddef.h>
#include <stdint.h>

#ifdef __cplusplus
extern "C" {
#endif

/* The limits of one call. */
enum { IPM_LANES = 4, IPM_ROWS_MOST = 256, IPM_COLUMNS_MOST = 1024, IPM_ENTRIES_MOST = 16384, IPM_TESTS_MOST = 10000 };

/* A plan's file: its lists, a record each, the bytes of a record before its body, and the first kind of a note. */
enum { IPM_PLAN_LISTS = 16, IPM_RECORD_HEAD = 6, IPM_FIRST_NOTE = 0x8000 };

/* The centring and damping of ipm-simd, the Rust that this follows: with these a solve has its bits. */
#define IPM_CENTRING 0.1
#define IPM_DAMPING 0.9995

/*
 * An answer is length * 2^48 + question * 2^40 + place * 2^8 + lane. Question 0 is a yes; its place is W (ipm_sizes,
 * ipm_plan, ipm_read_plan), the bytes written (ipm_write_plan) or the test at which all lanes were done, counted from 1
 * (ipm_solve). Any other question is the first that had a no; 14 to 16 are asked after 5. Length is 4 m, the numbers
 * written to `prices`, after a yes of ipm_solve. Length, place and lane are 0 where nothing is said of them.
 */
enum {
    IPM_YES = 0,
    IPM_ROWS = 1,         /* m is not from 1 to 256 */
    IPM_COLUMNS = 2,      /* n is not from 1 to 1,024 */
    IPM_LISTS = 3,        /* offsets, columns or values do not fit together, or t is above 16,384 */
    IPM_EMPTY_ROW = 4,    /* a row has no entry; place: the first such row */
    IPM_COLUMN_ORDER = 5, /* a row's columns do not rise strictly or reach n; place: the first such row */
    IPM_INDEX = 6,        /* the index memory has fewer than W words */
    IPM_SLACK_ROWS = 7,   /* s is above m */
    IPM_LENGTHS = 8,      /* b, c, tolerances, output or prices is not exactly as long as stated; in ipm_write_plan the
                             file has fewer than 4 W + 96 bytes */
    IPM_WORK = 9,         /* the working memory has fewer than F numbers */
    IPM_LIMIT = 10,       /* the limit is not from 1 to 10,000 */
    IPM_SPOILT = 11,      /* a lane met a NaN; place: the test, lane: the lowest such lane */
    IPM_NOT_DONE = 12,    /* not all lanes were done at any test up to the limit; place: the limit */
    IPM_FRACTIONS = 13,   /* centring or damping is not above 0 and below 1; asked after 10 */
    IPM_FILE_CUT = 14,    /* a record of the file is cut short or shorter than its kind, or a list's body is not whole
                             numbers of 4 bytes */
    IPM_FILE_KINDS = 15,  /* a kind in the file is neither the next list nor a note, or a list is missing at the end */
    IPM_FILE_LISTS = 16   /* a list of the file is not this matrix's */
};

static inline size_t ipm_length(uint64_t answer) { return (size_t)(answer >> 48); }
static inline unsigned ipm_question(uint64_t answer) { return (unsigned)(answer >> 40 & 0xff); }
static inline uint32_t ipm_place(uint64_t answer) { return (uint32_t)(answer >> 8); }
static inline unsigned ipm_lane(uint64_t answer) { return (unsigned)(answer & 0xff); }

/*
 * Says how much memory a matrix needs, without a plan: asks questions 1 to 5 in order, then 7. After six yeses it
 * writes E, S, D, W and F (see 'Memory' below) and answers W as the place. A no leaves all five as they were. It is
 * lent no memory, so this call also serves to ask about a matrix.
 */
uint64_t ipm_sizes(
    size_t m,                                    /* rows, 1 to 256 */
    size_t n,                                    /* columns, 1 to 1,024 */
    size_t s,                                    /* rows 0 to s - 1 are <= b, the others = b; at most m */
    const uint32_t *offsets, size_t offsets_len, /* m + 1: row i's entries are offsets[i] .. offsets[i + 1] - 1 */
    const uint32_t *columns, size_t columns_len, /* t, at most 16,384: each entry's column, rising in each row */
    uint64_t *e,                                 /* E: entries of the factor */
    uint64_t *s_count,                           /* S: pairs of entries that share a column */
    uint64_t *d,                                 /* D: products that the factor's entries take off */
    uint64_t *w,                                 /* W: words of index memory */
    uint64_t *f);                                /* F: numbers of working memory */

/*
 * The costliest pattern of m rows, one column shared by all: asks question 1 and, after a yes, writes its E and D. No
 * matrix of m rows has more of either. A no leaves both as they were.
 */
uint64_t ipm_costliest(
    size_t m,     /* rows, 1 to 256 */
    uint64_t *e,  /* E: m (m + 1) / 2 */
    uint64_t *d); /* D: (m - 1) m (m + 1) / 6 */

/*
 * Plans the factor of a matrix: asks questions 1 to 6 in order and, after six yeses, writes the plan to the first W
 * words of `index`, leaves the rest and answers W as the place. A no changes nothing.
 *
 * ipm_solve plans for itself, so this call serves to look at the lists.
 */
uint64_t ipm_plan(
    size_t m,                                    /* rows, 1 to 256 */
    size_t n,                                    /* columns, 1 to 1,024 */
    const uint32_t *offsets, size_t offsets_len, /* m + 1: row i's entries are offsets[i] .. offsets[i + 1] - 1 */
    const uint32_t *columns, size_t columns_len, /* t, at most 16,384: each entry's column, rising in each row */
    uint32_t *index, size_t index_len);          /* at least W words; see ipm_sizes */

/*
 * A plan's file. It carries a plan to another machine, also to one with another release of this library. It is records,
 * one after the other, all numbers little-endian:
 *
 *     length   4 bytes   the bytes after these four: 2 and those of the body
 *     kind     2 bytes   1 to 16: that list of the plan; 8000 to ffff hexadecimal: a note
 *     body               of a list its numbers, 4 bytes each; of a note anything
 *
 * The sixteen lists stand in order, each once. Notes may stand anywhere around them, first and last too, and are
 * skipped by their length; ipm_write_plan writes none. Each of these is asked of the whole file before the next:
 *
 *     14   a record is cut short (fewer than 4 bytes are left where one begins, or fewer than its length says), is
 *          shorter than its kind (a length under 2), or is of kind 1 to 16 and its body no multiple of 4 bytes
 *     15   a kind is neither the next list nor a note, or a list is missing at the end; so an empty file is a no at 15
 *     16   a list is not this matrix's
 *
 * Bytes after the last record are taken as a record too: a caller lends exactly the bytes that were written.
 */

/* The bytes of the file of a plan of w words, when it has no notes: 4 w + 96. */
static inline size_t ipm_file_bytes(size_t w) { return sizeof(uint32_t) * w + IPM_PLAN_LISTS * IPM_RECORD_HEAD; }

/*
 * Plans the factor of a matrix, as ipm_plan does, and writes the plan's file: asks questions 1 to 6 in order, then 8.
 * After these yeses the first W words of `index` are the plan and the first 4 W + 96 bytes of `file` its file, the rest
 * of both is as before, and the place is 4 W + 96. A no changes nothing, neither `index` nor `file`.
 */
uint64_t ipm_write_plan(
    size_t m,                                    /* rows, 1 to 256 */
    size_t n,                                    /* columns, 1 to 1,024 */
    const uint32_t *offsets, size_t offsets_len, /* m + 1: row i's entries are offsets[i] .. offsets[i + 1] - 1 */
    const uint32_t *columns, size_t columns_len, /* t, at most 16,384: each entry's column, rising in each row */
    uint32_t *index, size_t index_len,           /* at least W words; see ipm_sizes */
    uint8_t *file, size_t file_len);             /* at least 4 W + 96 bytes; see ipm_file_bytes */

/*
 * Reads a plan from its file: asks questions 1 to 5 in order, then 14 to 16, then 6. After these yeses the first W
 * words of `index` are the plan, as ipm_plan leaves it, the rest is as before, and the place is W. A no changes
 * nothing: the file is judged before a word is written.
 */
uint64_t ipm_read_plan(
    size_t m,                                    /* rows, 1 to 256 */
    size_t n,                                    /* columns, 1 to 1,024 */
    const uint32_t *offsets, size_t offsets_len, /* m + 1: row i's entries are offsets[i] .. offsets[i + 1] - 1 */
    const uint32_t *columns, size_t columns_len, /* t, at most 16,384: each entry's column, rising in each row */
    const uint8_t *file, size_t file_len,        /* exactly the bytes that were written, and the notes among them */
    uint32_t *index, size_t index_len);          /* at least W words; see ipm_sizes */

/*
 * Solves the four lanes: asks questions 1 to 5 in order, then 14 to 16 if a file is lent, then 6 to 10 and 13, then 11
 * and 12 test by test. A no at any but 11 and 12 changes nothing. After 11, 12 or a yes the first W words of `index`
 * hold the plan, the first F numbers of `work` are +0.0, and the rest of both is as before. After a yes `output` holds
 * x and `prices` holds y. After any no, 11 and 12 too, both are as before.
 *
 * A file is lent if `filed` is not 0; an empty one is a file too. Past 16 the answer and all that is written are those
 * of the solve without a file. If `filed` is 0, no byte of the file is looked at.
 *
 * A step aims at one product, mu, of each x with its reduced cost and of each w with its y. mu is centring times the
 * mean of these products: near 1 a step stays central, near 0 it goes straight for the optimum. Damping is the part of
 * the way to the nearest bound that a step goes; it never goes beyond its full length.
 *
 * y of row i is the row's shadow price: how much more c.x the lane could have for one more unit of that row's b, while
 * the same rows bind and to the tolerances. In the first s rows it is not negative at the optimum.
 */
uint64_t ipm_solve(
    size_t m,                                    /* rows, 1 to 256 */
    size_t n,                                    /* columns, 1 to 1,024 */
    size_t s,                                    /* rows 0 to s - 1 are <= b, the others = b; at most m */
    const uint32_t *offsets, size_t offsets_len, /* m + 1: row i's entries are offsets[i] .. offsets[i + 1] - 1 */
    const uint32_t *columns, size_t columns_len, /* t, at most 16,384: each entry's column, rising in each row */
    const double *values, size_t values_len,     /* t: each entry's value; 0.0 counts as an entry */
    const double *b, size_t b_len,               /* 4 m: right sides, lane l of row i at 4 i + l */
    const double *c, size_t c_len,               /* 4 n: objective, lane l of column e at 4 e + l */
    const double *tolerances, size_t tolerances_len, /* 12: four primal, four dual, four optimality */
    size_t limit,                                /* tests to make at most, 1 to 10,000 */
    double centring,                             /* above 0 and below 1, for all lanes; IPM_CENTRING */
    double damping,                              /* above 0 and below 1, for all lanes; IPM_DAMPING */
    size_t filed,                                /* 0: no file is lent; anything else: one is */
    const uint8_t *file, size_t file_len,        /* the file of this matrix's plan, exactly the bytes written */
    double *output, size_t output_len,           /* 4 n: x, lane l of column e at 4 e + l */
    double *prices, size_t prices_len,           /* 4 m: y, lane l of row i at 4 i + l */
    uint32_t *index, size_t index_len,           /* at least W words; see ipm_sizes */
    double *work, size_t work_len);              /* at least F numbers; see ipm_sizes */

/* The bits of the IEEE 754 square root of the binary64 number with these bits; NaN and below zero: 7FF8000000000000. */
uint64_t ipm_root_bits(uint64_t bits);

/*
 * Memory. With E entries of the factor, S pairs of entries that share a column (each entry with itself, too) and D
 * products,
 *
 *     W = 5 E + 3 S + 2 D + 3 m + n + 2 t + 5     and     F = 4 (5 n + 3 m + 2 s + E).
 *
 * E, S and D depend on where the entries stand and not on their values.
 *
 * A matrix at hand: ipm_sizes gives its W and F. With just W words of `index` and F numbers of `work` a solve passes
 * questions 6 and 9; with one less of either it does not.
 *
 * Before its entries are known: E and D are at most those of ipm_costliest, and S is at most t (m + 1) / 2, since r
 * rows that hold one column make r (r + 1) / 2 pairs and r is at most m. The formulas above with these three give
 * enough for any matrix of m rows, n columns and at most t entries: ipm_index_enough and ipm_work_enough. A sparse
 * matrix needs far less.
 *
 * Sizes beyond the limits give 0: such a call is refused before memory is asked about.
 */
static inline int ipm_size_right(size_t m, size_t n, size_t t) {
    return m <= IPM_ROWS_MOST && n <= IPM_COLUMNS_MOST && t <= IPM_ENTRIES_MOST;
}

/* W with these three, at most 12,107,397 words. */
static inline size_t ipm_index_enough(size_t m, size_t n, size_t t) {
    if (!ipm_size_right(m, n, t)) return 0;
    size_t stored = m * (m + 1) / 2;                 /* E of ipm_costliest */
    size_t shared = t * (m + 1) / 2;                 /* S, as though every column were full */
    size_t products = stored * (m + 2) / 3 - stored; /* D of ipm_costliest */
    return 5 * stored + 3 * shared + 2 * products + 3 * m + n + 2 * t + 5;
}

/* F with this E, at most 157,184 numbers. */
static inline size_t ipm_work_enough(size_t m, size_t n, size_t s) {
    if (!ipm_size_right(m, n, 0) || s > m) return 0;
    return IPM_LANES * (5 * n + 3 * m + 2 * s + m * (m + 1) / 2);
}

/* What a question asks, as an engineer would say the no to it. */
static inline const char *ipm_text(uint64_t answer) {
    static const char *const texts[] = {
        "yes",
        "the number of rows is not from 1 to 256",
        "the number of columns is not from 1 to 1,024",
        "offsets, columns and values do not fit together, or there are more than 16,384 entries",
        "a row has no entry",
        "a row's columns do not rise strictly or reach the number of columns",
        "the index memory is too small",
        "there are more slack rows than rows",
        "b, c, tolerances, output or prices has the wrong length, or the file has too few bytes",
        "the working memory is too small",
        "the limit is not from 1 to 10,000",
        "a lane met a NaN",
        "not all lanes were done within the limit",
        "centring or damping is not above 0 and below 1",
        "a record of the file is cut short, is shorter than its kind, or ends within a number",
        "the file's records are not the sixteen lists in order",
        "a list of the file is not this matrix's",
    };
    unsigned question = ipm_question(answer);
    return question <= IPM_FILE_LISTS ? texts[question] : "no such answer";
}

#ifdef __cplusplus
}
#endif

#endif
