/* The library beside its twin in one process: nanoseconds a call, and ours over theirs.
 *
 *     speed [ROUNDS]     15 without it
 *
 * This file is compiled twice, with TWIN for the twin's calls and without for the library's. Both make the same calls from the same
 * generator, in turn; the least processor time of all rounds counts, and the checksums of the answers must be alike. The calls are
 * those of tests/speed, so that the rows compare. */
#define _POSIX_C_SOURCE 200809L
#include <stdio.h>
#include <stdlib.h>
#include <string.h>
#include <time.h>

#include "twin.h"

#define ALL SLATEWHIM_ALL_REGIONS
#define B book, SLATEWHIM_WORDS
#define ACCOUNTS 1000000

enum { SET, OPEN_CLOSE, OVER, QUOTE, BENCHMARK, PUT, TRIAL, SET_UNDO, REBATE, REBATE_ALL, ROWS };

/* Makes that many calls of a row; the checksum of their answers, and the seconds that they took. */
uint64_t library_row(int row, long calls, slatewhim_account *accounts, double *seconds);
uint64_t twin_row(int row, long calls, slatewhim_account *accounts, double *seconds);

static uint32_t book[SLATEWHIM_WORDS];
static uint32_t reference[SLATEWHIM_FIELDS];

/* The generator: 32 bits, of which the upper 16 are drawn from. */
static uint64_t next(uint64_t x) { return (x * 1664525 + 1013904223) % ((uint64_t)1 << 32); }

static uint32_t below(uint64_t x, uint32_t n) { return (uint32_t)(x / 65536 % n); }

static uint64_t fold(uint64_t sum, uint64_t x) { return (sum << 7 | sum >> 57) + x; }

static uint64_t fold_opened(uint64_t sum, const slatewhim_opened *a) {
    if (a->refusal != 11) return fold(sum, a->refusal ? a->refusal : 100 + a->cells);
    sum = fold(fold(fold(sum, a->region), a->method), a->t);
    return fold(fold(fold(sum, a->excess), a->months[0]), a->months[11]);
}

static void must(int holds, const char *what) {
    if (holds) return;
    printf("speed: not as described: %s\n", what);
    exit(1);
}

static double now(void) {
    struct timespec t;
    clock_gettime(CLOCK_PROCESS_CPUTIME_ID, &t);
    return (double)t.tv_sec + 1e-9 * (double)t.tv_nsec;
}

/* ---- what the calls are made of ---- */

/* The reference sheet, with network costs lower by 1,000,000 in the last region. */
static void draw_reference(void) {
    static const uint32_t first[37] = {
        0,       30000000, 0,       36000000, 0,       1000000, 0,       1000000, /* DF0, CM0 */
        1000000, 8000000,  1000000, 8000000,  5000000, 9000000, 5000000, 9000000, /* PC0, OC0 */
        10000,   10000,    20000,   0,        400000,  0,                         /* HAP, PAP, PAAC */
        1000,    100,      100,     100,      100,     100,     100,              /* initial indices */
        1100,    100,      105,     100,      100,     100,     100,              /* current ones */
        500000};                                                                  /* SMNCC */
    int k;
    memcpy(reference, first, sizeof first);
    for (k = 37; k < 93; k++) reference[k] = (k % 2 ? 2000000 : 12000000) - (k < 89 ? 0 : 1000000);
    reference[93] = 3000;
    reference[94] = 4000;
    reference[95] = 580;
}

/* Four tiers, offered everywhere. With no more and a standing charge of 10,000 it is within the cap in all 28 cells, and with 22,000
 * in all but the last. */
static void tiered(uint32_t *v, uint32_t k, uint32_t standing, uint32_t more) {
    const uint32_t first[12] = {1, 4, standing + k, ALL, 3, 18600 + k + more, 18000 + k + more, 18500 + k + more, 17000 + k + more,
                                100 + k, 500 + k, 2000 + k};
    memset(v, 0, SLATEWHIM_RECORD * sizeof *v);
    memcpy(v, first, sizeof first);
}

/* All three kinds, within the cap everywhere if there is no more. */
static void mixed(uint32_t *v, uint32_t k, uint32_t more) {
    if (k % 4 == 0) {
        tiered(v, k, 10000, more);
        return;
    }
    memset(v, 0, SLATEWHIM_RECORD * sizeof *v);
    v[2] = 10000 + k;
    v[3] = ALL;
    v[4] = 3;
    if (k % 4 == 1) {
        v[0] = 1;
        v[1] = 2;
        v[5] = 18600 + k + more;
        v[6] = 18000 + k + more;
        v[9] = 100 + k;
    } else if (k % 4 == 2) {
        v[0] = 2;
        v[1] = 2;
        v[5] = 17000 + k + more;
        v[6] = 12000 + k + more;
    } else {
        v[0] = 3;
        v[1] = 3;
        v[5] = 17000 + k + more;
        v[6] = 11000 + k + more;
        v[7] = 14000 + k + more;
        v[9] = 500;
        v[10] = 300;
        v[11] = 200;
    }
}

static void with_sheet(void) {
    draw_reference();
    must(!slatewhim_fresh(B) && !slatewhim_set(B, ALL, reference, SLATEWHIM_FIELDS, 2023, 10, 12), "a book with the sheet");
}

static void with_drafts(uint32_t standing) {
    uint32_t k, v[SLATEWHIM_RECORD];
    with_sheet();
    for (k = 0; k < 32; k++) {
        tiered(v, k, standing, 0);
        must(!slatewhim_put(B, ALL, k + 1, v, SLATEWHIM_RECORD), "32 drafts");
    }
}

static void with_open(int directed) {
    uint32_t k, v[SLATEWHIM_RECORD];
    with_sheet();
    for (k = 0; k < 32; k++) {
        slatewhim_opened a;
        mixed(v, k, directed ? k / 4 % 2 * 2000 : 0);
        must(!slatewhim_put(B, ALL, k + 1, v, SLATEWHIM_RECORD) && (!directed || !slatewhim_direct(B, ALL, k + 1)), "32 drafts");
        a = slatewhim_open(B, ALL, k + 1);
        must(!a.refusal && a.cells == (directed ? 0 : 28), "32 open tariffs");
    }
}

/* Draws one of the sheet's network costs anew, and its current DFI. */
static uint32_t redraw(uint32_t *sheet, uint64_t *x) {
    uint32_t at, more;
    *x = next(*x);
    at = 37 + below(*x, 56);
    *x = next(*x);
    more = below(*x, 65536);
    sheet[at] = reference[at] + more;
    sheet[29] = 1100 + more % 16;
    return more;
}

static void draw_accounts(slatewhim_account *accounts) {
    uint32_t months[12], k;
    uint64_t x = 1;
    long i;
    for (k = 0; k < 12; k++) months[k] = 1000;
    for (i = 0; i < ACCOUNTS; i++) {
        uint32_t at;
        x = next(x);
        at = below(x, 12);
        accounts[i].code = 1 + below(x, 32);
        accounts[i].region = below(x, 14);
        x = next(x);
        months[at] = below(x, 10001);
        accounts[i].method = below(x, 2);
        accounts[i].count = 12;
        memcpy(accounts[i].months, months, sizeof months);
        accounts[i].rebate = 0;
    }
}

/* ---- the rows ---- */

static uint64_t sets(long n, int undo) {
    uint32_t sheet[SLATEWHIM_FIELDS];
    uint64_t x = 1, sum = 0;
    memcpy(sheet, reference, sizeof sheet);
    while (n-- > 0) {
        uint32_t more = redraw(sheet, &x);
        sum = fold(sum, slatewhim_set(B, ALL, sheet, SLATEWHIM_FIELDS, 2018 + more % 80, 1 + more % 12, 12));
        if (undo) sum = fold(sum, slatewhim_undo(B, ALL));
    }
    return sum;
}

static uint64_t trials(long n) {
    uint32_t sheet[SLATEWHIM_FIELDS];
    uint64_t x = 1, sum = 0;
    memcpy(sheet, reference, sizeof sheet);
    while (n-- > 0) {
        uint32_t more = redraw(sheet, &x);
        slatewhim_falling a = slatewhim_trial(B, ALL, sheet, SLATEWHIM_FIELDS, 2018 + more % 80, 1 + more % 12, 12);
        sum = fold(sum, a.refusal ? a.refusal : 100 + (uint64_t)a.codes);
    }
    return sum;
}

static uint64_t opens(long n, int close) {
    uint64_t x = 1, sum = 0;
    while (n-- > 0) {
        slatewhim_opened a;
        uint32_t code;
        x = next(x);
        code = 1 + below(x, 32);
        a = slatewhim_open(B, ALL, code);
        sum = fold_opened(sum, &a);
        if (close) sum = fold(sum, slatewhim_close(B, ALL, code));
    }
    return sum;
}

static uint64_t quotes(long n) {
    uint32_t months[12], k;
    uint64_t x = 1, sum = 0;
    for (k = 0; k < 12; k++) months[k] = 1000;
    while (n-- > 0) {
        uint32_t at, code, region;
        slatewhim_quotation q;
        x = next(x);
        at = below(x, 12);
        code = 1 + below(x, 32);
        region = below(x, 14);
        x = next(x);
        months[at] = below(x, 10001);
        q = slatewhim_quote(B, ALL, code, region, below(x, 2), months, 12);
        sum = fold(fold(sum, q.refusal ? q.refusal : q.charge), q.maximum);
    }
    return sum;
}

static uint64_t benchmarks(long n) {
    uint64_t x = 1, sum = 0;
    while (n-- > 0) {
        uint32_t v;
        slatewhim_charge c;
        x = next(x);
        v = below(x, 112);
        c = slatewhim_benchmark(B, ALL, v / 8, v / 4 % 2, v / 2 % 2, v % 2);
        sum = fold(sum, c.refusal ? c.refusal : c.mills);
    }
    return sum;
}

static uint64_t puts_of(long n) {
    static uint32_t tariffs[32][SLATEWHIM_RECORD];
    uint64_t x = 1, sum = 0;
    uint32_t k;
    for (k = 0; k < 32; k++) mixed(tariffs[k], k, 0);
    while (n-- > 0) {
        x = next(x);
        sum = fold(sum, slatewhim_put(B, ALL, 1 + below(x, 32), tariffs[below(x, 31)], SLATEWHIM_RECORD));
    }
    return sum;
}

static uint64_t rebates(slatewhim_account *accounts, long n, long in_a_run) {
    uint64_t sum = 0;
    for (; n > 0; n -= in_a_run) {
        slatewhim_run run = slatewhim_rebates(B, ALL, accounts, (size_t)in_a_run);
        sum = fold(fold(fold(sum, run.refusal), run.place), run.total);
    }
    return sum;
}

/* What stands in the book and the accounts afterwards, so far as calls tell it. */
static uint64_t fold_rest(uint64_t sum, const slatewhim_account *accounts) {
    uint32_t k;
    long i;
    for (k = 0; k < 32; k++) {
        slatewhim_charge c = slatewhim_benchmark(B, ALL, k % 14, k % 2, k / 2 % 2, k / 4 % 2);
        sum = fold(fold(sum, slatewhim_close(B, ALL, k + 1)), c.mills);
    }
    for (i = 0; i < ACCOUNTS; i++) sum = fold(sum, accounts[i].rebate);
    return sum;
}

#ifdef TWIN
#define row_of twin_row
#else
#define row_of library_row
#endif

uint64_t row_of(int row, long calls, slatewhim_account *accounts, double *seconds) {
    uint64_t sum;
    double begun;
    switch (row) {
    case OPEN_CLOSE: with_drafts(10000); break;
    case OVER:
    case PUT: with_drafts(22000); break;
    case REBATE:
    case REBATE_ALL:
        with_open(1);
        draw_accounts(accounts);
        break;
    default: with_open(0);
    }
    if (row == OVER) {
        slatewhim_opened a = slatewhim_open(B, ALL, 1);
        must(a.refusal == 11 && a.region == 13 && a.method == 1, "over the cap in the last cell");
    }
    begun = now();
    switch (row) {
    case SET: sum = sets(calls, 0); break;
    case OPEN_CLOSE: sum = opens(calls, 1); break;
    case OVER: sum = opens(calls, 0); break;
    case QUOTE: sum = quotes(calls); break;
    case BENCHMARK: sum = benchmarks(calls); break;
    case PUT: sum = puts_of(calls); break;
    case TRIAL: sum = trials(calls); break;
    case SET_UNDO: sum = sets(calls, 1); break;
    case REBATE: sum = rebates(accounts, calls, 10000); break;
    default: sum = rebates(accounts, calls, ACCOUNTS);
    }
    *seconds = now() - begun;
    return fold_rest(sum, accounts);
}

#ifndef TWIN
static const struct {
    const char *name;
    long calls;
} rows[ROWS] = {
    {"SET, 32 open tariffs", 8000},
    {"OPEN, 28 cells, 4 tiers, and CLOSE", 200000},
    {"OPEN, over the cap in the last cell", 200000},
    {"QUOTE, 12 months", 500000},
    {"BENCHMARK", 5000000},
    {"PUT, over a draft", 1000000},
    {"TRIAL, 32 open tariffs", 8000},
    {"SET and UNDO, 32 open tariffs", 8000},
    {"REBATE, an account, in runs over 10,000", 500000},
    {"REBATE, an account, in one run over 1,000,000", ACCOUNTS},
};

int main(int argc, char **argv) {
    int rounds = argc > 1 ? atoi(argv[1]) : 15, row, round;
    double ours[ROWS], theirs[ROWS];
    slatewhim_account *accounts = calloc(ACCOUNTS, sizeof *accounts);
    if (!accounts) {
        printf("speed: no memory for a million accounts\n");
        return 1;
    }
    for (round = 0; round < rounds; round++)
        for (row = 0; row < ROWS; row++) {
            double our_time, their_time;
            uint64_t our_sum, their_sum;
            if (round % 2) {
                their_sum = twin_row(row, rows[row].calls, accounts, &their_time);
                our_sum = library_row(row, rows[row].calls, accounts, &our_time);
            } else {
                our_sum = library_row(row, rows[row].calls, accounts, &our_time);
                their_sum = twin_row(row, rows[row].calls, accounts, &their_time);
            }
            if (our_sum != their_sum) {
                printf("speed: %s: the answers differ\n", rows[row].name);
                return 1;
            }
            if (!round || our_time < ours[row]) ours[row] = our_time;
            if (!round || their_time < theirs[row]) theirs[row] = their_time;
        }
    printf("| nanoseconds a call | calls | ours | theirs | ratio |\n|---|---|---|---|---|\n");
    for (row = 0; row < ROWS; row++) {
        double calls = (double)rows[row].calls;
        printf("| %s | %ld | %.1f | %.1f | %.2f |\n", rows[row].name, rows[row].calls, 1e9 * ours[row] / calls,
               1e9 * theirs[row] / calls, ours[row] / theirs[row]);
    }
    free(accounts);
    return 0;
}
#endif
