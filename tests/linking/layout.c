/* The structs of slatewhim.h as the library has them (C's own layout on x86-64), and every function with results that docs/REFERENCE.md
 * and document 01 name. Prints one line; what differs is told, and the status is 1. */
#include <stdio.h>
#include <stdlib.h>
#include <string.h>

#include "slatewhim.h"

#define AT(s, field, place) typedef char s##_##field##_at[offsetof(s, field) == (place) ? 1 : -1]
#define SIZE(s, size) typedef char s##_size[sizeof(s) == (size) ? 1 : -1]

AT(slatewhim_opened, refusal, 0);
AT(slatewhim_opened, cells, 4);
AT(slatewhim_opened, region, 8);
AT(slatewhim_opened, method, 12);
AT(slatewhim_opened, excess, 16);
AT(slatewhim_opened, t, 24);
AT(slatewhim_opened, months, 28);
SIZE(slatewhim_opened, 80);
AT(slatewhim_falling, refusal, 0);
AT(slatewhim_falling, codes, 4);
SIZE(slatewhim_falling, 8);
AT(slatewhim_charge, refusal, 0);
AT(slatewhim_charge, mills, 4);
SIZE(slatewhim_charge, 8);
AT(slatewhim_fraction, refusal, 0);
AT(slatewhim_fraction, number, 8);
AT(slatewhim_fraction, denominator, 16);
SIZE(slatewhim_fraction, 24);
AT(slatewhim_quotation, refusal, 0);
AT(slatewhim_quotation, charge, 8);
AT(slatewhim_quotation, maximum, 16);
SIZE(slatewhim_quotation, 24);
AT(slatewhim_account, code, 0);
AT(slatewhim_account, region, 4);
AT(slatewhim_account, method, 8);
AT(slatewhim_account, count, 12);
AT(slatewhim_account, months, 16);
AT(slatewhim_account, rebate, 64);
SIZE(slatewhim_account, 72);
AT(slatewhim_run, refusal, 0);
AT(slatewhim_run, place, 8);
AT(slatewhim_run, total, 16);
SIZE(slatewhim_run, 24);

#define ALL SLATEWHIM_ALL_REGIONS
#define B book, SLATEWHIM_WORDS

static uint32_t book[SLATEWHIM_WORDS], sheet[SLATEWHIM_FIELDS];
static int results, wrong;

#define IS(expression, value) is(#expression, (uint64_t)(expression), (uint64_t)(value))

static void is(const char *what, uint64_t found, uint64_t expected) {
    results++;
    if (found == expected) return;
    wrong++;
    printf("layout: %s is %llu and not %llu\n", what, (unsigned long long)found, (unsigned long long)expected);
}

/* The reference sheet of document 01, all regions alike. */
static void reference_sheet(void) {
    static const uint32_t first[37] = {
        0,       30000000, 0,       36000000, 0,       1000000, 0,       1000000, /* DF0, CM0 */
        1000000, 8000000,  1000000, 8000000,  5000000, 9000000, 5000000, 9000000, /* PC0, OC0 */
        10000,   10000,    20000,   0,        400000,  0,                         /* HAP, PAP, PAAC */
        1000,    100,      100,     100,      100,     100,     100,              /* initial indices */
        1100,    100,      105,     100,      100,     100,     100,              /* current ones */
        500000};                                                                  /* SMNCC */
    int k;
    memcpy(sheet, first, sizeof first);
    for (k = 37; k < 93; k++) sheet[k] = k % 2 ? 2000000 : 12000000;
    sheet[93] = 3000;
    sheet[94] = 4000;
    sheet[95] = 580;
}

/* Puts a tariff that is offered everywhere; the first 13 numbers but the regions and methods. */
static uint32_t put(uint32_t code, uint32_t kind, uint32_t n, uint32_t standing, uint32_t rate0, uint32_t rate1, uint32_t step) {
    uint32_t tariff[SLATEWHIM_RECORD] = {0};
    tariff[0] = kind;
    tariff[1] = n;
    tariff[2] = standing;
    tariff[3] = ALL;
    tariff[4] = 3;
    tariff[5] = rate0;
    tariff[6] = rate1;
    tariff[9] = step;
    return slatewhim_put(B, ALL, code, tariff, SLATEWHIM_RECORD);
}

static void over(slatewhim_opened a, uint64_t excess, uint32_t kwh) {
    uint32_t i;
    IS(a.refusal, 11);
    IS(a.cells, 0);
    IS(a.region, 0);
    IS(a.method, 1);
    IS(a.excess, excess);
    IS(a.t, 3);
    for (i = 0; i < 12; i++) IS(a.months[i], i < 3 ? kwh : 0);
}

static void accepted(slatewhim_opened a, uint32_t cells) {
    uint32_t i;
    IS(a.refusal, 0);
    IS(a.cells, cells);
    IS(a.region + a.method + a.t, 0);
    IS(a.excess, 0);
    for (i = 0; i < 12; i++) IS(a.months[i], 0);
}

static void refused(slatewhim_opened a, uint32_t refusal) {
    IS(a.refusal, refusal);
    a.refusal = 0;
    accepted(a, 0);
}

static void sheet_and_tariffs(void) {
    const uint32_t months[3] = {100, 100, 100}, lumped[3] = {300, 0, 0};
    slatewhim_charge c;
    slatewhim_fraction f;
    slatewhim_quotation q;
    slatewhim_falling fall;

    IS(slatewhim_check(B), SLATEWHIM_NO_BOOK); /* zeros */
    IS(slatewhim_fresh(book, SLATEWHIM_WORDS - 1), SLATEWHIM_NO_BOOK);
    IS(slatewhim_fresh(B), 0);
    IS(slatewhim_check(B), 0);
    IS(slatewhim_check(book, SLATEWHIM_WORDS - 1), SLATEWHIM_NO_BOOK);

    IS(put(1, 1, 1, 23000, 18000, 0, 0), 0);
    refused(slatewhim_open(B, ALL, 1), 10);
    IS(slatewhim_set(B, ALL, sheet, SLATEWHIM_FIELDS - 1, 2023, 10, 3), 1);
    IS(slatewhim_set(B, 1, sheet, SLATEWHIM_FIELDS, 2023, 10, 3), 17);
    IS(slatewhim_set(B, ALL, sheet, SLATEWHIM_FIELDS, 2023, 13, 3), 3);
    IS(slatewhim_set(B, ALL, sheet, SLATEWHIM_FIELDS, 2023, 10, 3), 0);

    c = slatewhim_benchmark(B, ALL, 0, 0, 1, 0);
    IS(c.refusal, 0);
    IS(c.mills, 8817500);
    IS(slatewhim_benchmark(B, ALL, 0, 0, 1, 1).mills, 64469500);
    IS(slatewhim_benchmark(B, ALL, 0, 0, 0, 0).mills, 9418050);
    IS(slatewhim_benchmark(B, ALL, 0, 0, 0, 1).mills, 66183090);
    IS(slatewhim_benchmark(B, ALL, 13, 1, 1, 1).mills, 71135500);
    IS(slatewhim_benchmark(B, 128, 7, 0, 1, 0).mills, 8817500);
    c = slatewhim_benchmark(B, 128, 0, 0, 1, 0);
    IS(c.refusal, 17);
    IS(c.mills, 0);
    IS(slatewhim_benchmark(B, ALL, 14, 0, 1, 0).refusal, 13);

    f = slatewhim_maximum(B, ALL, 0, 0, 1, 300);
    IS(f.refusal, 0);
    IS(f.number, 279704700000);
    IS(f.denominator, 36000);
    f = slatewhim_maximum(B, ALL, 0, 0, 1, 120001);
    IS(f.refusal, 13);
    IS(f.number + f.denominator, 0);

    accepted(slatewhim_open(B, ALL, 1), 28);
    refused(slatewhim_open(B, ALL, 1), 7);
    refused(slatewhim_open(B, ALL, 33), 6);
    refused(slatewhim_open(B, ALL, 32), 9);
    IS(put(0, 1, 1, 23000, 18000, 0, 0), 6);
    IS(put(1, 1, 1, 23000, 18000, 0, 0), 7);
    IS(put(2, 1, 1, 23000, 18000, 1, 0), 8);
    IS(put(5, 1, 1, 23961, 18000, 0, 0), 0);
    over(slatewhim_open(B, ALL, 5), 1332000000, 0);
    over(slatewhim_ask(B, ALL, 5), 1332000000, 0);
    IS(put(5, 1, 1, 23960, 18000, 0, 0), 0);
    accepted(slatewhim_open(B, ALL, 5), 28);
    IS(put(2, 1, 2, 20000, 20000, 15000, 100), 0);
    over(slatewhim_open(B, ALL, 2), 2535300000000, 100);
    q = slatewhim_quote(B, ALL, 2, 0, 1, months, 3);
    IS(q.refusal, 0);
    IS(q.charge, 282240000000000);
    IS(q.maximum, 279704700000000);
    IS(slatewhim_quote(B, ALL, 2, 0, 1, lumped, 3).charge, 246240000000000);
    q = slatewhim_quote(B, ALL, 2, 0, 1, months, 2);
    IS(q.refusal, 13);
    IS(q.charge + q.maximum, 0);
    IS(put(3, 2, 2, 23000, 18000, 12250, 0), 0);
    over(slatewhim_open(B, ALL, 3), 3678000000000, 10000);
    IS(put(6, 1, 2, 0, 165509, 0, 5), 0);
    accepted(slatewhim_open(B, ALL, 6), 28);
    IS(put(7, 1, 2, 0, 165510, 0, 5), 0);
    over(slatewhim_open(B, ALL, 7), 540000000, 5);
    IS(put(2, 1, 2, 19234, 20000, 15000, 100), 0);
    accepted(slatewhim_open(B, ALL, 2), 28);

    IS(slatewhim_close(B, ALL, 6), 0);
    IS(slatewhim_close(B, ALL, 6), 12);
    IS(slatewhim_drop(B, ALL, 6), 0);
    IS(slatewhim_drop(B, ALL, 6), 9);
    IS(slatewhim_drop(B, ALL, 5), 7);

    /* open are now 1, 2 and 5: for October alone those at the edge would fall, 2 and 5, and with a saving in place of a cost all */
    fall = slatewhim_trial(B, ALL, sheet, SLATEWHIM_FIELDS, 2023, 10, 1);
    IS(fall.refusal, 0);
    IS(fall.codes, 18);
    sheet[36] = 4294467296u;
    IS(slatewhim_trial(B, ALL, sheet, SLATEWHIM_FIELDS, 2023, 10, 3).codes, 19);
    sheet[36] = 4289717295u;
    fall = slatewhim_trial(B, ALL, sheet, SLATEWHIM_FIELDS, 2023, 10, 3);
    IS(fall.refusal, 14);
    IS(fall.codes, 0);

    /* the sheet of January comes too early, and is taken back */
    sheet[36] = 400000;
    IS(slatewhim_set(B, ALL, sheet, SLATEWHIM_FIELDS, 2024, 1, 3), 0);
    over(slatewhim_open(B, ALL, 5), 44460000000, 0);
    IS(slatewhim_benchmark(B, ALL, 0, 0, 1, 0).mills, 8716500);
    IS(slatewhim_undo(B, 16382), 17);
    IS(slatewhim_undo(B, ALL), 0);
    refused(slatewhim_open(B, ALL, 5), 7);
    IS(slatewhim_benchmark(B, ALL, 0, 0, 1, 0).mills, 8817500);
    IS(slatewhim_undo(B, ALL), 15);

    /* by two people */
    IS(put(8, 1, 1, 23960, 18000, 0, 0), 0);
    refused(slatewhim_confirm(B, ALL, 8), 16);
    accepted(slatewhim_ask(B, ALL, 8), 28);
    IS(slatewhim_close(B, ALL, 8), 12);
    refused(slatewhim_confirm(B, 129, 8), 17);
    accepted(slatewhim_confirm(B, ALL, 8), 28);
    IS(slatewhim_close(B, ALL, 8), 0);
}

/* A month's share that is greatest on a stretch: the smallest consumption is told. */
static void flat_stretches(void) {
    uint32_t tariff[SLATEWHIM_RECORD] = {3, 2, 24000, ALL, 2, 15579, 15580, 0, 0, 500, 500};
    uint32_t k;
    /* Economy 7, Other: (71,135,500 - 8,817,500) / 4,000 is 15,579.5 mills per kWh. 24,000 for 92 days are 2,208,000, and 3,625 above
     * 8,817,500 x 3 / 12 */
    IS(slatewhim_set(B, ALL, sheet, SLATEWHIM_FIELDS, 2023, 10, 3), 0);
    IS(slatewhim_put(B, ALL, 10, tariff, SLATEWHIM_RECORD), 0);
    over(slatewhim_open(B, ALL, 10), 3625 * (uint64_t)48000000, 0);
    /* single-rate, Other, with 2,000 less of network cost at m: 55,650,000 / 3,000 is 18,550 */
    for (k = 38; k < 93; k += 4) sheet[k] = 11998000;
    IS(slatewhim_set(B, ALL, sheet, SLATEWHIM_FIELDS, 2023, 10, 3), 0);
    memset(tariff, 0, sizeof tariff);
    tariff[0] = 1;
    tariff[1] = 2;
    tariff[2] = 24000;
    tariff[3] = ALL;
    tariff[4] = 2;
    tariff[5] = 18550;
    tariff[6] = 10000;
    tariff[9] = 100;
    IS(slatewhim_put(B, ALL, 10, tariff, SLATEWHIM_RECORD), 0);
    over(slatewhim_open(B, ALL, 10), 3625 * (uint64_t)36000000, 0);
    /* 20,000 to 100 kWh, 18,550 to 200, then 10,000: 1,840,000 + 6,000,000 against 2,204,375 + 5,565,000 */
    tariff[1] = 3;
    tariff[2] = 20000;
    tariff[5] = 20000;
    tariff[6] = 18550;
    tariff[7] = 10000;
    tariff[10] = 200;
    IS(slatewhim_put(B, ALL, 10, tariff, SLATEWHIM_RECORD), 0);
    over(slatewhim_open(B, ALL, 10), 70625 * (uint64_t)36000000, 100);
    IS(slatewhim_drop(B, ALL, 10), 0);
}

static void directions_and_rebates(void) {
    static const slatewhim_account monthly = {8, 0, 1, 3, {100, 100, 100, 4294967295u, 0, 0, 0, 0, 0, 0, 0, 7}, 5};
    const size_t most = 1000000;
    slatewhim_account two[2], *many;
    slatewhim_run run;
    size_t i, owed;

    IS(slatewhim_set(B, ALL, sheet, SLATEWHIM_FIELDS, 2023, 10, 3), 0);
    IS(put(8, 1, 2, 20000, 20000, 15000, 100), 0);
    IS(slatewhim_direct(B, 16382, 8), 17);
    IS(slatewhim_direct(B, ALL, 9), 9);
    two[0] = monthly;
    two[1] = monthly;
    two[1].months[0] = 300;
    two[1].months[1] = 0;
    two[1].months[2] = 0;
    IS(slatewhim_rebates(B, ALL, two, 2).refusal, 18);
    IS(slatewhim_direct(B, ALL, 8), 0);
    accepted(slatewhim_open(B, ALL, 8), 0);
    IS(slatewhim_direct(B, ALL, 8), 7);

    /* 100 kWh in each month are owed 70,425 mills, the same 300 in one month nothing (document 02, M-108) */
    run = slatewhim_rebates(B, ALL, two, 2);
    IS(run.refusal, 0);
    IS(run.place, 0);
    IS(run.total, 70425);
    IS(two[0].rebate, 70425);
    IS(two[1].rebate, 0);
    IS(two[0].months[3], 4294967295u);
    IS(two[0].months[11], 7);
    IS(two[0].count, 3);
    two[1].count = 2;
    two[1].rebate = 6;
    run = slatewhim_rebates(B, ALL, two, 2);
    IS(run.refusal, 19);
    IS(run.place, 1);
    IS(run.total, 0);
    IS(two[1].rebate, 6);
    run = slatewhim_rebates(B, 0, two, 0);
    IS(run.refusal, 0);
    IS(run.total, 0);

    /* a rebate of a third of a mill is one mill */
    IS(put(9, 1, 1, 23960, 18606, 0, 0), 0);
    IS(slatewhim_direct(B, ALL, 9), 0);
    accepted(slatewhim_open(B, ALL, 9), 0);
    two[0] = monthly;
    two[0].code = 9;
    two[0].months[0] = 1;
    two[0].months[1] = 0;
    two[0].months[2] = 0;
    two[1] = two[0];
    IS(slatewhim_rebates(B, ALL, two, 2).total, 2);

    /* a million accounts, and one more */
    many = malloc((most + 1) * sizeof *many);
    if (!many) {
        printf("layout: no memory for a million accounts\n");
        exit(1);
    }
    for (i = 0; i <= most; i++) many[i] = monthly;
    run = slatewhim_rebates(B, ALL, many, most + 1);
    IS(run.refusal, 19);
    IS(run.place, most);
    for (i = 0, owed = 0; i <= most; i++) owed += many[i].rebate == 5;
    IS(owed, most + 1);
    run = slatewhim_rebates(B, ALL, many, most);
    IS(run.refusal, 0);
    IS(run.total, 70425000000);
    for (i = 0, owed = 0; i < most; i++) owed += many[i].rebate == 70425;
    IS(owed, most);
    IS(many[most].rebate, 5);
    many[most - 1].code = 1; /* open without a direction */
    many[3].region = 14;
    IS(slatewhim_rebates(B, ALL, many, most).place, 3);
    many[3].region = 0;
    run = slatewhim_rebates(B, ALL, many, most);
    IS(run.refusal, 18);
    IS(run.place, most - 1);
    free(many);
}

int main(void) {
    reference_sheet();
    sheet_and_tariffs();
    reference_sheet();
    flat_stretches();
    reference_sheet();
    directions_and_rebates();
    IS(slatewhim_check(B), 0);
    printf("layout: 7 structs as in the header; %d results, %d wrong\n", results, wrong);
    return wrong != 0;
}
