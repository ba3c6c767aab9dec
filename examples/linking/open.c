/* The reference sheet of document 01 and its tariffs, from C: a sheet, drafts, openings, a direction and a rebate run.
 *
 *     cc -I../../target/library/include open.c ../../target/library/lib/libslatewhim.a -o open && ./open
 *
 * What it prints is in open.out. Charges are in mills, a thousandth of a penny. */
#include <stdio.h>
#include <string.h>

#include <slatewhim.h>

/* The book: words that we own. A static array will do; so will memory from malloc, or a part of a struct of yours. */
static uint32_t book[SLATEWHIM_WORDS];

/* The sheet: 96 numbers, in the order of docs/REFERENCE.md. Here all regions are alike. */
static uint32_t sheet[SLATEWHIM_FIELDS] = {
    0,       30000000, 0,       36000000, /* DF0: single-rate at nil and at m, Economy 7 at nil and at m */
    0,       1000000,  0,       1000000,  /* CM0 */
    1000000, 8000000,  1000000, 8000000,  /* PC0 */
    5000000, 9000000,  5000000, 9000000,  /* OC0 */
    10000,   10000,                       /* HAP, ppm */
    20000,   0,                           /* PAP, ppm: Standard Credit, Other */
    400000,  0,                           /* PAAC */
    1000,    100,      100,               /* initial DFI, CMI, CPIH */
    100,     100,      100,     100,      /* initial PI */
    1100,    100,      105,               /* current DFI, CMI, CPIH */
    100,     100,      100,     100,      /* current PI */
    500000,                               /* SMNCC; a saving is below zero, as in (uint32_t)-500000 */
                                          /* 37 to 92: the network costs, see main */
};

static void print_months(const slatewhim_opened *a) {
    uint32_t i;
    for (i = 0; i < a->t; i++) printf(" %lu", (unsigned long)a->months[i]);
}

/* Puts a tariff that is offered in all regions and by both methods, opens it, and says what came of it. */
static void put_and_open(uint32_t code, const char *words, uint32_t kind, uint32_t n, uint32_t standing, uint32_t first,
                         uint32_t second, uint32_t step) {
    uint32_t tariff[SLATEWHIM_RECORD] = {0}, refusal;
    slatewhim_opened answer;
    tariff[0] = kind;
    tariff[1] = n;
    tariff[2] = standing;
    tariff[3] = SLATEWHIM_ALL_REGIONS;
    tariff[4] = 3;
    tariff[5] = first;
    tariff[6] = second;
    tariff[9] = step;

    printf("Code %lu, %s: ", (unsigned long)code, words);
    refusal = slatewhim_put(book, SLATEWHIM_WORDS, SLATEWHIM_ALL_REGIONS, code, tariff, SLATEWHIM_RECORD);
    if (refusal) {
        /* the book is as it was; docs/REFERENCE.md says what each number means */
        printf("not put, refusal %lu.\n", (unsigned long)refusal);
        return;
    }
    answer = slatewhim_open(book, SLATEWHIM_WORDS, SLATEWHIM_ALL_REGIONS, code);
    if (answer.refusal == 0)
        printf("open in %lu cells.\n", (unsigned long)answer.cells);
    else if (answer.refusal == 11) {
        /* the excess is in mills times 12,000 x m, where m is field 93 for kind 1 and field 94 for the others */
        uint64_t scale = 12000 * (uint64_t)sheet[kind == 1 ? 93 : 94];
        printf("over the cap in region %lu by method %lu, by %llu mills at", (unsigned long)answer.region,
               (unsigned long)answer.method, (unsigned long long)((answer.excess + scale - 1) / scale));
        print_months(&answer);
        printf(" kWh.\n");
    } else
        printf("not opened, refusal %lu.\n", (unsigned long)answer.refusal);
}

static void print_benchmark(const char *words, uint32_t arrangement, uint32_t method, uint32_t level) {
    slatewhim_charge c = slatewhim_benchmark(book, SLATEWHIM_WORDS, SLATEWHIM_ALL_REGIONS, 0, arrangement, method, level);
    if (c.refusal)
        printf("%s: refusal %lu.\n", words, (unsigned long)c.refusal);
    else
        printf("%s: %lu mills.\n", words, (unsigned long)c.mills);
}

int main(void) {
    const uint32_t all = SLATEWHIM_ALL_REGIONS; /* a desk with all fourteen regions */
    slatewhim_account accounts[2];
    slatewhim_falling falling;
    slatewhim_opened opened;
    slatewhim_run run;
    uint32_t k;

    for (k = 37; k < 93; k++) sheet[k] = k % 2 ? 2000000 : 12000000; /* NC: at nil, at m */
    sheet[93] = 3000;                                                /* m, single-rate */
    sheet[94] = 4000;                                                /* m, Economy 7 */
    sheet[95] = 580;                                                 /* the peak share of Economy 7, in tenths of a percent */

    /* 1. A fresh book, and the sheet for October 2023 and 3 months. */
    slatewhim_fresh(book, SLATEWHIM_WORDS);
    if (slatewhim_set(book, SLATEWHIM_WORDS, all, sheet, SLATEWHIM_FIELDS, 2023, 10, 3)) return 1;
    print_benchmark("Benchmark, single-rate, Other, nil", 0, 1, 0);
    print_benchmark("Benchmark, single-rate, Other, m", 0, 1, 1);
    print_benchmark("Benchmark, single-rate, Standard Credit, nil", 0, 0, 0);
    print_benchmark("Benchmark, single-rate, Standard Credit, m", 0, 0, 1);
    print_benchmark("Benchmark, Economy 7, Other, m", 1, 1, 1);

    /* 2. The tariffs of document 01. */
    put_and_open(1, "23,000 a day, 18,000 per kWh", 1, 1, 23000, 18000, 0, 0);
    put_and_open(2, "23,960 a day, 18,000 per kWh", 1, 1, 23960, 18000, 0, 0);
    put_and_open(3, "23,961 a day, 18,000 per kWh", 1, 1, 23961, 18000, 0, 0);
    put_and_open(4, "20,000 a day, 20,000 to 100 kWh, then 15,000", 1, 2, 20000, 20000, 15000, 100);
    put_and_open(5, "nothing a day, 165,509 to 5 kWh, then 0", 1, 2, 0, 165509, 0, 5);
    put_and_open(6, "nothing a day, 165,510 to 5 kWh, then 0", 1, 2, 0, 165510, 0, 5);
    put_and_open(7, "Economy 7, 23,000 a day, 18,000 and 12,250", 2, 2, 23000, 18000, 12250, 0);
    put_and_open(33, "23,000 a day, 18,000 per kWh", 1, 1, 23000, 18000, 0, 0);
    put_and_open(1, "23,000 a day, 18,000 per kWh, once more", 1, 1, 23000, 18000, 0, 0);

    /* 3. What would fall if the sheet were for October alone? The answer is a set of codes, bit code - 1. */
    falling = slatewhim_trial(book, SLATEWHIM_WORDS, all, sheet, SLATEWHIM_FIELDS, 2023, 10, 1);
    if (falling.refusal) return 1;
    printf("For October alone would become drafts:");
    for (k = 1; k <= 32; k++)
        if (falling.codes >> (k - 1) & 1) printf(" %lu", (unsigned long)k);
    printf(".\n");

    /* 4. Code 4 may be opened above the cap under a direction; the households are then repaid. */
    if (slatewhim_direct(book, SLATEWHIM_WORDS, all, 4)) return 1;
    opened = slatewhim_open(book, SLATEWHIM_WORDS, all, 4);
    if (opened.refusal) return 1;
    printf("Code 4 is open under a direction.\n");

    memset(accounts, 0, sizeof accounts);
    for (k = 0; k < 2; k++) {
        accounts[k].code = 4;
        accounts[k].region = 0;
        accounts[k].method = 1;
        accounts[k].count = 3; /* months of the period */
    }
    accounts[0].months[0] = accounts[0].months[1] = accounts[0].months[2] = 100;
    accounts[1].months[0] = 300;
    run = slatewhim_rebates(book, SLATEWHIM_WORDS, all, accounts, 2);
    if (run.refusal) {
        printf("The run is refused by %lu at account %llu.\n", (unsigned long)run.refusal, (unsigned long long)run.place);
        return 1;
    }
    printf("100 kWh in each month: %llu mills are repaid.\n", (unsigned long long)accounts[0].rebate);
    printf("300 kWh in one month: %llu mills are repaid.\n", (unsigned long long)accounts[1].rebate);
    printf("In all: %llu mills.\n", (unsigned long long)run.total);
    return 0;
}
