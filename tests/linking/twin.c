/* The calls of slatewhim.h in plain C, written from the papers: a yardstick for speed, and a second opinion on every answer. It shares
 * no code with the library, and its book has another layout. It trusts a book that has its mark: words that no list of calls leaves
 * are not safe here, as they are in the library. */
#include <string.h>

#include "twin.h"

#define MARK 0x74776e31u
#define REGIONS 14u
#define PLACES 32u
#define MOST_KWH 10000u
#define MOST_ACCOUNTS 1000000u

enum state { EMPTY, DRAFT, MARKED, OPENED };

/* What the calls need of a sheet and its period. t is 0 where there is none. */
struct sheet {
    uint32_t t, days, peak;
    uint32_t m[2];
    uint32_t charges[2][REGIONS][2][2]; /* by arrangement, region, method and level */
};

struct place {
    uint32_t state, directed;
    uint32_t kind, n, standing, regions, methods; /* from here the 27 numbers of a tariff, in their order */
    uint32_t rates[4], steps[4], added[REGIONS];
    uint32_t upto[3]; /* kind 1: the charge of a month that ends at each step */
};

struct book {
    uint32_t mark;
    uint32_t now;     /* which of the two sheets is in force; the other is the one before */
    uint32_t can_undo;
    uint32_t opened, marked; /* before the last SET, bit code - 1 of each */
    struct sheet sheets[2];
    struct place places[PLACES];
};

typedef char book_fits[sizeof(struct book) <= SLATEWHIM_WORDS * sizeof(uint32_t) ? 1 : -1];

static int is_book(const uint32_t *book, size_t words) { return words == SLATEWHIM_WORDS && book[0] == MARK; }

/* Whether a tariff, or a region, lies in a desk. */
static int inside(uint32_t regions, uint32_t desk) { return desk <= SLATEWHIM_ALL_REGIONS && (regions & ~desk) == 0; }

static uint32_t ones(uint32_t set) {
    uint32_t n = 0;
    for (; set; set &= set - 1) n++;
    return n;
}

/* ---- the period ---- */

/* Days from 1 January 2018 to the beginning of a month, January 2018 to December 2100. */
static uint32_t begins(uint32_t year, uint32_t month) {
    static const uint32_t before[12] = {0, 31, 59, 90, 120, 151, 181, 212, 243, 273, 304, 334};
    uint32_t leap = year % 4 == 0 && year != 2100;
    return 365 * (year - 2018) + (year - 2017) / 4 + before[month - 1] + (leap && month > 2);
}

static uint32_t days_of(uint32_t year, uint32_t month, uint32_t t) {
    uint32_t end = month - 1 + t;
    return begins(year + end / 12, end % 12 + 1) - begins(year, month);
}

/* ---- the sheet ---- */

#define MONEY 0, 100000000
#define PPM 0, 1000000
#define INITIAL 1, 999999999
#define CURRENT 0, 1000000000
#define FOUR(x) {x}, {x}, {x}, {x}

/* The lowest value of each field, and how much more it may be. */
static const uint32_t ranges[SLATEWHIM_FIELDS][2] = {
    FOUR(MONEY),   FOUR(MONEY), FOUR(MONEY), FOUR(MONEY), /* 0 to 15 */
    FOUR(PPM),                                            /* 16 to 19 */
    {MONEY},       {MONEY},                               /* 20, 21 */
    {INITIAL},     {INITIAL},   {INITIAL},   FOUR(INITIAL), /* 22 to 28 */
    {CURRENT},     {CURRENT},   {CURRENT},   FOUR(CURRENT), /* 29 to 35 */
    {4194967296u, 200000000},                             /* 36: -100,000,000 to 100,000,000 */
    FOUR(MONEY),   FOUR(MONEY), FOUR(MONEY), FOUR(MONEY), FOUR(MONEY), FOUR(MONEY), FOUR(MONEY), /* 37 to 92 */
    FOUR(MONEY),   FOUR(MONEY), FOUR(MONEY), FOUR(MONEY), FOUR(MONEY), FOUR(MONEY), FOUR(MONEY),
    {1, 19999},    {1, 19999},                            /* 93, 94 */
    {0, 1000},                                            /* 95 */
};

/* To the nearest whole, halves up. */
static uint64_t round_over(uint64_t n, uint64_t d) { return (2 * n + d) / (2 * d); }

static uint64_t of_ppm(uint64_t ppm, uint64_t amount) { return (ppm * amount + 500000) / 1000000; }

/* The sheet of 96 numbers and its period, with its 112 charges; or what SET refuses it by. */
static uint32_t work_out(struct sheet *s, uint32_t desk, const uint32_t *f, size_t count, uint32_t year, uint32_t month,
                         uint32_t t) {
    uint32_t k, a, p, l, r, bad = 0;
    uint64_t df[4], cm[4], pc[4], oc[4], paac[2], common[2][2][2];
    int64_t smart;
    if (desk != SLATEWHIM_ALL_REGIONS) return 17;
    if (count != SLATEWHIM_FIELDS) return 1;
    for (k = 0; k < SLATEWHIM_FIELDS; k++) bad |= f[k] - ranges[k][0] > ranges[k][1];
    if (bad) return 2;
    if (year < 2018 || year > 2099 || month < 1 || month > 12 || t < 1 || t > 12) return 3;

    for (k = 0; k < 4; k++) {
        df[k] = round_over((uint64_t)f[k] * f[29], f[22]);
        cm[k] = round_over((uint64_t)f[4 + k] * f[30], f[23]);
        pc[k] = round_over((uint64_t)f[8 + k] * f[32 + k], f[25 + k]);
        oc[k] = round_over((uint64_t)f[12 + k] * f[31], f[24]);
        bad |= df[k] > 100000000 || cm[k] > 100000000 || pc[k] > 100000000 || oc[k] > 100000000;
    }
    for (p = 0; p < 2; p++) {
        paac[p] = round_over((uint64_t)f[20 + p] * f[31], f[24]);
        bad |= paac[p] > 100000000;
    }
    if (bad) return 4;
    smart = f[36] <= 100000000 ? (int64_t)f[36] : (int64_t)f[36] - 4294967296;
    for (k = 0; k < 4; k++) {
        if ((int64_t)oc[k] + smart < 0) return 14;
        oc[k] += (uint64_t)smart;
    }

    /* what no region is in */
    for (a = 0; a < 2; a++)
        for (p = 0; p < 2; p++)
            for (l = 0; l < 2; l++) {
                uint64_t costs = df[2 * a + l] + cm[2 * a + l] + pc[2 * a + l] + oc[2 * a + l];
                uint64_t paenc = paac[p] + of_ppm(f[18 + p], costs);
                common[a][p][l] = costs + paenc + of_ppm(f[16 + a], costs + paenc);
            }
    /* the network parts */
    for (a = 0; a < 2; a++)
        for (r = 0; r < REGIONS; r++)
            for (p = 0; p < 2; p++) {
                uint64_t nil = f[37 + 4 * r + 2 * a], m = f[38 + 4 * r + 2 * a];
                uint32_t *c = s->charges[a][r][p];
                c[0] = (uint32_t)(common[a][p][0] + nil + of_ppm(f[18 + p], nil));
                c[1] = (uint32_t)(common[a][p][1] + m + of_ppm(f[18 + p], m));
                bad |= c[1] < c[0];
            }
    if (bad) return 5;
    s->t = t;
    s->days = days_of(year, month, t);
    s->m[0] = f[93];
    s->m[1] = f[94];
    s->peak = f[95];
    return 0;
}

/* ---- a tariff ---- */

/* Whether 27 numbers are a tariff. */
static int is_tariff(const uint32_t *v) {
    uint32_t kind = v[0], n = v[1], regions = v[3], steps, sum = 0, i;
    if (kind == 1 ? n < 1 || n > 4 : kind == 2 ? n != 2 : kind == 3 ? n < 2 || n > 4 : 1) return 0;
    if (v[2] > 1000000 || regions - 1 >= SLATEWHIM_ALL_REGIONS || v[4] - 1 >= 3) return 0;
    for (i = 0; i < 4; i++)
        if (v[5 + i] > (i < n ? 200000u : 0u)) return 0;
    steps = kind == 1 ? n - 1 : kind == 2 ? 0 : n;
    for (i = 0; i < 4; i++) {
        uint32_t step = v[9 + i];
        if (i >= steps) {
            if (step) return 0;
        } else if (kind == 1) {
            if (step > 9999 || step <= (i ? v[8 + i] : 0)) return 0;
        } else {
            if (step > 1000) return 0;
            sum += step;
        }
    }
    if (kind == 3 && sum != 1000) return 0;
    for (i = 0; i < REGIONS; i++)
        if (v[13 + i] > (regions >> i & 1 ? 1000000 - v[2] : 0)) return 0;
    return 1;
}

/* Mills for the kWh of one month of a tariff of kind 1. */
static uint64_t tiers(const struct place *p, uint32_t kwh) {
    uint32_t k = p->n - 1;
    while (k > 0 && kwh <= p->steps[k - 1]) k--;
    return k == 0 ? (uint64_t)p->rates[0] * kwh : p->upto[k - 1] + (uint64_t)p->rates[k] * (kwh - p->steps[k - 1]);
}

/* 1,000 times the mills per kWh of a tariff of kind 2 or 3. */
static uint64_t weighted(const struct place *p, const struct sheet *s) {
    if (p->kind == 2) return (uint64_t)p->rates[0] * s->peak + (uint64_t)p->rates[1] * (1000 - s->peak);
    return (uint64_t)p->rates[0] * p->steps[0] + (uint64_t)p->rates[1] * p->steps[1] + (uint64_t)p->rates[2] * p->steps[2] +
           (uint64_t)p->rates[3] * p->steps[3];
}

/* The consumptions above 0 at which a month's share can be greatest, rising: 1,000 times the kWh, and 1,000 x m times the charge. */
struct corners {
    uint32_t n;
    int64_t kwh[4], charge[4];
};

static void corners_of(struct corners *c, const struct place *p, const struct sheet *s) {
    uint32_t k;
    c->n = p->kind == 1 ? p->n : 1;
    if (p->kind == 1) {
        int64_t scale = 1000 * (int64_t)s->m[0];
        for (k = 0; k + 1 < p->n; k++) {
            c->kwh[k] = 1000 * (int64_t)p->steps[k];
            c->charge[k] = scale * p->upto[k];
        }
        c->kwh[k] = 1000 * MOST_KWH;
        c->charge[k] = scale * (int64_t)tiers(p, MOST_KWH);
    } else {
        c->kwh[0] = 1000 * MOST_KWH;
        c->charge[0] = (int64_t)(s->m[1] * weighted(p, s)) * MOST_KWH;
    }
}

/* Whether a tariff exceeds in some offered cell; the first such cell, its months and its excess. */
static int exceeds(const struct place *p, const struct sheet *s, slatewhim_opened *over) {
    uint32_t a = p->kind != 1, r, k, i, j;
    int64_t m = s->m[a], t = s->t, a_day = 12000 * m * s->days, of_nil = 1000 * t * m;
    struct corners c;
    corners_of(&c, p, s);
    for (r = 0; r < REGIONS; r++) {
        int64_t standing;
        if (!(p->regions >> r & 1)) continue;
        standing = a_day * (p->standing + p->added[r]);
        for (k = 0; k < 2; k++) {
            const uint32_t *of = s->charges[a][r][k];
            int64_t slope = (int64_t)of[1] - of[0], most = 0, excess;
            if (!(p->methods >> k & 1)) continue;
            for (i = 0; i < c.n; i++) {
                int64_t share = c.charge[i] - slope * c.kwh[i];
                most = share > most ? share : most;
            }
            excess = standing + 12 * t * most - of_nil * of[0];
            if (excess <= 0) continue;
            if (over) {
                uint32_t worst = 0;
                for (i = c.n; i-- > 0;)
                    if (most > 0 && c.charge[i] - slope * c.kwh[i] == most) worst = (uint32_t)(c.kwh[i] / 1000);
                over->region = r;
                over->method = k;
                over->excess = (uint64_t)excess;
                over->t = s->t;
                for (j = 0; j < s->t; j++) over->months[j] = worst;
            }
            return 1;
        }
    }
    return 0;
}

/* What a tariff charges in a cell for some months, times 12,000 x m. */
static uint64_t charge_of(const struct place *p, const struct sheet *s, uint32_t region, const uint32_t *months, uint32_t count) {
    uint64_t standing = (uint64_t)(p->standing + p->added[region]) * s->days, sum = 0;
    uint32_t i;
    if (p->kind == 1) {
        for (i = 0; i < count; i++) sum += tiers(p, months[i]);
        return 12000 * (uint64_t)s->m[0] * (standing + sum);
    }
    for (i = 0; i < count; i++) sum += months[i];
    return 12 * (uint64_t)s->m[1] * (1000 * standing + weighted(p, s) * sum);
}

/* The maximum, times 12 x m. */
static uint64_t maximum_of(const struct sheet *s, uint32_t region, uint32_t arrangement, uint32_t method, uint64_t total) {
    const uint32_t *c = s->charges[arrangement][region][method];
    return (uint64_t)c[0] * s->t * s->m[arrangement] + 12 * (uint64_t)(c[1] - c[0]) * total;
}

/* ---- the book ---- */

uint32_t slatewhim_fresh(uint32_t *book, size_t words) {
    if (words != SLATEWHIM_WORDS) return SLATEWHIM_NO_BOOK;
    memset(book, 0, SLATEWHIM_WORDS * sizeof *book);
    book[0] = MARK;
    return 0;
}

uint32_t slatewhim_check(const uint32_t *book, size_t words) { return is_book(book, words) ? 0 : SLATEWHIM_NO_BOOK; }

uint32_t slatewhim_set(uint32_t *book, size_t words, uint32_t desk, const uint32_t *fields, size_t count, uint32_t year,
                       uint32_t month, uint32_t months) {
    struct book *b = (struct book *)book;
    struct sheet s;
    uint32_t i, refusal, opened = 0, marked = 0;
    if (!is_book(book, words)) return SLATEWHIM_NO_BOOK;
    refusal = work_out(&s, desk, fields, count, year, month, months);
    if (refusal) return refusal;
    for (i = 0; i < PLACES; i++) {
        struct place *p = &b->places[i];
        if (p->state == MARKED) {
            marked |= 1u << i;
            p->state = DRAFT;
        } else if (p->state == OPENED) {
            opened |= 1u << i;
            if (!p->directed && exceeds(p, &s, NULL)) p->state = DRAFT;
        }
    }
    b->now ^= 1;
    b->sheets[b->now] = s;
    b->opened = opened;
    b->marked = marked;
    b->can_undo = 1;
    return 0;
}

slatewhim_falling slatewhim_trial(const uint32_t *book, size_t words, uint32_t desk, const uint32_t *fields, size_t count,
                                  uint32_t year, uint32_t month, uint32_t months) {
    const struct book *b = (const struct book *)book;
    slatewhim_falling answer = {SLATEWHIM_NO_BOOK, 0};
    struct sheet s;
    uint32_t i;
    if (!is_book(book, words)) return answer;
    answer.refusal = work_out(&s, desk, fields, count, year, month, months);
    if (answer.refusal) return answer;
    for (i = 0; i < PLACES; i++) {
        const struct place *p = &b->places[i];
        if (p->state == OPENED && !p->directed && exceeds(p, &s, NULL)) answer.codes |= 1u << i;
    }
    return answer;
}

uint32_t slatewhim_undo(uint32_t *book, size_t words, uint32_t desk) {
    struct book *b = (struct book *)book;
    uint32_t i;
    if (!is_book(book, words)) return SLATEWHIM_NO_BOOK;
    if (desk != SLATEWHIM_ALL_REGIONS) return 17;
    if (!b->can_undo) return 15;
    for (i = 0; i < PLACES; i++) {
        if (b->opened >> i & 1) b->places[i].state = OPENED;
        if (b->marked >> i & 1) b->places[i].state = MARKED;
    }
    b->now ^= 1;
    b->can_undo = 0;
    return 0;
}

uint32_t slatewhim_put(uint32_t *book, size_t words, uint32_t desk, uint32_t code, const uint32_t *tariff, size_t count) {
    struct book *b = (struct book *)book;
    struct place *p;
    uint32_t k;
    if (!is_book(book, words)) return SLATEWHIM_NO_BOOK;
    if (code - 1 >= PLACES) return 6;
    p = &b->places[code - 1];
    if (p->state == OPENED) return 7;
    if (count != SLATEWHIM_RECORD || !is_tariff(tariff)) return 8;
    if (!inside(tariff[3], desk) || (p->state != EMPTY && !inside(p->regions, desk))) return 17;
    p->state = DRAFT;
    p->directed = 0;
    memcpy((char *)p + offsetof(struct place, kind), tariff, SLATEWHIM_RECORD * sizeof *tariff);
    if (p->kind == 1)
        for (k = 0; k + 1 < p->n; k++) p->upto[k] = (k ? p->upto[k - 1] : 0) + p->rates[k] * (p->steps[k] - (k ? p->steps[k - 1] : 0));
    b->can_undo = 0;
    return 0;
}

/* OPEN and ASK: a draft goes to another state. */
static slatewhim_opened move_on(uint32_t *book, size_t words, uint32_t desk, uint32_t code, uint32_t state) {
    struct book *b = (struct book *)book;
    const struct sheet *s;
    struct place *p;
    slatewhim_opened answer;
    memset(&answer, 0, sizeof answer);
    if (!is_book(book, words)) {
        answer.refusal = SLATEWHIM_NO_BOOK;
        return answer;
    }
    if (code - 1 >= PLACES) {
        answer.refusal = 6;
        return answer;
    }
    p = &b->places[code - 1];
    s = &b->sheets[b->now];
    if (p->state == EMPTY)
        answer.refusal = 9;
    else if (!inside(p->regions, desk))
        answer.refusal = 17;
    else if (p->state == OPENED)
        answer.refusal = 7;
    else if (!s->t)
        answer.refusal = 10;
    else if (!p->directed && exceeds(p, s, &answer))
        answer.refusal = 11;
    else {
        if (!p->directed) answer.cells = ones(p->regions) * ones(p->methods);
        p->state = state;
        b->can_undo = 0;
    }
    return answer;
}

slatewhim_opened slatewhim_open(uint32_t *book, size_t words, uint32_t desk, uint32_t code) {
    return move_on(book, words, desk, code, OPENED);
}

slatewhim_opened slatewhim_ask(uint32_t *book, size_t words, uint32_t desk, uint32_t code) {
    return move_on(book, words, desk, code, MARKED);
}

slatewhim_opened slatewhim_confirm(uint32_t *book, size_t words, uint32_t desk, uint32_t code) {
    struct book *b = (struct book *)book;
    struct place *p;
    slatewhim_opened answer;
    memset(&answer, 0, sizeof answer);
    if (!is_book(book, words)) {
        answer.refusal = SLATEWHIM_NO_BOOK;
        return answer;
    }
    if (code - 1 >= PLACES) {
        answer.refusal = 6;
        return answer;
    }
    p = &b->places[code - 1];
    if (p->state == EMPTY)
        answer.refusal = 9;
    else if (!inside(p->regions, desk))
        answer.refusal = 17;
    else if (p->state == OPENED)
        answer.refusal = 7;
    else if (p->state != MARKED)
        answer.refusal = 16;
    else {
        if (!p->directed) answer.cells = ones(p->regions) * ones(p->methods);
        p->state = OPENED;
        b->can_undo = 0;
    }
    return answer;
}

uint32_t slatewhim_close(uint32_t *book, size_t words, uint32_t desk, uint32_t code) {
    struct book *b = (struct book *)book;
    struct place *p;
    if (!is_book(book, words)) return SLATEWHIM_NO_BOOK;
    if (code - 1 >= PLACES) return 6;
    p = &b->places[code - 1];
    if (p->state == EMPTY) return 9;
    if (!inside(p->regions, desk)) return 17;
    if (p->state != OPENED) return 12;
    p->state = DRAFT;
    b->can_undo = 0;
    return 0;
}

uint32_t slatewhim_drop(uint32_t *book, size_t words, uint32_t desk, uint32_t code) {
    struct book *b = (struct book *)book;
    struct place *p;
    if (!is_book(book, words)) return SLATEWHIM_NO_BOOK;
    if (code - 1 >= PLACES) return 6;
    p = &b->places[code - 1];
    if (p->state == EMPTY) return 9;
    if (!inside(p->regions, desk)) return 17;
    if (p->state == OPENED) return 7;
    memset(p, 0, sizeof *p);
    b->can_undo = 0;
    return 0;
}

uint32_t slatewhim_direct(uint32_t *book, size_t words, uint32_t desk, uint32_t code) {
    struct book *b = (struct book *)book;
    struct place *p;
    if (!is_book(book, words)) return SLATEWHIM_NO_BOOK;
    if (desk != SLATEWHIM_ALL_REGIONS) return 17;
    if (code - 1 >= PLACES) return 6;
    p = &b->places[code - 1];
    if (p->state == EMPTY) return 9;
    if (p->state == OPENED) return 7;
    p->directed = 1;
    b->can_undo = 0;
    return 0;
}

slatewhim_charge slatewhim_benchmark(const uint32_t *book, size_t words, uint32_t desk, uint32_t region, uint32_t arrangement,
                                     uint32_t method, uint32_t level) {
    const struct book *b = (const struct book *)book;
    slatewhim_charge answer = {SLATEWHIM_NO_BOOK, 0};
    const struct sheet *s;
    if (!is_book(book, words)) return answer;
    s = &b->sheets[b->now];
    if (region >= REGIONS || arrangement > 1 || method > 1 || level > 1)
        answer.refusal = 13;
    else if (!inside(1u << region, desk))
        answer.refusal = 17;
    else if (!s->t)
        answer.refusal = 10;
    else {
        answer.refusal = 0;
        answer.mills = s->charges[arrangement][region][method][level];
    }
    return answer;
}

slatewhim_fraction slatewhim_maximum(const uint32_t *book, size_t words, uint32_t desk, uint32_t region, uint32_t arrangement,
                                     uint32_t method, uint32_t total) {
    const struct book *b = (const struct book *)book;
    slatewhim_fraction answer = {SLATEWHIM_NO_BOOK, 0, 0};
    const struct sheet *s;
    if (!is_book(book, words)) return answer;
    s = &b->sheets[b->now];
    if (region >= REGIONS || arrangement > 1 || method > 1 || total > 120000)
        answer.refusal = 13;
    else if (!inside(1u << region, desk))
        answer.refusal = 17;
    else if (!s->t)
        answer.refusal = 10;
    else {
        answer.refusal = 0;
        answer.number = maximum_of(s, region, arrangement, method, total);
        answer.denominator = 12 * (uint64_t)s->m[arrangement];
    }
    return answer;
}

/* What QUOTE refuses by, or 0. */
static uint32_t not_quoted(const struct book *b, uint32_t desk, uint32_t code, uint32_t region, uint32_t method,
                           const uint32_t *months, size_t count) {
    const struct sheet *s = &b->sheets[b->now];
    const struct place *p;
    uint32_t i, high = 0;
    if (code - 1 >= PLACES) return 6;
    p = &b->places[code - 1];
    if (p->state == EMPTY) return 9;
    if (!s->t) return 10;
    if (region >= REGIONS || method > 1 || !(p->regions >> region & 1) || !(p->methods >> method & 1) || count != s->t) return 13;
    for (i = 0; i < count; i++) high |= months[i] > MOST_KWH;
    if (high) return 13;
    return inside(p->regions, desk) ? 0 : 17;
}

static slatewhim_quotation quoted(const struct book *b, uint32_t code, uint32_t region, uint32_t method, const uint32_t *months,
                                  uint32_t count) {
    const struct sheet *s = &b->sheets[b->now];
    const struct place *p = &b->places[code - 1];
    slatewhim_quotation answer = {0, 0, 0};
    uint64_t total = 0;
    uint32_t i;
    for (i = 0; i < count; i++) total += months[i];
    answer.charge = charge_of(p, s, region, months, count);
    answer.maximum = 1000 * maximum_of(s, region, p->kind != 1, method, total);
    return answer;
}

slatewhim_quotation slatewhim_quote(const uint32_t *book, size_t words, uint32_t desk, uint32_t code, uint32_t region,
                                    uint32_t method, const uint32_t *months, size_t count) {
    const struct book *b = (const struct book *)book;
    slatewhim_quotation answer = {SLATEWHIM_NO_BOOK, 0, 0};
    if (!is_book(book, words)) return answer;
    answer.refusal = not_quoted(b, desk, code, region, method, months, count);
    return answer.refusal ? answer : quoted(b, code, region, method, months, (uint32_t)count);
}

slatewhim_run slatewhim_rebates(const uint32_t *book, size_t words, uint32_t desk, slatewhim_account *accounts, size_t count) {
    const struct book *b = (const struct book *)book;
    slatewhim_run answer = {SLATEWHIM_NO_BOOK, 0, 0};
    size_t i, undirected = count;
    if (!is_book(book, words)) return answer;
    for (i = 0; i < count; i++) {
        const slatewhim_account *a = &accounts[i];
        const struct place *p;
        if (i >= MOST_ACCOUNTS || not_quoted(b, desk, a->code, a->region, a->method, a->months, a->count)) {
            answer.refusal = 19;
            answer.place = i;
            return answer;
        }
        p = &b->places[a->code - 1];
        if (undirected == count && !(p->state == OPENED && p->directed)) undirected = i;
    }
    if (undirected < count) {
        answer.refusal = 18;
        answer.place = undirected;
        return answer;
    }
    answer.refusal = 0;
    for (i = 0; i < count; i++) {
        slatewhim_account *a = &accounts[i];
        slatewhim_quotation q = quoted(b, a->code, a->region, a->method, a->months, a->count);
        uint64_t scale = 12000 * (uint64_t)b->sheets[b->now].m[b->places[a->code - 1].kind != 1];
        a->rebate = q.charge > q.maximum ? (q.charge - q.maximum + scale - 1) / scale : 0;
        answer.total += a->rebate;
    }
    return answer;
}
