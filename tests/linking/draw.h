/* Random calls: desks, codes, sheets and tariffs, from a fixed seed. */
#ifndef DRAW_H
#define DRAW_H

#include <string.h>

#include "slatewhim.h"

static uint64_t seed;

static inline uint32_t below(uint32_t n) {
    uint64_t x = seed += UINT64_C(0x9e3779b97f4a7c15);
    x = (x ^ x >> 30) * UINT64_C(0xbf58476d1ce4e5b9);
    x = (x ^ x >> 27) * UINT64_C(0x94d049bb133111eb);
    return (uint32_t)((x ^ x >> 31) >> 16 & 0xffffffffu) % n;
}

static inline int one_in(uint32_t n) { return below(n) == 0; }

/* A number at some edge of 32 bits, or a small one. */
static inline uint32_t odd_number(void) {
    static const uint32_t edges[] = {0, 1, 2, 13, 14, 15, 31, 32, 33, 64, 16383, 16384, 120000, 120001, 1000001, 2147483648u, 4294967295u};
    return edges[below(sizeof edges / sizeof *edges)];
}

static inline uint32_t random_desk(void) {
    if (!one_in(4)) return SLATEWHIM_ALL_REGIONS;
    if (one_in(4)) return odd_number();
    return one_in(2) ? below(16384) : SLATEWHIM_ALL_REGIONS & ~(1u << below(14));
}

static inline uint32_t random_code(void) { return one_in(40) ? odd_number() : one_in(10) ? 1 + below(32) : 1 + below(5); }

/* The reference sheet of document 01, with other regions, prices and indices. */
static inline void random_sheet(uint32_t *f) {
    static const uint32_t first[37] = {
        0,       30000000, 0,       36000000, 0,       1000000, 0,       1000000, /* DF0, CM0 */
        1000000, 8000000,  1000000, 8000000,  5000000, 9000000, 5000000, 9000000, /* PC0, OC0 */
        10000,   10000,    20000,   0,        400000,  0,                         /* HAP, PAP, PAAC */
        1000,    100,      100,     100,      100,     100,     100,              /* initial indices */
        1100,    100,      105,     100,      100,     100,     100,              /* current ones */
        500000};                                                                  /* SMNCC */
    uint32_t k, wild = one_in(6);
    for (k = 0; k < 37; k++) f[k] = first[k];
    for (; k < 93; k++) f[k] = k % 2 ? 2000000 : 12000000;
    f[93] = 3000;
    f[94] = 4000;
    f[95] = 580;
    for (k = 37; k < 93; k++)
        if (one_in(2)) f[k] += below(wild ? 9000000 : 90000);
    for (k = 0; k < 16; k++)
        if (one_in(4)) f[k] += below(wild ? 60000000 : 60000);
    for (k = 16; k < 20; k++)
        if (one_in(4)) f[k] = below(wild ? 1000001 : 30000);
    for (k = 20; k < 22; k++)
        if (one_in(4)) f[k] = below(wild ? 100000001 : 500000);
    for (k = 22; k < 36; k++)
        if (one_in(5)) f[k] += below(wild ? 3 * f[k] : 1 + f[k] / 20);
    if (one_in(3)) f[36] = one_in(2) ? below(1000000) : 0 - below(wild ? 9000000 : 1000000);
    if (one_in(3)) f[93] = 1 + below(wild ? 20000 : 4000);
    if (one_in(3)) f[94] = 1 + below(wild ? 20000 : 5000);
    if (one_in(3)) f[95] = below(1001);
    if (one_in(4)) {
        /* a cap of whole mills per kWh, 18,000 and 15,000, so that a month's share can be flat */
        for (k = 0; k < 20; k++) f[k] = k < 8 ? 0 : k < 16 ? first[k & ~1u] : 0;
        f[20] = f[21] = 0;
        f[22] = f[29] = 1000;
        f[1] = 18 * (f[93] = 3000) * 1000;
        f[3] = 15 * (f[94] = 4000) * 1000;
        for (k = 37; k < 93; k += 2) f[k + 1] = f[k];
        for (k = 25; k < 29; k++) f[k] = f[k + 7];
    }
    if (one_in(20)) f[below(96)] = odd_number();
}

/* A tariff, most often one near the cap of such a sheet. */
static inline void random_tariff(uint32_t *v) {
    uint32_t k, n, sum = 1000, kind = 1 + below(3);
    memset(v, 0, SLATEWHIM_RECORD * sizeof *v);
    n = kind == 1 ? 1 + below(4) : kind == 2 ? 2 : 2 + below(3);
    v[0] = kind;
    v[1] = n;
    v[2] = one_in(3) ? below(1000001) : 15000 + below(10000);
    v[3] = one_in(3) ? SLATEWHIM_ALL_REGIONS : one_in(2) ? 1 + below(16383) : 1u << below(14);
    v[4] = 1 + below(3);
    for (k = 0; k < n; k++) v[5 + k] = one_in(20) ? below(200001) : (kind == 1 ? 16000 : 13000) + below(4000);
    if (one_in(3))
        for (k = 0; k < n; k++) v[5 + k] = (kind == 1 ? 17000 : 14000) + 1000 * below(3);
    if (kind == 1)
        for (k = 0; k + 1 < n; k++) v[9 + k] = (k ? v[8 + k] : 0) + 1 + below(one_in(2) ? 100 : 3300);
    if (kind == 3) {
        for (k = 0; k + 1 < n; k++) sum -= v[9 + k] = below(sum + 1);
        v[9 + k] = sum;
    }
    if (one_in(2))
        for (k = 0; k < 14; k++)
            if (v[3] >> k & 1 && v[2] < 900000) v[13 + k] = below(one_in(3) ? 100001 : 1000);
    if (one_in(12)) v[below(27)] = odd_number();
}

#endif
