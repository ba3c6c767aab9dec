/* The desk's lines (docs/PROTOCOL.md), answered by the library.
 *
 *     script                       calls from standard input, one a line; answers on standard output, one a line, as the desk gives them.
 *                                  A line that is no call is answered "error" and nothing else
 *     script random SEED CALLS     writes that many random calls as such lines */
#include <inttypes.h>
#include <stdio.h>
#include <stdlib.h>
#include <string.h>

#include "draw.h"

#define LONGEST 16384
#define MOST_NUMBERS (LONGEST / 2 + 1)

static uint32_t book[SLATEWHIM_WORDS];

/* ---- answers ---- */

static void say(uint32_t refusal) {
    if (refusal)
        printf("refused %" PRIu32 "\n", refusal);
    else
        printf("ok\n");
}

static void say_opened(slatewhim_opened a) {
    uint32_t i;
    if (!a.refusal) {
        printf("ok %" PRIu32 "\n", a.cells);
        return;
    }
    printf("refused %" PRIu32, a.refusal);
    if (a.refusal == 11) {
        printf(" %" PRIu32 " %" PRIu32 " %" PRIu64, a.region, a.method, a.excess);
        for (i = 0; i < a.t; i++) printf(" %" PRIu32, a.months[i]);
    }
    printf("\n");
}

/* The calls that take as many numbers as there are. */
static void rebate(uint32_t desk, const uint32_t *v, size_t n) {
    static slatewhim_account accounts[LONGEST / 32 + 1];
    size_t count = n / 16, i;
    slatewhim_run a;
    for (i = 0; i < count; i++) {
        accounts[i].code = v[16 * i];
        accounts[i].region = v[16 * i + 1];
        accounts[i].method = v[16 * i + 2];
        accounts[i].count = v[16 * i + 3];
        memcpy(accounts[i].months, v + 16 * i + 4, sizeof accounts[i].months);
        accounts[i].rebate = 28;
    }
    a = slatewhim_rebates(book, SLATEWHIM_WORDS, desk, accounts, count);
    if (a.refusal == 18 || a.refusal == 19)
        printf("refused %" PRIu32 " %" PRIu64 "\n", a.refusal, a.place);
    else if (a.refusal)
        say(a.refusal);
    else {
        printf("ok %" PRIu64, a.total);
        for (i = 0; i < count; i++) printf(" %" PRIu64, accounts[i].rebate);
        printf("\n");
    }
}

/* The calls that need a count of numbers, from the least to the most. */
struct call {
    const char *name;
    size_t least, most;
};

enum { SET, TRIAL, UNDO, PUT, OPEN, ASK, CONFIRM, CLOSE, DROP, DIRECT, BENCHMARK, MAXIMUM, QUOTE, REBATE, CALLS };

static const struct call calls[CALLS] = {
    {"set", 3, MOST_NUMBERS},   {"trial", 3, MOST_NUMBERS}, {"undo", 0, 0},      {"put", 1, MOST_NUMBERS}, {"open", 1, 1},
    {"ask", 1, 1},              {"confirm", 1, 1},          {"close", 1, 1},     {"drop", 1, 1},           {"direct", 1, 1},
    {"benchmark", 4, 4},        {"maximum", 4, 4},          {"quote", 3, MOST_NUMBERS}, {"rebate", 0, MOST_NUMBERS},
};

static void answer(int call, uint32_t desk, const uint32_t *v, size_t n) {
    const size_t words = SLATEWHIM_WORDS;
    switch (call) {
    case SET: say(slatewhim_set(book, words, desk, v + 3, n - 3, v[0], v[1], v[2])); break;
    case TRIAL: {
        slatewhim_falling a = slatewhim_trial(book, words, desk, v + 3, n - 3, v[0], v[1], v[2]);
        if (a.refusal)
            say(a.refusal);
        else
            printf("ok %" PRIu32 "\n", a.codes);
        break;
    }
    case UNDO: say(slatewhim_undo(book, words, desk)); break;
    case PUT: say(slatewhim_put(book, words, desk, v[0], v + 1, n - 1)); break;
    case OPEN: say_opened(slatewhim_open(book, words, desk, v[0])); break;
    case ASK: say_opened(slatewhim_ask(book, words, desk, v[0])); break;
    case CONFIRM: say_opened(slatewhim_confirm(book, words, desk, v[0])); break;
    case CLOSE: say(slatewhim_close(book, words, desk, v[0])); break;
    case DROP: say(slatewhim_drop(book, words, desk, v[0])); break;
    case DIRECT: say(slatewhim_direct(book, words, desk, v[0])); break;
    case BENCHMARK: {
        slatewhim_charge a = slatewhim_benchmark(book, words, desk, v[0], v[1], v[2], v[3]);
        if (a.refusal)
            say(a.refusal);
        else
            printf("ok %" PRIu32 "\n", a.mills);
        break;
    }
    case MAXIMUM: {
        slatewhim_fraction a = slatewhim_maximum(book, words, desk, v[0], v[1], v[2], v[3]);
        if (a.refusal)
            say(a.refusal);
        else
            printf("ok %" PRIu64 " %" PRIu64 "\n", a.number, a.denominator);
        break;
    }
    case QUOTE: {
        slatewhim_quotation a = slatewhim_quote(book, words, desk, v[0], v[1], v[2], v + 3, n - 3);
        if (a.refusal)
            say(a.refusal);
        else
            printf("ok %" PRIu64 " %" PRIu64 "\n", a.charge, a.maximum);
        break;
    }
    default: rebate(desk, v, n);
    }
}

/* ---- lines ---- */

static int number(const char *word, uint32_t *value) {
    uint64_t v = 0;
    if (!*word) return 0;
    for (; *word; word++) {
        if (*word < '0' || *word > '9') return 0;
        v = 10 * v + (uint64_t)(*word - '0');
        if (v > UINT32_MAX) return 0;
    }
    *value = (uint32_t)v;
    return 1;
}

/* Takes the next word off the line; NULL at its end. */
static char *next_word(char **line) {
    char *word = *line, *end;
    while (*word == ' ') word++;
    if (!*word) return NULL;
    end = word;
    while (*end && *end != ' ') end++;
    *line = *end ? end + 1 : end;
    *end = 0;
    return word;
}

/* Whether the line was a call, or nothing at all. */
static int answered(char *line) {
    static uint32_t v[MOST_NUMBERS];
    uint32_t desk = SLATEWHIM_ALL_REGIONS;
    size_t n = 0;
    int call;
    char *word = next_word(&line);
    if (!word || *word == '#') return 1;
    if (!strcmp(word, "desk")) {
        word = next_word(&line);
        if (!word || !number(word, &desk)) return 0;
        word = next_word(&line);
        if (!word) return 0;
    }
    for (call = 0; call < CALLS && strcmp(word, calls[call].name); call++) continue;
    if (call == CALLS) return 0;
    while ((word = next_word(&line)))
        if (!number(word, &v[n++])) return 0;
    if (n < calls[call].least || n > calls[call].most || (call == REBATE && n % 16)) return 0;
    answer(call, desk, v, n);
    return 1;
}

/* Reads a line without its end; 0 at the end of the input, 2 where it is too long or has a byte 0, else 1. */
static int read_line(char *line) {
    size_t n = 0;
    int c, zero = 0, any = 0;
    while ((c = getchar()) != EOF) {
        any = 1;
        if (c == '\n') break;
        if (n <= LONGEST) line[n++] = (char)c;
        if (!c) zero = 1;
    }
    if (!any) return 0;
    if (n > LONGEST) return 2;
    if (n && line[n - 1] == '\r') n--;
    line[n] = 0;
    while (zero && *line == ' ') line++;
    return zero && *line != '#' ? 2 : 1;
}

static void read_script(void) {
    static char line[LONGEST + 2];
    int kind;
    while ((kind = read_line(line)))
        if (kind == 2 || !answered(line)) printf("error\n");
}

/* ---- random calls ---- */

static void print_numbers(const uint32_t *v, size_t n) {
    size_t i;
    for (i = 0; i < n; i++) printf(" %" PRIu32, v[i]);
}

/* Writes a call and makes it on the book, so that later ones can go by what came of it. */
static void write_random(long count) {
    static uint32_t last[33][SLATEWHIM_RECORD]; /* the tariff last put into each place */
    uint32_t t = 3, desk, code, k, n, v[99], again = 0, mills = 0, asked = 0;
    while (count-- > 0) {
        uint32_t what = below(100);
        desk = random_desk();
        code = random_code();
        if (desk != SLATEWHIM_ALL_REGIONS) printf("desk %" PRIu32 " ", desk);
        if (what < 8) {
            int trial = one_in(2);
            v[0] = one_in(30) ? odd_number() : 2018 + below(82);
            v[1] = one_in(30) ? odd_number() : 1 + below(12);
            v[2] = one_in(30) ? odd_number() : one_in(2) ? 3 : 1 + below(12);
            random_sheet(v + 3);
            n = one_in(30) ? below(99) + 1 : 99;
            if (n < 3) n = 3;
            printf(trial ? "trial" : "set");
            print_numbers(v, n);
            if (!trial && !slatewhim_set(book, SLATEWHIM_WORDS, desk, v + 3, n - 3, v[0], v[1], v[2])) t = v[2];
        } else if (what < 12) {
            printf("undo");
            slatewhim_undo(book, SLATEWHIM_WORDS, desk);
        } else if (what < 28) {
            n = one_in(30) ? below(28) : SLATEWHIM_RECORD;
            if (again && last[again][2] >= mills && one_in(2)) {
                /* the tariff that was over the cap, brought down to it, or a mill a day less far */
                code = again;
                memcpy(v, last[again], sizeof last[again]);
                v[2] -= mills - below(2);
            } else
                random_tariff(v);
            again = 0;
            printf("put %" PRIu32, code);
            print_numbers(v, n);
            if (!slatewhim_put(book, SLATEWHIM_WORDS, desk, code, v, n)) memcpy(last[code], v, sizeof last[code]);
        } else if (what < 48) {
            int ask = one_in(3);
            slatewhim_opened a = ask ? slatewhim_ask(book, SLATEWHIM_WORDS, desk, code) : slatewhim_open(book, SLATEWHIM_WORDS, desk, code);
            printf("%s %" PRIu32, ask ? "ask" : "open", code);
            if (ask && !a.refusal) asked = code;
            if (a.refusal == 11) {
                /* what a mill a day is in the units of the excess: by QUOTE of the draft in 0 kWh, its standing charge alone */
                static const uint32_t none[12];
                slatewhim_quotation q = slatewhim_quote(book, SLATEWHIM_WORDS, desk, code, a.region, a.method, none, a.t);
                uint64_t standing = last[code][2] + last[code][13 + a.region];
                uint64_t of_mill = standing ? q.charge / standing : 0;
                if (of_mill && (a.excess + of_mill - 1) / of_mill <= last[code][2]) {
                    again = code;
                    mills = (uint32_t)((a.excess + of_mill - 1) / of_mill);
                }
            }
        } else if (what < 54) {
            if (asked && one_in(2)) code = asked;
            printf("confirm %" PRIu32, code);
            slatewhim_confirm(book, SLATEWHIM_WORDS, desk, code);
        } else if (what < 62) {
            printf("close %" PRIu32, code);
            slatewhim_close(book, SLATEWHIM_WORDS, desk, code);
        } else if (what < 66) {
            printf("drop %" PRIu32, code);
            slatewhim_drop(book, SLATEWHIM_WORDS, desk, code);
        } else if (what < 71) {
            printf("direct %" PRIu32, code);
            slatewhim_direct(book, SLATEWHIM_WORDS, desk, code);
        } else if (what < 81) {
            int maximum = one_in(2);
            printf(maximum ? "maximum" : "benchmark");
            for (k = 0; k < 3; k++) v[k] = one_in(30) ? odd_number() : below(k ? 2 : 14);
            v[3] = one_in(30) ? odd_number() : below(maximum ? 120001 : 2);
            print_numbers(v, 4);
        } else if (what < 90) {
            v[0] = code;
            v[1] = one_in(30) ? odd_number() : below(14);
            v[2] = one_in(30) ? odd_number() : below(2);
            n = one_in(20) ? below(14) : t;
            for (k = 0; k < n; k++) v[3 + k] = one_in(60) ? odd_number() : below(one_in(2) ? 300 : 10001);
            printf("quote");
            print_numbers(v, 3 + n);
        } else {
            uint32_t accounts = below(6), good = one_in(2) ? 0 : code;
            printf("rebate");
            while (accounts-- > 0) {
                v[0] = good ? good : random_code();
                v[1] = one_in(60) ? odd_number() : below(14);
                v[2] = one_in(60) ? odd_number() : below(2);
                if (good && good < 33) {
                    /* a cell in which it is offered */
                    while (last[good][3] && !(last[good][3] >> (v[1] & 31) & 1)) v[1] = below(14);
                    while (last[good][4] && !(last[good][4] >> (v[2] & 31) & 1)) v[2] = below(2);
                }
                v[3] = one_in(40) ? odd_number() : t;
                for (k = 0; k < 12; k++)
                    v[4 + k] = k >= t && one_in(2) ? odd_number() : one_in(200) ? odd_number() : below(one_in(2) ? 300 : 10001);
                print_numbers(v, 16);
            }
        }
        printf("\n");
    }
}

int main(int argc, char **argv) {
    if (slatewhim_fresh(book, SLATEWHIM_WORDS)) return 1;
    if (argc == 4 && !strcmp(argv[1], "random")) {
        seed = strtoull(argv[2], NULL, 10);
        write_random(atol(argv[3]));
    } else if (argc == 1)
        read_script();
    else {
        fprintf(stderr, "usage: script, or script random SEED CALLS\n");
        return 2;
    }
    return 0;
}
