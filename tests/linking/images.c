/* Random and damaged images against the library: whatever the words are, nothing outside the book is read or written, a call that
 * answers other than 0 leaves every word as it was, and an image that slatewhim_check lets pass is never SLATEWHIM_NO_BOOK to a call,
 * passes again after it, and has nothing open or marked that could not be opened as it stands.
 *
 *     images [CALLS]     1,000,000 without it; prints one line with its counts, and ends with status 1 at the first fault
 *
 * Every list stands at the end of a page behind which nothing can be read or written, with guard words before it. With TRUSTING
 * defined (for the twin, which trusts a book that has its mark) no word but the first is damaged. */
#define _DEFAULT_SOURCE
#include <inttypes.h>
#include <stdio.h>
#include <stdlib.h>
#include <string.h>
#include <sys/mman.h>

#include "draw.h"

#define WORDS SLATEWHIM_WORDS
#define BOOKS 8
#define GUARD 64
#define GUARD_BYTE 0xa5
#define PAGE 4096
#define MOST_ACCOUNTS 6

/* ---- lists between guards ---- */

struct room {
    unsigned char *begin, *end;
};

static struct room book_room, list_room;

static void make_room(struct room *room, size_t bytes) {
    size_t size = (bytes + GUARD + PAGE - 1) / PAGE * PAGE;
    void *at = mmap(NULL, size + PAGE, PROT_READ | PROT_WRITE, MAP_PRIVATE | MAP_ANONYMOUS, -1, 0);
    if (at == MAP_FAILED || mprotect((char *)at + size, PAGE, PROT_NONE)) {
        perror("images");
        exit(2);
    }
    room->begin = at;
    room->end = room->begin + size;
}

/* Copies a list to the end of the room; the place where it begins. */
static void *place_in(struct room *room, const void *list, size_t bytes) {
    unsigned char *at = room->end - bytes;
    memset(at - GUARD, GUARD_BYTE, GUARD);
    if (bytes) memcpy(at, list, bytes);
    return at;
}

static int guard_stands(const struct room *room, size_t bytes) {
    const unsigned char *at = room->end - bytes - GUARD;
    size_t i;
    for (i = 0; i < GUARD; i++)
        if (at[i] != GUARD_BYTE) return 0;
    return 1;
}

/* ---- images ---- */

static uint32_t books[BOOKS][WORDS]; /* what lists of calls left */
static uint32_t months_of[BOOKS];    /* t of the sheet last set in each */
static uint32_t fresh[WORDS], before_undo[WORDS];

static uint32_t any_word(void) {
    switch (below(5)) {
    case 0: return odd_number();
    case 1: return below(4);
    case 2: return below(20001);
    case 3: return below(200000001);
    default: return below(65536) << 16 | below(65536);
    }
}

static void damage(uint32_t *image) {
#ifndef TRUSTING
    uint32_t count = 1 + below(one_in(4) ? 40 : 3);
    while (count-- > 0) {
        uint32_t at = 1 + below(WORDS - 1), tries;
        /* most often a word that says something */
        for (tries = 0; tries < 20 && !image[at]; tries++) at = 1 + below(WORDS - 1);
        switch (below(4)) {
        case 0: image[at] ^= 1u << below(32); break;
        case 1: image[at] = image[1 + below(WORDS - 1)]; break;
        case 2: image[at] += below(2) ? 1 : -1; break;
        default: image[at] = any_word();
        }
    }
    if (!one_in(8)) return;
#endif
    image[0] = one_in(2) ? image[0] ^ 1u << below(32) : any_word();
}

static void random_words(uint32_t *image, int keep_mark) {
    uint32_t i, small = below(3);
    for (i = 0; i < WORDS; i++) image[i] = small == 0 ? below(4) : small == 1 ? below(20001) : any_word();
    if (keep_mark) image[0] = fresh[0];
}

/* ---- one call ---- */

enum { FRESH, CHECK, SET, TRIAL, UNDO, PUT, OPEN, ASK, CONFIRM, CLOSE, DROP, DIRECT, BENCHMARK, MAXIMUM, QUOTE, REBATES, KINDS };

static const char *const names[KINDS] = {"fresh", "check", "set",    "trial",     "undo",    "put",   "open",   "ask",
                                         "confirm", "close", "drop", "direct", "benchmark", "maximum", "quote", "rebates"};

static long call_number;
static int kind;

static void fault(const char *what) {
    printf("images: FAULT: call %ld, %s: %s\n", call_number, names[kind], what);
    exit(1);
}

static void no_figures(uint64_t figures) {
    if (figures) fault("a refusal with figures");
}

/* whether slatewhim_check lets the words of the call pass: CONFIRM counts the cells of a place as it stands, and the sets of words that are no
 * book may have any bits */
static int a_book;

static uint32_t opened_answer(slatewhim_opened a) {
    uint32_t i, rest = a.region | a.method | a.t | (a.excess != 0);
    for (i = 0; i < 12; i++) {
        if (a.refusal == 11 && i < a.t ? a.months[i] > 10000 : a.months[i] != 0) fault("months");
    }
    if (a.refusal == 11 ? !a.excess || a.region > 13 || a.method > 1 || a.t < 1 || a.t > 12 || a.cells : rest != 0)
        fault("figures of an opening");
    if (a.refusal ? a.cells != 0 : a.cells > (a_book ? 28u : 32u * 32u)) fault("cells");
    return a.refusal;
}

static uint32_t run_answer(const uint32_t *image, size_t words, uint32_t desk, uint32_t t) {
    slatewhim_account before[MOST_ACCOUNTS], *lent;
    uint32_t count = below(MOST_ACCOUNTS + 1), code = random_code(), i, k;
    uint64_t total = 0;
    slatewhim_run a;
    memset(before, 0, sizeof before);
    for (i = 0; i < count; i++) {
        before[i].code = one_in(3) ? random_code() : code;
        before[i].region = one_in(30) ? odd_number() : below(14);
        before[i].method = one_in(30) ? odd_number() : below(2);
        before[i].count = one_in(20) ? odd_number() : t;
        for (k = 0; k < 12; k++) before[i].months[k] = one_in(100) ? any_word() : below(10001);
        before[i].rebate = 28;
    }
    lent = place_in(&list_room, before, count * sizeof *before);
    a = slatewhim_rebates(image, words, desk, lent, count);
    if (a.refusal) no_figures(a.total);
    if (a.refusal != 18 && a.refusal != 19) no_figures(a.place);
    if (a.place && a.place >= count) fault("a place past the list");
    for (i = 0; i < count; i++) {
        if (!a.refusal) {
            total += lent[i].rebate;
            before[i].rebate = lent[i].rebate;
        }
    }
    if (count && memcmp(lent, before, count * sizeof *before)) fault("an account was changed");
    if (total != a.total) fault("a total that is not the sum");
    if (!guard_stands(&list_room, count * sizeof *before)) fault("written before the list");
    return a.refusal;
}

/* Makes a random call of one kind on the words; its answer. */
static uint32_t make_call(uint32_t *image, size_t words, uint32_t *t) {
    uint32_t desk = random_desk(), code = random_code(), list[99], count = 0, answer = 0, i, year, month, span;
    uint32_t *lent;
    uint32_t region = one_in(30) ? odd_number() : below(14), method = one_in(30) ? odd_number() : below(2);
    switch (kind) {
    case FRESH: return slatewhim_fresh(image, words);
    case CHECK: return slatewhim_check(image, words);
    case SET:
    case TRIAL:
        random_sheet(list);
        list[96] = 0;
        count = one_in(20) ? (one_in(2) ? 95 : one_in(2) ? 97 : 0) : 96;
        year = one_in(30) ? odd_number() : 2018 + below(82);
        month = one_in(30) ? odd_number() : 1 + below(12);
        span = one_in(30) ? odd_number() : 1 + below(12);
        lent = place_in(&list_room, list, count * sizeof *list);
        if (kind == SET) {
            answer = slatewhim_set(image, words, desk, lent, count, year, month, span);
            if (!answer) *t = span;
        } else {
            slatewhim_falling a = slatewhim_trial(image, words, desk, lent, count, year, month, span);
            if (a.refusal) no_figures(a.codes);
            answer = a.refusal;
        }
        break;
    case UNDO: return slatewhim_undo(image, words, desk);
    case PUT:
        random_tariff(list);
        list[27] = 0;
        count = one_in(20) ? (one_in(2) ? 26 : one_in(2) ? 28 : 0) : 27;
        lent = place_in(&list_room, list, count * sizeof *list);
        answer = slatewhim_put(image, words, desk, code, lent, count);
        break;
    case OPEN: return opened_answer(slatewhim_open(image, words, desk, code));
    case ASK: return opened_answer(slatewhim_ask(image, words, desk, code));
    case CONFIRM: return opened_answer(slatewhim_confirm(image, words, desk, code));
    case CLOSE: return slatewhim_close(image, words, desk, code);
    case DROP: return slatewhim_drop(image, words, desk, code);
    case DIRECT: return slatewhim_direct(image, words, desk, code);
    case BENCHMARK: {
        slatewhim_charge a = slatewhim_benchmark(image, words, desk, region, one_in(30) ? odd_number() : below(2), method, below(2));
        if (a.refusal) no_figures(a.mills);
        return a.refusal;
    }
    case MAXIMUM: {
        slatewhim_fraction a = slatewhim_maximum(image, words, desk, region, one_in(30) ? odd_number() : below(2), method,
                                                 one_in(30) ? odd_number() : below(120001));
        if (a.refusal) no_figures(a.number | a.denominator);
        return a.refusal;
    }
    case QUOTE: {
        slatewhim_quotation a;
        count = one_in(20) ? below(14) : *t;
        for (i = 0; i < count; i++) list[i] = one_in(100) ? any_word() : below(10001);
        lent = place_in(&list_room, list, count * sizeof *list);
        a = slatewhim_quote(image, words, desk, code, region, method, lent, count);
        if (a.refusal) no_figures(a.charge | a.maximum);
        answer = a.refusal;
        break;
    }
    default: return run_answer(image, words, desk, *t);
    }
    if (count && memcmp(lent, list, count * sizeof *list)) fault("a lent list was changed");
    if (!guard_stands(&list_room, count * sizeof *list)) fault("written before the list");
    return answer;
}

/* Whether a call of this kind can answer so. */
static int in_its_order(uint32_t answer) {
    static const uint32_t order[KINDS][8] = {{0},
                                             {0},
                                             {17, 1, 2, 3, 4, 14, 5},
                                             {17, 1, 2, 3, 4, 14, 5},
                                             {17, 15},
                                             {6, 7, 8, 17},
                                             {6, 9, 17, 7, 10, 11},
                                             {6, 9, 17, 7, 10, 11},
                                             {6, 9, 17, 7, 16},
                                             {6, 9, 17, 12},
                                             {6, 9, 17, 7},
                                             {17, 6, 9, 7},
                                             {13, 17, 10},
                                             {13, 17, 10},
                                             {6, 9, 10, 13, 17},
                                             {19, 18}};
    int i;
    if (answer == 0 || answer == SLATEWHIM_NO_BOOK) return 1;
    for (i = 0; i < 8; i++)
        if (order[kind][i] == answer) return 1;
    return 0;
}

/* What holds of a book: what is open or marked can be opened as it stands, and after UNDO the same. */
static void promise_holds(const uint32_t *image, int undone) {
    static uint32_t copy[WORDS];
    const uint32_t all = SLATEWHIM_ALL_REGIONS;
    uint32_t code;
    for (code = 1; code <= 32; code++) {
        uint32_t closed;
        memcpy(copy, image, sizeof copy);
        closed = slatewhim_close(copy, WORDS, all, code);
        if (closed == 12 && !slatewhim_confirm(copy, WORDS, all, code).refusal) closed = slatewhim_close(copy, WORDS, all, code);
        if (!closed && slatewhim_open(copy, WORDS, all, code).refusal) fault("open in a book that passed, and cannot be opened");
    }
    memcpy(copy, image, sizeof copy);
    if (undone || slatewhim_undo(copy, WORDS, all)) return;
    if (slatewhim_check(copy, WORDS)) fault("a book became none by UNDO");
    memcpy(before_undo, copy, sizeof copy);
    promise_holds(before_undo, 1);
}

int main(int argc, char **argv) {
    static uint32_t before[WORDS + 1];
    long calls = argc > 1 ? atol(argv[1]) : 1000000, i;
    long sound = 0, damaged = 0, random = 0, lengths = 0, accepted = 0, refused = 0, no_book = 0, passed = 0;
    seed = 28;
    make_room(&book_room, (WORDS + 1) * sizeof(uint32_t));
    make_room(&list_room, MOST_ACCOUNTS * sizeof(slatewhim_account) + 100 * sizeof(uint32_t));
    if (slatewhim_fresh(fresh, WORDS)) fault("no fresh book");
    for (i = 0; i < BOOKS; i++) {
        memcpy(books[i], fresh, sizeof fresh);
        months_of[i] = 3;
    }

    for (call_number = 1; call_number <= calls; call_number++) {
        uint32_t which = below(BOOKS), source = below(10), answer, t = months_of[which], pass;
        size_t words = WORDS, bytes;
        uint32_t *image;
        int whole, reads;
        /* PUT and OPEN more often, so that the books fill */
        kind = one_in(3) ? (int)(one_in(2) ? PUT : OPEN) : (int)below(KINDS);
        if (kind == FRESH && !one_in(20)) kind = OPEN;
        if (one_in(16)) words = one_in(3) ? 0 : one_in(2) ? WORDS - 1 : WORDS + 1;
        memcpy(before, books[which], sizeof fresh);
        before[WORDS] = one_in(2) ? 0 : fresh[0];
        if (source < 4)
            sound++;
        else if (source < 8) {
            damage(before);
            damaged++;
        } else {
#ifdef TRUSTING
            random_words(before, 0);
#else
            random_words(before, !one_in(8));
#endif
            random++;
        }
        whole = words == WORDS && before[0] == fresh[0];
        bytes = words * sizeof(uint32_t);
        image = place_in(&book_room, before, bytes);

        pass = slatewhim_check(image, words);
        a_book = !pass;
        if (pass != 0 && pass != SLATEWHIM_NO_BOOK) fault("an answer of slatewhim_check");
        if (bytes && memcmp(image, before, bytes)) fault("slatewhim_check changed the words");
        if (!whole && !pass) fault("slatewhim_check let another length or mark pass");
        if (whole && source < 4 && pass) fault("slatewhim_check refused what calls left");

        if (!pass && (source >= 4 || one_in(16))) promise_holds(before, 0);
        answer = make_call(image, words, &t);

        reads = kind == CHECK || kind == TRIAL || kind >= BENCHMARK;
        if ((answer || reads) && bytes && memcmp(image, before, bytes)) fault("words were changed");
        if (!guard_stands(&book_room, bytes)) fault("written before the book");
        if (!in_its_order(answer)) fault("an answer that this call has not");
        if (kind == FRESH) {
            if ((words == WORDS) != (answer == 0)) fault("fresh");
            if (!answer && memcmp(image, fresh, sizeof fresh)) fault("another fresh book");
        } else {
            if (!whole && answer != SLATEWHIM_NO_BOOK) fault("another length or mark was taken");
            if (!pass && answer == SLATEWHIM_NO_BOOK) fault("a book that passed is no book");
        }
        if (!answer && (kind == FRESH || !pass) && slatewhim_check(image, words)) fault("a book became none");

        if (source < 4 && !answer && words == WORDS) {
            memcpy(books[which], image, sizeof fresh);
            months_of[which] = t;
        }
        lengths += words != WORDS;
        passed += source >= 4 && !pass;
        accepted += !answer;
        no_book += answer == SLATEWHIM_NO_BOOK;
        refused += answer && answer != SLATEWHIM_NO_BOOK;
    }
    printf("images: %ld calls on %ld books, %ld damaged and %ld random images, %ld of another length; %ld of the images are books; "
           "%ld accepted, %ld refused, %ld no book; nothing outside was touched\n",
           calls, sound, damaged, random, lengths, passed, accepted, refused, no_book);
    return 0;
}
