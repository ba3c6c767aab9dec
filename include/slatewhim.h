/* Slatewhim: a tariff book that cannot open a tariff above the cap of draft licence condition 28AD.
 *
 * The book is SLATEWHIM_WORDS words of 32 bits that the caller owns. They are opaque; they may be copied, saved and compared byte for
 * byte: two books are the same exactly where their words are. The first word is a mark with the version of the layout. The library keeps
 * nothing of its own: no heap, no globals. Two threads may use two books at the same time, or read one.
 *
 * Every call takes the book as a pointer and its number of words. Pointers must not be NULL, also of an empty list, and lists that are
 * handed to one call must not overlap. A call answers 0 or the number of the refusal (docs/REFERENCE.md says what each means), and a
 * refused call changes nothing. SLATEWHIM_NO_BOOK is the answer for words that are no book: of another length or without the mark of this
 * version, before every other answer; or with numbers that the call cannot work with. Any words at all are safe; slatewhim_check tells
 * whether they are a book.
 *
 * `desk` is the set of the calling desk's regions, bit i for region i; SLATEWHIM_ALL_REGIONS is a desk with all fourteen. */
#ifndef SLATEWHIM_H
#define SLATEWHIM_H

#include <stddef.h>
#include <stdint.h>

#ifdef __cplusplus
extern "C" {
#endif

#define SLATEWHIM_WORDS 1279         /* words of a book */
#define SLATEWHIM_FIELDS 96          /* numbers of a sheet */
#define SLATEWHIM_RECORD 27          /* numbers of a tariff */
#define SLATEWHIM_ALL_REGIONS 16383u /* a desk with all fourteen regions */
#define SLATEWHIM_NO_BOOK 100u       /* the words are no book */

/* What OPEN, ASK and CONFIRM answer: 0 and the number of cells; or a refusal. With refusal 11 the first cell that exceeds, t months of
 * greatest excess there in the first t places, and their excess, times 12,000 x m. What is not named is 0. */
typedef struct slatewhim_opened {
    uint32_t refusal;
    uint32_t cells;
    uint32_t region;
    uint32_t method;
    uint64_t excess;
    uint32_t t;
    uint32_t months[12];
} slatewhim_opened;

/* What TRIAL answers: 0 and the codes that would become drafts, bit code - 1 of each; or a refusal and 0. */
typedef struct slatewhim_falling {
    uint32_t refusal;
    uint32_t codes;
} slatewhim_falling;

/* What BENCHMARK answers: 0 and the charge in mills; or a refusal and 0. */
typedef struct slatewhim_charge {
    uint32_t refusal;
    uint32_t mills;
} slatewhim_charge;

/* What MAXIMUM answers: 0 and the maximum in mills as a fraction, number / denominator, where the denominator is 12 x m; or a refusal
 * and zeros. */
typedef struct slatewhim_fraction {
    uint32_t refusal;
    uint64_t number;
    uint64_t denominator;
} slatewhim_fraction;

/* What QUOTE answers: 0, the charge and the maximum in mills, both times 12,000 x m; or a refusal and zeros. */
typedef struct slatewhim_quotation {
    uint32_t refusal;
    uint64_t charge;
    uint64_t maximum;
} slatewhim_quotation;

/* An account of a rebate run: count says how many of the twelve months are used. The run writes the rebate, in mills. */
typedef struct slatewhim_account {
    uint32_t code;
    uint32_t region;
    uint32_t method;
    uint32_t count;
    uint32_t months[12];
    uint64_t rebate;
} slatewhim_account;

/* What a rebate run answers: 0 and the total in mills; or a refusal and, with 18 and 19, the place of the first such account, from 0. */
typedef struct slatewhim_run {
    uint32_t refusal;
    uint64_t place;
    uint64_t total;
} slatewhim_run;

/* Makes the words a fresh book: no sheet, all places empty. */
uint32_t slatewhim_fresh(uint32_t *book, size_t words);

/* 0 where the words are a book that some list of calls on a fresh one leaves, else SLATEWHIM_NO_BOOK: for words from a file. */
uint32_t slatewhim_check(const uint32_t *book, size_t words);

/* SET: puts a sheet of 96 numbers in force for `months` months from `month` of `year`. Open tariffs that exceed under it become drafts. */
uint32_t slatewhim_set(uint32_t *book, size_t words, uint32_t desk, const uint32_t *fields, size_t count, uint32_t year,
                       uint32_t month, uint32_t months);

/* TRIAL: which open tariffs that SET would make drafts. The book stays as it is. */
slatewhim_falling slatewhim_trial(const uint32_t *book, size_t words, uint32_t desk, const uint32_t *fields, size_t count,
                                  uint32_t year, uint32_t month, uint32_t months);

/* UNDO: takes back the last SET, as long as no call on a code was accepted since. */
uint32_t slatewhim_undo(uint32_t *book, size_t words, uint32_t desk);

/* PUT: puts a tariff of 27 numbers into the place of a code, 1 to 32, as a draft. */
uint32_t slatewhim_put(uint32_t *book, size_t words, uint32_t desk, uint32_t code, const uint32_t *tariff, size_t count);

/* OPEN: opens a draft that is nowhere over the cap. */
slatewhim_opened slatewhim_open(uint32_t *book, size_t words, uint32_t desk, uint32_t code);

/* ASK: the same checks; marks the draft for CONFIRM. */
slatewhim_opened slatewhim_ask(uint32_t *book, size_t words, uint32_t desk, uint32_t code);

/* CONFIRM: opens a marked draft. */
slatewhim_opened slatewhim_confirm(uint32_t *book, size_t words, uint32_t desk, uint32_t code);

/* CLOSE: makes an open tariff a draft again. */
uint32_t slatewhim_close(uint32_t *book, size_t words, uint32_t desk, uint32_t code);

/* DROP: empties the place of a draft. */
uint32_t slatewhim_drop(uint32_t *book, size_t words, uint32_t desk, uint32_t code);

/* DIRECT: puts a draft under a direction: it may then be opened above the cap, and households are repaid. */
uint32_t slatewhim_direct(uint32_t *book, size_t words, uint32_t desk, uint32_t code);

/* BENCHMARK: the Benchmark Maximum Charge of a region, arrangement (0 single-rate, 1 Economy 7), method and level (0 nil, 1 m). */
slatewhim_charge slatewhim_benchmark(const uint32_t *book, size_t words, uint32_t desk, uint32_t region, uint32_t arrangement,
                                     uint32_t method, uint32_t level);

/* MAXIMUM: the Relevant Maximum Charge of a region, arrangement and method for a total of 0 to 120,000 kWh. */
slatewhim_fraction slatewhim_maximum(const uint32_t *book, size_t words, uint32_t desk, uint32_t region, uint32_t arrangement,
                                     uint32_t method, uint32_t total);

/* QUOTE: what the tariff of a code charges for `count` months in a region by a method, beside the maximum. */
slatewhim_quotation slatewhim_quote(const uint32_t *book, size_t words, uint32_t desk, uint32_t code, uint32_t region,
                                    uint32_t method, const uint32_t *months, size_t count);

/* The rebate run over `count` accounts, 1,000,000 at most: writes into each account the rebate due, or, where it is refused, nothing. */
slatewhim_run slatewhim_rebates(const uint32_t *book, size_t words, uint32_t desk, slatewhim_account *accounts, size_t count);

#ifdef __cplusplus
}
#endif

#endif
