/* rebates: what the households of tariffs under a direction are owed at the end of a period (document 02, M-108).
 *
 *     rebates [--allow-refused] BOOK ACCOUNTS
 *
 * BOOK is a script of calls as the desk reads them (docs/PROTOCOL.md), or a saved book. ACCOUNTS is a CSV file. The same lines come out
 * with two columns more, the rebate in mills and in pounds. Nothing is written before all of both files has been read and the whole run
 * has been accepted. programs/README.md has the use, the form of the files and every message. */
#define _POSIX_C_SOURCE 200112L /* isatty, fileno */

#include <errno.h>
#include <inttypes.h>
#include <stdarg.h>
#include <stdio.h>
#include <stdlib.h>
#include <string.h>
#include <unistd.h>

#include "slatewhim.h"

#define LONGEST_LINE 16384      /* bytes of a line of a script, as on the desk */
#define FIRST_MONTH 4           /* columns before the months: account, code, region, method */
#define MOST_COLUMNS (FIRST_MONTH + 12)
#define MOST_ACCOUNTS 1000000   /* of a run */
#define MOST_PERIOD 12          /* months of a period */
#define COUNT_EVERY 100000      /* accounts from one count on a terminal to the next */

static const char help[] =
    "rebates: what the households of tariffs under a direction are owed at the end of a period\n"
    "\n"
    "usage: rebates [--allow-refused] BOOK ACCOUNTS\n"
    "       rebates -h, --help\n"
    "\n"
    "BOOK        a script of calls, one a line, as the desk reads them; or a saved book\n"
    "ACCOUNTS    a CSV file with a header: account, code, region, method and 1 to 12 months\n"
    "One of them may be -, which is standard input.\n"
    "\n"
    "--allow-refused    pass over calls of the script that are refused; else the first one ends the program\n"
    "\n"
    "The lines of ACCOUNTS come out on standard output with two columns more: the rebate in mills, and in\n"
    "pounds, rounded up to a penny. The total is on standard error. If anything is wrong, nothing comes out.\n"
    "\n"
    "exit status: 0 done; 1 a refused run or call, a line that is wrong, or output that cannot be written;\n"
    "2 wrong usage, or a file that cannot be read\n";

/* What each refusal means, in the words of docs/REFERENCE.md. */
static const char *const refusals[] = {
    "accepted",
    "the sheet has not 96 fields",
    "a field is outside its range",
    "the period is outside its range",
    "a baseline value times current over initial index is above 100,000,000 mills",
    "some benchmark at m is below the one at nil",
    "the code is not 1 to 32",
    "the place is open",
    "not the record of a tariff",
    "the place is empty",
    "there is no sheet yet",
    "over the cap",
    "the place is not open",
    "an argument is outside its range, or not offered",
    "an operating cost is below zero",
    "nothing to take back",
    "the draft is not marked",
    "outside the desk",
    "the tariff is not open under a direction",
    "quote would refuse the account",
};

static const char *meaning(uint32_t refusal)
{
    if (refusal < sizeof refusals / sizeof *refusals)
        return refusals[refusal];
    return refusal == SLATEWHIM_NO_BOOK ? "the words are no book" : "a refusal that this program does not know";
}

/* ---- messages ---- */

/* A count on a terminal stands in a line that is not ended yet. */

static int counting = 0;

static const char *plural(size_t count)
{
    return count == 1 ? "" : "s";
}

static void begin_message(void)
{
    if (counting)
        fputc('\n', stderr);
    counting = 0;
    fputs("rebates: ", stderr);
}

static void show_count(size_t accounts, const char *what)
{
    if (accounts % COUNT_EVERY != 0 || !isatty(fileno(stderr)))
        return;
    fprintf(stderr, "\rrebates: %zu accounts %s", accounts, what);
    counting = 1;
}

/* Says what is wrong in a line of a file, and ends the program. */
static void wrong_line(const char *file, size_t line, const char *format, ...)
{
    va_list values;

    begin_message();
    fprintf(stderr, "%s:%zu: ", file, line);
    va_start(values, format);
    vfprintf(stderr, format, values);
    va_end(values);
    fputc('\n', stderr);
    exit(1);
}

static void wrong_use(const char *what, const char *word)
{
    begin_message();
    fprintf(stderr, "%s%s\nrebates: usage: rebates [--allow-refused] BOOK ACCOUNTS, or rebates --help\n", what, word);
    exit(2);
}

/* ---- memory and files ---- */

static void *memory(void *old, size_t count, size_t size)
{
    void *new = count <= SIZE_MAX / size ? realloc(old, count * size) : NULL;

    if (new == NULL) {
        begin_message();
        fputs("there is not enough memory\n", stderr);
        exit(1);
    }
    return new;
}

/* A whole file, read once. */
typedef struct text {
    const char *name;
    char *bytes;
    size_t length;
} text;

static text read_file(const char *path)
{
    int standard = strcmp(path, "-") == 0;
    text whole = {standard ? "standard input" : path, NULL, 0};
    size_t room = 65536, got;
    FILE *file;

    errno = 0;
    file = standard ? stdin : fopen(path, "rb");
    if (file != NULL) {
        whole.bytes = memory(NULL, room, 1);
        while ((got = fread(whole.bytes + whole.length, 1, room - whole.length, file)) > 0) {
            whole.length += got;
            if (whole.length == room) {
                whole.bytes = memory(whole.bytes, room, 2);
                room *= 2;
            }
        }
    }
    if (file == NULL || ferror(file)) {
        begin_message();
        fprintf(stderr, "%s: cannot be read: %s\n", whole.name, errno != 0 ? strerror(errno) : "unknown error");
        exit(2);
    }
    if (!standard)
        fclose(file);
    return whole;
}

/* A number is one or more digits, of value 4294967295 at most. */
static int read_number(const char *at, size_t length, uint32_t *number)
{
    uint64_t value = 0;
    size_t i;

    for (i = 0; i < length; i++) {
        if (at[i] < '0' || at[i] > '9')
            return 0;
        value = value * 10 + (uint64_t)(at[i] - '0');
        if (value > UINT32_MAX)
            return 0;
    }
    *number = (uint32_t)value;
    return length > 0;
}

/* ---- the book from a script: docs/PROTOCOL.md ---- */

enum { SET, UNDO, PUT, OPEN, ASK, CONFIRM, CLOSE, DROP, DIRECT, TRIAL, BENCHMARK, MAXIMUM, QUOTE, REBATE, CALLS };

static const struct {
    const char *word;
    size_t least, most; /* how many numbers it takes */
    const char *takes;
} calls[CALLS] = {
    {"set", 3, LONGEST_LINE, "at least 3 numbers"},
    {"undo", 0, 0, "no number"},
    {"put", 1, LONGEST_LINE, "at least 1 number"},
    {"open", 1, 1, "1 number"},
    {"ask", 1, 1, "1 number"},
    {"confirm", 1, 1, "1 number"},
    {"close", 1, 1, "1 number"},
    {"drop", 1, 1, "1 number"},
    {"direct", 1, 1, "1 number"},
    {"trial", 3, LONGEST_LINE, "at least 3 numbers"},
    {"benchmark", 4, 4, "4 numbers"},
    {"maximum", 4, 4, "4 numbers"},
    {"quote", 3, LONGEST_LINE, "at least 3 numbers"},
    {"rebate", 0, LONGEST_LINE, "16 numbers an account"},
};

typedef struct word {
    const char *at;
    size_t length;
} word;

static int is_word(word w, const char *name)
{
    return w.length == strlen(name) && memcmp(w.at, name, w.length) == 0;
}

/* Makes a call on the book, and answers as OPEN does. The questions change nothing, so they are passed over. */
static slatewhim_opened make_call(uint32_t *book, int call, uint32_t desk, const uint32_t *numbers, size_t count)
{
    slatewhim_opened answer = {0, 0, 0, 0, 0, 0, {0}};

    switch (call) {
    case SET:
        answer.refusal =
            slatewhim_set(book, SLATEWHIM_WORDS, desk, numbers + 3, count - 3, numbers[0], numbers[1], numbers[2]);
        break;
    case UNDO: answer.refusal = slatewhim_undo(book, SLATEWHIM_WORDS, desk); break;
    case PUT: answer.refusal = slatewhim_put(book, SLATEWHIM_WORDS, desk, numbers[0], numbers + 1, count - 1); break;
    case OPEN: answer = slatewhim_open(book, SLATEWHIM_WORDS, desk, numbers[0]); break;
    case ASK: answer = slatewhim_ask(book, SLATEWHIM_WORDS, desk, numbers[0]); break;
    case CONFIRM: answer = slatewhim_confirm(book, SLATEWHIM_WORDS, desk, numbers[0]); break;
    case CLOSE: answer.refusal = slatewhim_close(book, SLATEWHIM_WORDS, desk, numbers[0]); break;
    case DROP: answer.refusal = slatewhim_drop(book, SLATEWHIM_WORDS, desk, numbers[0]); break;
    case DIRECT: answer.refusal = slatewhim_direct(book, SLATEWHIM_WORDS, desk, numbers[0]); break;
    default: break;
    }
    return answer;
}

/* Reads the words of a line, of which there is at least one and the first begins no comment, and makes the call. */
static slatewhim_opened do_line(uint32_t *book, const char *file, size_t line, const word *words, size_t count)
{
    static uint32_t numbers[LONGEST_LINE];
    uint32_t desk = SLATEWHIM_ALL_REGIONS;
    size_t first = 0, i;
    int call = 0;

    if (is_word(words[0], "desk")) {
        if (count < 3 || !read_number(words[1].at, words[1].length, &desk))
            wrong_line(file, line, "desk takes a number and a call");
        first = 2;
    }
    while (call < CALLS && !is_word(words[first], calls[call].word))
        call++;
    if (call == CALLS)
        wrong_line(file, line, "unknown call");
    for (i = first + 1; i < count; i++)
        if (!read_number(words[i].at, words[i].length, &numbers[i - first - 1]))
            wrong_line(file, line, "word %zu is not a number from 0 to 4294967295", i + 1);
    count -= first + 1;
    if (count < calls[call].least || count > calls[call].most || (call == REBATE && count % 16 != 0))
        wrong_line(file, line, "%s takes %s", calls[call].word, calls[call].takes);
    return make_call(book, call, desk, numbers, count);
}

static void read_script(uint32_t *book, text script, int allow_refused)
{
    static word words[LONGEST_LINE];
    const char *at = script.bytes, *end = script.bytes + script.length;
    size_t line = 0, refused = 0, first_refused = 0;

    while (at < end) {
        const char *feed = memchr(at, '\n', (size_t)(end - at));
        const char *stop = feed != NULL ? feed : end;
        slatewhim_opened answer;
        size_t count = 0;

        line++;
        if (stop - at > LONGEST_LINE)
            wrong_line(script.name, line, "longer than %d bytes", LONGEST_LINE);
        if (stop > at && stop[-1] == '\r')
            stop--;
        while (at < stop) {
            const char *begin = at;

            while (at < stop && *at != ' ')
                at++;
            if (at > begin) {
                words[count].at = begin;
                words[count++].length = (size_t)(at - begin);
            }
            if (at < stop)
                at++;
        }
        at = feed != NULL ? feed + 1 : end;
        if (count == 0 || words[0].at[0] == '#')
            continue;
        answer = do_line(book, script.name, line, words, count);
        if (answer.refusal == 0)
            continue;
        if (!allow_refused && answer.refusal == 11)
            wrong_line(script.name, line, "refused 11: over the cap, first in region %" PRIu32 " by method %" PRIu32,
                       answer.region, answer.method);
        if (!allow_refused)
            wrong_line(script.name, line, "refused %" PRIu32 ": %s", answer.refusal, meaning(answer.refusal));
        if (refused++ == 0)
            first_refused = line;
    }
    if (refused > 0) {
        begin_message();
        fprintf(stderr, "%s: %zu refused call%s passed over, the first in line %zu\n", script.name, refused, plural(refused),
                first_refused);
    }
}

/* The book of a file. A saved book is known by its mark, which is the first word of a fresh one. */
static void read_book(uint32_t *book, text file, int allow_refused)
{
    uint32_t mark;
    size_t length = SLATEWHIM_WORDS * sizeof *book;

    if (slatewhim_fresh(book, SLATEWHIM_WORDS) != 0) {
        begin_message();
        fputs("the library makes no fresh book\n", stderr);
        exit(1);
    }
    mark = book[0];
    if (file.length == length) {
        memcpy(book, file.bytes, length);
        if (slatewhim_check(book, SLATEWHIM_WORDS) == 0)
            return;
        slatewhim_fresh(book, SLATEWHIM_WORDS);
    }
    if (file.length >= sizeof mark && memcmp(file.bytes, &mark, sizeof mark) == 0) {
        begin_message();
        if (file.length == length)
            fprintf(stderr, "%s: begins as a saved book, and is none that any list of calls leaves\n", file.name);
        else
            fprintf(stderr, "%s: begins as a saved book, and has %zu bytes in place of %zu\n", file.name, file.length, length);
        exit(1);
    }
    read_script(book, file, allow_refused);
}

/* ---- the accounts from a CSV file ---- */

typedef struct cell {
    const char *at; /* without its quotes */
    size_t length;
    size_t line;
} cell;

typedef struct row {
    const char *end; /* where its last cell ends: the new columns go here */
    size_t line;     /* where it begins */
} row;

typedef struct account_list {
    text file;
    const char *at;
    size_t line;
    size_t columns;
    const char *header_end;
    slatewhim_account *accounts;
    row *rows;
    size_t count;
} account_list;

/* A line feed, with or without a carriage return before it, or the end of the file. */
static int at_line_end(const account_list *list)
{
    const char *end = list->file.bytes + list->file.length;
    const char *at = list->at < end && *list->at == '\r' ? list->at + 1 : list->at;

    return at == end || *at == '\n';
}

static cell read_cell(account_list *list)
{
    const char *end = list->file.bytes + list->file.length;
    cell c = {list->at, 0, list->line};

    if (list->at == end || *list->at != '"') {
        while (!at_line_end(list) && *list->at != ',')
            if (*list->at++ == '"')
                wrong_line(list->file.name, list->line, "a quote inside a cell that does not begin with one");
        c.length = (size_t)(list->at - c.at);
        return c;
    }
    c.at = ++list->at;
    /* a quote that belongs to the text is doubled */
    while (list->at < end && (*list->at != '"' || (list->at + 1 < end && list->at[1] == '"'))) {
        list->at += *list->at == '"';
        list->line += *list->at++ == '\n';
    }
    if (list->at == end)
        wrong_line(list->file.name, c.line, "a quote that is not closed");
    c.length = (size_t)(list->at++ - c.at);
    if (!at_line_end(list) && *list->at != ',')
        wrong_line(list->file.name, list->line, "text behind a closing quote");
    return c;
}

/* Reads the cells of a line, and answers how many there are and where the last one ends. Of too many the first are kept. */
static size_t read_row(account_list *list, cell *cells, const char **row_end)
{
    const char *end = list->file.bytes + list->file.length;
    size_t count = 0;

    for (;;) {
        cell c = read_cell(list);

        if (count < MOST_COLUMNS)
            cells[count] = c;
        count++;
        if (at_line_end(list))
            break;
        list->at++; /* the comma */
    }
    *row_end = list->at;
    if (list->at < end && *list->at == '\r')
        list->at++;
    if (list->at < end) {
        list->at++;
        list->line++;
    }
    return count;
}

/* The columns that have a name of their own. Names count in any case. */
static const char *const columns[FIRST_MONTH] = {"account", "code", "region", "method"};

static int has_name(cell c, const char *name)
{
    size_t i;

    if (c.length != strlen(name))
        return 0;
    for (i = 0; i < c.length; i++)
        if (c.at[i] != name[i] && c.at[i] != name[i] - 'a' + 'A')
            return 0;
    return 1;
}

static void read_header(account_list *list)
{
    cell cells[MOST_COLUMNS];
    size_t length = list->file.length, i;

    if (length >= 3 && memcmp(list->at, "\xEF\xBB\xBF", 3) == 0) {
        list->at += 3; /* a byte order mark, as spreadsheets write it before UTF-8 */
        length -= 3;
    }
    if (length == 0)
        wrong_line(list->file.name, 1, "the file is empty; a header is needed");
    list->columns = read_row(list, cells, &list->header_end);
    if (list->columns <= FIRST_MONTH || list->columns > MOST_COLUMNS)
        wrong_line(list->file.name, 1, "%zu column%s in the header; it takes account, code, region, method and 1 to 12 months",
                   list->columns, plural(list->columns));
    for (i = 0; i < FIRST_MONTH; i++)
        if (!has_name(cells[i], columns[i]))
            wrong_line(list->file.name, cells[i].line, "column %zu of the header is not %s", i + 1, columns[i]);
}

/* An account from its cells. The months end with the last cell that is not empty. */
static slatewhim_account read_account(const account_list *list, const cell *cells)
{
    slatewhim_account account = {0, 0, 0, 0, {0}, 0};
    uint32_t numbers[FIRST_MONTH] = {0};
    size_t months = list->columns - FIRST_MONTH, i;

    for (i = 1; i < FIRST_MONTH; i++)
        if (!read_number(cells[i].at, cells[i].length, &numbers[i]))
            wrong_line(list->file.name, cells[i].line, "%s is not a number from 0 to 4294967295", columns[i]);
    account.code = numbers[1];
    account.region = numbers[2];
    account.method = numbers[3];
    cells += FIRST_MONTH;
    while (months > 0 && cells[months - 1].length == 0)
        months--;
    account.count = (uint32_t)months;
    for (i = 0; i < months; i++) {
        if (cells[i].length == 0)
            wrong_line(list->file.name, cells[i].line, "month %zu is empty, and month %zu is not", i + 1, months);
        if (!read_number(cells[i].at, cells[i].length, &account.months[i]))
            wrong_line(list->file.name, cells[i].line, "month %zu is not a number from 0 to 4294967295", i + 1);
    }
    return account;
}

/* Reads and checks the whole file. Past one account too many the others are checked and not kept: they cannot change the answer. */
static account_list read_accounts(text file)
{
    account_list list = {file, file.bytes, 1, 0, NULL, NULL, NULL, 0};
    const char *end = file.bytes + file.length;
    size_t room = 1024;

    read_header(&list);
    list.accounts = memory(NULL, room, sizeof *list.accounts);
    list.rows = memory(NULL, room, sizeof *list.rows);
    while (list.at < end) {
        cell cells[MOST_COLUMNS];
        row r = {NULL, list.line};
        size_t count = read_row(&list, cells, &r.end);
        slatewhim_account account;

        if (count == 1 && cells[0].length == 0)
            wrong_line(file.name, r.line, "an empty line");
        if (count != list.columns)
            wrong_line(file.name, r.line, "%zu column%s, and the header has %zu", count, plural(count), list.columns);
        account = read_account(&list, cells);
        if (list.count > MOST_ACCOUNTS)
            continue;
        if (list.count == room) {
            room *= 2;
            list.accounts = memory(list.accounts, room, sizeof *list.accounts);
            list.rows = memory(list.rows, room, sizeof *list.rows);
        }
        list.accounts[list.count] = account;
        list.rows[list.count++] = r;
        show_count(list.count, "read   ");
    }
    return list;
}

/* ---- a run that is refused ---- */

/* Why QUOTE says 13, in words. It takes months of 0 kWh, as many as the period has, wherever the tariff is offered. */
static void wrong_argument(const uint32_t *book, const char *file, size_t line, slatewhim_account a)
{
    static const uint32_t none[MOST_PERIOD];
    uint32_t t, i;

    for (t = 1; t <= MOST_PERIOD; t++) {
        if (slatewhim_quote(book, SLATEWHIM_WORDS, SLATEWHIM_ALL_REGIONS, a.code, a.region, a.method, none, t).refusal != 0)
            continue;
        if (a.count != t)
            wrong_line(file, line, "refused 19: quote refuses by 13: %" PRIu32 " month%s, and the period has %" PRIu32, a.count,
                       plural(a.count), t);
        for (i = 0; i < t; i++)
            if (a.months[i] > 10000)
                wrong_line(file, line, "refused 19: quote refuses by 13: month %" PRIu32 " is above 10,000 kWh", i + 1);
    }
    wrong_line(file, line, "refused 19: quote refuses by 13: the tariff of code %" PRIu32 " is not offered in region %" PRIu32
               " by method %" PRIu32, a.code, a.region, a.method);
}

static void refused_run(const uint32_t *book, const account_list *list, slatewhim_run run)
{
    slatewhim_account a;
    size_t line;
    uint32_t by;

    if ((run.refusal != 18 && run.refusal != 19) || run.place >= list->count) {
        begin_message();
        fprintf(stderr, "refused %" PRIu32 ": %s\n", run.refusal, meaning(run.refusal));
        exit(1);
    }
    a = list->accounts[run.place];
    line = list->rows[run.place].line;
    if (run.refusal == 18)
        wrong_line(list->file.name, line, "refused 18: the tariff of code %" PRIu32 " is not open under a direction", a.code);
    if (run.place >= MOST_ACCOUNTS)
        wrong_line(list->file.name, line, "refused 19: a run takes 1,000,000 accounts at most");
    by = slatewhim_quote(book, SLATEWHIM_WORDS, SLATEWHIM_ALL_REGIONS, a.code, a.region, a.method, a.months, a.count).refusal;
    if (by == 13)
        wrong_argument(book, list->file.name, line, a);
    wrong_line(list->file.name, line, "refused 19: quote refuses by %" PRIu32 ": %s", by, meaning(by));
}

/* ---- writing ---- */

static void write_bytes(const char *from, const char *to)
{
    fwrite(from, 1, (size_t)(to - from), stdout);
}

static void end_output(void)
{
    int failed = ferror(stdout);

    if (fclose(stdout) != 0 || failed) {
        begin_message();
        fputs("standard output cannot be written\n", stderr);
        exit(1);
    }
}

/* Writes the file with the new columns, and answers the sum in pence. A thousand mills are a penny, and a part of one is paid with one. */
static uint64_t write_rebates(const account_list *list)
{
    const char *from = list->header_end;
    uint64_t sum = 0;
    size_t i;

    write_bytes(list->file.bytes, from);
    fputs(",rebate in mills,rebate in pounds rounded up to a penny", stdout);
    for (i = 0; i < list->count && !ferror(stdout); i++) {
        uint64_t mills = list->accounts[i].rebate;
        uint64_t pence = mills / 1000 + (mills % 1000 != 0);

        write_bytes(from, list->rows[i].end);
        printf(",%" PRIu64 ",%" PRIu64 ".%02" PRIu64, mills, pence / 100, pence % 100);
        from = list->rows[i].end;
        sum += pence;
        show_count(i + 1, "written");
    }
    write_bytes(from, list->file.bytes + list->file.length);
    end_output();
    return sum;
}

int main(int argc, char **argv)
{
    static uint32_t book[SLATEWHIM_WORDS];
    int allow_refused = 0, i = 1;
    slatewhim_run run;
    uint64_t pence;
    text file;
    account_list list;

    for (; i < argc && argv[i][0] == '-' && argv[i][1] != '\0'; i++) {
        if (strcmp(argv[i], "--") == 0) {
            i++;
            break;
        }
        if (strcmp(argv[i], "--help") == 0 || strcmp(argv[i], "-h") == 0) {
            fputs(help, stdout);
            end_output();
            return 0;
        }
        if (strcmp(argv[i], "--allow-refused") != 0)
            wrong_use("there is no option ", argv[i]);
        allow_refused = 1;
    }
    if (argc - i != 2)
        wrong_use("two files are needed, the book and the accounts", "");
    if (strcmp(argv[i], "-") == 0 && strcmp(argv[i + 1], "-") == 0)
        wrong_use("only one of the files can be standard input", "");

    file = read_file(argv[i]);
    read_book(book, file, allow_refused);
    free(file.bytes);
    list = read_accounts(read_file(argv[i + 1]));
    run = slatewhim_rebates(book, SLATEWHIM_WORDS, SLATEWHIM_ALL_REGIONS, list.accounts, list.count);
    if (run.refusal != 0)
        refused_run(book, &list, run);
    pence = write_rebates(&list);
    begin_message();
    fprintf(stderr, "%zu account%s, %" PRIu64 " mills in all; %" PRIu64 ".%02" PRIu64 " pounds, each rounded up to a penny\n",
            list.count, plural(list.count), run.total, pence / 100, pence % 100);
    free(list.file.bytes);
    free(list.accounts);
    free(list.rows);
    return 0;
}
