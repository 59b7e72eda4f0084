/*
 * worked_calls FILE CASES ...: makes every call of each file of worked calls, and compares its whole answer with the one that stands there.
 * tests/vectors/README.md says what a case is.
 * Exits with 1 where an answer is another, where a file does not have so many cases, or where a line of one is not understood.
 */
#include <errno.h>
#include <stdlib.h>
#include <string.h>

#include "checks.h"

enum { MOST_LINES = 64, MOST_LISTS = 64, DECIMAL = 10, BITS = 16 };

/* What an answer list holds before a call, byte by byte. */
enum { UNWRITTEN = 0xa5 };

/* The case at hand: where it stands, its lines, and the lists made for it. */
static const char *file;
static int cases;
static struct {
    const char *name, *values;
    int read;
} lines[MOST_LINES];
static size_t lines_count, lists_count;
static void *lists[MOST_LISTS];

static void stop(const char *what, const char *of) {
    printf("%s, case %d: %s %s\n", file, cases, what, of);
    exit(1);
}

/* ---- The values of a line ---- */

static const char *values_of(const char *name) {
    size_t j;
    for (j = 0; j < lines_count; j++) {
        if (strcmp(lines[j].name, name) == 0) {
            lines[j].read = 1;
            return lines[j].values;
        }
    }
    stop("there is no line", name);
    return NULL;
}

/* A list of this many bytes that lasts as long as the case. */
static void *list_of(size_t bytes) {
    void *list = malloc(bytes > 0 ? bytes : 1);
    if (list == NULL || lists_count == MOST_LISTS) {
        stop("no room for", "its lists");
    }
    return lists[lists_count++] = list;
}

/* The bits of the number at the start of the text, which then starts behind it. */
static uint64_t next_bits(const char *name, const char **text, int base) {
    char *end;
    uint64_t bits;
    errno = 0;
    bits = base == BITS ? strtoumax(*text, &end, base) : (uint64_t)strtoimax(*text, &end, base);
    if (errno != 0 || end == *text || (base == BITS && end != *text + 16) || (*end != ' ' && *end != '\0')) {
        stop("no number in", name);
    }
    *text = *end == ' ' ? end + 1 : end;
    return bits;
}

/* The bits of every number of a line: decimal numbers, or floats as 16 hexadecimal digits. */
static uint64_t *bits_of(const char *name, int base, size_t *count) {
    const char *text = values_of(name);
    uint64_t *list = list_of((strlen(text) / 2 + 1) * sizeof *list);
    for (*count = 0; *text != '\0'; ++*count) {
        list[*count] = next_bits(name, &text, base);
    }
    return list;
}

/* A list to lend has its own length and no more, so that a tool which watches memory sees what is read or written beyond it. */
static int64_t *numbers(const char *name, size_t *count) {
    const uint64_t *bits = bits_of(name, DECIMAL, count);
    return memcpy(list_of(*count * sizeof *bits), bits, *count * sizeof *bits);
}

static double *floats(const char *name, size_t *count) {
    const uint64_t *bits = bits_of(name, BITS, count);
    return memcpy(list_of(*count * sizeof *bits), bits, *count * sizeof *bits);
}

static uint8_t *kinds(const char *name, size_t *count) {
    const uint64_t *bits = bits_of(name, DECIMAL, count);
    uint8_t *list = list_of(*count);
    size_t j;
    for (j = 0; j < *count; j++) {
        list[j] = (uint8_t)bits[j];
        if (list[j] != bits[j]) {
            stop("no byte in", name);
        }
    }
    return list;
}

/* The numbers of a line that has so many. */
static const int64_t *exactly(size_t wanted, const char *name) {
    size_t count;
    const int64_t *list = numbers(name, &count);
    if (count != wanted) {
        stop("another count of numbers in", name);
    }
    return list;
}

static void *unwritten(int64_t count) {
    void *list = list_of((size_t)count * sizeof(uint64_t));
    return memset(list, UNWRITTEN, (size_t)count * sizeof(uint64_t));
}

/* ---- Answers ---- */

/* Prints the first number that is another. */
static void check_numbers(const char *name, int base, const void *answered, size_t count) {
    size_t wanted, j;
    const uint64_t *expected = bits_of(name, base, &wanted);
    const uint64_t *bits = memcpy(list_of(count * sizeof *bits), answered, count * sizeof *bits);
    if (count != wanted) {
        stop("another length than its room in", name);
    }
    for (j = 0; j < count && bits[j] == expected[j]; j++) {
    }
    if (j == count) {
        return;
    }
    failed = 1;
    printf("%s, case %d: %s at %d is ", file, cases, name, (int)j);
    if (base == BITS) {
        printf("%016" PRIx64 ", not %016" PRIx64 "\n", bits[j], expected[j]);
    } else {
        printf("%" PRId64 ", not %" PRId64 "\n", (int64_t)bits[j], (int64_t)expected[j]);
    }
}

static void check_answer(juniperprow_verdict verdict) {
    const int64_t answer[] = {verdict.number, verdict.accident_year, verdict.development_year};
    check_numbers("answer", DECIMAL, answer, COUNT(answer));
}

/* ---- The calls, each with the lines that its cases have ---- */

static void workbook(void) {
    size_t payment_kinds_count, payments_count, adjustment_kinds_count, adjustments_count, weights_count, openings_count;
    const int64_t years = *exactly(1, "years"), cut = *exactly(1, "cut"), *room = exactly(2, "room");
    const uint8_t *payment_kinds = kinds("payment_kinds", &payment_kinds_count);
    const double *cell_payments = floats("payments", &payments_count);
    const uint8_t *adjustment_kinds = kinds("adjustment_kinds", &adjustment_kinds_count);
    const double *cell_adjustments = floats("adjustments", &adjustments_count);
    const int64_t *lent_weights = numbers("weights", &weights_count), *openings = numbers("openings", &openings_count);
    int64_t *future = unwritten(room[0]);
    double *reserve_pairs = unwritten(room[1]);
    check_answer(juniperprow_workbook_reserve(years, cut, payment_kinds, payment_kinds_count, cell_payments, payments_count,
        adjustment_kinds, adjustment_kinds_count, cell_adjustments, adjustments_count, lent_weights, weights_count, openings, openings_count,
        future, (size_t)room[0], reserve_pairs, (size_t)room[1]));
    check_numbers("future", DECIMAL, future, (size_t)room[0]);
    check_numbers("reserve_pairs", BITS, reserve_pairs, (size_t)room[1]);
}

static const struct {
    const char *name;
    void (*make)(void);
} calls[] = {{"workbook", workbook}};

/* ---- Files ---- */

/* Makes the call of the case at hand. Every line of it has to be read. */
static void make_call(void) {
    const char *name = values_of("call");
    size_t j;
    for (j = 0; j < COUNT(calls) && strcmp(calls[j].name, name) != 0; j++) {
    }
    if (j == COUNT(calls)) {
        stop("there is no call", name);
    }
    calls[j].make();
    for (j = 0; j < lines_count; j++) {
        if (!lines[j].read) {
            stop("nothing reads the line", lines[j].name);
        }
    }
    while (lists_count > 0) {
        free(lists[--lists_count]);
    }
}

/* The whole text of the file. */
static char *text_of_file(void) {
    FILE *opened = fopen(file, "rb");
    size_t length = 0, room = 1 << 16, got;
    char *text = NULL;
    if (opened == NULL) {
        perror(file);
        exit(1);
    }
    do {
        room *= 2;
        text = realloc(text, room);
        if (text == NULL) {
            stop("no room for", "the text");
        }
        got = fread(text + length, 1, room - length - 1, opened);
        length += got;
    } while (got > 0);
    if (ferror(opened)) {
        stop("a text that cannot be read,", file);
    }
    fclose(opened);
    text[length] = '\0';
    return text;
}

/* Parts a line into its name and its values, and adds it to the case. */
static void add_line(char *line) {
    char *space = strchr(line, ' ');
    if (lines_count == MOST_LINES) {
        stop("too many lines before", line);
    }
    if (space != NULL) {
        *space = '\0';
    }
    lines[lines_count].name = line;
    lines[lines_count].values = space != NULL ? space + 1 : "";
    lines[lines_count].read = 0;
    lines_count++;
}

/* Makes the calls of all cases, which are blocks of lines parted by empty lines. */
static void make_calls(void) {
    char *const text = text_of_file();
    char *line = text, *end;
    for (cases = 0, lines_count = 0; line != NULL; line = end) {
        end = strchr(line, '\n');
        if (end != NULL) {
            *end++ = '\0';
        }
        if (*line != '\0') {
            cases += lines_count == 0;
            add_line(line);
        } else if (lines_count > 0) {
            make_call();
            lines_count = 0;
        }
    }
    if (lines_count > 0) {
        make_call();
    }
    free(text);
}

int main(int count, char **arguments) {
    char seen[64];
    int all = 0, j;
    if (count < 3 || count % 2 == 0) {
        printf("usage: worked_calls FILE CASES ...\n");
        return 2;
    }
    for (j = 1; j < count; j += 2) {
        file = arguments[j];
        make_calls();
        check("the number of cases in a file", cases, strtol(arguments[j + 1], NULL, DECIMAL));
        all += cases;
    }
    check("whether there is any case", all > 0, 1);
    sprintf(seen, "%d worked calls are answered as they stand there", all);
    return finished(seen);
}
