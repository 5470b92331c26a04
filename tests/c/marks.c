/*
 * Marks handed-in pictures as a marks register would, with the header and the archive only: a page
 * with each candidate's mark, or the reason why a paper has none, and a summary of the marks; then
 * the points of each record, the header, lengths and the refusals of the machine's picture. Prints
 * a line for each failed check and one with the counts.
 */
#include "checks.h"

#include <string.h>

/* A picture, or what is handed in as one; room for a byte too many. */
struct paper {
    uint8_t bytes[HUMDAYEG_MOST_PICTURE_BYTES + 1];
    size_t length;
};

/* The picture after some moves from a start. */
static struct paper replayed(uint8_t p, uint8_t t, uint8_t m, uint8_t b, uint8_t stealing,
                             const uint8_t *moves, size_t length) {
    struct paper paper = {{0}, HUMDAYEG_PICTURE_BYTES(p, t, m)};
    uint32_t place;
    check(humdayeg_replay_with(p, t, m, b, stealing, moves, length, paper.bytes, paper.length,
                               &place) == 0, "the machine's picture");
    return paper;
}

static struct paper k5(void) {
    return replayed(2, 2, 1, 2, 0, K5, sizeof K5);
}

static uint16_t mark(const struct paper *machine, const struct paper *candidate) {
    return humdayeg_mark(machine->bytes, machine->length, candidate->bytes, candidate->length);
}

/* A paper with one byte changed. */
static struct paper with(struct paper paper, size_t at, uint8_t byte) {
    paper.bytes[at] = byte;
    return paper;
}

/* A paper of another length, zeros at its end. */
static struct paper of_length(struct paper paper, size_t length) {
    paper.length = length;
    return paper;
}

static const char *reason(unsigned number) {
    switch (number) {
    case HUMDAYEG_BAD_LENGTH:
        return "wrong length";
    case HUMDAYEG_BAD_FIELD:
        return "wrong field";
    case HUMDAYEG_BAD_CHAIN:
        return "wrong chain";
    case HUMDAYEG_BAD_HOLDER:
        return "wrong holder";
    default:
        return "unknown";
    }
}

/* An entry of the register. */
struct entry {
    const char *name;
    uint16_t answer;
};

/* Room for the longest mark, 100.00, and for what any other number would need. */
#define MARK_TEXT 8

static const char *shown(uint16_t mark, char text[MARK_TEXT]) {
    snprintf(text, MARK_TEXT, "%u.%02u", mark / 100u, mark % 100u);
    return text;
}

/* Writes an entry's line at the end of a page. */
static void enter(const struct entry *entry, char *page, size_t room) {
    size_t at = strlen(page);
    char text[MARK_TEXT];
    if (entry->answer >= HUMDAYEG_MARK_REFUSED)
        snprintf(page + at, room - at, "%-6s no mark: %s\n", entry->name,
                 reason(entry->answer - HUMDAYEG_MARK_REFUSED));
    else
        snprintf(page + at, room - at, "%-6s %6s\n", entry->name, shown(entry->answer, text));
}

/* How many papers are marked, and the mean of their marks, rounded down. */
static uint16_t mean(const struct entry *entries, size_t count, size_t *marked) {
    unsigned long sum = 0;
    *marked = 0;
    for (size_t i = 0; i < count; i++)
        if (entries[i].answer <= HUMDAYEG_FULL_MARK) {
            sum += entries[i].answer;
            ++*marked;
        }
    return *marked == 0 ? 0 : (uint16_t)(sum / *marked);
}

/* The records of K5's picture begin at 8 and 20 (processors), 32 (mutex), 40 and 44 (threads). */
static void a_register(void) {
    static const char wanted[] = "Anna   100.00\n"
                                 "Bela    88.23\n"
                                 "Carl    82.35\n"
                                 "Dora    70.58\n"
                                 "Emil    47.05\n"
                                 "Fred     0.00\n"
                                 "Gina   100.00\n"
                                 "Hugo   no mark: wrong length\n"
                                 "Ida    no mark: wrong length\n"
                                 "Jens   no mark: wrong length\n";
    struct paper machine = k5(), emil = with(with(with(machine, 20, 9), 40, 9), 44, 9);
    struct paper fred = machine;
    memset(fred.bytes + 8, 9, fred.length - 8);
    const struct {
        const char *name;
        struct paper paper;
    } papers[] = {{"Anna", machine},
                  {"Bela", with(machine, 44, 1)},
                  {"Carl", with(machine, 34, 1)},
                  {"Dora", with(machine, 8, 1)},
                  {"Emil", emil},
                  {"Fred", fred},
                  {"Gina", with(machine, 5, 99)},
                  {"Hugo", of_length(machine, machine.length - 1)},
                  {"Ida", of_length(machine, machine.length + 1)},
                  {"Jens", of_length(machine, 0)}};
    struct entry entries[sizeof papers / sizeof papers[0]];
    char page[512] = "";
    size_t count = sizeof papers / sizeof papers[0], marked;
    for (size_t i = 0; i < count; i++) {
        entries[i].name = papers[i].name;
        entries[i].answer = mark(&machine, &papers[i].paper);
        enter(&entries[i], page, sizeof page);
    }
    check(strcmp(page, wanted) == 0, "the register's page");
    check(entries[1].answer == 8823, "one thread of K5 wrong");
    check(mean(entries, count, &marked) == 6974 && marked == 7, "the mean of the papers marked");
    check(mean(entries + 7, 3, &marked) == 0 && marked == 0, "refused papers have no mean");
}

static void texts(void) {
    static const struct {
        uint16_t mark;
        const char *text;
    } rows[] = {{0, "0.00"},     {5, "0.05"},      {70, "0.70"},     {156, "1.56"},
                {909, "9.09"},   {1000, "10.00"},  {4705, "47.05"},  {8823, "88.23"},
                {9999, "99.99"}, {HUMDAYEG_FULL_MARK, "100.00"}};
    for (size_t i = 0; i < sizeof rows / sizeof rows[0]; i++) {
        char text[MARK_TEXT];
        check(strcmp(shown(rows[i].mark, text), rows[i].text) == 0, rows[i].text);
    }
}

/* Each byte of each record alone wrong, each record alone right, and all of them. */
static void points(const struct paper *machine) {
    const unsigned p = machine->bytes[0], t = machine->bytes[1], m = machine->bytes[2];
    const unsigned all = 5 * p + 3 * m + 2 * t;
    struct paper none = *machine;
    for (size_t at = 8; at < none.length; at++)
        none.bytes[at] ^= 0xff;
    check(mark(machine, machine) == HUMDAYEG_FULL_MARK, "all records right");
    check(mark(machine, &none) == 0, "all records wrong");
    for (size_t begin = 8, record = 0, length; begin < machine->length; begin += length, record++) {
        const unsigned worth = record < p ? 5 : record < p + m ? 3 : 2;
        length = record < p ? 12 : record < p + m ? 8 : 4;
        for (size_t at = begin; at < begin + length; at++) {
            struct paper wrong = with(*machine, at, machine->bytes[at] ^ 1);
            check(mark(machine, &wrong) == 10000 * (all - worth) / all, "one byte wrong");
        }
        struct paper right = none;
        memcpy(right.bytes + begin, machine->bytes + begin, length);
        check(mark(machine, &right) == 10000 * worth / all, "one record right");
        right.bytes[begin + length - 1] ^= 1;
        check(mark(machine, &right) == 0, "all of it but a byte");
    }
}

static void tables(void) {
    static const uint8_t rows[][4] = {{1, 1, 1, 1}, {2, 2, 1, 2}, {3, 7, 2, 5}, {8, 1, 1, 1},
                                      {1, 32, 1, 9}, {1, 1, 8, 1}, {8, 32, 8, 32}};
    for (size_t i = 0; i < sizeof rows / sizeof rows[0]; i++)
        for (uint8_t stealing = 0; stealing < 2; stealing++) {
            const uint8_t *s = rows[i];
            struct paper start = replayed(s[0], s[1], s[2], s[3], stealing, K5, 0);
            points(&start);
        }
    struct paper machine = k5(), largest = replayed(8, 32, 8, 32, 0, K5, 0);
    points(&machine);
    struct paper wrong = with(largest, largest.length - 1, 1);
    check(mark(&largest, &wrong) == 9843, "one thread of 128 points");
}

/* The candidate's header may be anything, also other sizes. */
static void headers(void) {
    struct paper machine = k5(), wrong = with(machine, 44, 1);
    for (size_t at = 0; at < 8; at++)
        for (unsigned byte = 0; byte < 256; byte++) {
            struct paper right = with(machine, at, (uint8_t)byte);
            check(mark(&machine, &right) == HUMDAYEG_FULL_MARK, "a header with all records right");
            wrong = with(wrong, at, (uint8_t)byte);
            check(mark(&machine, &wrong) == 8823, "a header with a thread wrong");
        }
}

static int refused(uint16_t answer, unsigned number) {
    return answer == HUMDAYEG_MARK_REFUSED + number;
}

static void lengths(void) {
    struct paper machine = k5();
    const size_t length = machine.length;
    for (size_t other = 0; other <= HUMDAYEG_MOST_PICTURE_BYTES + 1; other++) {
        struct paper paper = of_length(machine, other);
        check(other == length || refused(mark(&machine, &paper), HUMDAYEG_BAD_LENGTH),
              "a candidate's length");
        check(other == length || refused(mark(&paper, &machine), HUMDAYEG_BAD_LENGTH),
              "a machine's length");
        check(other == length || refused(mark(&paper, &paper), HUMDAYEG_BAD_LENGTH),
              "both of a wrong length");
    }
    struct paper other = replayed(2, 3, 1, 2, 0, K5, 0);
    check(refused(mark(&machine, &other), HUMDAYEG_BAD_LENGTH), "a thread more");
    check(refused(mark(&other, &machine), HUMDAYEG_BAD_LENGTH), "a thread less");
}

/* The machine's picture must read; its number comes before that of the candidate's length. */
static void machines(void) {
    struct paper machine = k5(), shorter = of_length(machine, machine.length - 1);
    const struct {
        struct paper paper;
        unsigned number;
        const char *line;
    } rows[] = {{with(machine, 0, 3), HUMDAYEG_BAD_LENGTH, "Kurt   no mark: wrong length\n"},
                {with(machine, 0, 9), HUMDAYEG_BAD_FIELD, "Kurt   no mark: wrong field\n"},
                {with(machine, 1, 0), HUMDAYEG_BAD_FIELD, "Kurt   no mark: wrong field\n"},
                {with(machine, 7, 2), HUMDAYEG_BAD_FIELD, "Kurt   no mark: wrong field\n"},
                {with(machine, 47, 1), HUMDAYEG_BAD_FIELD, "Kurt   no mark: wrong field\n"},
                {with(machine, 3, 1), HUMDAYEG_BAD_CHAIN, "Kurt   no mark: wrong chain\n"},
                {with(with(machine, 44, 1), 45, 0), HUMDAYEG_BAD_CHAIN,
                 "Kurt   no mark: wrong chain\n"},
                {with(with(machine, 44, 5), 45, 0), HUMDAYEG_BAD_HOLDER,
                 "Kurt   no mark: wrong holder\n"}};
    for (size_t i = 0; i < sizeof rows / sizeof rows[0]; i++) {
        const struct paper *broken = &rows[i].paper;
        const unsigned number = rows[i].number;
        check(humdayeg_read(broken->bytes, broken->length) == number, "the number of reading");
        check(refused(mark(broken, &machine), number), "a machine's picture that does not read");
        check(refused(mark(broken, broken), number), "the same handed in");
        check(refused(mark(broken, &shorter), number), "before the candidate's length");
        check(mark(&machine, broken) <= HUMDAYEG_FULL_MARK, "a candidate's need not read");
        const struct entry entry = {"Kurt", mark(broken, &machine)};
        char page[64] = "";
        enter(&entry, page, sizeof page);
        check(strcmp(page, rows[i].line) == 0, rows[i].line);
    }
}

int main(void) {
    a_register();
    texts();
    tables();
    headers();
    lengths();
    machines();
    printf("%u passed, %u failed\n", passed, failed);
    return failed != 0;
}
