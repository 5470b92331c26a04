/*
 * Colours the shared words as a window would: which word each move of a list read and which it
 * wrote. Checks the header's constants, a list with every kind of word, both choices of ready
 * queues, refusals with their places, and buffers of every length. Prints a line for each failed
 * check and one with the counts.
 */
#include "lists.h"

enum { MOST_BYTES = 128 };

struct outcome {
    uint8_t number;
    uint32_t place;
    uint8_t words[MOST_BYTES];
};

static const uint8_t FILL = 0xa5;

/* The words of moves, in a buffer of `room` bytes that held FILL. */
static struct outcome words_in(struct table s, const uint8_t *moves, size_t length, size_t room) {
    struct outcome out;
    memset(out.words, FILL, sizeof out.words);
    out.place = UINT32_MAX;
    out.number = humdayeg_words(s.p, s.t, s.m, s.b, s.stealing, moves, length, out.words, room,
                                &out.place);
    return out;
}

static struct outcome words(struct table s, const uint8_t *moves, size_t length) {
    return words_in(s, moves, length, MOST_BYTES);
}

/* Whether the bytes from `from` on are as they were. */
static int untouched(const struct outcome *out, size_t from) {
    for (size_t i = from; i < sizeof out->words; i++)
        if (out->words[i] != FILL)
            return 0;
    return 1;
}

static int refused(const struct outcome *out, uint8_t number, uint32_t place) {
    return out->number == number && out->place == place && untouched(out, 0);
}

/* Appends what a move touched: `count 2 rw, `. */
static void tell(const uint8_t *touch, char *text, size_t room) {
    static const char *const kinds[] = {"none", "count", "token", "queue", "ready", "birth"};
    const uint8_t read = touch[0], written = touch[2];
    const uint8_t kind = read == HUMDAYEG_WORD_NONE ? written : read;
    const uint8_t number = read == HUMDAYEG_WORD_NONE ? touch[3] : touch[1];
    const size_t length = strlen(text);
    check(kind <= HUMDAYEG_WORD_BIRTH, "a kind of a word");
    check(read == 0 || written == 0 || (read == written && touch[1] == touch[3]),
          "a word that is read and written stands twice");
    check((read != 0) == (touch[1] != 0) && (written != 0) == (touch[3] != 0),
          "no word has the number 0");
    if (kind > HUMDAYEG_WORD_BIRTH || kind == HUMDAYEG_WORD_NONE)
        snprintf(text + length, room - length, "none, ");
    else
        snprintf(text + length, room - length, "%s %u %s%s, ", kinds[kind], number,
                 read != 0 ? "r" : "", written != 0 ? "w" : "");
}

/* Whether all moves are accepted and touch what `wanted` tells, and later bytes are kept. */
static int touches(struct table s, const uint8_t *moves, size_t length, const char *wanted) {
    struct outcome out = words(s, moves, length);
    const size_t written = HUMDAYEG_TOUCH_BYTES * (length / HUMDAYEG_MOVE_BYTES);
    char text[512] = "";
    if (out.number != 0 || out.place != 0 || !untouched(&out, written))
        return 0;
    for (size_t at = 0; at < written; at += HUMDAYEG_TOUCH_BYTES)
        tell(out.words + at, text, sizeof text);
    if (strcmp(text, wanted) != 0)
        printf("%s\n", text);
    return strcmp(text, wanted) == 0;
}

static void constants(void) {
    check(HUMDAYEG_TOUCH_BYTES == 4, "the bytes of what a move touches");
    check(HUMDAYEG_WORD_NONE == 0 && HUMDAYEG_WORD_COUNT == 1 && HUMDAYEG_WORD_TOKEN == 2,
          "the first kinds");
    check(HUMDAYEG_WORD_QUEUE == 3 && HUMDAYEG_WORD_READY == 4 && HUMDAYEG_WORD_BIRTH == 5,
          "the other kinds");
}

static void k5(void) {
    static const char wanted[] =
        "none, none, count 1 rw, count 1 rw, none, count 1 rw, queue 1 r, token 1 w, queue 1 r, "
        "none, queue 1 rw, token 1 r, queue 1 r, token 1 rw, queue 1 rw, none, ";
    check(touches(TWO, K5, sizeof K5, wanted), "K5");
    struct table each = TWO;
    each.stealing = 1;
    check(touches(each, K5, sizeof K5, wanted), "K5 with a ready queue for each");
    struct outcome out = words(TWO, K5, sizeof K5);
    static const uint8_t h5[] = {0, 0, HUMDAYEG_WORD_TOKEN, 1};
    static const uint8_t l1[] = {HUMDAYEG_WORD_COUNT, 1, HUMDAYEG_WORD_COUNT, 1};
    check(memcmp(out.words + 4 * 7, h5, sizeof h5) == 0, "H5 only writes");
    check(memcmp(out.words + 4 * 2, l1, sizeof l1) == 0, "L1 reads and writes");
}

/* Every kind: a create, ready queues, a trylock, tokens; mutex 2 of two. */
static void every_kind(void) {
    static const struct table s = {2, 4, 2, 3, 0}, each = {2, 4, 2, 3, 1};
    static const uint8_t moves[] = {2, 6, 4, 2, 0, 0, 2, 2, 2, 2, 0, 0, 1, 2, 2, 1, 0, 0, 1, 0, 0,
                                    1, 1, 2, 1, 0, 0, 2, 3, 2, 2, 0, 0, 2, 0, 0, 2, 0, 0, 1, 0, 0,
                                    1, 0, 0, 2, 0, 0, 2, 0, 0, 2, 0, 0, 2, 0, 0, 1, 0, 0, 1, 0, 0};
    check(touches(s, moves, sizeof moves,
                  "birth 4 rw, ready 1 rw, none, count 2 rw, none, count 2 r, token 2 r, "
                  "none, count 2 rw, none, count 2 rw, queue 2 r, token 2 w, none, queue 2 rw, "
                  "queue 2 r, token 2 rw, queue 2 rw, ready 1 rw, token 2 r, ready 1 rw, "),
          "every kind of word");
    check(touches(each, moves, sizeof moves,
                  "birth 4 rw, ready 2 rw, none, count 2 rw, none, count 2 r, token 2 r, "
                  "none, count 2 rw, none, count 2 rw, queue 2 r, token 2 w, none, queue 2 rw, "
                  "queue 2 r, token 2 rw, queue 2 rw, ready 2 rw, token 2 r, ready 1 rw, "),
          "every kind of word with a ready queue for each");
}

/* CI2's queue is the one of the probe before it, round from the own one; Y1's is the own one. */
static void looks(void) {
    static const struct table single = {3, 3, 1, 2, 0}, each = {3, 3, 1, 2, 1};
    static const uint8_t moves[] = {3, 0, 0, 3, 0, 0, 3, 0, 0, 3, 0, 0, 2, 4, 0, 2, 0, 0};
    check(touches(single, moves, sizeof moves,
                  "ready 1 r, ready 1 r, ready 1 r, ready 1 r, none, ready 1 r, "),
          "looks at the single ready queue");
    check(touches(each, moves, sizeof moves,
                  "ready 3 r, ready 1 r, ready 2 r, ready 3 r, none, ready 2 r, "),
          "looks at each ready queue");
    static const uint8_t stolen[] = {3, 0, 0, 1, 6, 3, 1, 0, 0, 3, 0, 0, 3, 0, 0};
    check(touches(each, stolen, sizeof stolen,
                  "ready 3 r, birth 3 rw, ready 1 rw, ready 1 rw, none, "),
          "a thread taken from another's queue");
}

static void refusals(void) {
    const uint32_t next = sizeof K5 / 3 + 1;
    for (size_t i = 0; i < REFUSED_COUNT; i++) {
        const struct longer list = after_k5(REFUSED_AFTER_K5[i].move);
        struct outcome out = words(TWO, list.moves, sizeof list.moves);
        check(refused(&out, REFUSED_AFTER_K5[i].number, next),
              "a refused move, its number and place");
    }
    struct outcome out = words(TWO, TWICE, sizeof TWICE);
    check(refused(&out, HUMDAYEG_CALL_AWAY, 2), "the first refused move decides");
    for (size_t left = 1; left <= 2; left++) {
        out = words(TWO, K5, sizeof K5 - left);
        check(refused(&out, HUMDAYEG_BAD_OPERAND, sizeof K5 / 3), "bytes left over");
        out = words_in(TWO, K5, left, 0);
        check(refused(&out, HUMDAYEG_BAD_OPERAND, 1), "nothing but bytes left over");
    }
}

static void tables(void) {
    for (size_t i = 0; i < BAD_TABLE_COUNT; i++) {
        struct outcome out = words(BAD_TABLES[i], K5, sizeof K5);
        check(refused(&out, HUMDAYEG_BAD_TABLE, 0), "a bad table");
        out = words_in(BAD_TABLES[i], K5, 2, 0);
        check(refused(&out, HUMDAYEG_BAD_TABLE, 0), "before bytes left over and a short buffer");
    }
}

/* Every length of the buffer for every number of K5's moves; a refused move comes first. */
static void lengths(void) {
    struct outcome whole = words(TWO, K5, sizeof K5);
    for (size_t count = 0; count <= sizeof K5 / 3; count++)
        for (size_t room = 0; room <= 4 * count + 5; room++) {
            struct outcome out = words_in(TWO, K5, 3 * count, room);
            if (room < 4 * count)
                check(refused(&out, HUMDAYEG_TOO_SHORT, 0), "a buffer too short");
            else
                check(out.number == 0 && out.place == 0 && untouched(&out, 4 * count) &&
                          memcmp(out.words, whole.words, 4 * count) == 0,
                      "a buffer long enough");
        }
    static const uint8_t wrong[] = {1, 1, 1, 1, 1, 1};
    for (size_t room = 0; room < 9; room++) {
        struct outcome out = words_in(TWO, wrong, sizeof wrong, room);
        check(refused(&out, HUMDAYEG_CALL_AWAY, 2), "a refused move before a short buffer");
    }
}

/* Processor 2 has no thread and looks 4,000 times; the move after them is refused. */
static void most_moves(void) {
    static const struct table s = {2, 1, 1, 1, 1};
    static uint8_t moves[3 * (HUMDAYEG_MOST_MOVES + 1)], all[4 * HUMDAYEG_MOST_MOVES];
    uint32_t place = UINT32_MAX;
    for (size_t i = 0; i <= HUMDAYEG_MOST_MOVES; i++)
        moves[3 * i] = 2;
    check(humdayeg_words(s.p, s.t, s.m, s.b, s.stealing, moves, sizeof moves, all, sizeof all,
                         &place) == HUMDAYEG_FULL && place == HUMDAYEG_MOST_MOVES + 1,
          "the 4,001st move");
    check(humdayeg_words(s.p, s.t, s.m, s.b, s.stealing, moves, sizeof moves - 3, all,
                         sizeof all - 1, &place) == HUMDAYEG_TOO_SHORT && place == 0,
          "4,000 moves and a byte too few");
    check(all[0] == 0 && all[sizeof all - 2] == 0, "refused, nothing is written");
    check(humdayeg_words(s.p, s.t, s.m, s.b, s.stealing, moves, sizeof moves - 3, all, sizeof all,
                         &place) == 0 && place == 0,
          "4,000 moves");
    int right = 1;
    for (size_t i = 0; i < HUMDAYEG_MOST_MOVES; i++) {
        const uint8_t look[] = {HUMDAYEG_WORD_READY, i % 2 == 0 ? 2 : 1, 0, 0};
        right = right && memcmp(all + 4 * i, look, sizeof look) == 0;
    }
    check(right, "4,000 looks in turn");
}

int main(void) {
    constants();
    k5();
    every_kind();
    looks();
    refusals();
    tables();
    lengths();
    most_moves();
    printf("%u passed, %u failed\n", passed, failed);
    return failed != 0;
}
