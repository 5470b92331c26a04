/*
 * Asks whether neighbouring moves may change places, as a window for the second term would. Checks
 * every place of some lists with both choices of ready queues, the pictures with neighbours
 * exchanged, which are the same where they may and others in worked pairs where they may not, and
 * refusals with their places and order. Prints a line for each failed check and one with the counts.
 */
#include "lists.h"

struct outcome {
    uint8_t answer;
    uint32_t place;
};

static struct outcome ask(struct table s, const uint8_t *moves, size_t length, uint32_t first) {
    struct outcome out = {UINT8_MAX, UINT32_MAX};
    out.answer = humdayeg_independent(s.p, s.t, s.m, s.b, s.stealing, moves, length, first,
                                      &out.place);
    return out;
}

static int answers(struct outcome out, uint8_t answer) {
    return out.answer == answer && out.place == 0;
}

static int refused(struct outcome out, uint8_t number, uint32_t place) {
    return out.answer == HUMDAYEG_REFUSED + number && out.place == place;
}

enum { MOST_LIST = 60 };

/* Moves of a list and the picture after them. */
struct played {
    uint8_t moves[MOST_LIST], picture[HUMDAYEG_MOST_PICTURE_BYTES];
};

static void replay(struct table s, struct played *list, size_t length) {
    uint32_t place = UINT32_MAX;
    memset(list->picture, 0, sizeof list->picture);
    check(humdayeg_replay_with(s.p, s.t, s.m, s.b, s.stealing, list->moves, length, list->picture,
                               sizeof list->picture, &place) == 0 && place == 0,
          "every move is accepted");
}

static struct played play(struct table s, const uint8_t *moves, size_t length) {
    struct played list;
    memcpy(list.moves, moves, length);
    replay(s, &list, length);
    return list;
}

/* The list with the moves at `first` and behind it exchanged. */
static struct played exchange(struct table s, struct played list, size_t length, uint32_t first) {
    uint8_t *earlier = list.moves + HUMDAYEG_MOVE_BYTES * (first - 1);
    for (size_t i = 0; i < HUMDAYEG_MOVE_BYTES; i++) {
        const uint8_t byte = earlier[i];
        earlier[i] = earlier[i + HUMDAYEG_MOVE_BYTES];
        earlier[i + HUMDAYEG_MOVE_BYTES] = byte;
    }
    replay(s, &list, length);
    return list;
}

static int same_picture(const struct played *list, const struct played *other) {
    return memcmp(list->picture, other->picture, sizeof list->picture) == 0;
}

/* Asks at every place of a list; `wanted` has a digit for each. Those that may are exchanged. */
static void at_every_place(struct table s, const uint8_t *moves, size_t length,
                           const char *wanted) {
    const struct played list = play(s, moves, length);
    const uint32_t last = (uint32_t)(length / HUMDAYEG_MOVE_BYTES);
    check(strlen(wanted) == last - 1, "a digit for each place");
    for (uint32_t first = 1; first < last; first++) {
        const uint8_t may = wanted[first - 1] == '1';
        check(answers(ask(s, moves, length, first), may), "the answer at a place");
        if (may) {
            const struct played other = exchange(s, list, length, first);
            check(same_picture(&list, &other), "exchanged, the picture is the same");
            check(answers(ask(s, other.moves, length, first), 1), "they may change back");
        }
    }
    check(refused(ask(s, moves, length, 0), HUMDAYEG_BAD_OPERAND, 0), "places count from 1");
    check(refused(ask(s, moves, length, last), HUMDAYEG_BAD_OPERAND, 0), "no move after the last");
}

static const struct table TWO_EACH = {2, 2, 1, 2, 1};

static void k5(void) {
    /* lock, lock, L1, L1, unlock, U1, H2, H5, H6; L3 to L10. */
    at_every_place(TWO, K5, sizeof K5, "110100001000000");
    at_every_place(TWO_EACH, K5, sizeof K5, "110100001000000");
    check(HUMDAYEG_REFUSED == 200, "what is added to a refusal's number");
}

/* Where the records of processor 1 and of the only mutex begin in the picture of TWO. */
enum { PROCESSOR = 8, MUTEX = 8 + 2 * 12, AT_H3 = 17, AT_H5 = 18 };

/* Thread 1 unlocks, thread 2 is about to wait: U1 and L4, and then H2 and L4. */
static void hand_off(void) {
    static const uint8_t apart[] = {1, 1, 1, 1, 0, 0, 2, 1, 1, 2, 0, 0,
                                    2, 0, 0, 1, 3, 1, 1, 0, 0, 2, 0, 0};
    static const uint8_t close[] = {1, 1, 1, 1, 0, 0, 2, 1, 1, 2, 0, 0, 2, 0, 0,
                                    1, 3, 1, 1, 0, 0, 1, 0, 0, 2, 0, 0};
    at_every_place(TWO, apart, sizeof apart, "0100101");
    at_every_place(TWO_EACH, apart, sizeof apart, "0100101");
    at_every_place(TWO, close, sizeof close, "01001000");
    const struct played list = play(TWO, close, sizeof close);
    const struct played other = exchange(TWO, list, sizeof close, 8);
    check(list.picture[PROCESSOR] == AT_H5 && other.picture[PROCESSOR] == AT_H3,
          "H2 finds the queue empty before L4, and thread 2 in it after L4");
    check(list.picture[MUTEX + 1] == 2 && list.picture[MUTEX + 2] == 0, "thread 2 waits");
    check(other.picture[MUTEX + 1] == 0 && other.picture[MUTEX + 2] == 2, "thread 2 owns it");
    check(answers(ask(TWO, other.moves, sizeof close, 8), 0), "they may not change back");
}

/* Thread 1 locks and thread 2 makes a call, lock or trylock: the first to count owns the mutex. */
static void first_come(uint8_t call) {
    const uint8_t moves[] = {1, 1, 1, 2, call, 1, 1, 0, 0, 2, 0, 0};
    at_every_place(TWO, moves, sizeof moves, "110");
    const struct played list = play(TWO, moves, sizeof moves);
    const struct played other = exchange(TWO, list, sizeof moves, 3);
    check(list.picture[MUTEX] == (call == 1 ? 2 : 1), "a failed trylock does not count");
    check(other.picture[MUTEX] == 2, "a lock does");
    check(list.picture[MUTEX + 2] == 1 && other.picture[MUTEX + 2] == 2, "either owns it");
}

static void locks(void) {
    first_come(1);
    first_come(2);
    static const struct table mutexes = {2, 2, 2, 2, 0};
    static const uint8_t different[] = {1, 1, 1, 2, 1, 2, 1, 0, 0, 2, 0, 0};
    at_every_place(mutexes, different, sizeof different, "111");
}

/* Two processors create a thread each: a ready queue is written by both, or by one alone. */
static void creates(void) {
    static const struct table single = {2, 4, 1, 2, 0}, each = {2, 4, 1, 2, 1};
    static const uint8_t moves[] = {1, 6, 4, 2, 6, 3, 1, 0, 0, 2, 0, 0};
    at_every_place(single, moves, sizeof moves, "110");
    at_every_place(each, moves, sizeof moves, "111");
    const struct played list = play(single, moves, sizeof moves);
    const struct played other = exchange(single, list, sizeof moves, 3);
    check(list.picture[3] == 4 && other.picture[3] == 3, "whose thread is the first");
}

static const uint32_t PLACES[] = {0, 1, 2, 15, 16, 17, UINT16_MAX + 1, UINT32_MAX - 1, UINT32_MAX};

enum { PLACE_COUNT = sizeof PLACES / sizeof PLACES[0] };

/* The table, then the first refused move, whatever the place. */
static void refusals(uint32_t first) {
    const uint32_t last = sizeof K5 / 3;
    for (size_t i = 0; i < BAD_TABLE_COUNT; i++) {
        check(refused(ask(BAD_TABLES[i], K5, sizeof K5, first), HUMDAYEG_BAD_TABLE, 0),
              "a bad table");
        check(refused(ask(BAD_TABLES[i], TWICE, 2, first), HUMDAYEG_BAD_TABLE, 0),
              "before bytes left over");
    }
    for (size_t i = 0; i < REFUSED_COUNT; i++) {
        const struct longer list = after_k5(REFUSED_AFTER_K5[i].move);
        check(refused(ask(TWO, list.moves, sizeof list.moves, first), REFUSED_AFTER_K5[i].number,
                      last + 1),
              "a refused move, its number and place");
    }
    check(refused(ask(TWO, TWICE, sizeof TWICE, first), HUMDAYEG_CALL_AWAY, 2),
          "the first refused move decides");
    for (size_t left = 1; left <= 2; left++) {
        check(refused(ask(TWO, K5, sizeof K5 - left, first), HUMDAYEG_BAD_OPERAND, last),
              "bytes left over");
        check(refused(ask(TWO, K5, left, first), HUMDAYEG_BAD_OPERAND, 1),
              "nothing but bytes left over");
    }
    check(refused(ask(TWO, K5, 0, first), HUMDAYEG_BAD_OPERAND, 0), "no moves");
    check(refused(ask(TWO, K5, 3, first), HUMDAYEG_BAD_OPERAND, 0), "one move");
    if (first == 0 || first >= last)
        check(refused(ask(TWO, K5, sizeof K5, first), HUMDAYEG_BAD_OPERAND, 0), "no such place");
    if (first != 1)
        check(refused(ask(TWO, K5, 6, first), HUMDAYEG_BAD_OPERAND, 0), "two moves, one place");
}

/* Processors 2 and 3 have no thread and look 4,000 times in turn; looks alone may change places. */
static void most_moves(void) {
    static const struct table s = {3, 1, 1, 1, 0};
    static uint8_t moves[3 * (HUMDAYEG_MOST_MOVES + 1)];
    const size_t most = sizeof moves - 3;
    for (size_t i = 0; i <= HUMDAYEG_MOST_MOVES; i++)
        moves[3 * i] = i % 2 == 0 ? 2 : 3;
    check(answers(ask(s, moves, most, 1), 1), "the first place of 4,000");
    check(answers(ask(s, moves, most, HUMDAYEG_MOST_MOVES - 1), 1), "the last place");
    check(refused(ask(s, moves, most, HUMDAYEG_MOST_MOVES), HUMDAYEG_BAD_OPERAND, 0),
          "no move after the last of 4,000");
    check(refused(ask(s, moves, sizeof moves, 1), HUMDAYEG_FULL, HUMDAYEG_MOST_MOVES + 1),
          "the 4,001st move");
    moves[most - 3] = 2;
    check(answers(ask(s, moves, most, HUMDAYEG_MOST_MOVES - 1), 0), "two looks of one processor");
}

int main(void) {
    k5();
    hand_off();
    locks();
    creates();
    for (size_t i = 0; i < PLACE_COUNT; i++)
        refusals(PLACES[i]);
    most_moves();
    printf("%u passed, %u failed\n", passed, failed);
    return failed != 0;
}
