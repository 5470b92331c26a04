/*
 * Uses the header and the archive as a C program would, and checks the answers that the scope
 * prints: the start picture, session S with K5, refusals with their places, buffer lengths,
 * reading, a ready queue for each processor, exits by owners, turns ahead and classes. Prints a
 * line for each failed check and one with the counts.
 */
#include "checks.h"

#include <string.h>

/* A start table. */
struct table {
    uint8_t p, t, m, b;
};

static const struct table ONE = {1, 1, 1, 1}, TWO = {2, 2, 1, 2}, LARGEST = {8, 32, 8, 32};

struct outcome {
    uint8_t number;
    uint32_t place;
    uint8_t picture[HUMDAYEG_MOST_PICTURE_BYTES];
};

static const uint8_t FILL = 0xa5;

/* Replays into a buffer of `room` bytes that held FILL. */
static struct outcome replay_in(struct table s, const uint8_t *moves, size_t length, size_t room) {
    struct outcome out;
    memset(out.picture, FILL, sizeof out.picture);
    out.place = UINT32_MAX;
    out.number = humdayeg_replay(s.p, s.t, s.m, s.b, moves, length, out.picture, room, &out.place);
    return out;
}

/* The same with a fifth number. */
static struct outcome replay_with(struct table s, uint8_t stealing, const uint8_t *moves,
                                  size_t length) {
    struct outcome out;
    memset(out.picture, FILL, sizeof out.picture);
    out.place = UINT32_MAX;
    out.number = humdayeg_replay_with(s.p, s.t, s.m, s.b, stealing, moves, length, out.picture,
                                      sizeof out.picture, &out.place);
    return out;
}

static struct outcome replay(struct table s, const uint8_t *moves, size_t length) {
    return replay_in(s, moves, length, sizeof(((struct outcome *)0)->picture));
}

/* Whether the bytes from `from` on are as they were. */
static int untouched(const struct outcome *out, size_t from) {
    for (size_t i = from; i < sizeof out->picture; i++)
        if (out->picture[i] != FILL)
            return 0;
    return 1;
}

static int refused(const struct outcome *out, uint8_t number, uint32_t place) {
    return out->number == number && out->place == place && untouched(out, 0);
}

static void starts(void) {
    static const uint8_t first[] = {1, 1, 1, 0, 0, 0, 0, 0, 0, 1, 0, 0, 0, 0, 0, 0,
                                    0, 0, 0, 0, 0, 0, 0, 0, 0, 0, 0, 0, 3, 1, 0, 0};
    struct outcome out = replay(ONE, K5, 0);
    check(sizeof first == HUMDAYEG_PICTURE_BYTES(1, 1, 1), "the length of the first picture");
    check(out.number == 0 && out.place == 0, "start 1 1 1 1 is taken");
    check(memcmp(out.picture, first, sizeof first) == 0, "its picture is the one printed");
    check(untouched(&out, sizeof first), "bytes after the picture are kept");

    out = replay_with(ONE, 1, K5, 0);
    check(out.number == 0 && out.picture[7] == 1, "a ready queue for each processor is taken");
    out.picture[7] = 0;
    check(memcmp(out.picture, first, sizeof first) == 0, "with one processor all else is alike");
    out = replay_with(ONE, 0, K5, 0);
    check(out.number == 0 && memcmp(out.picture, first, sizeof first) == 0, "a fifth number 0");
    out = replay_with(ONE, 2, K5, 0);
    check(refused(&out, HUMDAYEG_BAD_TABLE, 0), "a fifth number over 1");

    out = replay(LARGEST, K5, 0);
    check(out.number == 0 && humdayeg_read(out.picture, sizeof out.picture) == 0, "K1");
    check(HUMDAYEG_PICTURE_BYTES(8, 32, 8) == HUMDAYEG_MOST_PICTURE_BYTES, "the longest picture");

    static const struct table bad[] = {{9, 32, 8, 32}, {8, 32, 8, 0},  {0, 1, 1, 1}, {1, 33, 1, 1},
                                       {1, 0, 1, 1},   {1, 1, 9, 1},   {1, 1, 0, 1}, {1, 4, 1, 5}};
    for (size_t i = 0; i < sizeof bad / sizeof bad[0]; i++) {
        out = replay(bad[i], K5, sizeof K5);
        check(refused(&out, HUMDAYEG_BAD_TABLE, 0), "a bad table is refused by 1");
    }
}

static void sessions(void) {
    struct outcome out = replay(TWO, K5, sizeof K5);
    const uint8_t *mutex = out.picture + 8 + 12 * 2;
    check(out.number == 0 && out.place == 0, "K5 is taken");
    check(mutex[0] == 1 && mutex[2] == 2 && mutex[3] == 0, "K5: count 1, owner 2, no token");
    check(out.picture[4] == 0 && out.picture[5] == sizeof K5 / 3, "K5: its moves stand");

    out = replay(TWO, K5, 3 * 8);
    check(out.number == 0 && mutex[0] == 1 && mutex[2] == 0, "S: count 1, nobody owns it");
    check(mutex[3] == 1 && mutex[4] == 0 && mutex[5] == 1, "S: the token is (1,1)");
}

/* K5 with one more move after it. */
static struct outcome after_k5(uint8_t processor, uint8_t action, uint8_t operand) {
    uint8_t moves[sizeof K5 + 3];
    memcpy(moves, K5, sizeof K5);
    moves[sizeof K5] = processor;
    moves[sizeof K5 + 1] = action;
    moves[sizeof K5 + 2] = operand;
    return replay(TWO, moves, sizeof moves);
}

static void refusals(void) {
    const uint32_t next = sizeof K5 / 3 + 1;
    static const struct {
        uint8_t processor, action, operand, number;
    } rows[] = {{3, 0, 0, HUMDAYEG_NO_PROCESSOR}, {0, 0, 0, HUMDAYEG_NO_PROCESSOR},
                {1, 7, 0, HUMDAYEG_BAD_OPERAND},  {1, 0, 1, HUMDAYEG_BAD_OPERAND},
                {1, 1, 0, HUMDAYEG_BAD_OPERAND},  {1, 1, 2, HUMDAYEG_BAD_OPERAND},
                {1, 6, 3, HUMDAYEG_BAD_OPERAND},  {1, 0, 0, HUMDAYEG_GO_AT_APP},
                {1, 3, 1, HUMDAYEG_NOT_OWNER},    {2, 6, 1, HUMDAYEG_NOT_NEW},
                {2, 5, 0, HUMDAYEG_STILL_OWNER},  {2, 5, 1, HUMDAYEG_BAD_OPERAND},
                {3, 5, 0, HUMDAYEG_NO_PROCESSOR}};
    for (size_t i = 0; i < sizeof rows / sizeof rows[0]; i++) {
        struct outcome out = after_k5(rows[i].processor, rows[i].action, rows[i].operand);
        check(refused(&out, rows[i].number, next), "a refused move, its number and place");
    }
    static const uint8_t twice[] = {1, 4, 0, 1, 4, 0, 9, 9, 9};
    struct outcome out = replay(ONE, twice, sizeof twice);
    check(refused(&out, HUMDAYEG_CALL_AWAY, 2), "the first refused move decides");
    for (size_t left = 1; left <= 2; left++) {
        out = replay(TWO, K5, sizeof K5 - left);
        check(refused(&out, HUMDAYEG_BAD_OPERAND, sizeof K5 / 3), "bytes left over");
    }
}

/* Processor 1 yields, finds the ready queue empty and yields again. */
static void most_moves(void) {
    static uint8_t moves[3 * (HUMDAYEG_MOST_MOVES + 1)];
    for (size_t i = 0; i < sizeof moves; i += 3) {
        moves[i] = 1;
        moves[i + 1] = i % 2 == 0 ? 4 : 0;
    }
    const size_t most = 3 * HUMDAYEG_MOST_MOVES;
    struct outcome out = replay(ONE, moves, most);
    check(out.number == 0 && out.picture[4] == 0x0f && out.picture[5] == 0xa0, "4,000 moves");
    out = replay(ONE, moves, most + 3);
    check(refused(&out, HUMDAYEG_FULL, 4001), "the 4,001st is refused by 8");
    out = replay(ONE, moves, most + 1);
    check(refused(&out, HUMDAYEG_BAD_OPERAND, 4001), "a byte left over behind 4,000 moves");
}

static void buffers(void) {
    const size_t length = HUMDAYEG_PICTURE_BYTES(2, 2, 1);
    for (size_t room = 0; room < length; room++) {
        struct outcome out = replay_in(TWO, K5, sizeof K5, room);
        check(refused(&out, HUMDAYEG_TOO_SHORT, 0), "a short buffer");
    }
    struct outcome out = replay_in(TWO, K5, sizeof K5, length);
    check(out.number == 0 && untouched(&out, length), "a buffer of the picture's length");
    out = replay_in(TWO, K5, sizeof K5 - 1, 0);
    check(refused(&out, HUMDAYEG_BAD_OPERAND, sizeof K5 / 3), "a refused move comes before 10");
}

static void reading(void) {
    const size_t length = HUMDAYEG_PICTURE_BYTES(2, 2, 1);
    struct outcome out = replay(TWO, K5, sizeof K5);
    uint8_t *picture = out.picture;
    check(humdayeg_read(picture, length) == 0, "a picture reads");
    check(humdayeg_read(picture, length - 1) == HUMDAYEG_BAD_LENGTH, "a byte short");
    check(humdayeg_read(picture, length + 1) == HUMDAYEG_BAD_LENGTH, "a byte long");
    check(humdayeg_read(picture, 0) == HUMDAYEG_BAD_LENGTH, "no bytes");
    picture[0] = 9;
    check(humdayeg_read(picture, length) == HUMDAYEG_BAD_FIELD, "nine processors");
    picture[0] = 2;
    picture[7] = 2;
    check(humdayeg_read(picture, length) == HUMDAYEG_BAD_FIELD, "a choice over 1");
    picture[7] = 0;
    picture[6] = 1;
    check(humdayeg_read(picture, length) == HUMDAYEG_BAD_FIELD, "an unnamed byte");
    picture[6] = 0;
    picture[3] = 1;
    check(humdayeg_read(picture, length) == HUMDAYEG_BAD_CHAIN, "a thread not ready, in the chain");
    picture[3] = 0;
    uint8_t *threads = picture + 8 + 12 * 2 + 8;
    threads[0] = 5;
    threads[1] = 0;
    check(humdayeg_read(picture, length) == HUMDAYEG_BAD_HOLDER, "a loaded thread that ended");
}

/* Two processors with a ready queue each: thread 3 is in the first, thread 4 in the second.
   Processor 1 exits its thread and takes 3, exits that, finds its own queue empty and takes 4. */
static const struct table FOUR = {2, 4, 1, 4};
static const uint8_t STEALS[] = {1, 5, 0, 1, 0, 0, 1, 0, 0, 1, 5, 0, 1, 0, 0, 1, 0, 0, 1, 0, 0};

/* What reading gets with one byte changed. */
static uint8_t read_with(const struct outcome *out, size_t length, size_t at, uint8_t byte) {
    uint8_t picture[HUMDAYEG_MOST_PICTURE_BYTES + 1] = {0};
    memcpy(picture, out->picture, HUMDAYEG_PICTURE_BYTES(2, 4, 1));
    picture[at] = byte;
    return humdayeg_read(picture, length);
}

static void queues(void) {
    const size_t length = HUMDAYEG_PICTURE_BYTES(2, 4, 1), look = 8 + 5, thread4 = 8 + 24 + 8 + 12;
    struct outcome out = replay_with(FOUR, 1, STEALS, 0);
    const uint8_t *own = out.picture + 8, *other = own + 12, *threads = own + 24 + 8;
    check(out.number == 0 && out.picture[7] == 1 && out.picture[3] == 0, "a queue for each");
    check(own[11] == 3 && other[11] == 4, "each has its first");
    check(threads[8] == 1 && threads[9] == 1 && threads[12] == 1 && threads[13] == 2,
          "ready threads name their queue's processor");

    out = replay_with(FOUR, 1, STEALS, 3 * 5);
    check(out.number == 0 && own[0] == 1 && own[5] == 1 && own[11] == 0, "one look at an own queue");
    check(read_with(&out, length, 7, 1) == 0, "its picture reads");
    check(read_with(&out, length, 7, 0) == HUMDAYEG_BAD_FIELD, "as one of a single queue it does not");
    check(read_with(&out, length, 7, 2) == HUMDAYEG_BAD_FIELD, "a fifth number 2");
    check(read_with(&out, length - 1, 7, 2) == HUMDAYEG_BAD_LENGTH, "a byte short");
    check(read_with(&out, length + 1, 7, 2) == HUMDAYEG_BAD_LENGTH, "a byte long");
    check(read_with(&out, length, 3, 4) == HUMDAYEG_BAD_FIELD, "a single chain's first");
    check(read_with(&out, length, look, 0) == 0, "another look number");
    check(read_with(&out, length, look, 2) == HUMDAYEG_BAD_FIELD, "a look number of P");
    check(read_with(&out, length, look + 12, 1) == HUMDAYEG_BAD_FIELD, "a look number at App");
    check(read_with(&out, length, thread4 + 1, 0) == HUMDAYEG_BAD_FIELD, "ready in no queue");
    check(read_with(&out, length, thread4 + 1, 3) == HUMDAYEG_BAD_FIELD, "ready in a third");
    check(read_with(&out, length, thread4 + 1, 1) == HUMDAYEG_BAD_CHAIN, "ready in the first");

    out = replay_with(FOUR, 1, STEALS, sizeof STEALS);
    check(out.number == 0 && own[1] == 4 && own[5] == 0 && other[11] == 0, "thread 4 is taken");
    out = replay_with(FOUR, 0, STEALS, sizeof STEALS);
    check(refused(&out, HUMDAYEG_GO_AT_APP, 7), "a single queue needs no second look");
    out = replay_with(FOUR, 2, STEALS, sizeof STEALS);
    check(refused(&out, HUMDAYEG_BAD_TABLE, 0), "a fifth number over 1 comes first");
}

/* Thread 1 of the largest table locks mutex m, exits, unlocks, and exits at each line. */
static void owner_of(uint8_t m, uint8_t stealing) {
    const uint8_t moves[] = {1, 1, m, 1, 0, 0, 1, 3, m, 1, 0, 0, 1, 5, 0};
    uint8_t exits[sizeof moves];
    memcpy(exits, moves, sizeof moves);
    /* After so many moves: at L1 and U1 by 4, at App by 21, after the unlock not at all. */
    static const uint8_t wanted[] = {0, HUMDAYEG_CALL_AWAY, HUMDAYEG_STILL_OWNER,
                                     HUMDAYEG_CALL_AWAY, 0};
    for (uint32_t made = 0; made < sizeof wanted; made++) {
        memcpy(exits, moves, 3 * made);
        memcpy(exits + 3 * made, moves + 12, 3);
        struct outcome out = replay_with(LARGEST, stealing, exits, 3 * (made + 1));
        check(wanted[made] == 0 ? out.number == 0 : refused(&out, wanted[made], made + 1),
              "an exit by an owner, its number and place");
    }
    const uint8_t another[] = {1, 1, m, 1, 0, 0, 2, 5, 0, 1, 5, 0, 9, 9, 9};
    struct outcome out = replay_with(LARGEST, stealing, another, sizeof another);
    check(refused(&out, HUMDAYEG_STILL_OWNER, 4), "another thread may exit");
}

/* Thread 1 owns mutex 2 and has locked and unlocked mutex 1 after that. */
static void owner_of_another(void) {
    static const struct table s = {1, 2, 2, 2};
    static const uint8_t moves[] = {1, 1, 2, 1, 0, 0, 1, 1, 1, 1, 0, 0, 1, 3, 1, 1, 0, 0, 1, 5, 0};
    struct outcome out = replay(s, moves, sizeof moves);
    check(refused(&out, HUMDAYEG_STILL_OWNER, 7), "the last call was on another mutex");
}

/* Pictures from before 21: a terminated thread owns the mutex; in the second, threads 2 and 4
   wait for it, and each processor has a ready queue. */
static void terminated_owners(void) {
    static const uint8_t one[] = {1, 2, 1, 0, 0, 5, 0, 0, 0, 2, 0, 0, 0, 0, 0, 0, 0, 0,
                                  0, 0, 1, 0, 1, 0, 0, 0, 0, 0, 5, 0, 0, 0, 3, 1, 0, 0};
    static const uint8_t waited_for[] = {
        3, 5, 2, 0, 0, 18, 0, 1, 1, 0, 0, 0, 0, 0, 0, 0, 0, 0, 0, 0, 1, 0, 0, 0, 0, 1, 0,
        0, 0, 0, 0, 0, 4, 3, 0, 2, 0, 0, 0, 0, 0, 0, 0, 0, 0, 0, 0, 0, 0, 0, 0, 0, 4, 2,
        1, 0, 0, 0, 0, 0, 5, 0, 0, 0, 2, 2, 4, 0, 3, 3, 0, 0, 2, 2, 0, 0, 0, 0, 0, 0};
    check(sizeof one == HUMDAYEG_PICTURE_BYTES(1, 2, 1), "the length of the first");
    check(sizeof waited_for == HUMDAYEG_PICTURE_BYTES(3, 5, 2), "the length of the second");
    check(humdayeg_read(one, sizeof one) == 0, "an owner that has exited reads");
    check(humdayeg_read(waited_for, sizeof waited_for) == 0, "one that is waited for reads");
    check(humdayeg_ahead(one, sizeof one, 1) == HUMDAYEG_NOT_WAITING, "it does not wait");
    check(humdayeg_ahead(waited_for, sizeof waited_for, 2) == 1, "one turn ahead of thread 2");
    check(humdayeg_ahead(waited_for, sizeof waited_for, 4) == 2, "two turns ahead of thread 4");
    check(humdayeg_mark(one, sizeof one, one, sizeof one) == HUMDAYEG_FULL_MARK, "it is marked");
}

static void owner_exits(void) {
    for (uint8_t m = 1; m <= 8; m++) {
        owner_of(m, 0);
        owner_of(m, 1);
    }
    owner_of_another();
    terminated_owners();
}

/* Thread 1 locks mutex 1 twice and so waits for itself, as in K4. */
static void turns(void) {
    static const uint8_t k4[] = {1, 1, 1, 1, 0, 0, 1, 1, 1, 1, 0, 0, 1, 0, 0, 1, 0, 0, 1, 0, 0, 1, 0, 0};
    const size_t length = HUMDAYEG_PICTURE_BYTES(1, 1, 1);
    struct outcome out = replay(ONE, k4, sizeof k4);
    check(out.number == 0, "K4 is taken");
    check(humdayeg_ahead(out.picture, length, 1) == 1, "K4: one turn ahead");
    check(humdayeg_ahead(out.picture, length, 0) == HUMDAYEG_REFUSED + HUMDAYEG_BAD_OPERAND, "no thread 0");
    check(humdayeg_ahead(out.picture, length, 2) == HUMDAYEG_REFUSED + HUMDAYEG_BAD_OPERAND, "no thread 2");
    check(humdayeg_ahead(out.picture, length - 1, 1) == HUMDAYEG_REFUSED + HUMDAYEG_BAD_LENGTH,
          "the picture's number comes first");
    out = replay(TWO, K5, sizeof K5);
    check(humdayeg_ahead(out.picture, HUMDAYEG_PICTURE_BYTES(2, 2, 1), 1) == HUMDAYEG_NOT_WAITING,
          "K5: thread 1 is not waiting");
}

/* A class of at most this many turns; its buffers have room for one picture more. */
#define MOST_TURNS 32
static uint8_t answers[MOST_TURNS + 1];
static uint8_t pictures[(MOST_TURNS + 1) * HUMDAYEG_MOST_PICTURE_BYTES];

static int filled(const uint8_t *bytes, size_t from, size_t to) {
    for (size_t i = from; i < to; i++)
        if (bytes[i] != FILL)
            return 0;
    return 1;
}

/* Takes a class into the first bytes of both buffers, which held FILL; they keep it from where
   the class ends, or all through where it is refused. */
static uint8_t class_in(struct table s, const uint8_t *scripts, size_t scripts_len,
                        const uint8_t *turns, size_t count, size_t room, size_t picture_room) {
    memset(answers, FILL, sizeof answers);
    memset(pictures, FILL, sizeof pictures);
    uint8_t number = humdayeg_class(s.p, s.t, s.m, s.b, scripts, scripts_len, turns, count,
                                    answers, room, pictures, picture_room);
    size_t taken = number == 0 ? count : 0;
    check(filled(answers, taken, sizeof answers), "answers after the turns are kept");
    check(filled(pictures, taken * HUMDAYEG_PICTURE_BYTES(s.p, s.t, s.m), sizeof pictures),
          "bytes after the pictures are kept");
    return number;
}

static uint8_t class(struct table s, const uint8_t *scripts, size_t scripts_len,
                     const uint8_t *turns, size_t count) {
    return class_in(s, scripts, scripts_len, turns, count, sizeof answers, sizeof pictures);
}

/* The same with a fifth number. */
static uint8_t class_of(struct table s, uint8_t stealing, const uint8_t *scripts,
                        size_t scripts_len, const uint8_t *turns, size_t count) {
    memset(answers, FILL, sizeof answers);
    memset(pictures, FILL, sizeof pictures);
    uint8_t number = humdayeg_class_with(s.p, s.t, s.m, s.b, stealing, scripts, scripts_len, turns,
                                         count, answers, sizeof answers, pictures, sizeof pictures);
    size_t taken = number == 0 ? count : 0;
    check(filled(answers, taken, sizeof answers), "answers after the turns are kept");
    check(filled(pictures, taken * HUMDAYEG_PICTURE_BYTES(s.p, s.t, s.m), sizeof pictures),
          "bytes after the pictures are kept");
    return number;
}

/* Whether the picture after turn i, counted from 0, is that of a replay. */
static int shows(struct table s, size_t i, const uint8_t *moves, size_t length) {
    size_t bytes = HUMDAYEG_PICTURE_BYTES(s.p, s.t, s.m);
    struct outcome out = replay(s, moves, length);
    return out.number == 0 && memcmp(pictures + i * bytes, out.picture, bytes) == 0;
}

/* Thread 1 locks and unlocks, thread 2 locks; what is unread is no call. */
static const uint8_t LOCKS[] = {2, 1, 1, 3, 1, 0, 0, 7, 0, 255, 255, 9, 9,
                                1, 1, 1, 0, 0, 7, 0, 255, 255, 9, 9, 9, 9};

/* K5's processors in their order, by scripts. */
static void classes(void) {
    uint8_t turns[sizeof K5 / 3];
    for (size_t i = 0; i < sizeof turns; i++)
        turns[i] = K5[3 * i];
    check(sizeof LOCKS == 2 * HUMDAYEG_SCRIPT_BYTES, "the length of two scripts");
    check(class(TWO, LOCKS, sizeof LOCKS, turns, sizeof turns) == 0, "K5 as a class is taken");
    for (size_t i = 0; i < sizeof turns; i++)
        check(answers[i] == 0 && shows(TWO, i, K5, 3 * (i + 1)), "K5 as a class, turn by turn");
    check(class_in(TWO, LOCKS, sizeof LOCKS, turns, 0, 0, 0) == 0, "a class of no turns");
}

/* Threads without calls, with each fifth number; what a single queue gives is what the class of
   four numbers gives. */
static void classes_of_queues(void) {
    static const uint8_t none[4 * HUMDAYEG_SCRIPT_BYTES], turns[] = {1, 1, 1, 1, 1, 1, 1};
    static uint8_t before[sizeof pictures];
    const size_t bytes = HUMDAYEG_PICTURE_BYTES(2, 4, 1);
    check(class_of(FOUR, 1, none, sizeof none, turns, sizeof turns) == 0, "a queue for each");
    for (size_t i = 0; i < sizeof turns; i++) {
        struct outcome out = replay_with(FOUR, 1, STEALS, 3 * (i + 1));
        check(answers[i] == 0 && memcmp(pictures + i * bytes, out.picture, bytes) == 0,
              "a class with a queue for each, turn by turn");
    }
    check(class_of(FOUR, 0, none, sizeof none, turns, sizeof turns) == 0, "a fifth number 0");
    memcpy(before, pictures, sizeof before);
    check(class(FOUR, none, sizeof none, turns, sizeof turns) == 0, "four numbers");
    check(memcmp(before, pictures, sizeof before) == 0, "give the same pictures");
    check(class_of(FOUR, 1, none, sizeof none - 1, turns, 3) == HUMDAYEG_BAD_SCRIPT, "19");
    check(class_of(FOUR, 2, none, sizeof none, turns, 3) == HUMDAYEG_BAD_TABLE, "a fifth number 2");
    check(class_of(FOUR, 2, none, 0, turns, 3) == HUMDAYEG_BAD_TABLE, "before 19");
}

/* Two threads share a processor and yield to each other (Y1, Y2, Y3, CI2, CI3); each goes on
   with its own script. */
static void yielding(void) {
    static const uint8_t scripts[] = {2, 4, 0, 1, 1, 0, 0, 0, 0, 0, 0, 0, 0,
                                      2, 4, 0, 2, 1, 0, 0, 0, 0, 0, 0, 0, 0};
    static const struct table s = {1, 2, 1, 2};
    static const uint8_t made[] = {1, 4, 0, 1, 0, 0, 1, 0, 0, 1, 0, 0, 1, 0, 0, 1, 0, 0,
                                   1, 4, 0, 1, 0, 0, 1, 0, 0, 1, 0, 0, 1, 0, 0, 1, 0, 0,
                                   1, 1, 1};
    uint8_t turns[sizeof made / 3];
    memset(turns, 1, sizeof turns);
    check(class(s, scripts, sizeof scripts, turns, sizeof turns) == 0, "yields are taken");
    for (size_t i = 0; i < sizeof turns; i++)
        check(answers[i] == 0 && shows(s, i, made, 3 * (i + 1)), "each thread has its own place");
}

/* The numbers of the turns, and after each the picture that the moves of the accepted ones give. */
static void answered(struct table s, const uint8_t *wanted, size_t count, const uint8_t *made) {
    size_t stand = 0;
    for (size_t i = 0; i < count; i++) {
        check(answers[i] == wanted[i], "the number of a turn");
        stand += wanted[i] == 0 ? 3 : 0;
        check(shows(s, i, made, stand), "the picture after a turn, a refused one too");
    }
}

/* Refused turns between accepted ones: the picture stays and the call is tried again. */
static void refused_turns(void) {
    static const uint8_t scripts[] = {1, 3, 1, 0, 0, 0, 0, 0, 0, 0, 0, 0, 0,
                                      2, 4, 0, 1, 2, 0, 0, 0, 0, 0, 0, 0, 0,
                                      1, 6, 3, 0, 0, 0, 0, 0, 0, 0, 0, 0, 0,
                                      0, 0, 0, 0, 0, 0, 0, 0, 0, 0, 0, 0, 0};
    static const struct table s = {4, 4, 1, 4};
    static const uint8_t turns[] = {0, 1, 2, 2, 2, 3, 5, 1, 2, 4, 4, 3, 255};
    static const uint8_t wanted[] = {2, 6, 0, 0, 3, 7, 2, 6, 3, 0, 0, 7, 2};
    static const uint8_t made[] = {2, 4, 0, 2, 0, 0, 4, 5, 0, 4, 0, 0};
    check(class(s, scripts, sizeof scripts, turns, sizeof turns) == 0, "refused turns are taken");
    answered(s, wanted, sizeof wanted, made);
}

/* Thread 1 locks and has no other call, so that its exit is refused at each turn; thread 2 exits
   among its calls as an owner; thread 3 yields and exits. */
static void owner_turns(void) {
    static const uint8_t scripts[] = {1, 1, 1, 0, 0, 0, 0, 0, 0, 0, 0, 0, 0,
                                      3, 2, 2, 5, 0, 3, 2, 0, 0, 0, 0, 0, 0,
                                      1, 4, 0, 0, 0, 0, 0, 0, 0, 0, 0, 0, 0};
    static const struct table s = {3, 3, 2, 3};
    static const uint8_t turns[] = {1, 2, 3, 1, 2, 1, 3, 2, 1, 3, 4, 2, 1, 3};
    static const uint8_t wanted[] = {0, 0, 0, 0, 0, 21, 0, 21, 21, 0, 2, 21, 21, 0};
    static const uint8_t made[] = {1, 1, 1, 2, 2, 2, 3, 4, 0, 1, 0, 0, 2, 0, 0,
                                   3, 0, 0, 3, 5, 0, 3, 0, 0};
    check(class(s, scripts, sizeof scripts, turns, sizeof turns) == 0, "owners' turns are taken");
    answered(s, wanted, sizeof wanted, made);
    check(class_of(s, 1, scripts, sizeof scripts, turns, sizeof turns) == 0, "a queue for each");
    check(memcmp(answers, wanted, sizeof wanted) == 0, "gives the same numbers");
}

/* Thread 1 has no calls; processor 1 exits it and then finds nobody ready. */
static void most_turns(void) {
    static const uint8_t none[HUMDAYEG_SCRIPT_BYTES], tail[] = {1, 2, 0, 1};
    static uint8_t turns[HUMDAYEG_MOST_MOVES + sizeof tail], numbers[sizeof turns + 1];
    static uint8_t shown[sizeof turns * HUMDAYEG_PICTURE_BYTES(1, 1, 1)];
    memset(turns, 1, HUMDAYEG_MOST_MOVES);
    memcpy(turns + HUMDAYEG_MOST_MOVES, tail, sizeof tail);
    memset(numbers, FILL, sizeof numbers);
    check(humdayeg_class(1, 1, 1, 1, none, sizeof none, turns, sizeof turns, numbers,
                         sizeof numbers, shown, sizeof shown) == 0, "4,004 turns");
    static const uint8_t wanted[] = {0, HUMDAYEG_FULL, HUMDAYEG_NO_PROCESSOR,
                                     HUMDAYEG_NO_PROCESSOR, HUMDAYEG_FULL, 0xa5};
    check(memcmp(numbers + HUMDAYEG_MOST_MOVES - 1, wanted, sizeof wanted) == 0, "8 at the end");
    size_t accepted = 0;
    while (accepted < sizeof numbers && numbers[accepted] == 0)
        accepted++;
    check(accepted == HUMDAYEG_MOST_MOVES, "4,000 turns are accepted");
    const uint8_t *last = shown + sizeof shown - HUMDAYEG_PICTURE_BYTES(1, 1, 1);
    check(last[4] == 0x0f && last[5] == 0xa0, "4,000 moves stand");
    check(last[8] == 1 && last[28] == 5, "the thread has ended");
}

/* LOCKS with one byte changed. */
static uint8_t class_with(size_t at, uint8_t byte) {
    static const uint8_t turns[] = {1, 2, 1};
    uint8_t scripts[sizeof LOCKS];
    memcpy(scripts, LOCKS, sizeof LOCKS);
    scripts[at] = byte;
    return class(TWO, scripts, sizeof scripts, turns, sizeof turns);
}

static void scripts_refused(void) {
    static const uint8_t turns[] = {1, 2, 1};
    const size_t whole = sizeof LOCKS;
    check(class(TWO, LOCKS, whole - 1, turns, 3) == HUMDAYEG_BAD_SCRIPT, "scripts a byte short");
    check(class(TWO, LOCKS, 0, turns, 3) == HUMDAYEG_BAD_SCRIPT, "no scripts");
    check(class(ONE, LOCKS, whole, turns, 3) == 0, "longer scripts");
    check(class(ONE, LOCKS, 13, turns, 3) == 0, "one script");
    check(class(ONE, LOCKS, 12, turns, 3) == HUMDAYEG_BAD_SCRIPT, "one script, a byte short");
    for (size_t thread = 0; thread < 2; thread++) {
        size_t at = thread * HUMDAYEG_SCRIPT_BYTES;
        check(class_with(at, 7) == HUMDAYEG_BAD_SCRIPT, "seven calls");
        check(class_with(at, 255) == HUMDAYEG_BAD_SCRIPT, "255 calls");
        check(class_with(at, 6) == HUMDAYEG_BAD_SCRIPT, "six calls, unread ones no calls");
        check(class_with(at, 0) == 0, "no calls");
        check(class_with(at + 1, 0) == HUMDAYEG_BAD_SCRIPT, "action 0");
        check(class_with(at + 1, 1) == 0 && class_with(at + 1, 6) == 0, "actions 1 and 6");
        check(class_with(at + 1, 7) == HUMDAYEG_BAD_SCRIPT, "action 7");
        check(class_with(at + 2, 255) == 0, "an operand is not looked at");
        check(class_with(at + 11, 1) == 0 && class_with(at + 12, 0) == 0, "unread bytes");
    }
    uint8_t yields[] = {6, 4, 0, 4, 0, 4, 0, 4, 0, 4, 0, 4, 0};
    check(class(ONE, yields, sizeof yields, turns, 1) == 0, "six calls");
    yields[0] = 7;
    check(class(ONE, yields, sizeof yields, turns, 1) == HUMDAYEG_BAD_SCRIPT, "a seventh call");
}

static void class_buffers(void) {
    static const uint8_t turns[] = {1, 2, 1, 9};
    const size_t n = sizeof turns, bytes = n * HUMDAYEG_PICTURE_BYTES(2, 2, 1);
    const size_t scripts = sizeof LOCKS;
    check(class_in(TWO, LOCKS, scripts, turns, n, n, bytes) == 0, "buffers of just that length");
    check(class_in(TWO, LOCKS, scripts, turns, n, n + 1, bytes + 1) == 0, "a byte more");
    check(class_in(TWO, LOCKS, scripts, turns, n, n - 1, bytes) == HUMDAYEG_TOO_SHORT, "answers");
    check(class_in(TWO, LOCKS, scripts, turns, n, n, bytes - 1) == HUMDAYEG_TOO_SHORT, "pictures");
    check(class_in(TWO, LOCKS, scripts, turns, n, 0, 0) == HUMDAYEG_TOO_SHORT, "no buffers");
    check(class_in(TWO, LOCKS, scripts - 1, turns, n, 0, 0) == HUMDAYEG_BAD_SCRIPT, "19 before 10");
    const struct table bad = {2, 2, 1, 3};
    check(class_in(bad, LOCKS, scripts - 1, turns, n, 0, 0) == HUMDAYEG_BAD_TABLE, "1 before 19");
    check(class_in(bad, LOCKS, scripts, turns, n, n, bytes) == HUMDAYEG_BAD_TABLE, "a bad table");
    const struct table large = {8, 33, 8, 32};
    check(class_in(large, LOCKS, scripts, turns, n, n, bytes) == HUMDAYEG_BAD_TABLE, "33 threads");
}

int main(void) {
    starts();
    sessions();
    refusals();
    most_moves();
    buffers();
    reading();
    queues();
    owner_exits();
    turns();
    classes();
    classes_of_queues();
    yielding();
    refused_turns();
    owner_turns();
    most_turns();
    scripts_refused();
    class_buffers();
    printf("%u passed, %u failed\n", passed, failed);
    return failed != 0;
}
