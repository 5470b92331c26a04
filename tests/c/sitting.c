/*
 * A whole sitting as a window written in C would hold it: a session and a journal as bytes, handed
 * in at each call. Checks moves, turns, goings back and forward, a new move after going back,
 * pictures and the journal's front against replays, every refusal at its boundaries with all
 * buffers compared before and after, bytes that are no session, edited journals, and 4,000 moves.
 * Prints a line for each failed check and one with the counts.
 */
#include "lists.h"

enum {
    ROOM = HUMDAYEG_MOST_SESSION_BYTES + 5,
    JOURNAL_ROOM = HUMDAYEG_JOURNAL_BYTES + 4,
    MOST_MOVES = HUMDAYEG_MOST_MOVES
};

static const uint8_t FILL = 0xa5;

/* What a window keeps. Both buffers are longer than they need to be. */
struct sitting {
    struct table table;
    uint8_t session[ROOM], journal[JOURNAL_ROOM];
};

static size_t picture_bytes(struct table s) { return HUMDAYEG_PICTURE_BYTES(s.p, s.t, s.m); }

static size_t session_bytes(struct table s) { return HUMDAYEG_SESSION_BYTES(s.p, s.t, s.m); }

static void begin(struct sitting *at, struct table s) {
    at->table = s;
    memset(at->session, FILL, ROOM);
    memset(at->journal, FILL, JOURNAL_ROOM);
    check(humdayeg_session_start(s.p, s.t, s.m, s.b, s.stealing, at->session, ROOM) == 0,
          "a start");
}

static uint8_t make(struct sitting *at, const uint8_t *move) {
    return humdayeg_session_move(at->session, ROOM, at->journal, JOURNAL_ROOM, move[0], move[1],
                                 move[2]);
}

static uint8_t turn(struct sitting *at, const uint8_t *scripts, size_t length, uint8_t processor) {
    return humdayeg_session_turn(at->session, ROOM, at->journal, JOURNAL_ROOM, scripts, length,
                                 processor);
}

static uint8_t go_to(struct sitting *at, size_t step) {
    return humdayeg_session_goto(at->session, ROOM, at->journal, JOURNAL_ROOM, step);
}

static unsigned front(const struct sitting *at) {
    return humdayeg_session_front(at->session, ROOM, at->journal, JOURNAL_ROOM);
}

static int same(const struct sitting *at, const struct sitting *other) {
    return memcmp(at->session, other->session, ROOM) == 0 &&
           memcmp(at->journal, other->journal, JOURNAL_ROOM) == 0;
}

static int filled(const uint8_t *bytes, size_t from, size_t to) {
    for (size_t i = from; i < to; i++)
        if (bytes[i] != FILL)
            return 0;
    return 1;
}

/* Whether the first of these moves stand and so many are kept: the session's bytes are the picture
   that a replay gives, b and the number kept, the journal begins with the moves, and the bytes
   behind the session are as they were. */
static int holds(const struct sitting *at, const uint8_t *moves, size_t stand, size_t kept) {
    const struct table s = at->table;
    const size_t length = picture_bytes(s);
    uint8_t picture[HUMDAYEG_MOST_PICTURE_BYTES];
    uint32_t place;
    if (humdayeg_replay_with(s.p, s.t, s.m, s.b, s.stealing, moves, 3 * stand, picture,
                             sizeof picture, &place) != 0)
        return 0;
    return memcmp(at->session, picture, length) == 0 && at->session[length] == s.b &&
           at->session[length + 1] == kept / 256 && at->session[length + 2] == kept % 256 &&
           filled(at->session, session_bytes(s), ROOM) &&
           memcmp(at->journal, moves, 3 * kept) == 0 &&
           filled(at->journal, HUMDAYEG_JOURNAL_BYTES, JOURNAL_ROOM) && front(at) == 3 * stand;
}

/* Makes accepted moves. */
static void play(struct sitting *at, const uint8_t *moves, size_t count) {
    int ok = 1;
    for (size_t i = 0; i < count; i++)
        ok = ok && make(at, moves + 3 * i) == 0;
    check(ok, "accepted moves");
}

static void constants(void) {
    check(HUMDAYEG_JOURNAL_BYTES == HUMDAYEG_MOVE_BYTES * HUMDAYEG_MOST_MOVES, "a journal");
    check(HUMDAYEG_SESSION_BYTES(1, 1, 1) == 35, "the smallest session");
    check(HUMDAYEG_SESSION_BYTES(8, 32, 8) == HUMDAYEG_MOST_SESSION_BYTES, "the largest session");
    check(HUMDAYEG_NO_STEP == 9 && HUMDAYEG_NO_SESSION == 15 && HUMDAYEG_BAD_JOURNAL == 16,
          "the numbers of a session's calls");
    check(HUMDAYEG_FRONT_REFUSED == 20000, "what is added to the number that refuses a front");
}

/* The start of one processor, thread and mutex, byte for byte. */
static void layout(void) {
    static const struct table one = {1, 1, 1, 1, 0};
    static const uint8_t wanted[35] = {1, 1, 1, [9] = 1, [28] = 3, [29] = 1, [32] = 1};
    static const uint8_t exit[] = {1, 5, 0}, go[] = {1, 0, 0};
    static struct sitting at;
    begin(&at, one);
    check(memcmp(at.session, wanted, sizeof wanted) == 0, "the bytes of a start");
    check(filled(at.session, sizeof wanted, ROOM), "bytes behind the session are kept");
    check(filled(at.journal, 0, JOURNAL_ROOM), "a start writes no journal");
    play(&at, exit, 1);
    for (int i = 0; i < 258; i++)
        check(make(&at, go) == 0, "a look at the empty ready queue");
    check(go_to(&at, 3) == 0, "a going");
    check(at.session[4] == 0 && at.session[5] == 3, "the moves that stand, high byte first");
    check(at.session[33] == 1 && at.session[34] == 3, "the moves kept, high byte first");
}

/* 1, then 10, for every length of the buffer; a refused start writes nothing. */
static void starts(void) {
    static const struct table all[] = {{1, 1, 1, 1, 0}, {2, 2, 1, 2, 1}, {8, 32, 8, 20, 1}};
    uint8_t session[ROOM];
    for (size_t i = 0; i < sizeof all / sizeof all[0]; i++) {
        const struct table s = all[i];
        for (size_t length = 0; length <= ROOM; length++) {
            memset(session, FILL, ROOM);
            const uint8_t number = humdayeg_session_start(s.p, s.t, s.m, s.b, s.stealing, session,
                                                          length);
            if (length < session_bytes(s))
                check(number == HUMDAYEG_TOO_SHORT && filled(session, 0, ROOM),
                      "a buffer too short for a start");
            else
                check(number == 0 && filled(session, session_bytes(s), ROOM) &&
                          humdayeg_read(session, picture_bytes(s)) == 0,
                      "a buffer long enough for a start");
        }
    }
    memset(session, FILL, ROOM);
    for (size_t i = 0; i < BAD_TABLE_COUNT; i++) {
        const struct table s = BAD_TABLES[i];
        for (size_t length = 0; length <= ROOM; length += ROOM)
            check(humdayeg_session_start(s.p, s.t, s.m, s.b, s.stealing, session, length) ==
                          HUMDAYEG_BAD_TABLE && filled(session, 0, ROOM),
                  "a bad table, before a short buffer");
    }
}

/* K5 by moves, then from every step to every step and past the last. */
static void goings(struct table s) {
    enum { COUNT = sizeof K5 / 3 };
    static struct sitting at, before;
    begin(&at, s);
    for (size_t i = 0; i < COUNT; i++) {
        check(holds(&at, K5, i, i), "the session before a move");
        check(go_to(&at, i) == 0 && go_to(&at, i + 1) == HUMDAYEG_NO_STEP, "9 at the last move");
        play(&at, K5 + 3 * i, 1);
    }
    for (size_t from = 0; from <= COUNT; from++)
        for (size_t to = 0; to <= COUNT; to++) {
            check(go_to(&at, from) == 0 && holds(&at, K5, from, COUNT), "a going to a step");
            check(go_to(&at, to) == 0 && holds(&at, K5, to, COUNT), "and to another");
        }
    static const size_t past[] = {COUNT + 1, COUNT + 2, 4000, 4001, 65535, 65536, 65536 + COUNT,
                                  SIZE_MAX - 1, SIZE_MAX};
    for (size_t from = 0; from <= COUNT; from += 4) {
        check(go_to(&at, from) == 0, "a going");
        before = at;
        for (size_t i = 0; i < sizeof past / sizeof past[0]; i++)
            check(go_to(&at, past[i]) == HUMDAYEG_NO_STEP && same(&at, &before),
                  "a step past the moves kept");
    }
}

/* A new move after going back: the moves kept past it are gone. A refused one keeps them. */
static void new_moves(void) {
    enum { COUNT = sizeof K5 / 3 };
    static const uint8_t yield[] = {2, 4, 0}, away[] = {2, 1, 1};
    static struct sitting at, before;
    begin(&at, TWO);
    play(&at, K5, COUNT);
    before = at;
    for (size_t i = 0; i < REFUSED_COUNT; i++) {
        const struct longer list = after_k5(REFUSED_AFTER_K5[i].move);
        check(make(&at, list.moves + sizeof K5) == REFUSED_AFTER_K5[i].number &&
                  same(&at, &before) && holds(&at, list.moves, COUNT, COUNT),
              "a refused move at the end");
    }
    check(go_to(&at, 3) == 0, "back to step 3");
    before = at;
    check(make(&at, away) == HUMDAYEG_CALL_AWAY && same(&at, &before), "a refused move inside");
    check(go_to(&at, COUNT) == 0 && holds(&at, K5, COUNT, COUNT), "nothing was dropped");
    check(go_to(&at, 1) == 0 && make(&at, yield) == 0, "a new move at step 1");
    static const uint8_t moves[] = {1, 1, 1, 2, 4, 0};
    check(holds(&at, moves, 2, 2), "it stands, and the others are gone");
    check(memcmp(at.journal + 6, K5 + 6, sizeof K5 - 6) == 0, "their bytes are left");
    before = at;
    for (size_t step = 3; step <= COUNT + 1; step++)
        check(go_to(&at, step) == HUMDAYEG_NO_STEP && same(&at, &before), "no way to them");
    check(go_to(&at, 0) == 0 && holds(&at, moves, 0, 2), "back from there");
    check(go_to(&at, 2) == 0 && holds(&at, moves, 2, 2), "and forward");
}

/* Two copies of one sitting go on apart. */
static void copies(void) {
    static const uint8_t yield[] = {2, 4, 0};
    static struct sitting at, stored, other;
    begin(&at, TWO);
    play(&at, K5, 8);
    stored = at;
    check(go_to(&at, 1) == 0 && make(&at, yield) == 0, "another way");
    other = stored;
    check(holds(&other, K5, 8, 8) && go_to(&other, 2) == 0, "the stored one goes on");
    check(holds(&other, K5, 2, 8), "with its own moves");
}

/* Two calls of thread 1, one of thread 2; the bytes behind a script's calls are not looked at. */
static const uint8_t SCRIPTS[] = {2, 4, 0, 1, 1, 9, 9, 9, 9, 9, 9, 9, 9,
                                  1, 1, 1, 9, 9, 9, 9, 9, 9, 9, 9, 9, 9};

/* Turns by scripts: the next call is counted among the moves that stand. */
static void turns(void) {
    static const uint8_t moves[] = {1, 4, 0, 1, 0, 0, 1, 1, 1, 2, 1, 1, 1, 0, 0};
    static const uint8_t order[] = {1, 1, 1, 2, 1};
    static struct sitting at, before;
    begin(&at, TWO);
    for (size_t i = 0; i < sizeof order; i++)
        check(turn(&at, SCRIPTS, sizeof SCRIPTS, order[i]) == 0, "an accepted turn");
    check(holds(&at, moves, 5, 5), "the turns' moves");
    before = at;
    check(turn(&at, SCRIPTS, sizeof SCRIPTS, 1) == HUMDAYEG_STILL_OWNER && same(&at, &before),
          "a spent script of an owner");
    check(go_to(&at, 0) == 0, "back to the start");
    before = at;
    check(turn(&at, SCRIPTS, sizeof SCRIPTS, 0) == HUMDAYEG_NO_PROCESSOR && same(&at, &before),
          "no such processor");
    check(turn(&at, SCRIPTS, sizeof SCRIPTS - 1, 0) == HUMDAYEG_BAD_SCRIPT && same(&at, &before),
          "19 before 2");
    check(turn(&at, SCRIPTS + 13, 13, 1) == HUMDAYEG_BAD_SCRIPT && same(&at, &before),
          "a script too few");
    check(go_to(&at, 5) == 0 && holds(&at, moves, 5, 5), "refused turns drop nothing");
    check(go_to(&at, 2) == 0 && turn(&at, SCRIPTS, sizeof SCRIPTS, 1) == 0, "the lock again");
    check(holds(&at, moves, 3, 3), "what was kept past it is gone");
    static const uint8_t other[] = {1, 4, 0, 2, 1, 1};
    check(go_to(&at, 1) == 0 && turn(&at, SCRIPTS, sizeof SCRIPTS, 2) == 0, "thread 2's lock");
    check(holds(&at, other, 2, 2), "it stands");
}

/* The picture in buffers of every length. */
static void pictures(void) {
    static struct sitting at, before;
    uint8_t picture[HUMDAYEG_MOST_PICTURE_BYTES];
    const size_t whole = picture_bytes(TWO);
    begin(&at, TWO);
    play(&at, K5, 7);
    check(go_to(&at, 5) == 0, "a going");
    before = at;
    for (size_t length = 0; length <= sizeof picture; length++) {
        memset(picture, FILL, sizeof picture);
        const uint8_t number = humdayeg_session_picture(at.session, ROOM, picture, length);
        if (length < whole)
            check(number == HUMDAYEG_TOO_SHORT && filled(picture, 0, sizeof picture),
                  "a buffer too short for the picture");
        else
            check(number == 0 && memcmp(picture, at.session, whole) == 0 &&
                      filled(picture, whole, sizeof picture),
                  "the picture, and bytes after it kept");
    }
    check(same(&at, &before), "a picture changes no session");
}

/* Whether all calls with so many bytes of both buffers have this number; a going past the moves
   kept has 9 for 16, and the front is not tested by 16. Nothing changes. */
static int all_refuse(struct sitting *at, size_t session, size_t journal, uint8_t number) {
    static struct sitting before;
    uint8_t picture[HUMDAYEG_MOST_PICTURE_BYTES];
    const uint8_t journal_tested = number == HUMDAYEG_BAD_JOURNAL;
    uint8_t *s = at->session, *j = at->journal;
    int ok = 1;
    before = *at;
    ok = ok && humdayeg_session_move(s, session, j, journal, 9, 9, 9) == number;
    ok = ok && humdayeg_session_move(s, session, j, journal, 1, 0, 0) == number;
    ok = ok && humdayeg_session_turn(s, session, j, journal, SCRIPTS, 0, 9) == number;
    ok = ok && humdayeg_session_goto(s, session, j, journal, 0) == number;
    ok = ok && humdayeg_session_goto(s, session, j, journal, SIZE_MAX) ==
                   (journal_tested ? HUMDAYEG_NO_STEP : number);
    if (!journal_tested)
        ok = ok && humdayeg_session_front(s, session, j, journal) ==
                       HUMDAYEG_FRONT_REFUSED + number;
    if (number == HUMDAYEG_NO_SESSION) {
        memset(picture, FILL, sizeof picture);
        ok = ok && humdayeg_session_picture(s, session, picture, sizeof picture) == number;
        ok = ok && humdayeg_session_picture(s, session, picture, 0) == number;
        ok = ok && filled(picture, 0, sizeof picture);
    }
    return ok && same(at, &before);
}

/* A sitting of K5's first moves, some of them kept only. */
static void k5_at(struct sitting *at, size_t step, size_t kept) {
    begin(at, TWO);
    play(at, K5, kept);
    check(go_to(at, step) == 0, "a going");
}

/* 10, 15, 9, 16. */
static void order(void) {
    static struct sitting at;
    k5_at(&at, 4, 9);
    const size_t whole = session_bytes(TWO), most = HUMDAYEG_JOURNAL_BYTES;
    for (size_t length = most - 4; length < most; length++)
        check(all_refuse(&at, ROOM, length, HUMDAYEG_TOO_SHORT), "10 alone");
    check(all_refuse(&at, whole - 1, most - 1, HUMDAYEG_TOO_SHORT), "10 before 15");
    check(all_refuse(&at, 0, 0, HUMDAYEG_TOO_SHORT), "10 before 15, with no bytes");
    check(humdayeg_session_goto(at.session, whole, at.journal, most, 4) == 0, "just enough");
    at.journal[3 * 8] = 7;
    check(all_refuse(&at, whole, most - 1, HUMDAYEG_TOO_SHORT), "10 before 16");
    check(all_refuse(&at, whole - 1, most, HUMDAYEG_NO_SESSION), "15 before 9 and 16");
    check(all_refuse(&at, whole, most, HUMDAYEG_BAD_JOURNAL), "16, and 9 before it");
    check(humdayeg_session_front(at.session, whole, at.journal, most) == 12,
          "the front is not tested");
}

/* Whether a session of TWO with one byte changed is one: its picture reads, b and the number kept
   are within their ranges. */
static int is_session(const uint8_t *session) {
    const size_t shown = picture_bytes(TWO);
    const size_t kept = 256u * session[shown + 1] + session[shown + 2];
    const size_t stand = 256u * session[4] + session[5];
    return session[0] == TWO.p && session[1] == TWO.t && session[2] == TWO.m &&
           humdayeg_read(session, shown) == 0 && session[shown] >= 1 && session[shown] <= TWO.t &&
           stand <= kept && kept <= HUMDAYEG_MOST_MOVES;
}

/* Every byte of a session changed to every value. */
static void damaged(size_t step, size_t kept) {
    static struct sitting at, good;
    k5_at(&good, step, kept);
    for (size_t i = 0; i < session_bytes(TWO); i++) {
        int ok = 1;
        for (unsigned value = 0; value < 256; value++) {
            at = good;
            at.session[i] = (uint8_t)value;
            if (is_session(at.session))
                ok = ok && front(&at) == 3 * (256u * at.session[4] + at.session[5]);
            else
                ok = ok && all_refuse(&at, ROOM, JOURNAL_ROOM, HUMDAYEG_NO_SESSION);
        }
        check(ok, "a byte of a session with every value");
    }
}

/* Lengths and sizes. */
static void no_sessions(void) {
    static const struct table largest = {8, 32, 8, 32, 1};
    static struct sitting at;
    k5_at(&at, 2, 6);
    for (size_t length = 0; length < session_bytes(TWO); length++)
        check(all_refuse(&at, length, JOURNAL_ROOM, HUMDAYEG_NO_SESSION), "too few bytes");
    begin(&at, largest);
    check(all_refuse(&at, HUMDAYEG_MOST_SESSION_BYTES - 1, JOURNAL_ROOM, HUMDAYEG_NO_SESSION),
          "a byte too few of the largest session");
    check(humdayeg_session_goto(at.session, HUMDAYEG_MOST_SESSION_BYTES, at.journal, JOURNAL_ROOM,
                                0) == 0,
          "the largest session");
    memset(at.session, 0, ROOM);
    check(all_refuse(&at, ROOM, JOURNAL_ROOM, HUMDAYEG_NO_SESSION), "bytes of 0");
    memset(at.session, 255, ROOM);
    check(all_refuse(&at, ROOM, JOURNAL_ROOM, HUMDAYEG_NO_SESSION), "bytes of 255");
}

/* The number kept: under the moves that stand, over those of the journal, over 4,000. */
static void kept_numbers(void) {
    static struct sitting at, good;
    const size_t shown = picture_bytes(TWO);
    k5_at(&good, 4, 9);
    static const uint16_t numbers[] = {0, 3, 4, 5, 8, 9, 10, 256, 3999, 4000, 4001, 4096, 65535};
    for (size_t i = 0; i < sizeof numbers / sizeof numbers[0]; i++) {
        const size_t kept = numbers[i];
        at = good;
        at.session[shown + 1] = (uint8_t)(kept / 256);
        at.session[shown + 2] = (uint8_t)(kept % 256);
        if (kept < 4 || kept > HUMDAYEG_MOST_MOVES)
            check(all_refuse(&at, ROOM, JOURNAL_ROOM, HUMDAYEG_NO_SESSION), "out of range");
        else if (kept > 9)
            check(all_refuse(&at, ROOM, JOURNAL_ROOM, HUMDAYEG_BAD_JOURNAL), "not in the journal");
        else
            check(go_to(&at, kept) == 0 && holds(&at, K5, kept, kept), "fewer are kept");
    }
}

/* Each byte of the moves kept changed: 16 from every step. Bytes behind them do not matter. */
static void edited(void) {
    static struct sitting at;
    for (size_t step = 0; step <= 9; step += 3) {
        k5_at(&at, step, 9);
        for (size_t i = 0; i < 3 * 9; i++) {
            at.journal[i] ^= 8;
            check(all_refuse(&at, ROOM, JOURNAL_ROOM, HUMDAYEG_BAD_JOURNAL), "a move edited");
            at.journal[i] ^= 8;
        }
        at.journal[3 * 9] ^= 8;
        check(go_to(&at, 9) == 0 && go_to(&at, step) == 0, "a byte behind the moves kept");
        at.journal[3 * 9] ^= 8;
        check(holds(&at, K5, step, 9), "as it was");
    }
    /* A kept move that is accepted is gone to, whoever wrote it. */
    static const uint8_t yield[] = {2, 4, 0};
    uint8_t moves[6];
    k5_at(&at, 1, 2);
    memcpy(at.journal + 3, yield, 3);
    memcpy(moves, at.journal, 6);
    check(go_to(&at, 2) == 0 && holds(&at, moves, 2, 2), "another kept move");
    k5_at(&at, 2, 2);
    memcpy(at.journal + 3, yield, 3);
    check(all_refuse(&at, ROOM, JOURNAL_ROOM, HUMDAYEG_BAD_JOURNAL), "another standing move");
}

/* Processor 2 has no thread and looks 4,000 times; from there back to the start and forward. */
static void most_moves(void) {
    static const struct table s = {2, 1, 1, 1, 1};
    static const uint8_t look[] = {2, 0, 0}, wrong[] = {3, 0, 0}, bad[] = {2, 0, 1};
    static const size_t steps[] = {0, MOST_MOVES - 1, MOST_MOVES, 1, 2000, MOST_MOVES};
    static uint8_t moves[HUMDAYEG_JOURNAL_BYTES];
    static struct sitting at, before;
    for (size_t i = 0; i < MOST_MOVES; i++)
        moves[3 * i] = 2;
    begin(&at, s);
    play(&at, moves, MOST_MOVES);
    for (size_t i = 0; i < sizeof steps / sizeof steps[0]; i++)
        check(go_to(&at, steps[i]) == 0 && holds(&at, moves, steps[i], MOST_MOVES), "far goings");
    before = at;
    check(go_to(&at, MOST_MOVES + 1) == HUMDAYEG_NO_STEP && same(&at, &before), "no step 4,001");
    check(make(&at, look) == HUMDAYEG_FULL && same(&at, &before), "8");
    check(make(&at, wrong) == HUMDAYEG_NO_PROCESSOR && same(&at, &before), "2 before 8");
    check(make(&at, bad) == HUMDAYEG_BAD_OPERAND && same(&at, &before), "3 before 8");
    check(turn(&at, SCRIPTS, 13, 2) == HUMDAYEG_FULL && same(&at, &before), "8 at a turn");
    at.journal[HUMDAYEG_JOURNAL_BYTES - 1] = 1;
    check(all_refuse(&at, ROOM, JOURNAL_ROOM, HUMDAYEG_BAD_JOURNAL), "the last move edited");
    at = before;
    check(go_to(&at, MOST_MOVES - 1) == 0 && make(&at, look) == 0, "a move at step 3,999");
    check(same(&at, &before), "the same move again");
    check(go_to(&at, 2000) == 0 && make(&at, look) == 0, "a move at step 2,000");
    check(holds(&at, moves, 2001, 2001), "2,001 moves are left");
    before = at;
    check(go_to(&at, MOST_MOVES) == HUMDAYEG_NO_STEP && same(&at, &before), "the others are gone");
}

int main(void) {
    static const struct table each = {2, 2, 1, 2, 1};
    constants();
    layout();
    starts();
    goings(TWO);
    goings(each);
    new_moves();
    copies();
    turns();
    pictures();
    order();
    damaged(3, 7);
    damaged(0, 0);
    no_sessions();
    kept_numbers();
    edited();
    most_moves();
    printf("%u passed, %u failed\n", passed, failed);
    return failed != 0;
}
