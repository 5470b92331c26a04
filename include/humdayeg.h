/*
 * Humdayeg: the proved stepping machine, for C and for whatever calls C.
 *
 * Link with libexports.a, which `tests/build.sh exports` writes below target/staticlib.
 * The functions keep no state, allocate nothing and call nothing; calls on different
 * memory may run at the same time. A session is kept by its caller, as bytes.
 *
 * Numbers. 0 is no refusal; those that refuse are named below, and docs/MACHINE.md has them all
 * with their order. No call and no turn of a class is refused by another.
 *
 * Memory. A pointer and the length after it stand for the bytes of a slice. No pointer is
 * NULL, not even where its length is 0. What is written may not overlap what is read, nor what
 * else is written.
 */
#ifndef HUMDAYEG_H
#define HUMDAYEG_H

#include <stddef.h>
#include <stdint.h>

#ifdef __cplusplus
extern "C" {
#endif

enum {
    HUMDAYEG_BAD_TABLE = 1,     /* P, T, M, B or the fifth number outside its range */
    HUMDAYEG_NO_PROCESSOR = 2,  /* no such processor */
    HUMDAYEG_BAD_OPERAND = 3,   /* action over 6, or operand not as the action wants it; asked
                                   about a thread, or two moves, that are not there */
    HUMDAYEG_CALL_AWAY = 4,     /* call elsewhere than at App */
    HUMDAYEG_GO_AT_APP = 5,     /* go at App */
    HUMDAYEG_NOT_OWNER = 6,     /* unlock by a thread that is not the owner */
    HUMDAYEG_NOT_NEW = 7,       /* create of a thread that is not new */
    HUMDAYEG_FULL = 8,          /* 4,000 moves are applied already */
    HUMDAYEG_NO_STEP = 9,       /* going to a step past the moves kept */
    HUMDAYEG_TOO_SHORT = 10,    /* buffer shorter than what is to be written, or than a journal */
    HUMDAYEG_BAD_LENGTH = 11,   /* length not exactly the picture's */
    HUMDAYEG_BAD_FIELD = 12,    /* a field, register or zero-byte rule */
    HUMDAYEG_BAD_CHAIN = 13,    /* a chain meets a thread twice, a wrong one, or misses one */
    HUMDAYEG_BAD_HOLDER = 14,   /* current and transit fields against statuses 3 and 4 */
    HUMDAYEG_NO_SESSION = 15,   /* bytes that are no session */
    HUMDAYEG_BAD_JOURNAL = 16,  /* the journal's moves are not the session's */
    HUMDAYEG_BAD_SCRIPT = 19,   /* scripts too short, over 6 calls, or an action outside 1 to 6 */
    HUMDAYEG_STILL_OWNER = 21   /* exit by a thread that owns a mutex */
};

/* humdayeg_independent and humdayeg_ahead add it to a refusal's number; their other answers are
   under it. */
#define HUMDAYEG_REFUSED 200

/* The most moves that can stand, and the bytes of a move. */
#define HUMDAYEG_MOST_MOVES 4000
#define HUMDAYEG_MOVE_BYTES 3

/* The bytes of a thread's script. */
#define HUMDAYEG_SCRIPT_BYTES 13

/* The length of a picture; the longest, of 8 processors, 32 threads and 8 mutexes. */
#define HUMDAYEG_PICTURE_BYTES(p, t, m) \
    ((size_t)8 + 12 * (size_t)(p) + 8 * (size_t)(m) + 4 * (size_t)(t))
#define HUMDAYEG_MOST_PICTURE_BYTES 296

/*
 * Byte 7 of a picture is the table's fifth number: 0 with a single ready queue, 1 with one for
 * each processor. Where it is 1, byte 3 is 0 and
 *     byte 5 of a processor's record is its probe: how many places after its own queue,
 *            going round, the one is that it tries next at CI2; elsewhere 0
 *     byte 11 of a processor's record is the first of its own ready chain
 *     byte 1 of a ready thread's record is the processor whose queue it is in
 * Where it is 0, these three are 0.
 */

/*
 * Replays moves from a start table and writes the picture of the state that they lead to.
 *
 * p, t, m, b: the start table: processors 1 to 8, threads 1 to 32, mutexes 1 to 8, threads
 *     created at first 1 to t.
 * moves: moves_len bytes, three for each move: processor, action, operand.
 * picture: picture_len bytes; HUMDAYEG_PICTURE_BYTES(p, t, m) are enough, and
 *     HUMDAYEG_MOST_PICTURE_BYTES always are. Bytes after the picture keep their values.
 * place: set at every call: which move is refused, counted from 1; 0 where none is.
 *
 * Answers, the first that is there:
 *     1        the table is outside its ranges; place is 0
 *     2 to 8, 21
 *              the moves are made in order, and this is the first that is refused, with its
 *              place. The 4,001st move is refused, by 8 where not by 2 or 3. One or two bytes
 *              left at the end are a move without its operand, refused by 3 once all moves
 *              before it are accepted. Nothing after a refused move is looked at.
 *     10       every move is accepted and the picture does not fit; place is 0. So a call
 *              with picture_len 0 tries a list of moves and writes nothing.
 *     0        accepted, the picture is written; place is 0
 * With any answer but 0 no byte of the picture is changed.
 */
uint8_t humdayeg_replay(uint8_t p, uint8_t t, uint8_t m, uint8_t b,
                        const uint8_t *moves, size_t moves_len,
                        uint8_t *picture, size_t picture_len,
                        uint32_t *place);

/*
 * The same of a start table with a fifth number.
 *
 * stealing: 0 for a single ready queue, which humdayeg_replay has; 1 for a ready queue for each
 *     processor; any other is refused by 1.
 */
uint8_t humdayeg_replay_with(uint8_t p, uint8_t t, uint8_t m, uint8_t b, uint8_t stealing,
                             const uint8_t *moves, size_t moves_len,
                             uint8_t *picture, size_t picture_len,
                             uint32_t *place);

/*
 * The kinds of the words that processors share. A word is a kind and a number: of the mutex, of the
 * processor whose ready queue it is (1 for the single one), or of the thread. The owner of a mutex
 * is no word, nor are the registers of a processor.
 */
enum {
    HUMDAYEG_WORD_NONE = 0,     /* no word; its number is 0 */
    HUMDAYEG_WORD_COUNT = 1,    /* the count of a mutex */
    HUMDAYEG_WORD_TOKEN = 2,    /* the token of a mutex */
    HUMDAYEG_WORD_QUEUE = 3,    /* the queue of a mutex */
    HUMDAYEG_WORD_READY = 4,    /* a ready queue */
    HUMDAYEG_WORD_BIRTH = 5     /* the birth of a thread: whether it is new */
};

/* The bytes of what a move touches: the kind and the number of a word read, then of one written. */
#define HUMDAYEG_TOUCH_BYTES 4

/*
 * Replays moves from a start table and writes which word each of them reads and which it writes, so
 * that a window can colour them.
 *
 * p, t, m, b, stealing: the start table, as for humdayeg_replay_with.
 * moves: moves_len bytes, as for humdayeg_replay.
 * words: words_len bytes, HUMDAYEG_TOUCH_BYTES for each move or more. For move i, counted from 0,
 *     words[4i] and words[4i + 1] become the kind and the number of the word that it reads,
 *     words[4i + 2] and words[4i + 3] those of the word that it writes. Where both are one word, it
 *     stands twice. Bytes after the last move's keep their values.
 * place: set at every call, as by humdayeg_replay.
 *
 * The words are those in the state before the move: CI2's is the ready queue that the processor's
 * probe gives then, and a line that changes a word only where it finds it as it wants it (TL1, L8,
 * GT3, H8, and CI2 and H2 with a thread in the queue) else only reads it.
 *
 * Answers, the first that is there:
 *     1        the table is outside its ranges; place is 0
 *     2 to 8, 21
 *              the number of the first refused move, with its place, as by humdayeg_replay
 *     10       every move is accepted and words_len is under HUMDAYEG_TOUCH_BYTES times the number
 *              of moves; place is 0
 *     0        accepted, the words are written; place is 0. Without moves nothing is written.
 * With any answer but 0 no byte of words is changed.
 */
uint8_t humdayeg_words(uint8_t p, uint8_t t, uint8_t m, uint8_t b, uint8_t stealing,
                       const uint8_t *moves, size_t moves_len,
                       uint8_t *words, size_t words_len,
                       uint32_t *place);

/*
 * Replays moves from a start table and tells whether two neighbours among them may change places:
 * whether they are of different processors and neither writes a word that the other reads or
 * writes. Each one's words are those that humdayeg_words gives for it where it stands.
 *
 * p, t, m, b, stealing: the start table, as for humdayeg_replay_with.
 * moves: moves_len bytes, as for humdayeg_replay.
 * first: the place of the earlier one, counted from 1. The later one is at first + 1.
 * place: set at every call, as by humdayeg_replay.
 *
 * Answers, the first that is there:
 *     HUMDAYEG_REFUSED + 1     the table is outside its ranges; place is 0
 *     HUMDAYEG_REFUSED + n     the first refused move of the whole list has the number n, 2 to 8
 *                              or 21, and this place, as by humdayeg_replay
 *     HUMDAYEG_REFUSED + 3     every move is accepted, and there are no moves at both places, as
 *                              first is 0 or not under the number of moves; place is 0
 *     0                        they may not; place is 0
 *     1                        they may; place is 0. With the two exchanged every move of the
 *                              list is accepted, the picture after the last is the same, each of
 *                              the two has the words that it had, and they may change places again.
 * Where it is 0, the list with the two exchanged may be refused, lead elsewhere, or lead to the same
 * picture after all: humdayeg_replay_with tells.
 */
uint8_t humdayeg_independent(uint8_t p, uint8_t t, uint8_t m, uint8_t b, uint8_t stealing,
                             const uint8_t *moves, size_t moves_len,
                             uint32_t first, uint32_t *place);

/*
 * Takes the turns of a class from a start table, each thread calling by its script, and writes
 * the picture after each turn.
 *
 * p, t, m, b: the start table, as for humdayeg_replay.
 * scripts: scripts_len bytes, HUMDAYEG_SCRIPT_BYTES for each thread from 1 on. Byte 0 of a
 *     script says how many calls it has, 0 to 6; bytes 2i + 1 and 2i + 2 are the action (1 to 6)
 *     and the operand of its call i, counted from 0. No other byte is looked at.
 * turns: turns_len bytes, each the processor that has a turn. At App it makes the next call of
 *     its current thread, or exit once it has made all; elsewhere it goes. A thread's next
 *     call is the one after those that it has made.
 * answers: answers_len bytes, turns_len or more: answers[i] becomes the number of turns[i]:
 *     0        accepted
 *     2        no such processor
 *     3        the call's operand does not fit; operands are looked at in the turn only
 *     8        4,000 turns were accepted already
 *     6, 7, 21 unlock by a thread that is not the owner, create of one that is not new, exit by
 *              one that owns a mutex
 *     the first that is there. A refused turn changes nothing, so the call is next again. A thread
 *     that has made all its calls and owns a mutex gets 21 at each turn, as it makes no other call.
 * pictures: pictures_len bytes, turns_len pictures of HUMDAYEG_PICTURE_BYTES(p, t, m) or more,
 *     one behind the other: the picture after each turn, accepted or not.
 *
 * Answers, the first that is there:
 *     1        the table is outside its ranges
 *     19       scripts_len is under HUMDAYEG_SCRIPT_BYTES * t, or the script of one of the threads
 *              1 to t has over six calls or, among its calls, an action outside 1 to 6
 *     10       answers or pictures is too short
 *     0        the turns are taken, whether accepted or refused
 * With any answer but 0 no byte of answers and pictures is changed. Bytes after those that are
 * written keep their values.
 */
uint8_t humdayeg_class(uint8_t p, uint8_t t, uint8_t m, uint8_t b,
                       const uint8_t *scripts, size_t scripts_len,
                       const uint8_t *turns, size_t turns_len,
                       uint8_t *answers, size_t answers_len,
                       uint8_t *pictures, size_t pictures_len);

/*
 * The same of a start table with a fifth number, which is as for humdayeg_replay_with.
 */
uint8_t humdayeg_class_with(uint8_t p, uint8_t t, uint8_t m, uint8_t b, uint8_t stealing,
                            const uint8_t *scripts, size_t scripts_len,
                            const uint8_t *turns, size_t turns_len,
                            uint8_t *answers, size_t answers_len,
                            uint8_t *pictures, size_t pictures_len);

/*
 * Reads a picture and answers its number: 0 if the bytes are a picture, else the first that
 * is there of 11 (under 8 bytes), 12 (sizes), 11 (length not exactly the picture's), 12, 13
 * and 14. A picture is HUMDAYEG_PICTURE_BYTES(p, t, m) bytes, p, t and m being its first
 * three. One in which a terminated thread owns a mutex reads too, though no moves lead to it.
 */
uint8_t humdayeg_read(const uint8_t *picture, size_t picture_len);

/*
 * Turns ahead of a thread in a picture.
 *
 * Answers:
 *     0 to 32                  the thread waits in a mutex's queue: the threads before it,
 *                              plus one if the mutex has an owner
 *     HUMDAYEG_NOT_WAITING     it is a thread of the picture and waits in no mutex's queue
 *     HUMDAYEG_REFUSED + n     refused by n: 11 to 14 as humdayeg_read answers, or 3 where
 *                              the picture is right and the thread outside 1 to T
 */
#define HUMDAYEG_NOT_WAITING 100

uint8_t humdayeg_ahead(const uint8_t *picture, size_t picture_len, uint8_t thread);

/*
 * The mark of a candidate's picture against the machine's.
 *
 * machine: machine_len bytes, a picture. Its sizes say where the records are.
 * candidate: candidate_len bytes, as many as the machine's; they may have any values.
 *
 * A record whose bytes are all equal in both earns 5 points for a processor, 3 for a mutex and 2
 * for a thread. The header earns none, right or wrong.
 *
 * Answers, the first that is there:
 *     HUMDAYEG_MARK_REFUSED + n      humdayeg_read answers n, 11 to 14, for the machine's picture
 *     HUMDAYEG_MARK_REFUSED + 11     candidate_len is not machine_len
 *     0 to HUMDAYEG_FULL_MARK        the mark in hundredths: the points earned as a part of all
 *                                    points, times 10,000, rounded down. It is the full mark
 *                                    exactly if all records are equal.
 * From HUMDAYEG_MARK_REFUSED on an answer is a refusal; subtracting it gives the number. A mark is
 * shown by printf("%u.%02u", mark / 100u, mark % 100u): 8823 as 88.23.
 */
#define HUMDAYEG_FULL_MARK 10000
#define HUMDAYEG_MARK_REFUSED 20000

uint16_t humdayeg_mark(const uint8_t *machine, size_t machine_len,
                       const uint8_t *candidate, size_t candidate_len);

/*
 * A sitting, call by call. The caller keeps two buffers and hands the same ones in again: the
 * session, and the journal of its moves. They are all there is of it: a caller may have several,
 * copy both to come back to them, or store them.
 *
 * session: session_len bytes. The session is their front: HUMDAYEG_SESSION_BYTES(p, t, m) bytes of
 *     these sizes, so that HUMDAYEG_MOST_SESSION_BYTES are always enough.
 *         the picture of its state, whose bytes 4 and 5 are the number n of moves that stand
 *         1 byte: b, the threads created at first
 *         2 bytes, high byte first: the number of moves kept, n or more
 *     The bytes behind it are neither looked at nor changed.
 * journal: journal_len bytes, HUMDAYEG_JOURNAL_BYTES or more. It begins with the moves kept, in
 *     order and three bytes each, and those that stand are the first n of them. What is behind the
 *     moves kept is not looked at, so a new journal may have any bytes.
 *
 * Going to a step changes how many moves stand and keeps them all, so that one can go back and
 * forward again. An accepted move or turn drops those kept past the ones that stand, and stands
 * behind these; it writes its own three bytes of the journal and no others. A refused call drops
 * nothing.
 *
 * The bytes are no session (15) if there are fewer than three; if p, t or m, which are the first
 * three, is out of its range; if there are fewer than HUMDAYEG_SESSION_BYTES(p, t, m); if
 * humdayeg_read refuses the picture among them; if b is outside 1 to t; or if the number of moves
 * kept is under that of those that stand, or over HUMDAYEG_MOST_MOVES.
 *
 * The journal's moves are the session's, or they are refused by 16: made from the start table that
 * the session tells, the first n lead to its picture, and those kept past them are accepted one
 * after the other. Whoever wrote them there, they are what is gone to.
 *
 * With any answer but 0 no byte of session and journal is changed.
 */
#define HUMDAYEG_JOURNAL_BYTES 12000
#define HUMDAYEG_SESSION_BYTES(p, t, m) (HUMDAYEG_PICTURE_BYTES(p, t, m) + 3)
#define HUMDAYEG_MOST_SESSION_BYTES 299

/*
 * Begins a session, in which no move stands and none is kept.
 *
 * p, t, m, b, stealing: the start table, as for humdayeg_replay_with.
 *
 * Answers, the first that is there:
 *     1        the table is outside its ranges
 *     10       session_len is under HUMDAYEG_SESSION_BYTES(p, t, m)
 *     0        accepted, the session is written
 */
uint8_t humdayeg_session_start(uint8_t p, uint8_t t, uint8_t m, uint8_t b, uint8_t stealing,
                               uint8_t *session, size_t session_len);

/*
 * Makes a move.
 *
 * processor, action, operand: the move's three bytes.
 *
 * Answers, the first that is there:
 *     10       journal_len is under HUMDAYEG_JOURNAL_BYTES
 *     15       the bytes are no session
 *     16       the journal's moves are not the session's
 *     2, 3     no such processor; action or operand
 *     8        4,000 moves stand already, however many are kept
 *     4 or 5   a call away from App, or a go at App
 *     6, 7, 21 unlock by a thread that is not the owner, create of one that is not new, exit by one
 *              that owns a mutex
 *     0        accepted, the session and the move's three bytes of the journal are written
 */
uint8_t humdayeg_session_move(uint8_t *session, size_t session_len,
                              uint8_t *journal, size_t journal_len,
                              uint8_t processor, uint8_t action, uint8_t operand);

/*
 * Takes a turn: at App the processor makes the next call of its current thread's script, or exit
 * once that is spent; elsewhere it goes. A thread's next call is the one after those that it has
 * made among the moves that stand, by turns or by moves.
 *
 * scripts: scripts_len bytes, as for humdayeg_class. They are lent at each turn.
 * processor: the one that has the turn.
 *
 * Answers, the first that is there:
 *     10, 15, 16
 *              as humdayeg_session_move
 *     19       the scripts, as by humdayeg_class
 *     2, 3, 8, 6, 7, 21
 *              as its move
 *     0        accepted, the session and the move's three bytes of the journal are written
 */
uint8_t humdayeg_session_turn(uint8_t *session, size_t session_len,
                              uint8_t *journal, size_t journal_len,
                              const uint8_t *scripts, size_t scripts_len,
                              uint8_t processor);

/*
 * Goes to a step, back or forward: as many of the moves kept stand then, and the state is what they
 * lead to. Step 0 is the start. The journal is not written.
 *
 * step: how many moves are to stand.
 *
 * Answers, the first that is there:
 *     10       journal_len is under HUMDAYEG_JOURNAL_BYTES
 *     15       the bytes are no session
 *     9        step is over the number of moves kept
 *     16       the journal's moves are not the session's
 *     0        accepted, the session is written
 */
uint8_t humdayeg_session_goto(uint8_t *session, size_t session_len,
                              const uint8_t *journal, size_t journal_len,
                              size_t step);

/*
 * Writes the picture of a session's state.
 *
 * picture: picture_len bytes, as for humdayeg_replay; they are not those of the session.
 *
 * Answers, the first that is there:
 *     15       the bytes are no session
 *     10       picture_len is under the picture's length
 *     0        the picture is written; bytes after it keep their values
 * With any answer but 0 no byte of the picture is changed.
 */
uint8_t humdayeg_session_picture(const uint8_t *session, size_t session_len,
                                 uint8_t *picture, size_t picture_len);

/*
 * The length of the journal's front, which is the moves that stand: so many bytes of the journal
 * from its first on, three for each move.
 *
 * Answers, the first that is there:
 *     HUMDAYEG_FRONT_REFUSED + 10     journal_len is under HUMDAYEG_JOURNAL_BYTES
 *     HUMDAYEG_FRONT_REFUSED + 15     the bytes are no session
 *     0 to HUMDAYEG_JOURNAL_BYTES     the length. Whether the moves are the session's is not tested
 *                                     here.
 */
#define HUMDAYEG_FRONT_REFUSED 20000

uint16_t humdayeg_session_front(const uint8_t *session, size_t session_len,
                                const uint8_t *journal, size_t journal_len);

#ifdef __cplusplus
}
#endif

#endif
