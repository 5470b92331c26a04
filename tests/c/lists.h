/*
 * What the C programs on lists of moves share: start tables with their fifth number, wrong tables,
 * and moves that are refused after K5.
 */
#ifndef LISTS_H
#define LISTS_H

#include "checks.h"

#include <string.h>

struct table {
    uint8_t p, t, m, b, stealing;
};

static const struct table TWO = {2, 2, 1, 2, 0};

static const struct table BAD_TABLES[] = {{0, 2, 1, 2, 0}, {9, 2, 1, 2, 0}, {2, 33, 1, 2, 0},
                                          {2, 2, 0, 2, 0}, {2, 2, 9, 2, 0}, {2, 2, 1, 3, 0},
                                          {2, 2, 1, 0, 0}, {2, 2, 1, 2, 2}, {2, 2, 1, 2, 255}};

/* A move that comes after K5 and the number that refuses it. */
static const struct {
    uint8_t move[HUMDAYEG_MOVE_BYTES], number;
} REFUSED_AFTER_K5[] = {{{3, 0, 0}, HUMDAYEG_NO_PROCESSOR}, {{1, 7, 0}, HUMDAYEG_BAD_OPERAND},
                        {{1, 0, 1}, HUMDAYEG_BAD_OPERAND},  {{1, 0, 0}, HUMDAYEG_GO_AT_APP},
                        {{1, 3, 1}, HUMDAYEG_NOT_OWNER},    {{2, 6, 1}, HUMDAYEG_NOT_NEW},
                        {{2, 5, 0}, HUMDAYEG_STILL_OWNER}};

enum {
    BAD_TABLE_COUNT = sizeof BAD_TABLES / sizeof BAD_TABLES[0],
    REFUSED_COUNT = sizeof REFUSED_AFTER_K5 / sizeof REFUSED_AFTER_K5[0]
};

/* K5 and a move after it. */
struct longer {
    uint8_t moves[sizeof K5 + HUMDAYEG_MOVE_BYTES];
};

static struct longer after_k5(const uint8_t *move) {
    struct longer longer;
    memcpy(longer.moves, K5, sizeof K5);
    memcpy(longer.moves + sizeof K5, move, HUMDAYEG_MOVE_BYTES);
    return longer;
}

/* The second move is the first that is refused, by 4. */
static const uint8_t TWICE[] = {1, 4, 0, 1, 4, 0, 9, 9, 9};

#endif
