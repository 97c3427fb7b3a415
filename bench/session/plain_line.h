// A line of up to 32 stations: its list, its segment tree and its journal, and the calls on it.
#ifndef PLAIN_LINE_H
#define PLAIN_LINE_H

#include <stdbool.h>
#include <stddef.h>
#include <stdint.h>

#include "plain_kind.h"

#define MOST_STATIONS 32
#define MOST_ENTRIES 32
#define LABEL_BYTES 24

// Numbers of refusals.
enum {
    ACCEPTED = 0,
    TOO_LITTLE_SPACE = 2,
    BAD_LABEL = 4,
    NOT_TAKEN = 5,
    BAD_PLACE = 6,
    NO_STATION = 7,
    RING_TOO_SHORT = 8,
    TRIAL_OPEN = 9,
    NO_TRIAL = 10,
    JOURNAL_FULL = 11,
};

struct station {
    uint8_t label[LABEL_BYTES];
    struct values values;
};

struct entry {
    size_t place;
    struct values values;
};

// Node 1 is the root, and nodes 2i and 2i + 1 are the children of node i. The leaf of place p is node leaves + p - 1.
struct line {
    struct kind kind;
    struct station stations[MOST_STATIONS];
    size_t count;
    size_t leaves;
    int height;
    union element nodes[2 * MOST_STATIONS];
    bool is_trial;
    struct entry journal[MOST_ENTRIES];
    size_t entries;
};

struct reply {
    struct figures figures;
    uint64_t joins;
};

void line_begin(struct line *line, const struct kind *kind);

// Each call returns the number of its refusal, or ACCEPTED; only then it changes the line and writes its answer.
int line_add(struct line *line, const uint8_t *label, size_t label_len, const struct values *values, uint64_t *answer);
int line_close(struct line *line, uint64_t *answer);
int line_set(struct line *line, uint64_t place, const struct values *values, uint64_t *answer);
int line_try(struct line *line, uint64_t *answer);
int line_keep(struct line *line, uint64_t *answer);
int line_back(struct line *line, uint64_t *answer);
int line_ask(const struct line *line, uint64_t first, uint64_t last, struct reply *reply);
int line_ring(const struct line *line, struct reply *reply);

#endif
