// The calls on a line.
#include "plain_line.h"

#include <string.h>

// A window has at most two largest whole blocks on each level.
#define MOST_BLOCKS 12

void line_begin(struct line *line, const struct kind *kind) {
    line->kind = *kind;
    line->count = 0;
    line->is_trial = false;
    line->entries = 0;
}

// Filling.

static bool is_label(const uint8_t *label, size_t len) {
    if (len > LABEL_BYTES) {
        return false;
    }
    for (size_t i = 0; i < len; i++) {
        if (label[i] < 0x20 || label[i] > 0x7E) {
            return false;
        }
    }
    return true;
}

static int add_refusal(const struct line *line, const uint8_t *label, size_t label_len, const struct values *values) {
    if (line->count == MOST_STATIONS) {
        return TOO_LITTLE_SPACE;
    }
    if (!is_label(label, label_len)) {
        return BAD_LABEL;
    }
    return takes(&line->kind, values) ? ACCEPTED : NOT_TAKEN;
}

int line_add(struct line *line, const uint8_t *label, size_t label_len, const struct values *values, uint64_t *answer) {
    int refusal = add_refusal(line, label, label_len, values);
    if (refusal != ACCEPTED) {
        return refusal;
    }
    struct station *station = &line->stations[line->count];
    memset(station->label, 0, LABEL_BYTES);
    memcpy(station->label, label, label_len);
    station->values = *values;
    line->count++;
    *answer = line->count;
    return ACCEPTED;
}

static void rejoin(struct line *line, size_t node) {
    join(&line->kind, &line->nodes[2 * node], &line->nodes[2 * node + 1], &line->nodes[node]);
}

static void fill_tree(struct line *line) {
    line->height = 0;
    line->leaves = 1;
    while (line->leaves < line->count) {
        line->height++;
        line->leaves *= 2;
    }
    for (size_t i = 0; i < line->count; i++) {
        make_single(&line->kind, &line->stations[i].values, &line->nodes[line->leaves + i]);
    }
    for (size_t i = line->count; i < line->leaves; i++) {
        make_empty(&line->kind, &line->nodes[line->leaves + i]);
    }
    for (size_t node = line->leaves - 1; node >= 1; node--) {
        rejoin(line, node);
    }
}

int line_close(struct line *line, uint64_t *answer) {
    if (line->count == 0) {
        return NO_STATION;
    }
    fill_tree(line);
    *answer = line->leaves - 1;
    return ACCEPTED;
}

// Standing.

static bool is_place(const struct line *line, uint64_t place) {
    return place >= 1 && place <= line->count;
}

static void put(struct line *line, size_t place, const struct values *values) {
    size_t node = line->leaves + place - 1;
    line->stations[place - 1].values = *values;
    make_single(&line->kind, values, &line->nodes[node]);
    for (node /= 2; node >= 1; node /= 2) {
        rejoin(line, node);
    }
}

static int set_refusal(const struct line *line, uint64_t place, const struct values *values) {
    if (!is_place(line, place)) {
        return BAD_PLACE;
    }
    if (!takes(&line->kind, values)) {
        return NOT_TAKEN;
    }
    return line->is_trial && line->entries == MOST_ENTRIES ? JOURNAL_FULL : ACCEPTED;
}

int line_set(struct line *line, uint64_t place, const struct values *values, uint64_t *answer) {
    int refusal = set_refusal(line, place, values);
    if (refusal != ACCEPTED) {
        return refusal;
    }
    if (line->is_trial) {
        line->journal[line->entries++] = (struct entry){(size_t)place, line->stations[place - 1].values};
    }
    put(line, (size_t)place, values);
    *answer = (uint64_t)line->height;
    return ACCEPTED;
}

int line_try(struct line *line, uint64_t *answer) {
    if (line->is_trial) {
        return TRIAL_OPEN;
    }
    line->is_trial = true;
    *answer = 0;
    return ACCEPTED;
}

static void end_trial(struct line *line) {
    line->is_trial = false;
    line->entries = 0;
}

int line_keep(struct line *line, uint64_t *answer) {
    if (!line->is_trial) {
        return NO_TRIAL;
    }
    *answer = line->entries;
    end_trial(line);
    return ACCEPTED;
}

int line_back(struct line *line, uint64_t *answer) {
    if (!line->is_trial) {
        return NO_TRIAL;
    }
    for (size_t i = line->entries; i > 0; i--) {
        put(line, line->journal[i - 1].place, &line->journal[i - 1].values);
    }
    *answer = line->entries;
    end_trial(line);
    return ACCEPTED;
}

// The nodes of the largest whole blocks of the places from first to last, from left to right, and how many they are.
static size_t find_blocks(const struct line *line, size_t first, size_t last, size_t blocks[MOST_BLOCKS]) {
    size_t right_blocks[MOST_BLOCKS];
    size_t count = 0;
    size_t right_count = 0;
    size_t left = line->leaves + first - 1;
    size_t end = line->leaves + last;
    for (; left < end; left /= 2, end /= 2) {
        if (left % 2 == 1) {
            blocks[count++] = left++;
        }
        if (end % 2 == 1) {
            right_blocks[right_count++] = --end;
        }
    }
    while (right_count > 0) {
        blocks[count++] = right_blocks[--right_count];
    }
    return count;
}

// The joining of the nodes, from left to right: the node itself where there is one, else one of the two rooms.
static const union element *join_blocks(const struct line *line, const size_t *blocks, size_t count, union element rooms[2]) {
    const union element *joined = &line->nodes[blocks[0]];
    for (size_t i = 1; i < count; i++) {
        union element *room = &rooms[i % 2];
        join(&line->kind, joined, &line->nodes[blocks[i]], room);
        joined = room;
    }
    return joined;
}

// Which figures of a window are meant.
typedef struct figures figures_of(const struct kind *kind, const union element *element);

static struct reply gather(const struct line *line, size_t first, size_t last, figures_of *figures) {
    size_t blocks[MOST_BLOCKS] = {0};
    union element rooms[2];
    size_t count = find_blocks(line, first, last, blocks);
    const union element *joined = join_blocks(line, blocks, count, rooms);
    return (struct reply){figures(&line->kind, joined), count - 1};
}

int line_ask(const struct line *line, uint64_t first, uint64_t last, struct reply *reply) {
    if (!is_place(line, first) || !is_place(line, last) || first > last) {
        return BAD_PLACE;
    }
    *reply = gather(line, (size_t)first, (size_t)last, window_figures);
    return ACCEPTED;
}

int line_ring(const struct line *line, struct reply *reply) {
    if (line->count < (size_t)shortest_ring(&line->kind)) {
        return RING_TOO_SHORT;
    }
    *reply = gather(line, 1, line->count, ring_figures);
    return ACCEPTED;
}
