// Kinds of lines: elements, their joining, and their figures.
#ifndef PLAIN_KIND_H
#define PLAIN_KIND_H

#include <stdbool.h>
#include <stdint.h>

#define MOST_WIDTH 9

enum kind_name { RUNS, COUNTS, RESIDUES, COSTS };

// k and the modulus are 0 where the kind has none.
struct kind {
    enum kind_name name;
    int k;
    uint64_t modulus;
};

enum status { JUDGED, DOWN, UP, BYPASS };

struct values {
    enum status status;
    uint64_t up;
    uint64_t down;
};

struct runs {
    bool all;
    uint32_t first;
    uint32_t last;
    uint32_t longest;
};

// The first 2k + 1 rows and columns are used.
struct matrix {
    uint64_t at[MOST_WIDTH][MOST_WIDTH];
};

// What stands for a stretch of stations: a run summary, or a matrix.
union element {
    struct runs runs;
    struct matrix matrix;
};

struct figures {
    uint64_t first;
    uint64_t second;
};

// Makes the kind, unless k or the modulus is out of range.
bool make_kind(enum kind_name name, uint64_t k, uint64_t modulus, struct kind *kind);
bool takes(const struct kind *kind, const struct values *values);
int shortest_ring(const struct kind *kind);
void make_single(const struct kind *kind, const struct values *values, union element *out);
void make_empty(const struct kind *kind, union element *out);
void join(const struct kind *kind, const union element *left, const union element *right, union element *out);
struct figures window_figures(const struct kind *kind, const union element *element);
struct figures ring_figures(const struct kind *kind, const union element *element);

#endif
