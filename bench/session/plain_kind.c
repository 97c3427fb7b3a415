// Kinds of lines: run summaries, and matrices over counts, residues and costs.
#include "plain_kind.h"

#define MOST_COUNT UINT64_C(1000000000)
#define MOST_COST UINT64_C(1000000000000)
#define NO_COST UINT64_C(1000000000001)
#define MOST_MODULUS UINT64_C(2147483647)
#define MOST_K 4

static inline uint64_t least(uint64_t x, uint64_t y) {
    return x < y ? x : y;
}

static uint32_t greatest(uint32_t x, uint32_t y) {
    return x > y ? x : y;
}

static bool is_threshold(enum kind_name name, uint64_t k) {
    return name == RUNS ? k == 0 : k >= 1 && k <= MOST_K;
}

static bool is_modulus(enum kind_name name, uint64_t modulus) {
    return name == RESIDUES ? modulus >= 2 && modulus <= MOST_MODULUS : modulus == 0;
}

bool make_kind(enum kind_name name, uint64_t k, uint64_t modulus, struct kind *kind) {
    if (!is_threshold(name, k) || !is_modulus(name, modulus)) {
        return false;
    }
    *kind = (struct kind){name, (int)k, modulus};
    return true;
}

// The greatest code that is a member.
static uint64_t most_code(const struct kind *kind) {
    switch (kind->name) {
    case COUNTS:
        return MOST_COUNT;
    case RESIDUES:
        return kind->modulus - 1;
    case COSTS:
        return NO_COST;
    default:
        return UINT64_MAX;
    }
}

bool takes(const struct kind *kind, const struct values *values) {
    uint64_t most = most_code(kind);
    return values->up <= most && values->down <= most;
}

int shortest_ring(const struct kind *kind) {
    return kind->name == RUNS ? 1 : kind->k;
}

// Run summaries.

static struct runs runs_of_status(enum status status) {
    uint32_t run = status == DOWN;
    return (struct runs){status == DOWN, run, run, run};
}

static struct runs join_runs(const struct runs *left, const struct runs *right) {
    return (struct runs){
        .all = left->all && right->all,
        .first = left->all ? left->first + right->first : left->first,
        .last = right->all ? right->last + left->last : right->last,
        .longest = greatest(greatest(left->longest, right->longest), left->last + right->first),
    };
}

static struct figures ring_of_runs(const struct runs *runs) {
    uint32_t seam = runs->all ? runs->first : runs->last + runs->first;
    return (struct figures){greatest(runs->longest, seam), seam};
}

// Matrices.

static inline uint64_t zero_of(enum kind_name name) {
    return name == COSTS ? NO_COST : 0;
}

static inline uint64_t one_of(enum kind_name name) {
    return name == COSTS ? 0 : 1;
}

static uint64_t sum(const struct kind *kind, uint64_t x, uint64_t y) {
    switch (kind->name) {
    case COUNTS:
        return least(x + y, MOST_COUNT);
    case RESIDUES:
        return (x + y) % kind->modulus;
    default:
        return least(x, y);
    }
}

// The sum with one product more. Counts are stopped when the last product has been added: nine products of members fit.
static inline uint64_t plus_product(enum kind_name name, uint64_t modulus, uint64_t total, uint64_t x, uint64_t y) {
    switch (name) {
    case COUNTS:
        return total + x * y;
    case RESIDUES:
        return (total + x * y) % modulus;
    default:
        return least(total, y == NO_COST ? NO_COST : least(x + y, MOST_COST));
    }
}

// A row of the product. A zero in the left row adds nothing.
static inline void multiply_row(enum kind_name name, uint64_t modulus, int width, const uint64_t *left, const struct matrix *right,
                                uint64_t *out) {
    uint64_t totals[MOST_WIDTH];
    for (int j = 0; j < width; j++) {
        totals[j] = zero_of(name);
    }
    for (int l = 0; l < width; l++) {
        if (left[l] != zero_of(name)) {
            for (int j = 0; j < width; j++) {
                totals[j] = plus_product(name, modulus, totals[j], left[l], right->at[l][j]);
            }
        }
    }
    for (int j = 0; j < width; j++) {
        out[j] = name == COUNTS ? least(totals[j], MOST_COUNT) : totals[j];
    }
}

static inline void multiply_width(enum kind_name name, uint64_t modulus, int width, const struct matrix *left,
                                  const struct matrix *right, struct matrix *out) {
    for (int i = 0; i < width; i++) {
        multiply_row(name, modulus, width, left->at[i], right, out->at[i]);
    }
}

// Name and width are constants where this is called, so that the compiler unrolls the loops.
static inline void multiply(enum kind_name name, uint64_t modulus, int k, const struct matrix *left, const struct matrix *right,
                            struct matrix *out) {
    switch (k) {
    case 1:
        multiply_width(name, modulus, 3, left, right, out);
        break;
    case 2:
        multiply_width(name, modulus, 5, left, right, out);
        break;
    case 3:
        multiply_width(name, modulus, 7, left, right, out);
        break;
    default:
        multiply_width(name, modulus, 9, left, right, out);
        break;
    }
}

static void clear(const struct kind *kind, struct matrix *matrix) {
    int width = 2 * kind->k + 1;
    for (int i = 0; i < width; i++) {
        for (int j = 0; j < width; j++) {
            matrix->at[i][j] = zero_of(kind->name);
        }
    }
}

static uint64_t up_weight(const struct kind *kind, const struct values *values) {
    switch (values->status) {
    case DOWN:
        return zero_of(kind->name);
    case BYPASS:
        return one_of(kind->name);
    default:
        return values->up;
    }
}

static uint64_t down_weight(const struct kind *kind, const struct values *values) {
    bool may_be_down = values->status == JUDGED || values->status == DOWN;
    return may_be_down ? values->down : zero_of(kind->name);
}

// Where a station that is up leads from a state of the chain of runs, and where one that is down does.
static int up_from(int k, int state) {
    return state < k ? 0 : k;
}

static int down_from(int k, int state) {
    if (state == k - 1 || state == 2 * k) {
        return 2 * k;
    }
    return state + 1;
}

static void make_station(const struct kind *kind, const struct values *values, struct matrix *out) {
    uint64_t up = up_weight(kind, values);
    uint64_t down = down_weight(kind, values);
    clear(kind, out);
    for (int state = 0; state <= 2 * kind->k; state++) {
        out->at[state][up_from(kind->k, state)] = up;
        out->at[state][down_from(kind->k, state)] = down;
    }
}

static void make_unit(const struct kind *kind, struct matrix *out) {
    clear(kind, out);
    for (int i = 0; i <= 2 * kind->k; i++) {
        out->at[i][i] = one_of(kind->name);
    }
}

static struct figures window_of_matrix(const struct kind *kind, const struct matrix *m) {
    uint64_t failing = zero_of(kind->name);
    uint64_t working = zero_of(kind->name);
    for (int r = 0; r <= kind->k; r++) {
        failing = sum(kind, failing, m->at[0][kind->k + r]);
    }
    for (int r = 0; r < kind->k; r++) {
        working = sum(kind, working, m->at[0][r]);
    }
    return (struct figures){failing, working};
}

static struct figures ring_of_matrix(const struct kind *kind, const struct matrix *m) {
    uint64_t failing = m->at[0][2 * kind->k];
    uint64_t working = zero_of(kind->name);
    for (int j = 0; j < kind->k; j++) {
        failing = sum(kind, failing, m->at[j][kind->k + j]);
        working = sum(kind, working, m->at[j][j]);
    }
    return (struct figures){failing, working};
}

// Elements.

void make_single(const struct kind *kind, const struct values *values, union element *out) {
    if (kind->name == RUNS) {
        out->runs = runs_of_status(values->status);
    } else {
        make_station(kind, values, &out->matrix);
    }
}

void make_empty(const struct kind *kind, union element *out) {
    if (kind->name == RUNS) {
        out->runs = (struct runs){true, 0, 0, 0};
    } else {
        make_unit(kind, &out->matrix);
    }
}

void join(const struct kind *kind, const union element *left, const union element *right, union element *out) {
    switch (kind->name) {
    case RUNS:
        out->runs = join_runs(&left->runs, &right->runs);
        break;
    case COUNTS:
        multiply(COUNTS, 0, kind->k, &left->matrix, &right->matrix, &out->matrix);
        break;
    case RESIDUES:
        multiply(RESIDUES, kind->modulus, kind->k, &left->matrix, &right->matrix, &out->matrix);
        break;
    case COSTS:
        multiply(COSTS, 0, kind->k, &left->matrix, &right->matrix, &out->matrix);
        break;
    }
}

struct figures window_figures(const struct kind *kind, const union element *element) {
    if (kind->name == RUNS) {
        return (struct figures){element->runs.longest, element->runs.first};
    }
    return window_of_matrix(kind, &element->matrix);
}

struct figures ring_figures(const struct kind *kind, const union element *element) {
    return kind->name == RUNS ? ring_of_runs(&element->runs) : ring_of_matrix(kind, &element->matrix);
}
