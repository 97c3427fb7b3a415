// Times the library's session beside the plain one, on pseudorandom sessions of each kind and k, and prints a table.
#define _POSIX_C_SOURCE 200112L

#include <inttypes.h>
#include <stdarg.h>
#include <stdbool.h>
#include <stdio.h>
#include <stdlib.h>
#include <string.h>
#include <time.h>

#include "../../c/monitor.h"
#include "plain.h"

#define STATIONS 32
#define ROUNDS 15
#define MODULUS UINT64_C(2147483647)
#define NO_COST UINT64_C(1000000000001)

typedef size_t session_fn(const uint8_t *text, size_t text_len, uint8_t *answers, size_t answers_len);

// A session to be timed, as its text.
struct text {
    const char *kind;
    int k;
    uint8_t bytes[MONITOR_TEXT_BYTES];
    size_t len;
    size_t records;
};

// The best times of both functions, in microseconds.
struct times {
    double library;
    double plain;
};

static struct text text;
static uint8_t library_answers[MONITOR_ANSWER_BYTES(MONITOR_TEXT_BYTES)];
static uint8_t plain_answers[MONITOR_ANSWER_BYTES(MONITOR_TEXT_BYTES)];

// Pseudorandom numbers: Marsaglia's xorshift, from a fixed seed.

static uint64_t state = UINT64_C(88172645463325252);

static uint64_t below(uint64_t limit) {
    state ^= state << 13;
    state ^= state >> 7;
    state ^= state << 17;
    return (state >> 11) % limit;
}

// Making a session's text.

// Writes a record behind the others, and tells whether there was room for it.
static bool append(const char *format, ...) {
    char record[96];
    va_list numbers;
    va_start(numbers, format);
    int len = vsnprintf(record, sizeof record, format, numbers);
    va_end(numbers);
    if (text.len + (size_t)len > sizeof text.bytes) {
        return false;
    }
    memcpy(text.bytes + text.len, record, (size_t)len);
    text.len += (size_t)len;
    text.records++;
    return true;
}

// Counts of every size, from one digit to nine.
static uint64_t random_count(void) {
    uint64_t limit = 10;
    for (uint64_t digits = below(9); digits > 0; digits--) {
        limit *= 10;
    }
    return below(limit);
}

static uint64_t random_code(void) {
    if (strcmp(text.kind, "counts") == 0) {
        return random_count();
    }
    if (strcmp(text.kind, "residues") == 0) {
        return below(MODULUS);
    }
    return below(16) == 0 ? NO_COST : below(1000000);
}

static const char *random_status(void) {
    static const char *const words[] = {"judged", "judged", "judged", "judged", "judged", "down", "up", "bypass"};
    return words[below(8)];
}

// A place of the line, and one time in 32 the place behind it.
static int random_place(void) {
    return below(32) == 0 ? STATIONS + 1 : 1 + (int)below(STATIONS);
}

static bool append_set(void) {
    int place = random_place();
    const char *status = random_status();
    uint64_t up = random_code();
    uint64_t down = random_code();
    return append("set,%d,%s,%" PRIu64 ",%" PRIu64 "\r\n", place, status, up, down);
}

// A window. One time in 32 its ends are exchanged.
static bool append_ask(void) {
    int first = random_place();
    int last = random_place();
    bool is_exchanged = (first > last) != (below(32) == 0);
    return is_exchanged ? append("ask,%d,%d\r\n", last, first) : append("ask,%d,%d\r\n", first, last);
}

// A try in an open trial is refused, and so are a keep and a back outside one.
static bool append_call(void) {
    uint64_t draw = below(32);
    if (draw < 12) {
        return append_set();
    }
    if (draw < 24) {
        return append_ask();
    }
    if (draw < 27) {
        return append("ring\r\n");
    }
    if (draw < 29) {
        return append("try\r\n");
    }
    return draw < 30 ? append("keep\r\n") : append("back\r\n");
}

static void append_station(int place) {
    const char *status = random_status();
    uint64_t up = random_code();
    uint64_t down = random_code();
    append("add,Station %d,%s,%" PRIu64 ",%" PRIu64 "\r\n", place, status, up, down);
}

// A session of that kind: its line, 32 stations, and calls as long as there is room.
static void make_text(const char *kind, int k) {
    text.kind = kind;
    text.k = k;
    text.len = 0;
    text.records = 0;
    append("line,%s,%d,%" PRIu64 "\r\n", kind, k, strcmp(kind, "residues") == 0 ? MODULUS : 0);
    for (int place = 1; place <= STATIONS; place++) {
        append_station(place);
    }
    append("close\r\n");
    while (append_call()) {
    }
}

// Timing.

static double microseconds_now(void) {
    struct timespec now;
    clock_gettime(CLOCK_MONOTONIC, &now);
    return 1e6 * (double)now.tv_sec + 1e-3 * (double)now.tv_nsec;
}

static double microseconds_of(session_fn *session, uint8_t *answers, size_t answers_len) {
    double begun = microseconds_now();
    session(text.bytes, text.len, answers, answers_len);
    return microseconds_now() - begun;
}

static double least(double x, double y) {
    return x < y ? x : y;
}

// The best of some rounds, in which the functions take turns, with answer spaces of that length.
static struct times time_both(size_t answers_len) {
    struct times best = {1e12, 1e12};
    for (int round = 0; round < ROUNDS; round++) {
        best.library = least(best.library, microseconds_of(monitor_session, library_answers, answers_len));
        best.plain = least(best.plain, microseconds_of(plain_session, plain_answers, answers_len));
    }
    return best;
}

// Runs both with answer spaces of that length, and returns the length that the answers need. Ends the program where they differ.
static size_t compare_both(size_t answers_len) {
    size_t library_len = monitor_session(text.bytes, text.len, library_answers, answers_len);
    size_t plain_len = plain_session(text.bytes, text.len, plain_answers, answers_len);
    if (library_len != plain_len || memcmp(library_answers, plain_answers, answers_len) != 0) {
        fprintf(stderr, "bench: the answers differ: %s, k = %d, a space of %zu bytes\n", text.kind, text.k, answers_len);
        exit(1);
    }
    return plain_len;
}

static void print_times(struct times times) {
    printf("%11.0f %9.0f %6.2f", times.library, times.plain, times.library / times.plain);
}

static void print_row(const char *kind, int k) {
    make_text(kind, k);
    size_t len = compare_both(MONITOR_ANSWER_BYTES(text.len));
    compare_both(len);
    printf("%-8s %2d %8zu", kind, k, text.records);
    print_times(time_both(MONITOR_ANSWER_BYTES(text.len)));
    print_times(time_both(len));
    printf("\n");
    fflush(stdout);
}

int main(void) {
    static const char *const weights[] = {"counts", "residues", "costs"};
    printf("                       one pass, us                two passes, us\n");
    printf("kind      k  records    library     plain  ratio    library     plain  ratio\n");
    print_row("runs", 0);
    for (int i = 0; i < 3; i++) {
        for (int k = 1; k <= 4; k++) {
            print_row(weights[i], k);
        }
    }
    return 0;
}
