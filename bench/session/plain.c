// The session in plain C: goes over the records of a text, plays each on a line, and answers it.
#include "plain.h"

#include <stdbool.h>

#include "../../c/monitor.h"
#include "plain_line.h"
#include "plain_text.h"

// Whether a line has been begun, and whether it stands.
enum stage { NO_LINE, FILLING, STANDING };

struct session {
    enum stage stage;
    struct line line;
};

// What a record is answered: numbers behind a word, or a refusal with its place in the text.
struct answer {
    const char *word;
    uint64_t numbers[3];
    size_t count;
    int refusal;
    size_t place;
};

static struct answer refused(int refusal, size_t place) {
    return (struct answer){.refusal = refusal, .place = place};
}

// The answer to a call on the line that gives a number.
static struct answer done(int refusal, uint64_t number, const struct record *record) {
    if (refusal != ACCEPTED) {
        return refused(refusal, record->start);
    }
    return (struct answer){.word = "ok", .numbers = {number}, .count = 1};
}

// The answer to a question.
static struct answer told(int refusal, const char *word, const struct reply *reply, const struct record *record) {
    if (refusal != ACCEPTED) {
        return refused(refusal, record->start);
    }
    return (struct answer){
        .word = word,
        .numbers = {reply->figures.first, reply->figures.second, reply->joins},
        .count = 3,
    };
}

// The columns behind the verb.
static struct columns columns_of(const struct record *record) {
    return (struct columns){record->fields + 1, ACCEPTED, 0};
}

static struct answer play_line(struct session *session, const struct record *record) {
    struct columns columns = columns_of(record);
    enum kind_name name = take_kind(&columns);
    uint64_t k = take_number(&columns);
    uint64_t modulus = take_number(&columns);
    if (columns.fault != ACCEPTED) {
        return refused(columns.fault, columns.place);
    }
    struct kind kind;
    if (!make_kind(name, k, modulus, &kind)) {
        return refused(OUT_OF_RANGE, record->start);
    }
    line_begin(&session->line, &kind);
    session->stage = FILLING;
    return done(ACCEPTED, 0, record);
}

static struct answer play_add(struct session *session, const struct record *record) {
    struct columns columns = columns_of(record);
    const struct field *label_column = columns.next++;
    struct values values = take_values(&columns);
    if (columns.fault != ACCEPTED) {
        return refused(columns.fault, columns.place);
    }
    uint8_t label[LABEL_BYTES + 1];
    size_t label_len = copy_label(label_column, label);
    uint64_t number = 0;
    int refusal = line_add(&session->line, label, label_len, &values, &number);
    return done(refusal, number, record);
}

static struct answer play_close(struct session *session, const struct record *record) {
    uint64_t number = 0;
    int refusal = line_close(&session->line, &number);
    if (refusal == ACCEPTED) {
        session->stage = STANDING;
    }
    return done(refusal, number, record);
}

static struct answer play_set(struct session *session, const struct record *record) {
    struct columns columns = columns_of(record);
    uint64_t place = take_number(&columns);
    struct values values = take_values(&columns);
    if (columns.fault != ACCEPTED) {
        return refused(columns.fault, columns.place);
    }
    uint64_t number = 0;
    int refusal = line_set(&session->line, place, &values, &number);
    return done(refusal, number, record);
}

static struct answer play_try(struct session *session, const struct record *record) {
    uint64_t number = 0;
    int refusal = line_try(&session->line, &number);
    return done(refusal, number, record);
}

static struct answer play_keep(struct session *session, const struct record *record) {
    uint64_t number = 0;
    int refusal = line_keep(&session->line, &number);
    return done(refusal, number, record);
}

static struct answer play_back(struct session *session, const struct record *record) {
    uint64_t number = 0;
    int refusal = line_back(&session->line, &number);
    return done(refusal, number, record);
}

static struct answer play_ask(struct session *session, const struct record *record) {
    struct columns columns = columns_of(record);
    uint64_t first = take_number(&columns);
    uint64_t last = take_number(&columns);
    if (columns.fault != ACCEPTED) {
        return refused(columns.fault, columns.place);
    }
    struct reply reply;
    int refusal = line_ask(&session->line, first, last, &reply);
    return told(refusal, "ask", &reply, record);
}

static struct answer play_ring(struct session *session, const struct record *record) {
    struct reply reply;
    int refusal = line_ring(&session->line, &reply);
    return told(refusal, "ring", &reply, record);
}

// A verb, how many columns its record has with it, the stage in which it is taken, and what plays it.
struct verb {
    const char *word;
    size_t columns;
    enum stage stage;
    struct answer (*play)(struct session *session, const struct record *record);
};

static const struct verb verbs[] = {
    {"set", 5, STANDING, play_set},   {"ask", 3, STANDING, play_ask},   {"ring", 1, STANDING, play_ring},
    {"try", 1, STANDING, play_try},   {"keep", 1, STANDING, play_keep}, {"back", 1, STANDING, play_back},
    {"line", 4, NO_LINE, play_line},  {"add", 5, FILLING, play_add},    {"close", 1, FILLING, play_close},
};

// The verb of the record, or null where it is unknown or has another number of columns.
static const struct verb *find_verb(const struct record *record) {
    for (size_t i = 0; i < sizeof verbs / sizeof verbs[0]; i++) {
        if (record->count == verbs[i].columns && field_is(&record->fields[0], verbs[i].word)) {
            return &verbs[i];
        }
    }
    return NULL;
}

static struct answer play(struct session *session, const struct record *record) {
    if (!record->is_well_formed) {
        return refused(NOT_WELL_FORMED, record->impossible);
    }
    const struct verb *verb = find_verb(record);
    if (verb == NULL) {
        return refused(UNKNOWN_RECORD, record->start);
    }
    if (verb->stage != session->stage) {
        return refused(OUT_OF_TURN, record->start);
    }
    return verb->play(session, record);
}

static uint64_t layer_of(int refusal) {
    switch (refusal) {
    case NOT_WELL_FORMED:
    case TEXT_TOO_LONG:
        return 1;
    case OUT_OF_RANGE:
    case UNKNOWN_RECORD:
    case NOT_A_NUMBER:
    case NOT_A_WORD:
    case OUT_OF_TURN:
        return 2;
    default:
        return 3;
    }
}

static void put_refusal(struct sink *sink, int refusal, uint64_t record_number, uint64_t byte_number) {
    uint64_t numbers[] = {(uint64_t)refusal, layer_of(refusal), record_number, byte_number};
    put_answer(sink, "no", numbers, 4);
}

// Plays the whole text from a new session on.
static void run(const uint8_t *text, size_t text_len, struct sink *sink) {
    struct session session;
    struct record record;
    uint64_t record_number = 0;
    session.stage = NO_LINE;
    for (size_t at = 0; at < text_len; at = record.next) {
        read_record(text, text_len, at, &record);
        struct answer answer = play(&session, &record);
        record_number++;
        if (answer.refusal != ACCEPTED) {
            put_refusal(sink, answer.refusal, record_number, answer.place + 1);
        } else {
            put_answer(sink, answer.word, answer.numbers, answer.count);
        }
    }
}

static void answer_text(const uint8_t *text, size_t text_len, struct sink *sink) {
    if (text_len > MONITOR_TEXT_BYTES) {
        put_refusal(sink, TEXT_TOO_LONG, 1, 1);
    } else {
        run(text, text_len, sink);
    }
}

// One pass where the answers surely fit; else a first pass counts, and a second one writes if they do.
size_t plain_session(const uint8_t *text, size_t text_len, uint8_t *answers, size_t answers_len) {
    struct sink counted = {NULL, 0};
    struct sink written = {answers, 0};
    if (answers_len < MONITOR_ANSWER_BYTES(text_len)) {
        answer_text(text, text_len, &counted);
        if (counted.len > answers_len) {
            return counted.len;
        }
    }
    answer_text(text, text_len, &written);
    return written.len;
}
