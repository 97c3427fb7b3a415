// Reading records and columns, and writing answers.
#include "plain_text.h"

#include <string.h>

#include "../../c/monitor.h"

static bool is_visible(uint8_t byte) {
    return byte >= 0x20 && byte <= 0x7E;
}

static bool is_plain(uint8_t byte) {
    return is_visible(byte) && byte != '"' && byte != ',';
}

static bool is_quotable(uint8_t byte) {
    return is_visible(byte) || byte == '\r' || byte == '\n';
}

static bool is_crlf(const uint8_t *text, size_t len, size_t at) {
    return at + 1 < len && text[at] == '\r' && text[at + 1] == '\n';
}

// Reads the field at the place and tells where it ends, or the first byte that it cannot have.
static bool read_plain(const uint8_t *text, size_t len, size_t at, struct field *field, size_t *end) {
    size_t to = at;
    while (to < len && is_plain(text[to])) {
        to++;
    }
    *field = (struct field){text + at, to - at, at, false};
    *end = to;
    return true;
}

static bool read_quoted(const uint8_t *text, size_t len, size_t at, struct field *field, size_t *end) {
    size_t to = at + 1;
    while (to < len) {
        if (text[to] == '"') {
            if (to + 1 == len || text[to + 1] != '"') {
                *field = (struct field){text + at + 1, to - at - 1, at, true};
                *end = to + 1;
                return true;
            }
            to += 2;
        } else if (is_quotable(text[to])) {
            to++;
        } else {
            break;
        }
    }
    *end = to;
    return false;
}

static bool read_field(const uint8_t *text, size_t len, size_t at, struct field *field, size_t *end) {
    bool is_quoted = at < len && text[at] == '"';
    return is_quoted ? read_quoted(text, len, at, field, end) : read_plain(text, len, at, field, end);
}

// Where reading goes on: behind the next CRLF, or at the end of the text.
static size_t resume(const uint8_t *text, size_t len, size_t at) {
    for (; at < len; at++) {
        if (is_crlf(text, len, at)) {
            return at + 2;
        }
    }
    return len;
}

static void set_damage(const uint8_t *text, size_t len, size_t impossible, struct record *record) {
    record->is_well_formed = false;
    record->impossible = impossible;
    record->next = resume(text, len, impossible);
}

void read_record(const uint8_t *text, size_t len, size_t at, struct record *record) {
    record->start = at;
    record->count = 0;
    for (;;) {
        struct field field;
        size_t end;
        if (!read_field(text, len, at, &field, &end)) {
            set_damage(text, len, end, record);
            return;
        }
        if (record->count < MOST_COLUMNS) {
            record->fields[record->count] = field;
        }
        record->count++;
        if (end == len || is_crlf(text, len, end)) {
            record->is_well_formed = true;
            record->next = end == len ? len : end + 2;
            return;
        }
        if (text[end] != ',') {
            set_damage(text, len, text[end] == '\r' ? end + 1 : end, record);
            return;
        }
        at = end + 1;
    }
}

bool field_is(const struct field *field, const char *word) {
    size_t len = strlen(word);
    return field->len == len && memcmp(field->content, word, len) == 0;
}

// Columns.

static bool read_number(const struct field *field, uint64_t *number) {
    uint64_t value = 0;
    if (field->len == 0 || (field->len > 1 && field->content[0] == '0')) {
        return false;
    }
    for (size_t i = 0; i < field->len; i++) {
        uint8_t digit = (uint8_t)(field->content[i] - '0');
        if (digit > 9 || value > UINT64_MAX / 10 || value * 10 > UINT64_MAX - digit) {
            return false;
        }
        value = value * 10 + digit;
    }
    *number = value;
    return true;
}

// The place of the field among the words, or their number where it is none of them.
static size_t find_word(const struct field *field, const char *const *words, size_t count) {
    size_t i = 0;
    while (i < count && !field_is(field, words[i])) {
        i++;
    }
    return i;
}

static void keep_fault(struct columns *columns, int fault, const struct field *field) {
    if (columns->fault == ACCEPTED) {
        columns->fault = fault;
        columns->place = field->place;
    }
}

uint64_t take_number(struct columns *columns) {
    const struct field *field = columns->next++;
    uint64_t number = 0;
    if (!read_number(field, &number)) {
        keep_fault(columns, NOT_A_NUMBER, field);
    }
    return number;
}

static size_t take_word(struct columns *columns, const char *const *words, size_t count) {
    const struct field *field = columns->next++;
    size_t i = find_word(field, words, count);
    if (i == count) {
        keep_fault(columns, NOT_A_WORD, field);
    }
    return i;
}

enum status take_status(struct columns *columns) {
    static const char *const words[] = {"judged", "down", "up", "bypass"};
    return (enum status)take_word(columns, words, 4);
}

enum kind_name take_kind(struct columns *columns) {
    static const char *const words[] = {"runs", "counts", "residues", "costs"};
    return (enum kind_name)take_word(columns, words, 4);
}

struct values take_values(struct columns *columns) {
    struct values values;
    values.status = take_status(columns);
    values.up = take_number(columns);
    values.down = take_number(columns);
    return values;
}

size_t copy_label(const struct field *field, uint8_t label[LABEL_BYTES + 1]) {
    size_t len = 0;
    for (size_t i = 0; i < field->len && len <= LABEL_BYTES; i++) {
        label[len++] = field->content[i];
        if (field->is_quoted && field->content[i] == '"') {
            i++;
        }
    }
    return len;
}

// Answers.

static size_t decimal_len(uint64_t number) {
    size_t len = 1;
    while (number >= 10) {
        number /= 10;
        len++;
    }
    return len;
}

static uint8_t *put_number(uint8_t *at, uint64_t number) {
    uint8_t *end = at + decimal_len(number);
    uint8_t *digit = end;
    do {
        *--digit = (uint8_t)('0' + number % 10);
        number /= 10;
    } while (digit > at);
    return end;
}

void put_answer(struct sink *sink, const char *word, const uint64_t *numbers, size_t count) {
    uint8_t room[MONITOR_ANSWER_MOST];
    uint8_t *begin = sink->out == NULL ? room : sink->out + sink->len;
    size_t word_len = strlen(word);
    uint8_t *at = begin + word_len;
    memcpy(begin, word, word_len);
    for (size_t i = 0; i < count; i++) {
        *at++ = ',';
        at = put_number(at, numbers[i]);
    }
    *at++ = '\r';
    *at++ = '\n';
    sink->len += (size_t)(at - begin);
}
