// Texts: records read by RFC 4180, their columns, and answers written.
#ifndef PLAIN_TEXT_H
#define PLAIN_TEXT_H

#include <stdbool.h>
#include <stddef.h>
#include <stdint.h>

#include "plain_kind.h"
#include "plain_line.h"

#define MOST_COLUMNS 5

// Numbers of refusals of a text and of a record.
enum {
    OUT_OF_RANGE = 1,
    NOT_WELL_FORMED = 20,
    UNKNOWN_RECORD = 21,
    NOT_A_NUMBER = 22,
    NOT_A_WORD = 23,
    OUT_OF_TURN = 24,
    TEXT_TOO_LONG = 25,
};

// What stands between a field's quotes, or the whole field where it has none, and the field's place in the text.
struct field {
    const uint8_t *content;
    size_t len;
    size_t place;
    bool is_quoted;
};

// A record: its first five fields, and how many there are. Where none begins, the first impossible byte.
struct record {
    bool is_well_formed;
    struct field fields[MOST_COLUMNS];
    size_t count;
    size_t start;
    size_t impossible;
    size_t next;
};

// Reads what the text has at the place, which is before its end.
void read_record(const uint8_t *text, size_t len, size_t at, struct record *record);

bool field_is(const struct field *field, const char *word);

// The columns of a record, taken from the left. The first bad one is kept: its number, and its place in the text.
struct columns {
    const struct field *next;
    int fault;
    size_t place;
};

uint64_t take_number(struct columns *columns);
enum status take_status(struct columns *columns);
enum kind_name take_kind(struct columns *columns);
struct values take_values(struct columns *columns);

// Copies what the field means, with each doubled quote as one, up to one byte more than a label has. Returns how many bytes that is.
size_t copy_label(const struct field *field, uint8_t label[LABEL_BYTES + 1]);

// Where answers go: they are written at out, or only counted where that is null.
struct sink {
    uint8_t *out;
    size_t len;
};

void put_answer(struct sink *sink, const char *word, const uint64_t *numbers, size_t count);

#endif
