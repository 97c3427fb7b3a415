// The monitor's entry for C: a whole text of records in, one answer for each record out (docs/rules/text.md).
#ifndef MONITOR_H
#define MONITOR_H

#include <stddef.h>
#include <stdint.h>

// The most bytes of a text that a session serves. A longer one has a refusal as its only answer.
#define MONITOR_TEXT_BYTES 65536

// No answer has more bytes than this: `ring`, three numbers of 20 digits each with its comma, and CRLF.
#define MONITOR_ANSWER_MOST 69

// The bytes of the only answer to a text that is too long: `no,25,1,1,1` and CRLF.
#define MONITOR_TOO_LONG_BYTES 13

// The bytes of a space for answers that surely suffices: each record, and each stretch where none begins, has a byte of the text.
// With so much space the text is gone over no more than once. The argument may be evaluated twice.
#define MONITOR_ANSWER_BYTES(text_len)          \
    ((size_t)(text_len) > MONITOR_TEXT_BYTES    \
         ? (size_t)MONITOR_TOO_LONG_BYTES       \
         : (size_t)MONITOR_ANSWER_MOST * (size_t)(text_len))

#ifdef __cplusplus
extern "C" {
#endif

// Reads the text as the records of a new session, from its first byte to its last, and returns the length that the answers need.
// Where they fit, they are written at the beginning of the answer space; else it stays as it was. Bytes behind the answers stay as
// they were in any case. In a shorter space than MONITOR_ANSWER_BYTES(text_len) a first pass over a text that is served counts, and
// a second one writes if the answers fit. A caller may ask for the length alone, with an answer space of length 0.
//
// It always returns. It allocates nothing, keeps nothing from one call to the next, and besides the text and the answer space it
// uses its own stack alone, some 60 KiB.
//
// What the caller owes, and nothing checks:
// - text points to text_len bytes that may be read, answers to answers_len bytes that may be read and written;
// - neither pointer is null, not even where its length is 0;
// - neither length is above PTRDIFF_MAX;
// - the two areas do not overlap;
// - some 60 KiB of stack are left;
// - until the call returns, nobody else writes the text, and nobody else reads or writes the answer space.
size_t monitor_session(const uint8_t *text, size_t text_len, uint8_t *answers, size_t answers_len);

#ifdef __cplusplus
}
#endif

#endif
