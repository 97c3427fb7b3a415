// The session in plain C, for the benchmark: the interface of c/monitor.h under another name.
#ifndef PLAIN_H
#define PLAIN_H

#include <stddef.h>
#include <stdint.h>

size_t plain_session(const uint8_t *text, size_t text_len, uint8_t *answers, size_t answers_len);

#endif
