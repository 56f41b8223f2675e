/* The report on a task table's text, as the static library libreport.a exports it for C.
 *
 * docs/FORMATS.md says what the bytes of a text and of a report are, docs/FAULTS.md what each fault
 * means. */
#ifndef TIMERDAISY_H
#define TIMERDAISY_H

#include <stddef.h>
#include <stdint.h>

#ifdef __cplusplus
extern "C" {
#endif

/* The longest text and the longest report: 17 lines of 25 bytes. */
#define TIMERDAISY_LONGEST 425

/* Decides the table in text[0 .. text_len) and writes the report to the front of out[0 .. out_len).
 *
 * Answers how many bytes were written: a multiple of 25 from 25 to 425. A fault of the text, of the
 * reservation or of the table, and a table that is refused, are reports too, of one line. Bytes of
 * out behind those written keep their values.
 *
 * Answers 0, and writes nothing, where out_len is below TIMERDAISY_LONGEST, whatever the text is.
 *
 * The caller sees to it that
 *   - text can be read for text_len bytes, and out read and written for out_len bytes;
 *   - the two do not overlap;
 *   - neither pointer is null, even where its length is 0.
 *
 * text is only read. The call keeps no state and allocates nothing, so that calls from several
 * threads, each with a list of its own to write, do not disturb each other. */
size_t timerdaisy_report(const uint8_t *text, size_t text_len, uint8_t *out, size_t out_len);

#ifdef __cplusplus
}
#endif

#endif
