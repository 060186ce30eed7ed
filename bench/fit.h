/* The functions that are measured. A Rattle slice comes as its first byte and its length. */
#include <stddef.h>
#include <stdint.h>

unsigned fault(const uint8_t *t, size_t n);            /* plain C, a function a rule: the broken rule, or 0 */
unsigned fit_in_one_pass(const uint8_t *t, size_t n);  /* plain C, all rules in one pass: 1 for fit, 0 for not */
unsigned fit_by_words(const uint8_t *t, size_t n);     /* the same, four bytes at a time */
size_t measured_read(const uint8_t *t, size_t n);      /* disc::disc::read: the broken rule in the high half */
