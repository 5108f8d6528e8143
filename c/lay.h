/* Lays out Rust source that a generator wrote. A call keeps no state, and may be made from several threads at a time. */
#ifndef LAY_H
#define LAY_H
#include <stddef.h>
#include <stdint.h>
#ifdef __cplusplus
extern "C" {
#endif

enum {
    LAY_DONE = 0,       /* the text was made, and as much of it as fits stands in the buffer */
    LAY_NOT_UTF8 = 1,   /* the input is no UTF-8 */
    LAY_NO_TOKEN = 2,   /* at a place of the input there is no token */
    LAY_UNBALANCED = 3, /* a delimiter has no partner */
    LAY_NO_ITEM = 4,    /* no item that is accepted begins at the place */
    LAY_NO_MEMORY = 5   /* memory was not found */
};

typedef struct lay_answer {
    size_t length;   /* of the whole text, also where the buffer is shorter; 0 where there is none */
    size_t at;       /* where the input is refused: the number of the byte, from 0, */
    size_t line;     /* its line and its column in bytes, both from 1; else the three are 0. The place is one of the */
    size_t column;   /* input for LAY_NOT_UTF8, else of the input without a byte order mark and with each CR LF as one LF */
    uint32_t status; /* one of the above */
} lay_answer;

/* The call of the library. Neither pointer may be null, not even to no bytes, and input and buffer may not overlap. */
lay_answer lay_format_slices(const uint8_t *input, size_t input_length, uint8_t *buffer, size_t buffer_length);

/* Formats the input, a file of Rust, and writes the front of its text to the buffer, as much as fits. Where the answer's length
   is above buffer_length, call again with a buffer of that length. Where there is no text, nothing is written. A pointer to no bytes may
   be null. The input may have any length: the command alone stops at 16 MiB. Memory is taken by malloc, and all of it is given back.

   The deepest input takes some 1.7 MiB of stack, and a thread with less than 2 MiB may end in a fault. */
static inline lay_answer lay_format(const uint8_t *input, size_t input_length, uint8_t *buffer, size_t buffer_length) {
    uint8_t none[1];
    return lay_format_slices(input ? input : (const uint8_t *)"", input_length, buffer ? buffer : none, buffer_length);
}

#ifdef __cplusplus
}
#endif
#endif
