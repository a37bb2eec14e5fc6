/*
 * Reading a model from two texts, as plainly as Ask 1 of document 02 has it and with no code of the library: a text is cut into lines, a
 * line into fields, and a form asks for its fields. It takes memory from the heap.
 */
#ifndef PLAIN_READER_H
#define PLAIN_READER_H

#include "plain.h"

/* Some bytes: a text, a line or a field. */
struct text {
    const uint8_t *bytes;
    size_t length;
};

/*
 * Reading, where the shortest of the lists takes so many arcs: 19 to 21 or 1 to 5; or number 0, and the arcs are written, from place 0;
 * else none is.
 */
struct reading plain_read(struct text hoa, struct text dimacs, size_t room, struct arc arcs[FILLED_ARCS_MOST]);

#endif
