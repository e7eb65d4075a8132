/* One step of the machine, for C. Link target/staticlib/libmachine.a, which tools/staticlib makes. */
#ifndef MOVKRESAN_H
#define MOVKRESAN_H

#include <stddef.h>
#include <stdint.h>

/* How many numbers the machine's memory has; all are 0 at the start of a run. */
#define MOVKRESAN_MEMORY 262144

/* How many bytes a program or a piece has at most, and a row must have room for. */
#define MOVKRESAN_ROW 4096

/* What the machine is told. */
enum movkresan_kind {
    MOVKRESAN_PROGRAM = 0, /* a program's text, in memory that is all 0 */
    MOVKRESAN_PIECE = 1,   /* the piece that it asked for, perhaps without bytes */
    MOVKRESAN_NO_MORE = 2, /* there is none */
    MOVKRESAN_NEXT = 3     /* what was to be written is written */
};

/* What it does. */
enum movkresan_act {
    MOVKRESAN_ASK = 0,    /* it asks for a piece; the number is 0 */
    MOVKRESAN_WRITE = 1,  /* so many bytes at the front of the row are to be written */
    MOVKRESAN_DONE = 2,   /* the run is done, with a number below 256 */
    MOVKRESAN_REFUSED = 3 /* it refuses, with what is wrong; 0: the lengths or the kind don't fit, and nothing was changed */
};

/* The act is returned, its number is left in *number. A program is told first; an ask is answered by a piece or by no more, a write by next; after
   done or refused the run is over. No pointer may be null, and memory, piece, out and number may not overlap. */
uint64_t movkresan_step(uint64_t *memory, size_t memory_len, uint64_t kind, const uint8_t *piece, size_t piece_len, uint8_t *out, size_t out_len,
                        uint64_t *number);

#endif
