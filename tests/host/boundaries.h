/* The parts of the program that boundaries.c is: each begins its groups of checks. */
#ifndef BOUNDARIES_H
#define BOUNDARIES_H

/* The constants, the types and the inline functions of gazenohyri.h. */
void header_values(void);

/* Pieces of frames, given to receive. */
void received_pieces(void);

/* Encode, decode and read, on the cases of standard input. */
void replayed_cases(void);

#endif
