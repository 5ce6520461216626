/*
 * Cases whose answers are known: those of the papers and of the SHA-256 standard, and carry-ons and plain runs written
 * out. Both sides have to give them.
 */
#ifndef CASES_H
#define CASES_H

void check_paper_cases(void);

/* Carry-ons at every edge, with all answers and words written out. */
void check_carry_cases(void);

/* Plain runs at every edge, those of the paper with one less of each thing that they need, and the deepest. */
void check_plain_cases(void);

void check_published_digests(void);

/* Lengths above 32 bits: of files, names and tables. */
void check_vast_lengths(void);

/* The published digest of 1,090,519,040 zero bytes. */
void check_gigabyte(void);

#endif
