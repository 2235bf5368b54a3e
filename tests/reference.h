/* An implementation of document 01 and of the requests #101 and #102, written
 * from their definitions alone. It shares no code with the product: sums over
 * sets of columns of sums over ordered pairs of runs, counts of every
 * combination, a search through all candidates. Slow, for small plans.
 *
 * There is one short cut. In a plan of more than ten columns those of one
 * level are left out of the sets. In a smaller plan both ways are taken, the
 * answer is that of the definition, and the short cut has to give the same.
 */
#ifndef REFERENCE_H
#define REFERENCE_H

typedef unsigned char byte;

typedef struct {
    int number;
    long first, second;
} Refusal;

/* Prints how often the short cut gave something else than the definition, and how often a listing went against what is proved of
 * every plan: a largest ratio above 1, a resolution other than the strength and one. Whether any of these came up.
 */
int reference_fails(void);

/* How many columns of a good plan the reference makes sets of: all of them, or those of several levels. */
long reference_columns(const byte *levels, long columns);

/* Refusals 1 to 5; number 0 where there is none. */
Refusal reference_check(const byte *levels, long columns, const byte *table, long entries);

/* W_j, or the refusal number negated. */
long reference_word(const byte *levels, long columns, const byte *table, long entries, unsigned long length);

/* W(I) of a set of f columns, or the refusal number negated. */
long reference_set_word(const byte *levels, long columns, const byte *table, long entries, unsigned long f,
                        const unsigned long *set, long count);

/* The words of all sets of f columns, added up, or the refusal number negated. */
long reference_set_words(const byte *levels, long columns, const byte *table, long entries, unsigned long f);

/* The levels and the table in a text. */
typedef struct {
    byte levels[16400], table[16400];
    long columns, entries;
} Read;

/* Refusals 13, 14 and 1 to 5; number 0 where there is none. */
Refusal reference_read(const byte *text, long length, Read *read);

/* The plan's text, put into a room of so many bytes; how many bytes it has, or the refusal number negated. */
long reference_write(const byte *levels, long columns, const byte *table, long entries, byte *room, long bytes);

/* The text of the runs left, and their original numbers in a room of so many places; how many bytes the text has, or the refusal
 * number negated. */
long reference_rewrite(const byte *text, long length, const unsigned long *lost, long losses,
                       byte *room, long bytes, unsigned long *numbers, long places);

/* The listing of a text; the number of bytes put into `out`, which has room for 4096. */
long reference_listing(const byte *text, long length, byte *out);

#endif
