/* Kantifero: three-way reconciling of directory trees.

   TABLES. A tree is an array of 32-bit words, 20 to a row, rows in preorder:

     word 0         depth: 0 for the root, at most 16
     word 1         kind: 0 folder, 1 file
     words 2 to 9   name: 1 to 32 bytes, four to a word, first byte highest, zero filled; all zero for the root
     words 10, 11   size: high word, then low
     words 12 to 19 SHA-256 digest, first eight hex digits in word 12

   A table given to a call is exactly its rows, 1 to 4,096 of them. Row 0 is the root; a row's depth is at most one more
   than that of the row before, and that only where the row before is a folder; siblings ascend strictly by name, bytes
   compared as unsigned; a folder has zeros in words 10 to 19.

   PROFILES. The first argument of every call is its profile. KANTIFERO_EXACT, 0: every byte of a name counts.
   KANTIFERO_FOLDED, 1, and any other word: letter case is ignored. Names are then matched, and siblings stand in order, after
   bytes 65 to 90 (A to Z) are turned into 97 to 122 (a to z); no other byte is changed. Two siblings that are equal after
   that are number 16. A spelling is never a change: each result has the spelling of the tree that it goes by, as the calls
   say. A table made in one profile may be out of order in the other.

   ANSWERS. Every call writes all eight words of its answer, whatever it is given: a number, a side and a place in words
   0 to 2, and 0 in every word that is not named here. (kantifero_carried answers where some rows stand: see there.)

     number                                                        side and place
      0  accepted                                                  0; rows or bytes written
      1  a table is not 20 words times 1 to 4,096                  which table
      2  a table breaks the rules for rows                         which table; the lowest such row
      3  a result has more than 4,096 rows (a text: 65,536         which result; the line when reading
         bytes), or more than the words or bytes lent
      4  the path's parent is not a folder in the target           0
      5  the path's depth or one of its names is bad               0
      6  the text is too long, or its last byte is not LF          0
      7  a byte other than 9, 10, 32 to 126 outside a comment      the line
      8  a bad name                                                the line
      9  a bad or missing keyword, an unknown / word, or words     the line
         after ".."
     10  a type that is missing or is neither dir nor file, or     the line
         a root that is not dir
     11  "." not first or again, an entry before "." or after      the line
         the root has closed, ".." with nothing open
     12  no root                                                   0
     13  a name twice in a folder, where letter case is ignored    the line
         also in another spelling
     14  depth 17                                                  the line
     16  two siblings are equal where letter case is ignored       which table; the lowest row of a second one

   Sides: 1 archive, 2 left, 3 right, 4 list; 0 when reading, 1 when checking or writing one table; for a move 2 is the
   target and its result, 3 the source.

   MEMORY. A pointer comes with the number of words or bytes behind it. No pointer may be null, also where that number
   is 0, and each has the alignment of its type. Nothing that a call writes may overlap anything else that the call is
   given. Nothing is kept after a call, and nothing is allocated; a call may be made from any thread. Of stack,
   kantifero_reconcile uses about 200 kB where every byte counts and 1.2 MB where letter case is ignored, kantifero_move 5 kB
   and 670 kB, and the others less than 3 kB. */
#ifndef KANTIFERO_H
#define KANTIFERO_H

#include <stddef.h>
#include <stdint.h>

#ifdef __cplusplus
extern "C" {
#endif

/* The profiles. */
#define KANTIFERO_EXACT UINT32_C(0)
#define KANTIFERO_FOLDED UINT32_C(1)

/* The row number of an entry that a table does not have. */
#define KANTIFERO_NO_ROW UINT32_C(4294967295)

/* Checks a table: numbers 1, 2 and 16, side 1. Accepted, the place is 0. */
void kantifero_check(uint32_t profile, const uint32_t *table, size_t words, uint32_t answer[8]);

/* Reconciles left and right by the archive, which is what both held when they last agreed.

   Accepted, each result stands at the start of its buffer, and what is past it is as it was: the new archive, the new
   left and the new right are tables; the list has three words an entry, in preorder: 1 left gets, 2 right gets or
   3 clash, then the entry's row in left and in right as they were given (KANTIFERO_NO_ROW where there is none); tally
   has the counts of the entries of kinds 1, 2 and 3. The answer's words 3 to 6 are the rows of the new archive, the new
   left and the new right, and the entries of the list; its place is 0.

   Where letter case is ignored, the new left has left's spelling of every path that left has, and right's of the others; the
   new right the other way round; the new archive has the archive's at and beneath a clash, and the new left's elsewhere.

   Refused, every buffer and the tally are as they were. The faults are looked for in this order: 1 and 2 of the archive
   (side 1), of left (2), of right (3); then 16 of each in the same order; then 3 of the new archive (1), the new left (2),
   the new right (3), the list (4). */
void kantifero_reconcile(uint32_t profile, const uint32_t *archive, size_t archive_words, const uint32_t *left,
                         size_t left_words, const uint32_t *right, size_t right_words, uint32_t *new_archive,
                         size_t new_archive_words, uint32_t *new_left, size_t new_left_words, uint32_t *new_right,
                         size_t new_right_words, uint32_t *list, size_t list_words, uint32_t tally[3], uint32_t answer[8]);

/* Carries out one move: the target's subtree at a path becomes the source's, absence included. The path is the first
   depth of the sixteen names, depth 1 to 16; the names past them are all zero.

   Accepted, the whole target after the move stands at the start of result, what is past it is as it was, and the place
   is the number of its rows. Where letter case is ignored, the path may be given in any spelling, and the result has the
   target's spelling of every path that the target has, and the source's of the others. Refused, result is as it was. The
   faults are looked for in this order: 1 and 2 of the target (side 2), of the source (3); then 16 of both in the same order;
   then 5, 4, and 3 with side 2. */
void kantifero_move(uint32_t profile, const uint32_t *target, size_t target_words, const uint32_t *source,
                    size_t source_words, const uint32_t names[16][8], uint32_t depth, uint32_t *result,
                    size_t result_words, uint32_t answer[8]);

/* Where the rows stand that a list entry carries, given the tables that were reconciled and the entry's three words.

   answer[0]: 0 no rows, 2 rows of left, 3 rows of right; answer[1]: first word; answer[2]: words

   An entry of kind 1 carries the subtree at its row of right, one of kind 2 that at its row of left. A removal, a clash,
   any other kind, a row that the table does not have, or a table due number 1, 2 or 16 gives no rows, and three zeros. The
   rows are spelled as their own table spells them. */
void kantifero_carried(uint32_t profile, const uint32_t *left, size_t left_words, const uint32_t *right,
                       size_t right_words, uint32_t kind, uint32_t left_row, uint32_t right_row, uint32_t answer[8]);

/* Writes a table as an mtree listing: #mtree, then a line for each row, and .. after each folder's last.

   Accepted, the text stands at the start of text, what is past it is as it was, and the place is the number of its bytes;
   no zero byte is put after it. Refused, text is as it was: 1, 2 and 16, then 3, all with side 1. */
void kantifero_write(uint32_t profile, const uint32_t *table, size_t words, uint8_t *text, size_t bytes, uint32_t answer[8]);

/* Reads an mtree listing of at most 65,536 bytes into a table. A type that /set gives as the default holds from that line
   on, wherever folders open and close, until another /set or /unset changes it.

   Accepted, the table's rows stand at the start of table, all words past them are 0, and the place is the number of rows.
   Refused, all of table is 0: 6; then the first faulty line, numbered from 1, in the order 7, 11, 8, 9, 10, 14, 13, 3;
   then 12. The rows come out in the profile's order, spelled as the text has them. */
void kantifero_read(uint32_t profile, const uint8_t *text, size_t bytes, uint32_t *table, size_t words, uint32_t answer[8]);

#ifdef __cplusplus
}
#endif

#endif
