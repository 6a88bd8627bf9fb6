/* Pantheryl: a hospital ward's monthly two-shift roster.
 *
 * A ward is handed over as the bytes of a ward file, of edition one or two. No call allocates, prints, or remembers anything but in what it
 * is lent. Every call takes any content: it either answers or refuses. The buffers of one call, record, storage and answer among them, must not
 * overlap. A pointer must not be null, also where its length is 0. A pointer with a size in its comment, as numbers [PANTHERYL_NUMBERS], points
 * to that many places, all readable and, where the call writes there, writable, whatever a count says. A call takes less than 192 KiB of stack.
 *
 * A ward of edition two may have pairs, each of two days one after the other. By night a nurse's pattern is then a night pattern and the number
 * of a pair, from 1, both of whose days she has off. In a ward without pairs, of either edition, and by day the number is 0.
 *
 * Every call writes six words into answer:
 *
 *   answer[0]  question  0: not refused; else the number of the question that was answered no (see below)
 *   answer[1]  place     where: an offset, an index or a nurse's number, as the question says; 0 if not refused
 *   answer[2]  outcome   of an advance: 1 zero (the penalty is 0), 2 asked (k steps were made), 3 none (no exchange is left); past zero
 *                        never 1, and at 2 and 3 the penalty may be 0
 *                        of the check: 1 yes, 2 no (a rule is broken); of all other calls 0
 *   answer[3]  steps     made by this advance
 *   answer[4]  penalty   after them
 *   answer[5]  count     numbers read, bytes written, or letters given: by day also at outcomes 2 and 3, where the penalty is 0
 *
 * On a refusal words 2 to 5 are 0, and nothing but answer is written.
 *
 * The questions, in the order in which they are asked:
 *
 *    1  the file ends before a number does, or a number is missing     place: offset of the number; for the writer its index
 *    2  a number has more than 7 groups, or is not in its shortest form       offset
 *    3  a number is out of its field's range, or below the least or low       offset or index
 *       before it
 *    4  a duty of the seven days before the month does not follow the last    offset or index
 *    5  something follows the last number                                     first extra offset or index
 *    6  the writer's buffer is too short                                      0
 *    7  k is above 10,000, or the steps so far plus k above 1,000,000         0
 *    8  by day: a night pattern with its pair is not hers, or the nights      0
 *       have a penalty
 *    9  the buffer does not hold the list of patterns, or the lists           0; by day the first nurse who does not fit, from 1
 *   10  a nurse has no pattern; by night with pairs, none with a pair         the lowest such nurse, from 1
 *   11  the record is not one of this ward: a placed nurse holds a pattern    0
 *       that is not hers; one of its removals (as many as steps so far, but
 *       not above TL) names no nurse of the ward, or a pattern that is not
 *       that nurse's; or a field that is not used is not 0: pattern and pair
 *       of an unplaced nurse, pattern, pair and flag past the last nurse,
 *       pattern and pair of a removal whose flag is not set, all of the
 *       removals' places after those. A flag that is not 0 is set. A pattern
 *       that is hers is so with its pair; by day the pair is 0
 *   12  the roster has another letter than / - N n +, or not m times n        first bad index, else the count given
 *   13  the storage has fewer than PANTHERYL_STORAGE words, the number is     0
 *       not one from 1 to 8, or, on a return, nothing is kept under it
 */
#ifndef PANTHERYL_H
#define PANTHERYL_H

#include <stddef.h>
#include <stdint.h>

#define PANTHERYL_FILE 4203    /* the most bytes that a ward file of edition one or two has */
#define PANTHERYL_NUMBERS 4441 /* places for a ward's numbers; a ward of edition one or two has at most 4,107 of them */
#define PANTHERYL_NURSES 48    /* the most nurses that a ward has */
#define PANTHERYL_NIGHTS 96    /* words of a choice of nights, the first of a night record: each nurse's night pattern, each nurse's pair */
#define PANTHERYL_RECORD 401   /* words of a search record */
#define PANTHERYL_ROSTER 1488  /* the most letters that a roster has */
#define PANTHERYL_STORAGE 3216 /* words of storage for eight kept records */
#define PANTHERYL_ANSWER 6     /* words of an answer */

#ifdef __cplusplus
extern "C" {
#endif

/* Reads a ward file: questions 1 to 5.
 *
 * file, file_len   the file's bytes
 * numbers          written, all places: the ward's numbers in file order, then 0 in all places after them
 * answer           written: count is how many numbers there are
 */
void pantheryl_read(const uint8_t *file, size_t file_len, uint64_t *numbers /* [PANTHERYL_NUMBERS] */,
                    uint64_t *answer /* [PANTHERYL_ANSWER] */);

/* Writes a ward file: questions 1, 3, 4, 5 (places are indexes into numbers) and 6.
 *
 * numbers, count      the ward is the first count numbers; the others do not matter, but all places are read. Of a count above
 *                     PANTHERYL_NUMBERS the missing ones are 0
 * buffer, buffer_len  written from its start: the file's bytes; the places after them are untouched. PANTHERYL_FILE bytes hold any ward of
 *                     editions one and two
 * answer              written: count is how many bytes there are
 */
void pantheryl_write(const uint64_t *numbers /* [PANTHERYL_NUMBERS] */, uint64_t count, uint8_t *buffer, size_t buffer_len,
                     uint64_t *answer /* [PANTHERYL_ANSWER] */);

/* Advances the night search by up to k steps: questions 1 to 5, 7, 9, 10 and 11.
 *
 * file, file_len      the ward file's bytes, the same throughout a search
 * record              the search so far, in and out; all zeros begin one. Words 0 to 47 are the nurses' night patterns (day d is bit d-1);
 *                     48 to 95 the numbers of their pairs; 96 to 143 their flags, 1 where she is placed; 144 to 399 the 64 removals, the
 *                     newest first, each four words: a nurse's number from 1, a flag, the pattern and the pair that she gave up, if any; 400
 *                     all steps so far. A flag is read as set if it is not 0, and written as 0 or 1. Written unless the call is refused, also
 *                     where no step was made
 * k                   the most steps to make, at most 10,000
 * past_zero           0: penalty 0 ends the advance. Any other word: it goes on past zero, and ends only where k steps are made (outcome 2,
 *                     also where k is 0) or where before that no exchange is left (outcome 3). It is of this call alone; the record does not
 *                     hold it
 * buffer, buffer_len  room for the common list of night patterns, counted in 32-bit numbers; pairs take no place in it. Written from its start;
 *                     the places after the list are untouched. It carries nothing from call to call
 * answer              written: outcome, steps and penalty; count is 0
 */
void pantheryl_advance_nights(const uint8_t *file, size_t file_len, uint32_t *record /* [PANTHERYL_RECORD] */, uint32_t k,
                              uint32_t past_zero, uint32_t *buffer, size_t buffer_len, uint64_t *answer /* [PANTHERYL_ANSWER] */);

/* Advances the day search over one choice of nights by up to k steps: questions 1 to 5 and 7 to 11.
 *
 * file, file_len      as at night
 * nights              each nurse's night pattern and pair, as words 0 to 95 of a night record at penalty 0; the same throughout a search
 * record              as at night, with the nurses' day patterns, and 0 for each pair; all zeros begin a search
 * k, past_zero        as at night
 * buffer, buffer_len  room for all nurses' lists of day patterns, each after the one before. Written from its start; the places after the
 *                     lists are untouched
 * roster              written where the penalty after the steps is 0, whatever the outcome: m times n letters from its start, row after row
 *                     (see pantheryl_check); the places after them keep what they hold. Else none is written. All places must be there
 * answer              written: outcome, steps and penalty; count is the number of letters given out, 0 where there are none. Past zero it
 *                     may be above 0 at outcomes 2 and 3
 */
void pantheryl_advance_days(const uint8_t *file, size_t file_len, const uint32_t *nights /* [PANTHERYL_NIGHTS] */,
                            uint32_t *record /* [PANTHERYL_RECORD] */, uint32_t k, uint32_t past_zero, uint32_t *buffer,
                            size_t buffer_len, uint8_t *roster /* [PANTHERYL_ROSTER] */, uint64_t *answer /* [PANTHERYL_ANSWER] */);

/* Checks a roster: questions 1 to 5 and 12.
 *
 * file, file_len      the ward file's bytes
 * roster, roster_len  m times n letters, row after row: / rest, - day, N night's first day, n its second, + other
 * answer              written: outcome is 1 where every row and every day keeps the rules, else 2
 */
void pantheryl_check(const uint8_t *file, size_t file_len, const uint8_t *roster, size_t roster_len,
                     uint64_t *answer /* [PANTHERYL_ANSWER] */);

/* Keeps a record, of either search and of any ward, under a number: question 13 only. Nothing is asked of the record.
 *
 * record                the record to keep; not written
 * number                from 1 to 8; what was kept under it is replaced
 * storage, storage_len  eight entries of PANTHERYL_RECORD + 1 words: number n has the words from (n-1) * (PANTHERYL_RECORD + 1) on. The first
 *                       of an entry is 0 where nothing is kept, and any other word where something is; the others are the record's. So
 *                       storage of zeros keeps nothing. Written: all words of the number's entry, the first as 1, the record's flags as 0
 *                       or 1. Words from PANTHERYL_STORAGE on are neither looked at nor written
 * answer                written: all words 0, or the refusal
 */
void pantheryl_keep(const uint32_t *record /* [PANTHERYL_RECORD] */, uint32_t number, uint32_t *storage, size_t storage_len,
                    uint64_t *answer /* [PANTHERYL_ANSWER] */);

/* Brings back the record that is kept under a number: question 13 only. From it every list of advances goes as it would have gone from the
 * moment of keeping, if nothing else was kept under the number and nothing but keeping wrote the storage. Of a storage that others wrote the
 * record may have any content: the next advance asks questions 7 and 11 of it, as of any record.
 *
 * record                written unless the call is refused: the words of the number's entry after its first, the flags as 0 or 1
 * number                from 1 to 8
 * storage, storage_len  as for pantheryl_keep; not written
 * answer                written: all words 0, or the refusal
 */
void pantheryl_return(uint32_t *record /* [PANTHERYL_RECORD] */, uint32_t number, const uint32_t *storage, size_t storage_len,
                      uint64_t *answer /* [PANTHERYL_ANSWER] */);

#ifdef __cplusplus
}
#endif

#endif
