/*
 * Admission of a table of tasks under EDZL on equal cores: the entry for a
 * host program in C or C++. Link with libhost.a.
 *
 * The text holds one task in each line after a line of names:
 *
 *     PERIOD BUDGET DEADLINE
 *     4 1 4
 *     6 2 5
 *     10 6 8
 *
 * The three names stand in any order and the values of every line in that
 * order. Fields are separated by one space. Every line, the last one too, ends
 * with one byte 10. A value is 1 to 7 digits without a leading zero. A table
 * has 1 to 32 tasks and the text at most 4,096 bytes. All values are whole
 * slots, with
 *
 *     1 <= BUDGET <= DEADLINE <= PERIOD <= 1000000.
 *
 * The table above is not admitted on 1 core and is admitted on 2 and on 3.
 *
 * Admitted means by the slack test, which the handbook explains and of which the
 * program sharper prints the verdicts. It admits whatever the window test, that
 * of the program verdict, admits, and further tables.
 */
#ifndef EDZL_H
#define EDZL_H

#include <stddef.h>
#include <stdint.h>

#ifdef __cplusplus
extern "C" {
#endif

/*
 * Says whether the table in a text is admitted on so many cores, 1 to 16.
 *
 * text is a pointer, not NULL, that is valid for len bytes, which are only
 * read. It need not be zero-terminated; no byte after the first len is looked
 * at.
 *
 * Returns
 *     0    the table is not admitted on this number of cores
 *     1    the table is admitted
 *   101    the text has more than 4,096 bytes
 *   102    the names line is missing, not ended, or not the three names once each
 *   103    something follows the 32nd value line
 *   104    a value line is not three well-formed values ended by byte 10
 *   105    a task breaks 1 <= BUDGET <= DEADLINE <= PERIOD <= 1000000
 *   106    the table has no task
 *   107    cores is not 1 to 16
 * and nothing else. The first that applies is returned: 101, then 102, then
 * the value lines in turn, each through 103, 104 and 105, then 106, then 107.
 *
 * The function keeps no state and allocates nothing. It has no shared state,
 * so any number of threads may call it at the same time.
 */
uint32_t edzl_admit(const uint8_t *text, size_t len, uint32_t cores);

#ifdef __cplusplus
}
#endif

#endif
