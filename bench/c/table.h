/* A table of tasks, and its reading from text: document 01, "The table as text". */
#ifndef TABLE_H
#define TABLE_H

#include <stddef.h>
#include <stdint.h>

#define MAX_TASKS 32
#define MAX_CORES 16
#define MAX_PERIOD 1000000
#define MAX_TEXT_LENGTH 4096

struct task {
    uint32_t period;
    uint32_t budget;
    uint32_t deadline;
};

struct table {
    size_t count;
    struct task tasks[MAX_TASKS];
};

/* The refusals of reading and of judging; 0 is none. */
enum refusal {
    NONE,
    TEXT_TOO_LONG,
    BAD_NAMES_LINE,
    TOO_MANY_TASKS,
    BAD_VALUE_LINE,
    TASK_OUT_OF_RANGE,
    NO_TASK,
    CORES_OUT_OF_RANGE,
};

/* Fills the table from a text, or says why not. Where a value line is refused, the table counts
 * the tasks before it. */
enum refusal table_read(const uint8_t *text, size_t len, struct table *table);

/* Whether 1 <= C <= D <= T <= 1,000,000. */
static inline int task_in_range(const struct task *task)
{
    return 1 <= task->budget && task->budget <= task->deadline && task->deadline <= task->period &&
           task->period <= MAX_PERIOD;
}

#endif
