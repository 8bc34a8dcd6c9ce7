/* The verdict on a text in plain C: the baseline for edzl_admit. */
#include <string.h>

#include "table.h"

enum { MAX_ROUNDS = 64 };

static uint32_t spare(const struct task *task)
{
    return task->deadline - task->budget;
}

/* What a task that has this slack counts for in the sum of another one. */
static uint32_t part(const struct task *task, uint32_t slack, const struct task *own)
{
    uint32_t window = own->deadline > slack ? own->deadline - slack : 0;
    uint32_t whole = window / task->period;
    uint32_t rest = window % task->period;
    uint32_t interference = whole * task->budget + (rest < task->budget ? rest : task->budget);
    return interference < spare(own) ? interference : spare(own);
}

/* The sums of all tasks where all slacks are 0. */
static void window_sums(const struct table *table, uint32_t *sums)
{
    for (size_t k = 0; k < table->count; k++) {
        uint32_t sum = 0;
        for (size_t i = 0; i < table->count; i++)
            if (i != k)
                sum += part(&table->tasks[i], 0, &table->tasks[k]);
        sums[k] = sum;
    }
}

/* Turns the sums of the round before into those with the new slacks: each task whose slack
 * changed takes its old parts out and puts its new ones in. */
static void next_sums(const struct table *table, const uint32_t *before, const uint32_t *slacks,
                      uint32_t *sums)
{
    for (size_t i = 0; i < table->count; i++) {
        if (before[i] == slacks[i])
            continue;
        const struct task *task = &table->tasks[i];
        for (size_t k = 0; k < table->count; k++) {
            const struct task *own = &table->tasks[k];
            if (k != i)
                sums[k] += part(task, slacks[i], own) - part(task, before[i], own);
        }
    }
}

static int may_turn_urgent(const struct task *task, uint32_t sum, uint32_t cores)
{
    return sum >= cores * spare(task);
}

static int few_urgent(const struct table *table, const uint32_t *sums, uint32_t cores)
{
    uint32_t count = 0;
    for (size_t k = 0; k < table->count; k++)
        count += (uint32_t)may_turn_urgent(&table->tasks[k], sums[k], cores);
    return count <= cores;
}

/* Sets each slack by its sum and says whether any changed. */
static int set_slacks(const struct table *table, const uint32_t *sums, uint32_t cores,
                      uint32_t *slacks)
{
    int changed = 0;
    for (size_t k = 0; k < table->count; k++) {
        uint32_t needed = cores * spare(&table->tasks[k]);
        uint32_t lacking = sums[k] < needed ? needed - sums[k] : 0;
        uint32_t slack = (lacking + cores - 1) / cores;
        changed |= slack != slacks[k];
        slacks[k] = slack;
    }
    return changed;
}

/* The slack test. Round 1's sums, with all slacks 0, are those of the window test, and what
 * that admits is admitted without further rounds. */
static int admitted(const struct table *table, uint32_t cores)
{
    uint32_t sums[MAX_TASKS];
    window_sums(table, sums);
    if (few_urgent(table, sums, cores))
        return 1;
    uint32_t before[MAX_TASKS];
    uint32_t slacks[MAX_TASKS];
    size_t size = table->count * sizeof *slacks;
    memset(slacks, 0, size);
    for (int round = 1; round < MAX_ROUNDS; round++) {
        memcpy(before, slacks, size);
        if (!set_slacks(table, sums, cores, slacks))
            break;
        next_sums(table, before, slacks, sums);
    }
    return few_urgent(table, sums, cores);
}

/* 0 not admitted, 1 admitted, 100 plus the refusal's number otherwise. */
uint32_t admit_in_c(const uint8_t *text, size_t len, uint32_t cores)
{
    struct table table;
    enum refusal refusal = table_read(text, len, &table);
    if (refusal != NONE)
        return 100 + (uint32_t)refusal;
    if (cores < 1 || cores > MAX_CORES)
        return 100 + CORES_OUT_OF_RANGE;
    return (uint32_t)admitted(&table, cores);
}
