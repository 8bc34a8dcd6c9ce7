/*
 * The program bench_slots in plain C, with the machine kept in place: plays
 * many slots of the table on standard input, each on as many cores as the machine
 * has, and prints a checksum. Built with CHECKED as 1, each call first tests that
 * the machine is sound, as the proved one does; with 0 it does not.
 */
#include <inttypes.h>
#include <stdbool.h>
#include <stdio.h>

#include "table.h"

enum { SLOTS = 1000000 };

#define MODULUS UINT64_C(4294967291)

struct job {
    bool open;
    uint32_t left;
    uint32_t budget;
    uint32_t gap;
};

struct machine {
    struct table table;
    uint32_t cores;
    struct job jobs[MAX_TASKS];
    /* The core of each task in the last accepted slot, from 1; 0 is none. */
    uint32_t assigned[MAX_TASKS];
};

struct report {
    bool ran[MAX_TASKS];
    bool finished[MAX_TASKS];
    bool late[MAX_TASKS];
    uint32_t assigned[MAX_TASKS];
    uint32_t runners;
};

static bool job_sound(const struct job *job, const struct task *task)
{
    if (job->gap > task->period)
        return false;
    if (!job->open)
        return job->left == 0 && job->budget == 0;
    return 1 <= job->left && job->left <= task->deadline && 1 <= job->budget &&
           job->budget <= task->budget && job->left <= job->gap;
}

static bool sound(const struct machine *machine)
{
    size_t count = machine->table.count;
    if (count < 1 || count > MAX_TASKS || machine->cores < 1 || machine->cores > MAX_CORES)
        return false;
    uint32_t seen = 0;
    for (size_t i = 0; i < count; i++) {
        const struct task *task = &machine->table.tasks[i];
        if (!task_in_range(task) || !job_sound(&machine->jobs[i], task))
            return false;
        uint32_t core = machine->assigned[i];
        if (core > MAX_CORES || (seen >> core & 1))
            return false;
        /* Bit 0 stays clear: any number of tasks may have no core. */
        seen |= (UINT32_C(1) << core) & ~UINT32_C(1);
    }
    return true;
}

/* Opens a job of the task with this number, from 1, that needs so many slots, if it is allowed. */
static bool release(struct machine *machine, size_t number, uint32_t need)
{
    if (CHECKED && !sound(machine))
        return false;
    if (number < 1 || number > machine->table.count)
        return false;
    const struct task *task = &machine->table.tasks[number - 1];
    if (need < 1 || need > task->budget)
        return false;
    struct job *job = &machine->jobs[number - 1];
    if (job->gap > 0)
        return false;
    *job = (struct job){true, task->deadline, need, task->period};
    return true;
}

/* Whether an open job precedes another that has a lower number. Of two that are equal in
 * urgency and left, it does so only if it owes more. */
static bool precedes(const struct job *x, const struct job *y)
{
    bool urgent = x->left <= x->budget;
    if (urgent != (y->left <= y->budget))
        return urgent;
    if (x->left != y->left)
        return x->left < y->left;
    return x->budget > y->budget;
}

/* The open task, not yet picked, that goes before all others. */
static size_t next_runner(const struct machine *machine, const bool *picked)
{
    size_t count = machine->table.count;
    size_t best = count;
    for (size_t i = 0; i < count; i++) {
        if (!machine->jobs[i].open || picked[i])
            continue;
        if (best == count || precedes(&machine->jobs[i], &machine->jobs[best]))
            best = i;
    }
    return best;
}

/* Marks the tasks that run on so many cores, lists them in precedence, and gives their number. */
static uint32_t pick(const struct machine *machine, uint32_t cores, bool *ran, size_t *order)
{
    uint32_t open = 0;
    for (size_t i = 0; i < machine->table.count; i++)
        open += machine->jobs[i].open;
    uint32_t wanted = open < cores ? open : cores;
    for (uint32_t found = 0; found < wanted; found++) {
        size_t next = next_runner(machine, ran);
        ran[next] = true;
        order[found] = next;
    }
    return wanted;
}

/* Gives each runner its core, in an array of zeros. All that keep theirs come first, so that no
 * other runner takes it; the others take the unused cores in rising number. */
static void assign(const struct machine *machine, uint32_t cores, const size_t *order,
                   uint32_t runners, uint32_t *assigned)
{
    uint32_t unused = (UINT32_C(2) << cores) - 2; /* Bit n is core n, from 1. */
    for (uint32_t i = 0; i < runners; i++) {
        uint32_t core = machine->assigned[order[i]];
        if (core <= cores) {
            assigned[order[i]] = core;
            unused &= ~(UINT32_C(1) << core);
        }
    }
    for (uint32_t i = 0; i < runners; i++) {
        if (assigned[order[i]] == 0) {
            assigned[order[i]] = (uint32_t)__builtin_ctz(unused);
            unused &= unused - 1;
        }
    }
}

/* Steps 2 to 4 of a slot for one task. */
static void pass(struct job *job, bool ran, bool *finished, bool *late)
{
    job->gap -= job->gap > 0;
    if (!job->open)
        return;
    job->budget -= ran;
    job->left -= 1;
    *finished = job->budget == 0;
    *late = job->budget != 0 && job->left == 0;
    if (*finished || *late) {
        job->open = false;
        job->left = 0;
        job->budget = 0;
    }
}

/* A slot on so many cores, refused below the machine's own and above MAX_CORES. */
static void slot(struct machine *machine, uint32_t cores, struct report *report)
{
    *report = (struct report){0};
    if (CHECKED && !sound(machine))
        return;
    if (cores < machine->cores || cores > MAX_CORES)
        return;
    size_t order[MAX_CORES];
    report->runners = pick(machine, cores, report->ran, order);
    assign(machine, cores, order, report->runners, report->assigned);
    for (size_t i = 0; i < machine->table.count; i++) {
        pass(&machine->jobs[i], report->ran[i], &report->finished[i], &report->late[i]);
        machine->assigned[i] = report->assigned[i];
    }
}

static uint64_t mask(const bool *named)
{
    uint64_t sum = 0;
    for (size_t i = MAX_TASKS; i-- > 0;)
        sum = named[i] + 2 * sum;
    return sum;
}

/* The sum of (32 - i) times the core at index i, as running totals. */
static uint64_t cores_number(const uint32_t *assigned)
{
    uint64_t running = 0;
    uint64_t number = 0;
    for (size_t i = 0; i < MAX_TASKS; i++) {
        running += assigned[i];
        number += running;
    }
    return number;
}

static uint64_t folded(uint64_t sum, uint64_t number)
{
    return (sum * 31 + number % MODULUS) % MODULUS;
}

static uint64_t play(struct machine *machine)
{
    struct report report;
    uint64_t sum = 0;
    for (uint32_t number = 0; number < SLOTS; number++) {
        for (size_t i = 0; i < machine->table.count; i++)
            if (machine->jobs[i].gap == 0 && !machine->jobs[i].open)
                release(machine, i + 1, machine->table.tasks[i].budget);
        slot(machine, machine->cores, &report);
        sum = folded(sum, mask(report.ran));
        sum = folded(sum, mask(report.finished));
        sum = folded(sum, mask(report.late));
        sum = folded(sum, cores_number(report.assigned));
    }
    return sum;
}

int main(void)
{
    uint8_t text[MAX_TEXT_LENGTH + 1];
    size_t len = fread(text, 1, sizeof text, stdin);
    struct machine machine = {0};
    if (table_read(text, len, &machine.table) != NONE)
        return 1;
    machine.cores = (uint32_t)machine.table.count / 2;
    printf("%" PRIu64 "\n", play(&machine));
    return 0;
}
