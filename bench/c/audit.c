/*
 * The program audit in plain C: tells whether the log on standard input goes by the rules, in
 * one pass over parts of the input. It holds each line to the format and the rules, and does
 * not test at each call that the machine is sound.
 */
#include <inttypes.h>
#include <stdbool.h>
#include <stdio.h>
#include <string.h>

#include "table.h"

/* A line that can be well formed has at most MAX_LINE bytes: three values, each with the byte
 * after it. */
enum { PART = 65536, MAX_DIGITS = 10, MAX_LINE = 3 * (MAX_DIGITS + 1), BAD_LOG_LINE = 18 };

static const char names_line[] = "RELEASED FINISHED RAN\n";

/* The bytes read and not yet used. A byte 0 stands after them, which no line can have, so that
 * the readers need not look for the end. */
struct input {
    uint8_t bytes[MAX_LINE + PART + 1];
    const uint8_t *at;
    const uint8_t *end;
    bool over;
};

/* The numbers of an open job; of a closed one only the gap counts. */
struct job {
    uint32_t left;
    uint32_t budget;
    uint32_t gap;
};

struct machine {
    struct table table;
    uint32_t cores;
    uint32_t open; /* Bit i is the task at index i. */
    struct job jobs[MAX_TASKS];
};

/* A value line: the tasks of each kind, as bits. */
struct line {
    uint32_t released;
    uint32_t finished;
    uint32_t ran;
};

/* Moves the unused bytes, fewer than MAX_LINE, to the front and reads a part behind them. */
static void read_part(struct input *input)
{
    size_t rest = (size_t)(input->end - input->at);
    memmove(input->bytes, input->at, rest);
    size_t length = fread(input->bytes + rest, 1, PART, stdin);
    input->over = length < PART;
    input->at = input->bytes;
    input->end = input->bytes + rest + length;
    input->bytes[rest + length] = 0;
}

/* Makes sure that the next line, if it can be well formed, is there whole. */
static void need_line(struct input *input)
{
    if (input->end - input->at < MAX_LINE && !input->over)
        read_part(input);
}

/* The place after a value and the byte that ends it, or NULL. */
static const uint8_t *read_value(const uint8_t *at, uint8_t stop, uint32_t *value)
{
    const uint8_t *first = at;
    uint64_t number = 0;
    while (at - first < MAX_DIGITS && (uint8_t)(*at - '0') < 10) {
        number = number * 10 + (uint64_t)(*at - '0');
        at++;
    }
    if (at == first || *at != stop || number > UINT32_MAX)
        return NULL;
    if (*first == '0' && at - first > 1)
        return NULL;
    *value = (uint32_t)number;
    return at + 1;
}

/* Reads the next value line, or says that it is broken. */
static bool read_line(struct input *input, struct line *line)
{
    const uint8_t *at = read_value(input->at, ' ', &line->released);
    if (at == NULL)
        return false;
    at = read_value(at, ' ', &line->finished);
    if (at == NULL)
        return false;
    at = read_value(at, '\n', &line->ran);
    if (at == NULL)
        return false;
    input->at = at;
    return true;
}

/* Opens a job of each task named, or says that one is not allowed. Where the gap is 0, no job
 * is open: an open job's gap is at least its left. */
static bool release(struct machine *machine, uint32_t named)
{
    for (; named != 0; named &= named - 1) {
        size_t i = (size_t)__builtin_ctz(named);
        if (i >= machine->table.count || machine->jobs[i].gap > 0)
            return false;
        const struct task *task = &machine->table.tasks[i];
        machine->jobs[i] = (struct job){task->deadline, task->budget, task->period};
        machine->open |= UINT32_C(1) << i;
    }
    return true;
}

/* Closes the job of each task named, or says that one is not open. */
static bool finish(struct machine *machine, uint32_t named)
{
    if ((named & ~machine->open) != 0)
        return false;
    machine->open &= ~named;
    return true;
}

/* The smaller beats the larger: urgent jobs come before all others, then fewer slots left. */
static uint32_t rank(const struct job *job)
{
    return (uint32_t)(job->left > job->budget) << 31 | job->left;
}

/* Whether an open task that did not run beats one that ran: then the first of the idle ones
 * beats the last of the runners. */
static bool idle_beats(const struct machine *machine, uint32_t ran)
{
    uint32_t idle = machine->open & ~ran;
    if (idle == 0)
        return false;
    uint32_t first = UINT32_MAX;
    for (; idle != 0; idle &= idle - 1) {
        uint32_t own = rank(&machine->jobs[__builtin_ctz(idle)]);
        first = own < first ? own : first;
    }
    uint32_t last = 0;
    for (; ran != 0; ran &= ran - 1) {
        uint32_t own = rank(&machine->jobs[__builtin_ctz(ran)]);
        last = own > last ? own : last;
    }
    return first < last;
}

/* Whether these may run: as many as can, all open, and none that an idle one beats. */
static bool may_run(const struct machine *machine, uint32_t ran)
{
    uint32_t open = (uint32_t)__builtin_popcount(machine->open);
    uint32_t wanted = open < machine->cores ? open : machine->cores;
    return (ran & ~machine->open) == 0 && (uint32_t)__builtin_popcount(ran) == wanted &&
           !idle_beats(machine, ran);
}

/* Steps 2 to 4 of a slot in which these tasks ran. */
static void pass(struct machine *machine, uint32_t ran)
{
    uint32_t closed = 0;
    for (size_t i = 0; i < machine->table.count; i++) {
        struct job *job = &machine->jobs[i];
        job->gap -= job->gap > 0;
        job->budget -= ran >> i & 1;
        job->left -= 1;
        closed |= (uint32_t)(job->budget == 0 || job->left == 0) << i;
    }
    machine->open &= ~closed;
}

/* Judges a line and carries it out, or says that it offends. */
static bool follow(struct machine *machine, const struct line *line)
{
    if (!release(machine, line->released) || !finish(machine, line->finished) ||
        !may_run(machine, line->ran))
        return false;
    pass(machine, line->ran);
    return true;
}

static void print_refused(int number, uint64_t place)
{
    printf("REFUSED %d %" PRIu64 "\n", number, place);
}

/* Prints the answer for the log that the input has from here. */
static void audit(struct input *input, struct machine *machine)
{
    need_line(input);
    size_t length = sizeof names_line - 1;
    if (strncmp((const char *)input->at, names_line, length) != 0) {
        print_refused(BAD_LOG_LINE, 0);
        return;
    }
    input->at += length;
    for (uint64_t number = 1;; number++) {
        need_line(input);
        if (input->at == input->end)
            break;
        struct line line;
        if (!read_line(input, &line)) {
            print_refused(BAD_LOG_LINE, number);
            return;
        }
        if (!follow(machine, &line)) {
            printf("OFFENDS %" PRIu64 "\n", number);
            return;
        }
    }
    puts("ACCEPTED");
}

/* The place after the line with the cores, or NULL. */
static const uint8_t *read_cores(const uint8_t *at, uint32_t *cores)
{
    static const char word[] = "CORES ";
    size_t length = sizeof word - 1;
    if (strncmp((const char *)at, word, length) != 0)
        return NULL;
    return read_value(at + length, '\n', cores);
}

/* The first line LOG, or NULL; and how many lines are ended before it. */
static const uint8_t *find_log(const uint8_t *at, const uint8_t *end, uint32_t *lines)
{
    const uint8_t *stop;
    for (*lines = 0; (stop = memchr(at, '\n', (size_t)(end - at))) != NULL; ++*lines) {
        if (stop - at == 3 && memcmp(at, "LOG", 3) == 0)
            return at;
        at = stop + 1;
    }
    return NULL;
}

/* Reads the table, after the cores, or prints why not. */
static bool read_table(const uint8_t *text, size_t length, struct machine *machine)
{
    enum refusal refusal = table_read(text, length, &machine->table);
    if (refusal == NONE && (machine->cores < 1 || machine->cores > MAX_CORES))
        refusal = CORES_OUT_OF_RANGE;
    if (refusal == NONE)
        return true;
    bool has_place = TOO_MANY_TASKS <= refusal && refusal <= TASK_OUT_OF_RANGE;
    print_refused((int)refusal, has_place ? machine->table.count + 1 : 0);
    return false;
}

/* Reads what stands before the log, or prints why not. The first part has all of it, or shows
 * that it is too long. */
static bool read_head(struct input *input, struct machine *machine)
{
    const uint8_t *text = read_cores(input->at, &machine->cores);
    if (text == NULL) {
        puts("BAD LINE 1");
        return false;
    }
    uint32_t lines;
    const uint8_t *log = find_log(text, input->end, &lines);
    size_t length = (size_t)((log != NULL ? log : input->end) - text);
    if (log == NULL && length <= MAX_TEXT_LENGTH) {
        printf("BAD LINE %" PRIu32 "\n", lines + 2);
        return false;
    }
    if (!read_table(text, length, machine))
        return false;
    input->at = log + strlen("LOG\n");
    return true;
}

int main(void)
{
    static struct input input;
    static struct machine machine;
    input.at = input.end = input.bytes;
    read_part(&input);
    if (read_head(&input, &machine))
        audit(&input, &machine);
    return 0;
}
