#include "table.h"

#include <string.h>

enum { FIELDS = 3, MAX_DIGITS = 7 };

static const char *const names[FIELDS] = {"PERIOD", "BUDGET", "DEADLINE"};

/* Which of the three names a field is: FIELDS where it is none. */
static size_t name_of(const uint8_t *field, size_t len)
{
    for (size_t i = 0; i < FIELDS; i++)
        if (strlen(names[i]) == len && memcmp(names[i], field, len) == 0)
            return i;
    return FIELDS;
}

/* The place after the names line, with the name of each column, or NULL. */
static const uint8_t *read_names(const uint8_t *at, const uint8_t *end, size_t columns[FIELDS])
{
    unsigned seen = 0;
    for (size_t i = 0; i < FIELDS; i++) {
        uint8_t stop = i + 1 < FIELDS ? ' ' : '\n';
        const uint8_t *field = at;
        while (at < end && *at != stop)
            at++;
        if (at == end)
            return NULL;
        size_t name = name_of(field, (size_t)(at - field));
        if (name == FIELDS)
            return NULL;
        columns[i] = name;
        seen |= 1u << name;
        at++;
    }
    return seen == 7 ? at : NULL;
}

/* The place after a value and the byte that ends it, or NULL. */
static const uint8_t *read_value(const uint8_t *at, const uint8_t *end, uint8_t stop,
                                 uint32_t *value)
{
    const uint8_t *first = at;
    uint32_t number = 0;
    while (at < end && (uint8_t)(*at - '0') < 10) {
        if (at - first == MAX_DIGITS)
            return NULL;
        number = number * 10 + (uint32_t)(*at - '0');
        at++;
    }
    if (at == first || at == end || *at != stop)
        return NULL;
    if (*first == '0' && at - first > 1)
        return NULL;
    *value = number;
    return at + 1;
}

/* The place after a value line, or NULL. */
static const uint8_t *read_line(const uint8_t *at, const uint8_t *end, const size_t columns[FIELDS],
                                struct task *task)
{
    uint32_t values[FIELDS];
    for (size_t i = 0; i < FIELDS; i++) {
        at = read_value(at, end, i + 1 < FIELDS ? ' ' : '\n', &values[columns[i]]);
        if (at == NULL)
            return NULL;
    }
    *task = (struct task){values[0], values[1], values[2]};
    return at;
}

enum refusal table_read(const uint8_t *text, size_t len, struct table *table)
{
    if (len > MAX_TEXT_LENGTH)
        return TEXT_TOO_LONG;
    const uint8_t *end = text + len;
    size_t columns[FIELDS];
    const uint8_t *at = read_names(text, end, columns);
    if (at == NULL)
        return BAD_NAMES_LINE;
    size_t count = 0;
    while (at < end) {
        table->count = count;
        if (count == MAX_TASKS)
            return TOO_MANY_TASKS;
        at = read_line(at, end, columns, &table->tasks[count]);
        if (at == NULL)
            return BAD_VALUE_LINE;
        if (!task_in_range(&table->tasks[count]))
            return TASK_OUT_OF_RANGE;
        count++;
    }
    table->count = count;
    return count == 0 ? NO_TASK : NONE;
}
