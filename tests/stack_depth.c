/* How much stack a call takes, on a stack that was painted: reports of 1 and of 100 parts, accepted and refused; dates; forms. */
#include <stdio.h>
#include <string.h>
#include <ucontext.h>

#include "desk.h"

enum { STACK_SIZE = 1 << 17, PAINT = 0xA5, PROMISED = 16000 };

static const uint32_t D = 13760640; /* 2026-03-01 00:00 */

static uint8_t stack[STACK_SIZE], reg[DESK_BLOCK_SIZE], report[DESK_LONGEST_REPORT];
static size_t report_length;
static uint32_t answer;
static ucontext_t here, there;

static void put16(uint8_t *at, uint32_t n)
{
    at[0] = (uint8_t)n;
    at[1] = (uint8_t)(n >> 8);
}

static void put32(uint8_t *at, uint32_t n)
{
    put16(at, n);
    put16(at + 2, n >> 16);
}

static void set_up(void)
{
    uint8_t entry[DESK_ENTRY_SIZE] = {0x4A, 0x47};
    put16(entry + 2, 7);
    entry[4] = 1; /* W1 */
    entry[5] = 5; /* P */
    put32(entry + 8, D);
    put32(entry + 12, 200000);
    put32(entry + 16, 80000);
    desk_set_up(entry, sizeof entry, reg, sizeof reg);
}

/* A creation of so many quarter hours, a part to each. */
static void compose(uint8_t type, uint32_t parts)
{
    uint32_t i;
    memset(report, 0, sizeof report);
    memcpy(report, "RP", 2);
    put16(report + 2, 1);
    put16(report + 4, 7);
    report[6] = type;
    memset(report + 7, 1, 4);
    put16(report + 12, 1);
    put16(report + 14, parts);
    memset(report + 16, type, 16);
    put32(report + 32, D + 10);
    put32(report + 36, D + 60);
    put32(report + 40, D + 60 + 15 * parts);
    for (i = 0; i < parts; i++) {
        uint8_t *part = report + 48 + 16 * i;
        memcpy(part, "PK", 2);
        put32(part + 4, D + 60 + 15 * i);
        put32(part + 8, D + 75 + 15 * i);
        put32(part + 12, type == 4 ? 100000 : 1000 + i);
    }
    memcpy(report + 48 + 16 * parts, "TX", 2);
    report_length = 50 + 16 * parts;
}

static void judge(void) { answer = desk_answer(reg, sizeof reg, report, report_length); }

/* The first minute is printed and read back. */
static void there_and_back(void)
{
    uint8_t text[DESK_DATE_SIZE];
    answer = desk_print_date(0, text, sizeof text);
    answer += desk_number_of(desk_read_date(text, sizeof text));
}

/* The report is written as a form, and read back. */
static void form_and_back(void)
{
    static uint8_t form[DESK_LONGEST_FORM], again[DESK_LONGEST_REPORT];
    uint64_t wrote = desk_write_form(report, report_length, form, sizeof form);
    answer = desk_number_of(wrote);
    answer += desk_number_of(desk_read_form(form, desk_value(wrote), again, sizeof again));
}

static void (*called)(void) = judge;

static size_t taken(void)
{
    size_t untouched = 0;
    memset(stack, PAINT, sizeof stack);
    getcontext(&there);
    there.uc_stack.ss_sp = stack;
    there.uc_stack.ss_size = sizeof stack;
    there.uc_link = &here;
    makecontext(&there, called, 0);
    swapcontext(&here, &there);
    while (untouched < sizeof stack && stack[untouched] == PAINT) untouched++;
    return sizeof stack - untouched;
}

/* A call, answered so; 1 where it took too much. */
static int measured(const char *name, uint32_t number, uint32_t part)
{
    size_t bytes = taken();
    int fails = bytes > PROMISED || desk_number(answer) != number || desk_part(answer) != part;
    printf("%s: answer %u, part %u, %zu bytes of stack%s\n", name, (unsigned)desk_number(answer), (unsigned)desk_part(answer), bytes,
           fails ? ": not as promised" : "");
    return fails;
}

int main(void)
{
    int failed = 0;
    set_up();
    compose(2, 100);
    failed |= measured("a derating of 100 parts", 0, 0);
    set_up();
    put32(report + 48 + 16 * 99 + 8, D + 75 + 15 * 100);
    failed |= measured("the same, its last part too long", 8, 100);
    compose(2, 1);
    failed |= measured("a derating of 1 part", 0, 0);
    compose(4, 100);
    failed |= measured("forced work of 100 parts beside it", 0, 0);
    set_up();
    compose(2, 2);
    put32(report + 64 + 12, 60000);
    failed |= measured("a derating that steps up", 0, 0);
    compose(4, 2);
    put32(report + 48 + 12, 199000);
    failed |= measured("forced work that fits in each minute, not beside the highest derating", 0, 0);
    called = there_and_back;
    failed |= measured("a date printed and read", 0, 0);
    called = form_and_back;
    compose(2, 100);
    failed |= measured("a report of 100 parts written as a form, and read", 0, 0);
    return failed;
}
