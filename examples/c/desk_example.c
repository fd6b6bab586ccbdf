/*
 * Paper 01's roster A and the five reports of its log, judged through the C interface; then parts that break cover, an empty report,
 * the remark, dates, and forms. C99, and C++ as well. Build the library with `tools/build desk_c`; then, from the top of the repository:
 *
 *     gcc -std=c99 -Iinclude examples/c/desk_example.c target/staticlib/libdesk.a -o example && ./example
 *
 * It prints what it sees and ends with status 1 where that is not what the paper says.
 */
#include "desk.h"

#include <stdio.h>
#include <string.h>

/* 2026-03-01 00:00 in minutes since 2000-01-01 00:00 UTC */
#define D 13760640u

#define UNITS 2

/* Codes of docs/FORMATS.md */
enum { W1 = 1, Z1 = 3 };
enum { STATE_P = 5 };
enum { STOP = 1, POSITIVE_DERATING = 2, FORCED_WORK = 4 };
enum { CREATE = 1, CHANGE = 2 };
enum { GENERATION = 1 };
enum { PLANNED = 1, EXECUTED = 2 };
enum { RA = 1 };

static int unexpected = 0;

static void expect(const char *what, uint32_t got, uint32_t wanted)
{
    if (got != wanted) {
        printf("NOT AS EXPECTED: %s: %u and not %u\n", what, (unsigned)got, (unsigned)wanted);
        unexpected = 1;
    }
}

/* Numbers as bytes, the lowest first. */
static void put16(uint8_t *at, uint32_t value)
{
    at[0] = (uint8_t)(value & 255u);
    at[1] = (uint8_t)(value >> 8 & 255u);
}

static void put32(uint8_t *at, uint32_t value)
{
    put16(at, value & 65535u);
    put16(at + 2, value >> 16);
}

static void put_entry(uint8_t *entry, uint32_t owner, uint8_t kind, uint8_t state, uint32_t pmax, uint32_t pmin)
{
    memset(entry, 0, DESK_ENTRY_SIZE);
    memcpy(entry, "JG", 2); /* 4A 47 */
    put16(entry + 2, owner);
    entry[4] = kind;
    entry[5] = state;
    put32(entry + 8, D); /* since */
    put32(entry + 12, pmax);
    put32(entry + 16, pmin);
}

/* A report that creates a record for generation, with ordinal 1, and its length. */
typedef struct {
    uint8_t bytes[DESK_LONGEST_REPORT];
    size_t length;
} Report;

static Report head_of(uint32_t unit, uint8_t type, uint8_t mark, uint8_t qualification, int line, uint32_t stamp,
                      uint32_t start, uint32_t end)
{
    Report r;
    memset(&r, 0, sizeof r);
    memcpy(r.bytes, "RP", 2); /* 52 50 */
    put16(r.bytes + 2, unit);
    put16(r.bytes + 4, 7); /* owner */
    r.bytes[6] = type;
    r.bytes[7] = CREATE;
    r.bytes[8] = GENERATION;
    r.bytes[9] = mark;
    r.bytes[10] = PLANNED; /* the end mark: the end is planned */
    r.bytes[11] = qualification;
    put16(r.bytes + 12, 1);           /* ordinal */
    memset(r.bytes + 16, line, 16);   /* identifier */
    put32(r.bytes + 32, D + stamp);
    put32(r.bytes + 36, D + start);
    put32(r.bytes + 40, D + end);
    r.length = 48;
    return r;
}

static void add_part(Report *r, uint32_t start, uint32_t end, uint32_t power)
{
    uint8_t *part = r->bytes + r->length;
    memcpy(part, "PK", 2); /* 50 4B */
    put32(part + 4, D + start);
    put32(part + 8, D + end);
    put32(part + 12, power);
    r->bytes[14]++; /* k */
    r->length += 16;
}

static void add_text(Report *r, const char *text)
{
    size_t length = strlen(text);
    memcpy(r->bytes + r->length, "TX", 2); /* 54 58 */
    memcpy(r->bytes + r->length + 2, text, length);
    put16(r->bytes + 44, (uint32_t)length); /* t */
    r->length += 2 + length;
}

static Report levelled(uint32_t unit, uint8_t type, int line, uint32_t stamp, uint32_t power)
{
    Report r = head_of(unit, type, PLANNED, 0, line, stamp, 60, 120);
    add_part(&r, 60, 120, power);
    add_text(&r, "");
    return r;
}

/* A derating in four quarter hours, one of which starts a minute late; none of them does if that one is 0. */
static Report stepping(int line, uint32_t stamp, uint32_t late)
{
    Report r = head_of(1, POSITIVE_DERATING, PLANNED, 0, line, stamp, 180, 240);
    uint32_t i;
    for (i = 1; i <= 4; i++) {
        add_part(&r, 165 + 15 * i + (i == late ? 1 : 0), 180 + 15 * i, 1000 * i);
    }
    add_text(&r, "");
    return r;
}

/* A change of report 1's derating, which has begun; with end mark 2 it ends it, before its planned end. */
static Report changed(uint32_t ordinal, uint8_t end_mark, uint32_t stamp, uint32_t end)
{
    Report r = head_of(1, POSITIVE_DERATING, EXECUTED, 0, 1, stamp, 60, end);
    r.bytes[7] = CHANGE;
    r.bytes[10] = end_mark;
    put16(r.bytes + 12, ordinal);
    add_part(&r, 60, end, 20000);
    add_text(&r, "");
    return r;
}

static Report begun_stop(int line, uint32_t stamp, uint32_t start)
{
    Report r = head_of(1, STOP, EXECUTED, RA, line, stamp, start, 180);
    add_text(&r, "");
    return r;
}

static const char *words_of(uint32_t number)
{
    switch (number) {
    case DESK_ACCEPTED: return "accepted";
    case DESK_REFUSED_REPORT: return "refused, the report is not whole";
    case DESK_REFUSED_UNIT_OR_OWNER: return "refused, unit and owner do not go together";
    case DESK_REFUSED_PARTS: return "refused, the parts do not cover the period";
    case DESK_REFUSED_IDENTIFIER_UNKNOWN: return "refused, no live record has this identifier";
    case DESK_REFUSED_LEVELS: return "refused, forced work and deratings do not fit";
    default: return "refused";
    }
}

/* A report is answered on the register; a refusal has to leave every byte. */
static void answer(uint8_t *reg, const char *name, const uint8_t *report, size_t length, uint32_t number, uint32_t warnings,
                   uint32_t part)
{
    static uint8_t before[UNITS * DESK_BLOCK_SIZE];
    uint32_t got;
    memcpy(before, reg, sizeof before);
    got = desk_answer(reg, sizeof before, report, length);
    printf("%s: %u, %s", name, (unsigned)desk_number(got), words_of(desk_number(got)));
    if (desk_warnings(got) & DESK_WARNING_STOP) {
        printf(", warning 1: a derating or forced work overlaps a stop");
    }
    if (desk_number(got) == DESK_REFUSED_PARTS) {
        printf(", part %u is wrong", (unsigned)desk_part(got));
    }
    if (desk_number(got) != DESK_ACCEPTED && memcmp(before, reg, sizeof before) == 0) {
        printf("; every byte is as it was");
    }
    printf("\n");
    expect("number", desk_number(got), number);
    expect("warnings", desk_warnings(got), warnings);
    expect("part", desk_part(got), part);
    expect("bytes are as they were", memcmp(before, reg, sizeof before) == 0, number != DESK_ACCEPTED);
}

static void remark(const char *name, const Report *r, const char *standing, const char *wanted)
{
    uint64_t place = 0, length = 0;
    uint32_t got = desk_remark(r->bytes, r->length, (const uint8_t *)standing, strlen(standing), &place, &length);
    const char *text = desk_remark_is_standing(got) ? standing : (const char *)r->bytes;
    printf("%s: \"%.*s\", %u bytes from byte %u of the %s\n", name, (int)length, text + place, (unsigned)length,
           (unsigned)place, desk_remark_is_standing(got) ? "standing text" : "report");
    expect("number of the remark", desk_number(got), DESK_ACCEPTED);
    expect("the remark's length", (uint32_t)length, (uint32_t)strlen(wanted));
    expect("the remark differs", memcmp(text + place, wanted, strlen(wanted)) != 0, 0);
}

static void no_remark(const char *standing)
{
    uint64_t place = 7, length = 7;
    uint32_t got = desk_remark(NULL, 0, (const uint8_t *)standing, strlen(standing), &place, &length);
    printf("remark of an empty report: %u, %s\n", (unsigned)desk_number(got), words_of(desk_number(got)));
    expect("answer", got, DESK_REFUSED_REPORT);
    expect("place", (uint32_t)place, 0);
    expect("length", (uint32_t)length, 0);
}

static void read_date(const char *text, uint32_t number, uint32_t minute)
{
    uint64_t got = desk_read_date((const uint8_t *)text, strlen(text));
    if (desk_number_of(got) == DESK_ACCEPTED) {
        printf("\"%s\" is minute %u\n", text, (unsigned)desk_value(got));
    } else {
        printf("\"%s\": %u, no minute has this date\n", text, (unsigned)desk_number_of(got));
    }
    expect("number of a date", desk_number_of(got), number);
    expect("minute of a date", desk_value(got), minute);
}

/* The text has room for a 0 at the end, which stays where it was put. */
static void print_date(uint32_t minute, size_t room, uint32_t number, const char *wanted)
{
    char text[DESK_DATE_SIZE + 1] = "................";
    uint32_t got = desk_print_date(minute, (uint8_t *)text, room);
    printf("minute %u into %u bytes: %u, \"%s\"\n", (unsigned)minute, (unsigned)room, (unsigned)got, text);
    expect("number of a print", got, number);
    expect("the print differs", strcmp(text, wanted) != 0, 0);
}

/* A report as a form, which is printed, and the form read again; then places that are a byte short, a form and a report that is none. */
static void there_and_back(const Report *r)
{
    static char form[DESK_LONGEST_FORM];
    static uint8_t again[DESK_LONGEST_REPORT];
    uint64_t wrote = desk_write_form(r->bytes, r->length, (uint8_t *)form, sizeof form);
    size_t length = desk_value(wrote);
    uint64_t read = desk_read_form((const uint8_t *)form, length, again, sizeof again);
    printf("the form of report 1, %u bytes:\n%.*s", (unsigned)length, (int)length, form);
    expect("number of a form", desk_number_of(wrote), DESK_ACCEPTED);
    expect("number of what is read of it", desk_number_of(read), DESK_ACCEPTED);
    expect("length of what is read of it", desk_value(read), (uint32_t)r->length);
    expect("the report differs", memcmp(again, r->bytes, r->length) != 0, 0);
    expect("a form a byte short of room", (uint32_t)desk_write_form(r->bytes, r->length, (uint8_t *)form, length - 1), DESK_REFUSED_ROOM);
    expect("a report a byte short of room", (uint32_t)desk_read_form((const uint8_t *)form, length, again, r->length - 1),
           DESK_REFUSED_ROOM);
    expect("a form cut short", (uint32_t)desk_read_form((const uint8_t *)form, length - 1, again, sizeof again), DESK_REFUSED_FORM);
    expect("a report cut short", (uint32_t)desk_write_form(r->bytes, r->length - 1, (uint8_t *)form, sizeof form),
           DESK_REFUSED_NO_FORM);
    expect("an empty form, NULL and 0", (uint32_t)desk_read_form(NULL, 0, again, sizeof again), DESK_REFUSED_FORM);
    printf("read again: %u bytes, the same; cut short: %u and %u; without room: %u\n", (unsigned)desk_value(read), DESK_REFUSED_FORM,
           DESK_REFUSED_NO_FORM, DESK_REFUSED_ROOM);
}

int main(void)
{
    static uint8_t reg[UNITS * DESK_BLOCK_SIZE];
    uint8_t roster[UNITS * DESK_ENTRY_SIZE];
    const char *standing = "no remark";
    Report reports[5], steps, told;
    int i;

    put_entry(roster, 7, W1, STATE_P, 200000, 80000);
    put_entry(roster + DESK_ENTRY_SIZE, 9, Z1, 0, 50000, 0);
    expect("set-up with a register of one block", desk_set_up(roster, sizeof roster, reg, DESK_BLOCK_SIZE), DESK_REFUSED_BUFFER);
    expect("set-up without a roster", desk_set_up(NULL, 0, reg, sizeof reg), DESK_REFUSED_ROSTER);
    expect("set-up", desk_set_up(roster, sizeof roster, reg, sizeof reg), DESK_ACCEPTED);
    printf("roster A is set up: %d units, %u bytes\n", UNITS, (unsigned)sizeof reg);

    reports[0] = levelled(1, POSITIVE_DERATING, 1, 10, 20000);
    reports[1] = levelled(1, FORCED_WORK, 2, 11, 190000);
    reports[2] = levelled(1, FORCED_WORK, 3, 11, 180000);
    reports[3] = begun_stop(4, 25, 20);
    reports[4] = levelled(2, POSITIVE_DERATING, 5, 26, 20000);
    {
        static const uint32_t numbers[5] = {0, DESK_REFUSED_LEVELS, 0, 0, DESK_REFUSED_UNIT_OR_OWNER};
        static const uint32_t warnings[5] = {0, 0, 0, DESK_WARNING_STOP, 0};
        for (i = 0; i < 5; i++) {
            char name[] = "report 0";
            name[7] = (char)('1' + i);
            answer(reg, name, reports[i].bytes, reports[i].length, numbers[i], warnings[i], 0);
        }
    }
    steps = stepping(6, 27, 3);
    answer(reg, "four parts, the third a minute late", steps.bytes, steps.length, DESK_REFUSED_PARTS, 0, 3);
    steps = stepping(6, 27, 0);
    answer(reg, "the same put right", steps.bytes, steps.length, 0, 0, 0);
    steps = changed(2, PLANNED, 61, 120);
    answer(reg, "report 1's derating has begun", steps.bytes, steps.length, 0, DESK_WARNING_STOP, 0);
    steps = changed(3, EXECUTED, 75, 72);
    answer(reg, "it ended early", steps.bytes, steps.length, 0, 0, 0);
    answer(reg, "the same once more", steps.bytes, steps.length, DESK_REFUSED_IDENTIFIER_UNKNOWN, 0, 0);
    answer(reg, "an empty report, NULL and 0", NULL, 0, DESK_REFUSED_REPORT, 0, 0);
    expect("an empty register, NULL and 0", desk_answer(NULL, 0, reports[0].bytes, reports[0].length), DESK_REFUSED_REGISTER);

    told = head_of(1, POSITIVE_DERATING, PLANNED, 0, 7, 30, 120, 180);
    add_part(&told, 120, 180, 20000);
    add_text(&told, "feed pump B is out");
    remark("remark of a report with a text", &told, standing, "feed pump B is out");
    remark("remark of report 1, which has none", &reports[0], standing, standing);
    no_remark(standing);

    read_date("2026-03-01 00:10", DESK_ACCEPTED, D + 10);
    read_date("2026-02-29 00:10", DESK_REFUSED_DATE, 0);
    read_date("", DESK_REFUSED_DATE, 0);
    print_date(D + 10, DESK_DATE_SIZE, DESK_ACCEPTED, "2026-03-01 00:10");
    print_date(26298720, DESK_DATE_SIZE, DESK_REFUSED_MINUTE, "................");
    print_date(D + 10, DESK_DATE_SIZE - 1, DESK_REFUSED_ROOM, "................");
    there_and_back(&reports[0]);

    printf(unexpected ? "NOT all as expected\n" : "all as expected\n");
    return unexpected;
}
