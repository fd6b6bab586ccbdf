/*
 * The desk: judges outage reports on a register of generating units. The functions of target/staticlib/libdesk.a, which
 * `tools/build desk_c` builds; C99 or later, C++11 or later, x86-64 Linux. docs/EMBEDDING.md says how to link it and what is
 * promised, docs/FORMATS.md has the bytes, examples/c/desk_example.c uses every function.
 *
 * What holds for every function:
 *
 * - A stretch of bytes is a pointer and a length. Any bytes and any length get an answer; nothing has to be checked before.
 * - Beside length 0 the pointer may be NULL: nothing is read or written through it. Beside any other length it points to that
 *   many bytes, which were written before (any value), fewer than 2^63 of them.
 * - What a function writes to overlaps nothing else that it is lent. A report, roster or text that lies in the register has to be
 *   copied out first. Two stretches that are only read may overlap.
 * - While a call runs nobody else writes what it was lent, and nobody else reads what it writes. The library has no state of its
 *   own: calls on different registers may run at the same time, on one register only one after the other.
 * - Bytes need no alignment. Numbers in them are little-endian.
 * - A call ends. It allocates nothing, does no input or output and raises no signal; its stack is below 16 kB.
 * - A refusal leaves every byte of the register, and of whatever else is lent to be written, as it was.
 */
#ifndef LOYIFEKU_DESK_H
#define LOYIFEKU_DESK_H

#include <stddef.h>
#include <stdint.h>

#ifdef __cplusplus
extern "C" {
#endif

/* Sizes in bytes, and how many. */
#define DESK_ENTRY_SIZE 28       /* a roster entry */
#define DESK_BLOCK_SIZE 7168     /* a unit's block in the register: a head and its slots */
#define DESK_HEAD_SIZE 64        /* a block's head */
#define DESK_SLOT_SIZE 888       /* a slot */
#define DESK_SLOTS 8             /* slots in a block */
#define DESK_MOST_UNITS 64       /* units in a roster or a register, at least 1 */
#define DESK_MOST_PARTS 100      /* parts in a report */
#define DESK_LONGEST_TEXT 200    /* a report's text */
#define DESK_LONGEST_REPORT 1850 /* 50 + 16 for each part + the text */
#define DESK_LONGEST_FORM 3584   /* no form is longer */
#define DESK_DATE_SIZE 16        /* a date's characters, as in 2026-03-01 00:10, without a 0 at the end */

/* The number in an answer: 0, or the first question that was answered "no". docs/SHIFT-LOG.md explains each of them. */
enum {
    DESK_ACCEPTED = 0,
    DESK_REFUSED_REGISTER = 1,            /* the register is not whole */
    DESK_REFUSED_REPORT = 2,              /* the report is not whole */
    DESK_REFUSED_UNIT_OR_OWNER = 3,       /* no such unit, or another owner's; which of the two is not told */
    DESK_REFUSED_FIELDS = 4,              /* a field is out of range */
    DESK_REFUSED_KIND = 5,                /* the unit's kind does not carry it */
    DESK_REFUSED_TIMES = 6,               /* start, end, stamp and the marks do not go together */
    DESK_REFUSED_QUARTER_HOUR = 7,        /* end, planned start or a part's end off the quarter hour */
    DESK_REFUSED_PARTS = 8,               /* the parts do not cover the period, or there may be none: desk_part */
    DESK_REFUSED_POWER = 9,               /* a part's power is out of range */
    DESK_REFUSED_STAMP = 10,              /* the stamp is before the unit's last one */
    DESK_REFUSED_IDENTIFIER_IN_USE = 11,  /* create: a live record has this identifier */
    DESK_REFUSED_IDENTIFIER_UNKNOWN = 12, /* change, withdraw: no live record has it */
    DESK_REFUSED_OTHER_RECORD = 13,       /* type, direction or qualification differ, or the ordinal is not greater */
    DESK_REFUSED_BEGUN = 14,              /* a begun record: start or mark changed, or withdrawn; a planned one: ended early */
    DESK_REFUSED_OVERLAP = 15,            /* a live record of its type and a meeting direction overlaps it */
    DESK_REFUSED_DERATING = 16,           /* a derating is above the unit's powers */
    DESK_REFUSED_LEVELS = 17,             /* forced work and deratings do not fit in a minute */
    DESK_REFUSED_STATE = 18,              /* not after the unit's since, or its state has no such arrow */
    DESK_REFUSED_SLOTS = 19,              /* no slot is free */
    DESK_REFUSED_ROSTER = 20,             /* set-up: the roster is not 1 to 64 good entries */
    DESK_REFUSED_BUFFER = 21,             /* set-up: the register is not 7,168 bytes for each entry */
    DESK_REFUSED_MINUTE = 22,             /* a date to print: the minute is after 2049-12-31 23:59 */
    DESK_REFUSED_DATE = 23,               /* a date to read: no minute has this text */
    DESK_REFUSED_FORM = 24,               /* a form to read: no report has this form */
    DESK_REFUSED_NO_FORM = 25,            /* a report to write as a form: it has none */
    DESK_REFUSED_ROOM = 43                /* what was lent has no room for the answer */
};

/* The warnings in an answer, added up. A refusal has none. */
enum {
    DESK_WARNING_STOP = 1,      /* a derating or forced work overlaps a stop */
    DESK_WARNING_ABOVE_MAX = 2, /* a forced level above Pmax (Z1: Pmax - Pmin) without positive derating */
    DESK_WARNING_BELOW_MIN = 4, /* W1, M1: a forced level below Pmin without negative derating */
    DESK_WARNING_LEFT = 8       /* the reported stop made another begun stop or off-grid record leave */
};

/*
 * An answer taken apart. Beside number 8 the part is the number, from 1, of the first part that breaks cover: one that does not
 * start where the one before it ended (the first part: at the period's start), does not start before its own end, or ends past the
 * period's end. A list that stops short names its last part; a missing list, or a list where none may be, names 0. Beside every
 * other number the part is 0.
 */
static inline uint32_t desk_number(uint32_t answer) { return answer & 255u; }
static inline uint32_t desk_warnings(uint32_t answer) { return (answer >> 8) & 255u; }
static inline uint32_t desk_part(uint32_t answer) { return answer >> 16; }

/* What a function returns that answers with a number and a value, taken apart. The value is 0 beside a refusal. */
static inline uint32_t desk_number_of(uint64_t answer) { return (uint32_t)answer; }
static inline uint32_t desk_value(uint64_t answer) { return (uint32_t)(answer >> 32); }

/* What desk_remark returns, taken apart: 1 where the remark is the standing text, else 0. desk_number gives its 0 or 2. */
static inline uint32_t desk_remark_is_standing(uint32_t answer) { return (answer >> 8) & 1u; }

/*
 * Writes a fresh register for a roster: block i for entry i, slots free, last stamp = since.
 * The roster: 1 to 64 entries of 28 bytes. The register: 7,168 bytes for each entry, whatever they hold.
 * Returns 0; 20 where the roster is not 1 to 64 good entries; else 21 where the register has another length. A refusal writes
 * nothing.
 */
uint32_t desk_set_up(const uint8_t *roster, size_t roster_length, uint8_t *reg, size_t reg_length);

/*
 * Judges a report and, where it is accepted, moves its unit's block on. No other block changes.
 * Returns number + 256 * warnings + 65,536 * part: the number is 0 to 19, the warnings 0 to 15, the part 0 to 100; see
 * desk_number, desk_warnings and desk_part.
 * Question 1 asks the whole register each time: one that is not whole is answered with 1 and never written to.
 */
uint32_t desk_answer(uint8_t *reg, size_t reg_length, const uint8_t *report, size_t report_length);

/*
 * Finds the remark that is shown beside the answer: the report's text, or, where it has none, the standing text, whole. It is no
 * part of the answer: question 2 alone is asked, so that a refused report has its text shown too.
 * Returns number + 256 * s. Number 0: the remark is the *length bytes from *place on, of the report where s is 0, of the
 * standing text where s is 1. Number 2, the report is not whole: s, *place and *length are 0.
 * place and length point to two different numbers, aligned as uint64_t, and are not NULL. Nothing is copied.
 */
uint32_t desk_remark(const uint8_t *report, size_t report_length, const uint8_t *standing, size_t standing_length,
                     uint64_t *place, uint64_t *length);

/*
 * Reads a date, which is the print of a minute: sixteen characters as in 2026-03-01 00:10, from 2000-01-01 00:00 to 2049-12-31 23:59,
 * UTC. There is one spelling: the text that desk_print_date gives for the minute.
 * Returns number + 2^32 * value: 0 and the minute, or 23 for every other text; see desk_number_of and desk_value.
 */
uint64_t desk_read_date(const uint8_t *text, size_t text_length);

/*
 * Prints the date of a minute into the first sixteen bytes of a text; the bytes after them stay, and no 0 is put at the end.
 * Returns 0; 22 where the minute is after the last one, 26,298,719; else 43 where the text has fewer than sixteen bytes. A refusal
 * writes nothing.
 */
uint32_t desk_print_date(uint32_t minute, uint8_t *text, size_t text_length);

/*
 * Writes a report as a form of lines, docs/FORM.md has them, into the first bytes of a form; the bytes after them stay, and no 0 is put
 * at the end. No form is longer than DESK_LONGEST_FORM.
 * Returns number + 2^32 * value: 0 and the form's length; 25 where the report has no form; else 43 where the form has no room. A refusal
 * writes nothing. See desk_number_of and desk_value.
 */
uint64_t desk_write_form(const uint8_t *report, size_t report_length, uint8_t *form, size_t form_length);

/*
 * Reads a form, which is the one that desk_write_form writes for a report, and writes that report into the first of the bytes
 * that are lent as `report`; those after them stay. No report is longer than DESK_LONGEST_REPORT.
 * Returns number + 2^32 * value: 0 and the report's length; 24 where the text is the form of no report; else 43 where the report has no
 * room. A refusal writes nothing. See desk_number_of and desk_value.
 */
uint64_t desk_read_form(const uint8_t *form, size_t form_length, uint8_t *report, size_t report_length);

#ifdef __cplusplus
}
#endif

#endif
