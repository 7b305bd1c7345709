/* Yithrel: judges tables of 16-byte rows (a small Move) and runs lists of calls over them. docs/MANUAL.md has the format. C99 or C++.
 *
 * Calls share nothing: the functions have no variables of their own, allocate nothing and open no files. So any number of them may run at once on different
 * threads, each with its own text buffer; tables, lists and rule files may be shared as long as nobody writes them.
 */
#ifndef YITHREL_H
#define YITHREL_H

#include <stddef.h>
#include <stdint.h>

#ifdef __cplusplus
extern "C" {
#endif

/* The number after the point is that of the last request for changes whose rules hold. */
#define YITHREL_VERSION "0.7"

/* Table, list and rule file are rows of so many bytes. */
#define YITHREL_ROW_BYTES 16

/* A table has at least one row and at most so many, and so many bytes. */
#define YITHREL_MAX_ROWS 2048
#define YITHREL_MAX_TABLE (YITHREL_MAX_ROWS * YITHREL_ROW_BYTES)

/* At most so many in a table, */
#define YITHREL_MAX_MODULES 16
#define YITHREL_MAX_TYPES 64
#define YITHREL_MAX_PROCEDURES 128

/* in a type, */
#define YITHREL_MAX_FIELDS 8

/* in a procedure (parameters are locals), */
#define YITHREL_MAX_LOCALS 16
#define YITHREL_MAX_RESULTS 4
#define YITHREL_MAX_INSTRUCTIONS 256

/* and on a procedure's stack at a time. */
#define YITHREL_MAX_OPERANDS 16

/* A rule file has at least one row and at most so many, and so many bytes. */
#define YITHREL_MAX_RULES 256
#define YITHREL_MAX_RULE_FILE (YITHREL_MAX_RULES * YITHREL_ROW_BYTES)

/* A list of calls has at most so many rows and so many bytes; a call of it has a budget of 1 to so many instructions. */
#define YITHREL_MAX_LIST_ROWS 256
#define YITHREL_MAX_LIST (YITHREL_MAX_LIST_ROWS * YITHREL_ROW_BYTES)
#define YITHREL_MAX_BUDGET 65535

/* At most so many frames and live records at a time, and so many entries of the store. */
#define YITHREL_MAX_FRAMES 16
#define YITHREL_MAX_RECORDS 128
#define YITHREL_MAX_ENTRIES 64

/* The shortest buffer for the text of a run: no text is longer. */
#define YITHREL_MIN_TEXT 65536

/* Bytes of stack that are enough for a call of each function. yithrel_judge needs 251,400, whatever the table (measured over made tables of every kind and
 * tables at the limits), yithrel_run 308,300, whatever the table and the list (measured over made runs and runs at the limits). Measured with rattle-kit-13f. */
#define YITHREL_JUDGE_STACK 262144
#define YITHREL_RUN_STACK 327680

/*
 * The number of an answer: 0, or the refusal. The value with it is the refused row of the table, unless brackets name another.
 *
 * The passes stand in their order: each goes over the whole table, and only if those before it accept. A pass tells the lowest row that it refuses, and of
 * several causes on that row the first in this list. 20, 21 and 22 are asked one after the other, each of all rows or pairs and only if the one before finds
 * nothing, and the lowest value is told. List and buffer come last, and only yithrel_run looks at them.
 */
enum yithrel_refusal {
    YITHREL_ACCEPTED = 0,                   /* (yithrel_judge: the number of rows; yithrel_run: the length of the text) */
    /* length */
    YITHREL_REFUSED_BAD_LENGTH = 1,         /* length 0, not a multiple of 16, or over YITHREL_MAX_TABLE (0) */
    /* rows */
    YITHREL_REFUSED_BAD_PLACE = 2,          /* kind unknown, row 0 not a module, or kind not allowed after the row above */
    YITHREL_REFUSED_OVER_LIMIT = 3,         /* a count limit passed by this row */
    YITHREL_REFUSED_DIRTY_BYTE = 4,         /* an unused byte is not zero */
    YITHREL_REFUSED_WRONG_VALUE = 18,       /* a value not allowed: A out of range, C over 1 in a field or local, a parameter after another local, opcode or Op
                                               too large */
    YITHREL_REFUSED_WRONG_GUARD = 19,       /* a guard misplaced: on a record field, or in a guest */
    /* names */
    YITHREL_REFUSED_OPEN_END = 5,           /* procedure without instructions, or the last is neither Ret nor Branch (the procedure's row) */
    YITHREL_REFUSED_NOT_DECLARED = 6,       /* a named type, field, local, procedure or target does not exist, or a field's type is not lower */
    /* operands */
    YITHREL_REFUSED_WRONG_OPERAND = 7,      /* operand missing or of the wrong kind, or local unfit */
    YITHREL_REFUSED_TOO_MANY_OPERANDS = 8,  /* more than YITHREL_MAX_OPERANDS operands */
    YITHREL_REFUSED_OPERANDS_LEFT = 9,      /* operands left after a block's last row, or under the results at Ret */
    YITHREL_REFUSED_FOREIGN_NAME = 10,      /* type or private procedure of another module */
    /* locals */
    YITHREL_REFUSED_EMPTY_LOCAL = 11,       /* MvLoc, CpLoc or BorrowLoc on a local that some walk leaves empty */
    YITHREL_REFUSED_LOST_RECORD = 12,       /* StLoc over a record, or Ret with a record left, on some walk */
    /* leaks */
    YITHREL_REFUSED_MARK_GIVEN = 13,        /* marked reference given to a public procedure, or to one of another module */
    YITHREL_REFUSED_MARK_RETURNED = 14,     /* marked reference returned by a public procedure */
    /* rules, under a rule file */
    YITHREL_REFUSED_BAD_RULES = 20,         /* rule file malformed (the row in the rule file; 0 for its length, a file of no bytes too) */
    YITHREL_REFUSED_UNRULED_PAIR = 21,      /* a pair of modules under no row of the file, or under several (16 times the calling module plus the called one) */
    YITHREL_REFUSED_FORBIDDEN_CALL = 22,    /* a Call that the file forbids, reached or not */
    /* list */
    YITHREL_REFUSED_BAD_LIST = 15,          /* the list is over YITHREL_MAX_LIST bytes long or no multiple of 16 (0); a row of unknown kind, with an unused byte
                                               that is not zero, or an argument first (its row in the list) */
    YITHREL_REFUSED_BAD_CALL = 16,          /* a call of no public procedure, of one with a parameter or result that is no number, with the wrong number of
                                               arguments, or with a budget outside 1 to YITHREL_MAX_BUDGET (the call's row in the list) */
    /* buffer */
    YITHREL_REFUSED_SMALL_BUFFER = 17       /* the buffer is shorter than YITHREL_MIN_TEXT (0) */
};

/* Why a call of a list stopped, as its line of the text tells it. 31 comes before every other stop, 33 before 38. */
enum yithrel_stop {
    YITHREL_STOP_BUDGET_SPENT = 31,     /* budget spent */
    YITHREL_STOP_TOO_LARGE = 32,        /* sum above 64 bits */
    YITHREL_STOP_KEY_TAKEN = 33,        /* key taken */
    YITHREL_STOP_NO_SUCH_KEY = 34,      /* no such key */
    YITHREL_STOP_STALE_REFERENCE = 35,  /* a reference whose record was unpacked, whose frame has returned, or whose local is empty */
    YITHREL_STOP_TOO_MANY_FRAMES = 36,  /* more than YITHREL_MAX_FRAMES frames */
    YITHREL_STOP_TOO_MANY_RECORDS = 37, /* more than YITHREL_MAX_RECORDS live records */
    YITHREL_STOP_TOO_MANY_ENTRIES = 38, /* more than YITHREL_MAX_ENTRIES store entries */
    YITHREL_STOP_BELOW_ZERO = 39        /* difference below zero */
};

/* An answer is number * 2^32 + value. Its number, one of enum yithrel_refusal. */
static inline uint32_t yithrel_number(uint64_t answer)
{
    uint64_t number = answer >> 32;
    return number & 0xffffffffu;
}

/* Its value. */
static inline uint32_t yithrel_value(uint64_t answer)
{
    return answer & 0xffffffffu;
}

/* 1 if its number is YITHREL_ACCEPTED, else 0. */
static inline int yithrel_accepted(uint64_t answer)
{
    return yithrel_number(answer) == YITHREL_ACCEPTED;
}

/*
 * Judges a table of table_len bytes, under a rule file of rules_len bytes unless has_rules is 0. Takes every string of bytes as table and file; always ends.
 * Reads nothing but these and changes nothing. Where has_rules is 0 there is no rule file, and its bytes are not looked at (pass NULL, 0); any other number says
 * that there is one.
 *
 * The answer is number * 2^32 + value. Number 0: accepted, and value is the number of rows. Else number is the refusal, 1 to 14 or 18 to 22.
 *
 * A rule file has 1 to 256 rows of 16 bytes: byte 0 is 1, byte 1 is 1 to allow or 0 to forbid, bytes 4 and 5 are the first and the last calling module, bytes 6
 * and 7 the first and the last called module, from 0 to 15 in table order, the first not above the last; the others are zero. Every ordered pair of modules of
 * the table, a module with itself too, must stand under precisely one row. Rows may reach past the modules of the table. A call of a list is no pair: it may
 * enter any module.
 *
 * Nothing may write the table or the rule file while the call runs, and buffers lent to one call may not overlap. YITHREL_JUDGE_STACK bytes of stack are
 * enough.
 *
 * A table or rule file of no bytes may be given as any pointer, null too, with length 0: nothing is read through it. So yithrel_judge(table, table_len, NULL,
 * 0, 0) judges without a rule file, and yithrel_judge(table, table_len, NULL, 0, 1) answers 20 with value 0 for a table that is accepted without one. A length
 * other than 0 asks for so many bytes at the pointer, also where has_rules is 0.
 */
uint64_t yithrel_judge(const uint8_t *table, size_t table_len, const uint8_t *rules, size_t rules_len, uint64_t has_rules);

/*
 * Runs the list of calls over the table, and writes what came of them into the text buffer. Takes every string of bytes as table, list and rule file, and every
 * buffer; always ends. Reads nothing but table, list and, unless has_rules is 0, rule file, and changes nothing but the buffer. Under a rule file no step of
 * any call enters a procedure by a pair of modules that the file forbids.
 *
 * Before any call runs, the table is judged as by yithrel_judge, under the rule file unless has_rules is 0, then the list, then the buffer. The answer is
 * number * 2^32 + value. Number 0: the calls were run, value is the length of the text, which stands at the buffer's start; the bytes after it are as they
 * were. Else number is the refusal, 1 to 22, and the buffer is as it was.
 *
 * The list is rows of 16 bytes, numbers little-endian: byte 0 is the kind, 1 for a call (bytes 2 and 3 the procedure, 4 to 7 the budget of instructions), 2 for
 * an argument (bytes 8 to 15) of the call above; the others are zero. It is judged in one pass: the lowest row is told, and a call is asked for 16 with the
 * arguments below it. The store starts empty and lasts over the list. The text has a line for each call, then one for each entry of the store, rising by type
 * and then by address, both as numbers:
 *
 *   call I done RESULT ..       call I ended, with its results
 *   call I stop N row R         call I stopped, N of enum yithrel_stop, at the instruction in row R; the store is that of its beginning
 *   store TYPE ADDRESS FIELD .. a nested record stands as (TYPE FIELD ..)
 *
 * I counts from 0. Words stand one space apart, each line ends with a newline (byte 10), and no null byte follows. A record without fields stands as
 * (TYPE).
 *
 * Nothing may write table, list or rule file while the call runs, and the buffers lent to one call may not overlap. YITHREL_RUN_STACK bytes of stack are
 * enough.
 *
 * A table, list or rule file of no bytes may be given as any pointer, null too, with length 0.
 */
uint64_t yithrel_run(const uint8_t *table, size_t table_len, const uint8_t *list, size_t list_len, const uint8_t *rules, size_t rules_len, uint64_t has_rules,
                     uint8_t *text, size_t text_len);

#ifdef __cplusplus
}
#endif

#endif
