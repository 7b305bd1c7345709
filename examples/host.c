/* A host in C: judges good, bad and empty tables and runs lists of calls through the static library, and checks each answer. Run it from the project's folder.
 *
 *     (cd crates/yithrel && rt lib) && mkdir -p target
 *     gcc -Wall -Wextra -O2 -Iinclude examples/host.c crates/yithrel/out/libyithrel.a -o target/host && target/host
 *
 * The status is 0 if all answers are right, 1 if one is wrong, 2 if a file cannot be read.
 */
#include <stdio.h>
#include <stdlib.h>
#include <string.h>

#include "yithrel.h"

#define ROW YITHREL_ROW_BYTES

/* Each has room for more than may be: a table, list or rule file that is too long is given too. */
static uint8_t table[YITHREL_MAX_TABLE + ROW];
static uint8_t list[YITHREL_MAX_LIST + ROW];
static uint8_t rules[YITHREL_MAX_RULE_FILE + ROW];
static uint8_t text[YITHREL_MIN_TEXT + 100];
static int failures;

static size_t load_into(uint8_t *room, size_t size, const char *path)
{
    FILE *file = fopen(path, "rb");
    size_t n = file ? fread(room, 1, size, file) : 0;
    if (!file || ferror(file)) {
        fprintf(stderr, "host: cannot read %s (run it from the project's folder)\n", path);
        exit(2);
    }
    fclose(file);
    return n;
}

static size_t load(const char *path)
{
    return load_into(table, sizeof table, path);
}

/* Tells the answer and counts it if it is wrong. */
static void tell(const char *what, uint64_t answer, int ok)
{
    printf("%s: number %u value %u%s\n", what, yithrel_number(answer), yithrel_value(answer), ok ? "" : "  WRONG");
    failures += !ok;
}

static int is(uint64_t answer, enum yithrel_refusal number, uint32_t value)
{
    return yithrel_number(answer) == number && yithrel_value(answer) == value;
}

/* Judges n bytes under the first m bytes of `rules`, or without a rule file where `has` is 0: the answer, and every byte as it was. */
static void expect_under(const char *what, const uint8_t *bytes, size_t n, size_t m, uint64_t has, enum yithrel_refusal number, uint32_t value)
{
    static uint8_t before[sizeof table], rules_before[sizeof rules];
    if (n)
        memcpy(before, bytes, n);
    memcpy(rules_before, rules, sizeof rules);
    uint64_t answer = yithrel_judge(bytes, n, rules, m, has);
    int same = (n == 0 || memcmp(before, bytes, n) == 0) && memcmp(rules_before, rules, sizeof rules) == 0;
    tell(what, answer, is(answer, number, value) && same);
}

static void expect(const char *what, const uint8_t *bytes, size_t n, enum yithrel_refusal number, uint32_t value)
{
    expect_under(what, bytes, n, 0, 0, number, value);
}

/* Runs the list in `list` over the table in `table`, under the first m bytes of `rules` unless `has` is 0, with a buffer of text_len bytes: the answer, the
 * text, and every other byte as it was. */
static void expect_run_under(const char *what, size_t n, size_t k, size_t m, uint64_t has, size_t text_len, enum yithrel_refusal number, uint32_t value,
                             const char *lines)
{
    static uint8_t table_before[sizeof table], list_before[sizeof list], rules_before[sizeof rules];
    memcpy(table_before, table, sizeof table);
    memcpy(list_before, list, sizeof list);
    memcpy(rules_before, rules, sizeof rules);
    memset(text, 0xa5, sizeof text);
    uint64_t answer = yithrel_run(table, n, list, k, rules, m, has, text, text_len);
    size_t size = number ? 0 : value;
    int ok = is(answer, number, value) && memcmp(text, lines, size) == 0;
    for (size_t i = size; i < sizeof text; i++)
        ok = ok && text[i] == 0xa5;
    ok = ok && memcmp(table_before, table, sizeof table) == 0 && memcmp(list_before, list, sizeof list) == 0 && memcmp(rules_before, rules, sizeof rules) == 0;
    tell(what, answer, ok);
    fwrite(text, 1, size, stdout);
}

static void expect_run(const char *what, size_t n, size_t k, size_t text_len, enum yithrel_refusal number, uint32_t value, const char *lines)
{
    expect_run_under(what, n, k, 0, 0, text_len, number, value, lines);
}

/* Credits published under addresses by the credit module's procedure 0: twice under one, the second time the key is taken; then under two. */
static void run_credits(void)
{
    static const char both[] = "call 0 done\ncall 1 stop 33 row 8\nstore 0 7 500\n";
    static const char rising[] = "call 0 done\ncall 1 done\nstore 0 9 500\nstore 0 10 500\n";
    static const char spent[] = "call 0 stop 31 row 9\ncall 1 done\nstore 0 7 500\n";
    size_t n = load("examples/credit.bin");
    size_t k = load_into(list, sizeof list, "examples/credit-calls.bin");
    expect_run("two calls", n, k, YITHREL_MIN_TEXT, YITHREL_ACCEPTED, sizeof both - 1, both);
    expect_run("a longer buffer", n, k, sizeof text, YITHREL_ACCEPTED, sizeof both - 1, both);
    expect_run("a short buffer", n, k, YITHREL_MIN_TEXT - 1, YITHREL_REFUSED_SMALL_BUFFER, 0, "");
    expect_run("no calls", n, 0, YITHREL_MIN_TEXT, YITHREL_ACCEPTED, 0, "");
    expect_run("list less one byte", n, k - 1, YITHREL_MIN_TEXT, YITHREL_REFUSED_BAD_LIST, 0, "");
    expect_run("no argument", n, ROW, YITHREL_MIN_TEXT, YITHREL_REFUSED_BAD_CALL, 0, "");
    expect_run("table less one byte", n - 1, k, YITHREL_MIN_TEXT, YITHREL_REFUSED_BAD_LENGTH, 0, "");
    list[1 * ROW + 8] = 10;
    list[3 * ROW + 8] = 9;
    expect_run("address 10, then 9", n, k, YITHREL_MIN_TEXT, YITHREL_ACCEPTED, sizeof rising - 1, rising);
    list[1 * ROW + 8] = list[3 * ROW + 8] = 7;
    list[4] = 4;
    expect_run("budget 4 in the first call", n, k, YITHREL_MIN_TEXT, YITHREL_ACCEPTED, sizeof spent - 1, spent);
    list[4] = 0;
    expect_run("budget 0", n, k, YITHREL_MIN_TEXT, YITHREL_REFUSED_BAD_CALL, 0, "");
}

/* Kilos taken out of a credit of 500: 39 says that there are not so many, and what the stopped call took is there again; 32 that a sum is too large. */
static void run_till(void)
{
    static const char taken[] = "call 0 done\ncall 1 stop 39 row 18\ncall 2 done\ncall 3 stop 39 row 18\nstore 0 7 0\n";
    static const char added[] = "call 0 done\ncall 1 stop 39 row 18\ncall 2 stop 32 row 32\ncall 3 done\nstore 0 7 499\n";
    size_t n = load("examples/till.bin");
    size_t k = load_into(list, sizeof list, "examples/till-calls.bin");
    expect_run("300 and 201 of 500; 500; 1 of 0", n, k, YITHREL_MIN_TEXT, YITHREL_ACCEPTED, sizeof taken - 1, taken);
    list[6 * ROW + 2] = 2;
    memset(list + 8 * ROW + 8, 0xff, 8);
    expect_run("2^64 - 1 more", n, k, YITHREL_MIN_TEXT, YITHREL_ACCEPTED, sizeof added - 1, added);
}

static void run_helped(void)
{
    static const char lines[] = "call 0 done\ncall 1 done\ncall 2 done 60\ncall 3 done\ncall 4 stop 31 row 23\ncall 5 done 9\nstore 0 7 9\n";
    size_t n = load("examples/helped.bin");
    size_t k = load_into(list, sizeof list, "examples/helped-calls.bin");
    expect("helpers", table, n, YITHREL_ACCEPTED, 46);
    expect_run("written through helpers", n, k, YITHREL_MIN_TEXT, YITHREL_ACCEPTED, sizeof lines - 1, lines);
    table[10 * ROW + 1] = 1;
    expect("returned by a public procedure", table, n, YITHREL_REFUSED_MARK_RETURNED, 16);
    table[10 * ROW + 1] = 0;
    table[17 * ROW + 1] = 1;
    expect("given to a public procedure", table, n, YITHREL_REFUSED_MARK_GIVEN, 30);
}

/* Guests may not call the mill, module 1: a table with one that does is refused, at its Call. */
static void run_guests(void)
{
    static const char asked[] = "call 0 done\ncall 1 done 65\nstore 0 7 500\n";
    static const char published[] = "call 0 done\nstore 0 7 500\n";
    size_t n = load("examples/guests.bin");
    size_t k = load_into(list, sizeof list, "examples/guests-calls.bin");
    size_t m = load_into(rules, sizeof rules, "examples/guests-rules.bin");
    size_t first = 21 * ROW; /* without the last module */
    expect("guests, without rules", table, n, YITHREL_ACCEPTED, 26);
    expect_under("guests", table, n, m, 1, YITHREL_REFUSED_FORBIDDEN_CALL, 24);
    expect_under("guests, any other number", table, n, m, UINT64_MAX, YITHREL_REFUSED_FORBIDDEN_CALL, 24);
    expect_under("the first guest", table, first, m, 1, YITHREL_ACCEPTED, 21);
    expect_under("rules less one byte", table, n, m - 1, 1, YITHREL_REFUSED_BAD_RULES, 0);
    expect_under("rules of no bytes", table, n, 0, 1, YITHREL_REFUSED_BAD_RULES, 0);
    expect_under("the first three rules", table, n, 3 * ROW, 1, YITHREL_REFUSED_UNRULED_PAIR, 34);
    int null_ok = is(yithrel_judge(table, n, NULL, 0, 0), YITHREL_ACCEPTED, 26) && is(yithrel_judge(table, n, NULL, 0, 1), YITHREL_REFUSED_BAD_RULES, 0);
    printf("null for the rules%s\n", null_ok ? "" : "  WRONG");
    failures += !null_ok;
    expect_run_under("run without rules", n, k, m, 0, YITHREL_MIN_TEXT, YITHREL_ACCEPTED, sizeof asked - 1, asked);
    expect_run_under("run", n, k, m, 1, YITHREL_MIN_TEXT, YITHREL_REFUSED_FORBIDDEN_CALL, 24, "");
    expect_run_under("run the first guest", first, 2 * ROW, m, 1, YITHREL_MIN_TEXT, YITHREL_ACCEPTED, sizeof published - 1, published);
    rules[2 * ROW + 1] = 1;
    expect_run_under("run, all allowed", n, k, m, 1, YITHREL_MIN_TEXT, YITHREL_ACCEPTED, sizeof asked - 1, asked);
    rules[2 * ROW + 8] = 1;
    expect_run_under("a byte that is not zero", n, k, m, 1, YITHREL_MIN_TEXT, YITHREL_REFUSED_BAD_RULES, 2, "");
    memset(rules, 0, sizeof rules);
    for (size_t i = 0; i < YITHREL_MAX_RULES + 1; i++) {
        rules[ROW * i] = rules[ROW * i + 1] = 1;
        rules[ROW * i + 4] = rules[ROW * i + 5] = (uint8_t)(i / YITHREL_MAX_MODULES % YITHREL_MAX_MODULES);
        rules[ROW * i + 6] = rules[ROW * i + 7] = (uint8_t)(i % YITHREL_MAX_MODULES);
    }
    expect_under("a row for each pair", table, n, YITHREL_MAX_RULE_FILE, 1, YITHREL_ACCEPTED, 26);
    expect_under("257 rows", table, n, YITHREL_MAX_RULE_FILE + ROW, 1, YITHREL_REFUSED_BAD_RULES, 0);
}

int main(void)
{
    size_t n = load("examples/credit.bin");
    expect("credit module", table, n, YITHREL_ACCEPTED, 10);
    expect("less one byte", table, n - 1, YITHREL_REFUSED_BAD_LENGTH, 0);
    table[9 * ROW + 1] = 0;
    expect("ends in Pop", table, n, YITHREL_REFUSED_OPEN_END, 3);
    n = load("examples/leaking.bin");
    expect("leaking module", table, n, YITHREL_REFUSED_MARK_RETURNED, 15);
    table[1] = 0;
    expect("guard in a guest", table, n, YITHREL_REFUSED_WRONG_GUARD, 2);
    table[2 * ROW + 4] = 2;
    expect("guard of 2", table, n, YITHREL_REFUSED_WRONG_VALUE, 2);
    table[2 * ROW + 15] = 1;
    expect("guard of 2 and an unused byte", table, n, YITHREL_REFUSED_DIRTY_BYTE, 2);
    expect("no bytes", table, 0, YITHREL_REFUSED_BAD_LENGTH, 0);
    expect("null, no bytes", NULL, 0, YITHREL_REFUSED_BAD_LENGTH, 0);
    memset(table, 0, sizeof table);
    for (size_t i = 0; i < YITHREL_MAX_MODULES + 1; i++)
        table[ROW * i] = 1;
    expect("17 modules", table, (YITHREL_MAX_MODULES + 1) * ROW, YITHREL_REFUSED_OVER_LIMIT, YITHREL_MAX_MODULES);
    expect("2,049 rows", table, YITHREL_MAX_TABLE + ROW, YITHREL_REFUSED_BAD_LENGTH, 0);
    run_credits();
    run_till();
    run_helped();
    run_guests();
    return failures != 0;
}
