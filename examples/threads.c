/* Threads that judge and run several tables at once, two for each table, on stacks of the stated sizes; each checks its answers. Run it from the project's
 * folder.
 *
 *     (cd crates/yithrel && rt lib) && mkdir -p target
 *     gcc -Iinclude examples/threads.c crates/yithrel/out/libyithrel.a -pthread -o target/threads && target/threads
 *
 * The status is 0 if all answers are right, 1 if one is wrong, 2 if a file cannot be read or a thread cannot be started.
 */
#include <pthread.h>
#include <stdio.h>
#include <stdlib.h>
#include <string.h>

#include "yithrel.h"

#define ROUNDS 1000

/* What a thread needs besides the stack of a call: its own frames, and what the system keeps there. */
#define OWN_STACK 16384

/* What is given, and what is expected. Both threads of a job share its files, and nobody writes them. */
struct job {
    const char *table_path, *list_path, *rules_path; /* no rules_path: no rule file */
    enum yithrel_refusal number;
    uint32_t row;      /* of a refusal */
    const char *lines; /* of a run */
    uint8_t table[YITHREL_MAX_TABLE], list[YITHREL_MAX_LIST], rules[YITHREL_MAX_RULE_FILE];
    size_t table_len, list_len, rules_len;
    uint8_t text[YITHREL_MIN_TEXT]; /* of the thread that runs */
    int judged_wrong, run_wrong;
};

static struct job jobs[] = {
    {.table_path = "examples/credit.bin",
     .list_path = "examples/credit-calls.bin",
     .lines = "call 0 done\ncall 1 stop 33 row 8\nstore 0 7 500\n"},
    {.table_path = "examples/till.bin",
     .list_path = "examples/till-calls.bin",
     .lines = "call 0 done\ncall 1 stop 39 row 18\ncall 2 done\ncall 3 stop 39 row 18\nstore 0 7 0\n"},
    {.table_path = "examples/helped.bin",
     .list_path = "examples/helped-calls.bin",
     .lines = "call 0 done\ncall 1 done\ncall 2 done 60\ncall 3 done\ncall 4 stop 31 row 23\ncall 5 done 9\nstore 0 7 9\n"},
    {.table_path = "examples/leaking.bin", .list_path = "examples/credit-calls.bin", .number = YITHREL_REFUSED_MARK_RETURNED, .row = 15},
    {.table_path = "examples/guests.bin",
     .list_path = "examples/guests-calls.bin",
     .rules_path = "examples/guests-rules.bin",
     .number = YITHREL_REFUSED_FORBIDDEN_CALL,
     .row = 24},
};

enum { JOBS = sizeof jobs / sizeof jobs[0] };

static size_t load(uint8_t *room, size_t size, const char *path)
{
    FILE *file = fopen(path, "rb");
    size_t n = file ? fread(room, 1, size, file) : 0;
    if (!file || ferror(file)) {
        fprintf(stderr, "threads: cannot read %s (run it from the project's folder)\n", path);
        exit(2);
    }
    fclose(file);
    return n;
}

/* Adds a procedure of as many Rets as there may be to the table: only one of more than 256 rows needs all of the stack. */
static size_t lengthen(uint8_t *table, size_t n)
{
    const uint8_t procedure[YITHREL_ROW_BYTES] = {4}, ret[YITHREL_ROW_BYTES] = {7, 16};
    memcpy(table + n, procedure, sizeof procedure);
    n += sizeof procedure;
    for (int i = 0; i < YITHREL_MAX_INSTRUCTIONS; i++, n += sizeof ret)
        memcpy(table + n, ret, sizeof ret);
    return n;
}

static int is(uint64_t answer, enum yithrel_refusal number, size_t value)
{
    return yithrel_number(answer) == number && yithrel_value(answer) == value;
}

static void *judge(void *given)
{
    struct job *job = given;
    size_t value = job->lines ? job->table_len / YITHREL_ROW_BYTES : job->row;
    for (int i = 0; i < ROUNDS; i++) {
        uint64_t answer = yithrel_judge(job->table, job->table_len, job->rules, job->rules_len, job->rules_path != NULL);
        job->judged_wrong += !is(answer, job->number, value);
    }
    return NULL;
}

static void *run(void *given)
{
    struct job *job = given;
    size_t size = job->lines ? strlen(job->lines) : 0;
    for (int i = 0; i < ROUNDS; i++) {
        memset(job->text, 0, size);
        uint64_t answer = yithrel_run(job->table, job->table_len, job->list, job->list_len, job->rules, job->rules_len, job->rules_path != NULL, job->text,
                                      sizeof job->text);
        job->run_wrong += !is(answer, job->number, job->lines ? size : job->row) || (size && memcmp(job->text, job->lines, size) != 0);
    }
    return NULL;
}

static pthread_t start(void *(*work)(void *), struct job *job, size_t stack)
{
    pthread_attr_t sized;
    pthread_t thread;
    if (pthread_attr_init(&sized) || pthread_attr_setstacksize(&sized, stack + OWN_STACK) || pthread_create(&thread, &sized, work, job)) {
        fprintf(stderr, "threads: cannot start a thread\n");
        exit(2);
    }
    pthread_attr_destroy(&sized);
    return thread;
}

int main(void)
{
    pthread_t judging[JOBS], running[JOBS];
    int wrong = 0;
    for (int i = 0; i < JOBS; i++) {
        struct job *job = &jobs[i];
        job->table_len = lengthen(job->table, load(job->table, sizeof job->table / 2, job->table_path));
        job->list_len = load(job->list, sizeof job->list, job->list_path);
        job->rules_len = job->rules_path ? load(job->rules, sizeof job->rules, job->rules_path) : 0;
    }
    for (int i = 0; i < JOBS; i++) {
        judging[i] = start(judge, &jobs[i], YITHREL_JUDGE_STACK);
        running[i] = start(run, &jobs[i], YITHREL_RUN_STACK);
    }
    for (int i = 0; i < JOBS; i++) {
        pthread_join(judging[i], NULL);
        pthread_join(running[i], NULL);
        printf("%s: %d of %d judged wrong, %d of %d run wrong\n", jobs[i].table_path, jobs[i].judged_wrong, ROUNDS, jobs[i].run_wrong, ROUNDS);
        wrong += jobs[i].judged_wrong + jobs[i].run_wrong;
    }
    return wrong != 0;
}
