/* The smallest host, in C or C++: runs the calls in one file over the table in another, and prints the text or the refusal. The status is 0 after the text, 1
 * after a refusal, 2 where a file cannot be read or the text cannot be written.
 *
 *     (cd crates/yithrel && rt lib) && mkdir -p target
 *     gcc -Iinclude examples/minimal.c crates/yithrel/out/libyithrel.a -o target/minimal
 *     target/minimal examples/credit.bin examples/credit-calls.bin
 *
 * With a shared object:
 *
 *     gcc -shared -u yithrel_judge -u yithrel_run crates/yithrel/out/libyithrel.a -o target/libyithrel.so
 *     gcc -Iinclude examples/minimal.c -Ltarget -lyithrel -Wl,-rpath,'$ORIGIN' -o target/minimal
 */
#include <stdio.h>

#include "yithrel.h"

/* Room for a byte more than may be: a file that is too long is refused, not cut. */
static uint8_t table[YITHREL_MAX_TABLE + 1], list[YITHREL_MAX_LIST + 1], text[YITHREL_MIN_TEXT];

/* Puts the file into the room and its length into n; 0 if it cannot be read. */
static int load(const char *path, uint8_t *room, size_t size, size_t *n)
{
    FILE *file = fopen(path, "rb");
    *n = file ? fread(room, 1, size, file) : 0;
    int ok = file && !ferror(file);
    if (file)
        fclose(file);
    if (!ok)
        fprintf(stderr, "minimal: cannot read %s\n", path);
    return ok;
}

int main(int argc, char **argv)
{
    size_t n, k;
    if (argc != 3) {
        fprintf(stderr, "usage: minimal TABLE CALLS\n");
        return 2;
    }
    if (!load(argv[1], table, sizeof table, &n) || !load(argv[2], list, sizeof list, &k))
        return 2;
    uint64_t answer = yithrel_run(table, n, list, k, NULL, 0, 0, text, sizeof text);
    uint32_t number = yithrel_number(answer), value = yithrel_value(answer);
    if (number == YITHREL_ACCEPTED)
        fwrite(text, 1, value, stdout);
    else
        printf("refused %u row %u\n", number, value);
    if (fflush(stdout) || ferror(stdout)) {
        fprintf(stderr, "minimal: cannot write\n");
        return 2;
    }
    return number != YITHREL_ACCEPTED;
}
