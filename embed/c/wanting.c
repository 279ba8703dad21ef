/*
** Makes the steps of standard input while one allocation fails.
**
**   wanting SCRIPT N    each line of standard input is a client's number, a space and a step; the Nth allocation fails
**
** It prints the status of the opening and of each step, then that of the report, which is made with enough memory, and the report. It is
** linked with --wrap=malloc --wrap=realloc. The exit status is 3 if there were fewer than N allocations.
*/
#include "mdsal.h"

#include <stdio.h>
#include <stdlib.h>
#include <string.h>

static unsigned long allocations, failing;

void *__real_malloc(size_t size);
void *__real_realloc(void *at, size_t size);
void *__wrap_malloc(size_t size);
void *__wrap_realloc(void *at, size_t size);

void *__wrap_malloc(size_t size) {
    return ++allocations == failing ? NULL : __real_malloc(size);
}

void *__wrap_realloc(void *at, size_t size) {
    return ++allocations == failing ? NULL : __real_realloc(at, size);
}

int main(int argc, char **argv) {
    static char script[1 << 20], line[1 << 16];
    FILE *file = argc == 3 ? fopen(argv[1], "rb") : NULL;
    if (!file) {
        return 2;
    }
    size_t length = fread(script, 1, sizeof script, file);
    fclose(file);
    mdsal broker = {0};
    allocations = 0;
    failing = strtoul(argv[2], NULL, 10);
    printf("%u\n", mdsal_open(&broker, (const uint8_t *)script, length));
    while (fgets(line, sizeof line, stdin)) {
        char *step;
        uint32_t client = (uint32_t)strtoul(line, &step, 10);
        printf("%u\n", mdsal_step(&broker, client, (const uint8_t *)step + 1, strcspn(step + 1, "\n")));
    }
    unsigned long made = allocations;
    failing = 0;
    printf("%u\n", mdsal_report(&broker));
    length = mdsal_reply(&broker, (uint8_t *)line, sizeof line);
    fwrite(line, 1, length < sizeof line ? length : sizeof line, stdout);
    mdsal_close(&broker);
    return made < strtoul(argv[2], NULL, 10) ? 3 : 0;
}
