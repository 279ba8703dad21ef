/*
** Makes steps repeatedly, and prints their time.
**
**   timed COUNT    standard input has the steps of client 0, one on each line; they are repeated in order until COUNT are made
**
** It prints the processor time in microseconds of each step with the copy of its reply, and then of the report.
*/
#include "mdsal.h"

#include <stdio.h>
#include <stdlib.h>
#include <string.h>
#include <time.h>

#define STEPS 64
#define LENGTH 512

static char steps[STEPS][LENGTH];
static uint8_t text[1 << 16];

static double microseconds_since(clock_t start) {
    return (double)(clock() - start) / CLOCKS_PER_SEC * 1e6;
}

int main(int argc, char **argv) {
    unsigned long count = argc == 2 ? strtoul(argv[1], NULL, 10) : 0;
    size_t known = 0;
    while (known < STEPS && fgets(steps[known], LENGTH, stdin)) {
        known++;
    }
    mdsal broker = {0};
    if (known == 0 || count == 0 || mdsal_open(&broker, (const uint8_t *)"{}", 2) != MDSAL_OK) {
        return 2;
    }
    clock_t start = clock();
    for (unsigned long i = 0; i < count; i++) {
        const char *step = steps[i % known];
        uint32_t status = mdsal_step(&broker, 0, (const uint8_t *)step, strcspn(step, "\n"));
        if (status != MDSAL_OK || mdsal_reply(&broker, text, sizeof text) == 0) {
            fprintf(stderr, "timed: status %u of %s", status, step);
            return 1;
        }
    }
    printf("%.2f\n", microseconds_since(start) / (double)count);
    start = clock();
    if (mdsal_report(&broker) != MDSAL_OK) {
        return 1;
    }
    printf("%.2f\n", microseconds_since(start) / (double)count);
    mdsal_close(&broker);
    return 0;
}
