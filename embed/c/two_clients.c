/* Two clients sell from one stock. The second has a conflict and tries again; the first listens to the sales. */
#include "mdsal.h"

#include <stdarg.h>
#include <stdio.h>
#include <stdlib.h>
#include <string.h>

#define STOCK "\"config\",\"/depot:depot/stock\""

static char text[65536]; /* what the broker answered last */

static void fail(const char *what, uint32_t status) {
    fprintf(stderr, "two_clients: %s: status %u\n%s", what, status, text);
    exit(1);
}

/* Copies the text of the last call. */
static const char *reply(mdsal *broker) {
    size_t length = mdsal_reply(broker, (uint8_t *)text, sizeof text - 1);
    if (length >= sizeof text) {
        fail("the text is too long", MDSAL_OK);
    }
    text[length] = '\0';
    return text;
}

/* Makes a step, whose text is a format as for printf, and returns its reply. */
static const char *step(mdsal *broker, uint32_t client, const char *format, ...) {
    char bytes[256];
    va_list parts;
    va_start(parts, format);
    int length = vsnprintf(bytes, sizeof bytes, format, parts);
    va_end(parts);
    if (length < 0 || (size_t)length >= sizeof bytes) {
        fail("the step is too long", MDSAL_OK);
    }
    uint32_t status = mdsal_step(broker, client, (const uint8_t *)bytes, (size_t)length);
    reply(broker);
    if (status != MDSAL_OK) {
        fail(bytes, status);
    }
    return text;
}

/* Removes one piece from the stock in the transaction of slot 0, and returns the outcome. */
static const char *sell(mdsal *broker, uint32_t client, unsigned long stock) {
    step(broker, client, "[\"put\",0," STOCK ",%lu]", stock - 1);
    step(broker, client, "[\"submit\",0]");
    step(broker, client, "[\"settle\",0]");
    printf("%u: %s\n", client, text);
    return text;
}

/* Begins a transaction in slot 0, and returns the stock that it sees. */
static unsigned long begin(mdsal *broker, uint32_t client) {
    step(broker, client, "[\"begin\",0,0,\"rw\"]");
    step(broker, client, "[\"read\",0," STOCK "]");
    return strtoul(text + strlen("data "), NULL, 10);
}

static size_t read_file(const char *path, uint8_t *out, size_t room) {
    FILE *file = fopen(path, "rb");
    size_t length = file ? fread(out, 1, room, file) : 0;
    if (!file || fclose(file) != 0 || length == room) {
        fail(path, MDSAL_OK);
    }
    return length;
}

int main(int argc, char **argv) {
    static uint8_t script[65536];
    if (argc != 2) {
        fprintf(stderr, "usage: two_clients SCRIPT\n");
        return 2;
    }
    size_t length = read_file(argv[1], script, sizeof script);
    mdsal broker = {0};
    uint32_t status = mdsal_open(&broker, script, length);
    if (status != MDSAL_OK) {
        reply(&broker);
        fail("open", status);
    }

    step(&broker, 0, "[\"listen\",0,0," STOCK "]");
    unsigned long first = begin(&broker, 0), second = begin(&broker, 1);
    sell(&broker, 0, first);
    while (strncmp(sell(&broker, 1, second), "conflict ", 9) == 0) {
        second = begin(&broker, 1);
    }
    printf("0: %s\n", step(&broker, 0, "[\"take\",0]"));

    status = mdsal_report(&broker);
    if (status != MDSAL_OK) {
        fail("report", status);
    }
    fputs(reply(&broker), stdout);
    mdsal_close(&broker);
    return 0;
}
