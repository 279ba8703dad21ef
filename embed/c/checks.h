/* What the tries in C share: calls whose text is kept, and checks that print it. */
#ifndef CHECKS_H
#define CHECKS_H
#include "mdsal.h"

#include <stdio.h>
#include <stdlib.h>
#include <string.h>

static uint8_t text[1 << 16];
static size_t text_length;

#define CHECK(that) \
    do { \
        if (!(that)) { \
            fprintf(stderr, "%s: line %d: %s\n%.*s\n", __FILE__, __LINE__, #that, (int)text_length, text); \
            exit(1); \
        } \
    } while (0)

/* Copies the text of the call that returned this status. */
static inline uint32_t kept(mdsal *handle, uint32_t status) {
    text_length = mdsal_reply(handle, text, sizeof text);
    CHECK(text_length <= sizeof text);
    return status;
}

static inline uint32_t opened(mdsal *handle, const char *script) {
    return kept(handle, mdsal_open(handle, (const uint8_t *)script, strlen(script)));
}

static inline uint32_t stepped(mdsal *handle, uint32_t client, const char *step) {
    return kept(handle, mdsal_step(handle, client, (const uint8_t *)step, strlen(step)));
}

static inline bool said(const char *what) {
    return text_length == strlen(what) && memcmp(text, what, text_length) == 0;
}

#endif
