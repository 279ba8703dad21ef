/*
** Wrong calls of a careless host. Each returns its status, and does not change the broker.
**
**   hostile          makes all of them, and prints `c: ok`
**   hostile STEPS    makes this many shared calls after that, and prints the time of one; the calls after 1,000,000 are refused
**
** Built with WRONG, LEAK or ROOM it makes a mistake on purpose: tools/embed checks that it is reported.
*/
#include "checks.h"

#include <time.h>

/* Each function may be called on a closed handle. */
static void closed(mdsal *broker) {
    CHECK(stepped(broker, 0, "[\"pump\"]") == MDSAL_NOT_OPEN && said(""));
    CHECK(mdsal_report(broker) == MDSAL_NOT_OPEN);
    CHECK(mdsal_reply(broker, text, sizeof text) == 0);
    CHECK(mdsal_waits(broker, 0, 0) == 0 && mdsal_waits(broker, UINT32_MAX, 255) == 0);
    mdsal_close(broker);
    CHECK(!broker->full && broker->at == NULL);
    mdsal_close(broker);
}

/* After a refused script no broker is open, and the text is the line of the status. */
static void bad_scripts(void) {
    static const struct {
        const char *script;
        uint32_t status;
        const char *line;
    } cases[] = {
        {"", MDSAL_BAD_SCRIPT, "bad script at json\n"},
        {"{", MDSAL_BAD_SCRIPT, "bad script at json\n"},
        {"[]", MDSAL_BAD_SCRIPT, "bad script at script\n"},
        {"{\"model\":[]}", MDSAL_BAD_SCRIPT, "bad script at script\n"},
        {"{\"modules\":7}", MDSAL_BAD_SCRIPT, "bad script at modules\n"},
        {"{\"clients\":[{\"steps\":[]}]}", MDSAL_BAD_SCRIPT, "bad script at clients\n"},
        {"{\"order\":[0]}", MDSAL_BAD_SCRIPT, "bad script at order\n"},
        {"{\"rules\":3}", MDSAL_BAD_SCRIPT, "bad script at rules\n"},
        {"{\"modules\":[\"module m {\"]}", MDSAL_BAD_SCHEMA, NULL},
        {"{\"config\":{\"plain:box\":7}}", MDSAL_BAD_OPENING, NULL},
    };
    for (size_t i = 0; i < sizeof cases / sizeof *cases; i++) {
        mdsal broker = {0};
        CHECK(opened(&broker, cases[i].script) == cases[i].status);
        CHECK(cases[i].line == NULL ? text_length > 0 : said(cases[i].line));
        CHECK(stepped(&broker, 0, "[\"pump\"]") == MDSAL_NOT_OPEN && said(""));
        CHECK(opened(&broker, "{}") == MDSAL_OK && said(""));
        mdsal_close(&broker);
        closed(&broker);
    }
}

/* Bytes that are not a step are refused, for any client. */
static void bad_steps(mdsal *broker) {
    static const char *const steps[] = {
        "", " ", "{", "{}", "null", "7", "\"pump\"", "[", "[]", "[7]", "[null]", "[[]]", "[\"pump\"", "[\"pump\"],", "[\"pump\"] x", "[\"pump\"]]}],\"order\":[0",
        "[\"pump\",0]", "[\"Pump\"]", "[\"\"]", "[\"begin\"]", "[\"begin\",0]", "[\"begin\",0,0]", "[\"begin\",0,0,\"rw\",0]", "[\"begin\",256,0,\"rw\"]",
        "[\"begin\",-1,0,\"rw\"]", "[\"begin\",0.5,0,\"rw\"]", "[\"begin\",\"0\",0,\"rw\"]", "[\"begin\",0,4294967296,\"rw\"]", "[\"begin\",0,0,\"wr\"]",
        "[\"put\",0,\"config\",\"/plain:box/a\"]", "[\"put\",0,\"state\",\"/plain:box/a\",\"x\"]", "[\"put\",0,\"config\",7,\"x\"]", "[\"submit\"]",
        "[\"submit\",0,0]", "[\"upgrade\",0]", "[\"upgrade\",17]", "[\"mark\",4294967296]", "[\"provide\",\"m:r\",7]", "\xff", "[\"mark\",\xff]",
#ifdef WRONG
        "[\"pump\"]",
#endif
    };
    for (size_t i = 0; i < sizeof steps / sizeof *steps; i++) {
        CHECK(stepped(broker, 0, steps[i]) == MDSAL_BAD_STEP && said(""));
        CHECK(stepped(broker, MDSAL_CLIENTS, steps[i]) == MDSAL_BAD_CLIENT && said(""));
    }
    CHECK(stepped(broker, MDSAL_CLIENTS, "[\"pump\"]") == MDSAL_BAD_CLIENT && said(""));
    CHECK(stepped(broker, UINT32_MAX, "[\"pump\"]") == MDSAL_BAD_CLIENT && said(""));
}

/* The text is copied up to the room, and no byte after it is written. */
static void rooms(mdsal *broker) {
    uint8_t out[64];
    CHECK(stepped(broker, 0, "[\"mark\",7]") == MDSAL_OK && said("ok"));
    CHECK(stepped(broker, 0, "[\"begin\",0,0,\"rw\"]") == MDSAL_OK && said("begun 0"));
    for (size_t room = 0; room <= sizeof out; room++) {
        size_t fits = room < 7 ? room : 7;
        memset(out, '#', sizeof out);
        CHECK(mdsal_reply(broker, out, room) == 7);
        CHECK(memcmp(out, "begun 0", fits) == 0);
        for (size_t i = fits; i < sizeof out; i++) {
            CHECK(out[i] == '#');
        }
    }
}

/* The report is copied completely into a block of its length, and in part into each smaller one. */
static void report_rooms(mdsal *broker) {
    CHECK(mdsal_report(broker) == MDSAL_OK);
    size_t length = mdsal_reply(broker, text, sizeof text);
    CHECK(length > 40 && length < sizeof text);
    for (size_t room = 0; room <= length + 1; room++) {
        size_t fits = room < length ? room : length;
        uint8_t *out = malloc(room > 0 ? room : 1);
        CHECK(out != NULL);
        memset(out, '#', room);
#ifdef ROOM
        CHECK(mdsal_reply(broker, out, room + 1) == length);
#else
        CHECK(mdsal_reply(broker, out, room) == length);
#endif
        CHECK(memcmp(out, text, fits) == 0 && (room <= length || out[length] == '#'));
        free(out);
    }
}

/* A handle may be moved, and opened again after it is closed. */
static void moved(void) {
    mdsal first = {0}, second;
    for (int i = 0; i < 3; i++) {
        CHECK(opened(&first, "{}") == MDSAL_OK);
        CHECK(stepped(&first, 0, "[\"begin\",0,0,\"rw\"]") == MDSAL_OK && said("begun 0"));
        second = first;
        CHECK(stepped(&second, 0, "[\"submit\",0]") == MDSAL_OK && said("receipt 1"));
        CHECK(stepped(&second, 0, "[\"submit\",0]") == MDSAL_OK && said("refused empty-slot"));
        mdsal_close(&second);
        first = second;
        closed(&first);
    }
}

/* Two handles are independent; an open one is not opened again; the greatest client number is accepted. */
static void others(mdsal *broker) {
    mdsal other = {0};
    CHECK(opened(&other, "{}") == MDSAL_OK);
    CHECK(stepped(&other, 0, "[\"after\",7]") == MDSAL_OK && said("late"));
    CHECK(stepped(broker, 1, "[\"after\",7]") == MDSAL_OK && said("found"));
    CHECK(opened(broker, "{") == MDSAL_IS_OPEN && said("found"));
    CHECK(stepped(&other, MDSAL_CLIENTS - 1, "[\"pump\"]") == MDSAL_OK && said("nothing"));
    CHECK(mdsal_report(&other) == MDSAL_OK);
    text_length = mdsal_reply(&other, text, sizeof text);
    CHECK(said("order 0 65535\n0 0 late\n65535 0 nothing\ntree 0 0 {} {}\n"));
    mdsal_close(&other);
    closed(&other);
}

/* Makes shared calls until there are `steps`, also after the log is full. */
static void many(mdsal *broker, unsigned long steps) {
    clock_t start = clock();
    for (unsigned long i = 3; i < steps; i++) {
        CHECK(stepped(broker, 0, "[\"after\",7]") == (i < 1000000 ? MDSAL_OK : MDSAL_FULL));
    }
    printf("%.2f microseconds a step\n", (double)(clock() - start) / CLOCKS_PER_SEC * 1e6 / (double)(steps - 3));
    if (steps >= 1000000) {
        CHECK(stepped(broker, 0, "[\"pump\"]") == MDSAL_FULL && said(""));
        CHECK(stepped(broker, 2, "[\"pump\"]") == MDSAL_FULL && said(""));
        CHECK(stepped(broker, 0, "[\"put\",0,\"config\",\"/plain:box/a\",\"x\"]") == MDSAL_OK && said("ok"));
        CHECK(stepped(broker, 0, "[\"read\",0,\"config\",\"/plain:box/a\"]") == MDSAL_OK && said("data \"x\""));
        CHECK(stepped(broker, 0, "[\"settle\",0]") == MDSAL_OK && said("refused empty-slot"));
        CHECK(stepped(broker, 0, "[\"submit\",0]") == MDSAL_FULL && said(""));
        CHECK(stepped(broker, 0, "[\"read\",0,\"config\",\"/plain:box/a\"]") == MDSAL_OK && said("data \"x\""));
        CHECK(mdsal_waits(broker, 0, 0) == 0 && mdsal_waits(broker, 3, 0) == 0 && mdsal_left(broker) == 0);
        CHECK(mdsal_report(broker) == MDSAL_OK);
        printf("a report of %zu bytes\n", mdsal_reply(broker, text, sizeof text));
    }
}

int main(int argc, char **argv) {
    mdsal broker = {0};
    closed(&broker);
    bad_scripts();
    CHECK(opened(&broker, "{}") == MDSAL_OK && said(""));
    bad_steps(&broker);
    rooms(&broker);
    report_rooms(&broker);
    moved();
    others(&broker);
    if (argc > 1) {
        many(&broker, strtoul(argv[1], NULL, 10));
    }
#ifdef LEAK
    memset(&broker, 0, sizeof broker);
#else
    mdsal_close(&broker);
#endif
    closed(&broker);
    puts("c: ok");
    return 0;
}
