/*
** Looks for what waits for a client: each bit is set if and only if the step then gives something. A poll in vain adds nothing to the log, takes no
** memory and leaves the text.
**
** Built with WRONG it has a wrong expectation: tools/embed checks that it is reported.
*/
#include "checks.h"

#define SCRIPT \
    "{\"modules\":[\"module m { namespace 'urn:m'; prefix m; container box { leaf a { type string; } leaf b { type string; } }" \
    " rpc go { input { leaf x { type string; } } output { leaf y { type string; } } } notification hot { leaf t { type string; } } }\"]}"

enum { ASKS = 1, SERVES = 2 };

/* The step is made, with this reply. */
static void made(mdsal *broker, uint32_t client, const char *step, const char *reply) {
    CHECK(stepped(broker, client, step) == MDSAL_OK && said(reply));
}

/* These bits wait, each time, and nothing else changes. */
static void waits(mdsal *broker, uint32_t client, uint8_t slot, uint32_t bits) {
    size_t left = mdsal_left(broker);
    for (int i = 0; i < 3; i++) {
        CHECK(mdsal_waits(broker, client, slot) == bits);
    }
    size_t length = text_length;
    static uint8_t before[sizeof text];
    memcpy(before, text, length);
    CHECK(kept(broker, MDSAL_OK) == MDSAL_OK && text_length == length && memcmp(before, text, length) == 0 && mdsal_left(broker) == left);
}

/* Nothing waits for any client, in any slot. */
static void nothing(mdsal *broker) {
    for (unsigned slot = 0; slot < 256; slot += 51) {
        waits(broker, ASKS, (uint8_t)slot, 0);
        waits(broker, SERVES, (uint8_t)slot, 0);
        CHECK(mdsal_waits(broker, 0, (uint8_t)slot) == 0 && mdsal_waits(broker, MDSAL_CLIENTS - 1, (uint8_t)slot) == 0);
        CHECK(mdsal_waits(broker, MDSAL_CLIENTS, (uint8_t)slot) == 0 && mdsal_waits(broker, UINT32_MAX, (uint8_t)slot) == 0);
    }
}

/* Changes for a listener: of its own slot and client alone, also if they are not at its path. */
static void changes(mdsal *broker) {
    made(broker, ASKS, "[\"listen\",3,0,\"config\",\"/m:box/a\"]", "listener 1 0 absent");
    nothing(broker);
    made(broker, 0, "[\"begin\",9,0,\"rw\"]", "begun 0");
    made(broker, 0, "[\"put\",9,\"config\",\"/m:box/a\",\"x\"]", "ok");
    made(broker, 0, "[\"submit\",9]", "receipt 1");
    waits(broker, 0, 9, 0);
    waits(broker, ASKS, 3, 0);
    made(broker, SERVES, "[\"pump\"]", "decided 1 done 1");
    waits(broker, 0, 9, MDSAL_DECIDED);
    waits(broker, 0, 8, 0);
    waits(broker, SERVES, 9, 0);
    waits(broker, ASKS, 3, MDSAL_CHANGES);
    waits(broker, ASKS, 0, 0);
    waits(broker, SERVES, 3, 0);
    made(broker, 0, "[\"settle\",9]", "done 1");
    CHECK(stepped(broker, ASKS, "[\"take\",3]") == MDSAL_OK && text_length > 10 && memcmp(text, "batch 0 1 ", 10) == 0);
    waits(broker, ASKS, 3, 0);
    made(broker, 0, "[\"begin\",9,0,\"rw\"]", "begun 1");
    made(broker, 0, "[\"put\",9,\"config\",\"/m:box/b\",\"x\"]", "ok");
    made(broker, 0, "[\"submit\",9]", "receipt 2");
    waits(broker, 0, 9, 0);
    made(broker, 0, "[\"settle\",9]", "done 2");
    waits(broker, 0, 9, MDSAL_DECIDED);
    waits(broker, ASKS, 3, MDSAL_CHANGES);
    CHECK(stepped(broker, ASKS, "[\"take\",3]") == MDSAL_OK && text_length >= 9 && memcmp(text, "batch 1 2", 9) == 0);
    waits(broker, ASKS, 3, 0);
    made(broker, ASKS, "[\"unlisten\",3]", "ok");
    waits(broker, ASKS, 3, 0);
}

/* A request for its provider, then its answer, of one slot each. */
static void requests(mdsal *broker) {
    made(broker, SERVES, "[\"provide\",\"m:go\",null]", "ok");
    made(broker, ASKS, "[\"invoke\",5,\"m:go\",null,{\"x\":\"1\"}]", "call 1");
    made(broker, ASKS, "[\"invoke\",6,\"m:go\",null,{\"x\":\"2\"}]", "call 2");
    waits(broker, SERVES, 0, MDSAL_REQUEST);
    waits(broker, SERVES, 200, MDSAL_REQUEST);
    waits(broker, ASKS, 5, 0);
    made(broker, SERVES, "[\"next-call\",0]", "request 1 m:go - {\"x\":\"1\"}");
    waits(broker, SERVES, 0, MDSAL_REQUEST);
    made(broker, SERVES, "[\"answer\",0,{\"y\":\"one\"}]", "ok");
#ifdef WRONG
    waits(broker, ASKS, 6, MDSAL_ANSWER);
#endif
    waits(broker, ASKS, 5, MDSAL_ANSWER);
    waits(broker, ASKS, 6, 0);
    waits(broker, SERVES, 5, MDSAL_REQUEST);
    made(broker, ASKS, "[\"collect\",5]", "output {\"y\":\"one\"}");
    made(broker, SERVES, "[\"next-call\",0]", "request 2 m:go - {\"x\":\"2\"}");
    waits(broker, SERVES, 0, 0);
    made(broker, SERVES, "[\"next-call\",0]", "nothing");
    made(broker, ASKS, "[\"collect\",6]", "nothing");
}

/* Notifications for a client that subscribed. */
static void notes(mdsal *broker) {
    made(broker, SERVES, "[\"offer\",\"m:hot\",{\"t\":\"0\"}]", "offered 0");
    made(broker, ASKS, "[\"subscribe\",\"m:hot\"]", "ok");
    waits(broker, ASKS, 0, 0);
    made(broker, SERVES, "[\"offer\",\"m:hot\",{\"t\":\"1\"}]", "offered 1");
    waits(broker, ASKS, 0, MDSAL_NOTES);
    waits(broker, ASKS, 255, MDSAL_NOTES);
    waits(broker, SERVES, 0, 0);
    made(broker, ASKS, "[\"take-notes\"]", "notes [[\"m:hot\",{\"t\":\"1\"}]]");
    waits(broker, ASKS, 0, 0);
    made(broker, ASKS, "[\"take-notes\"]", "notes []");
}

/* An epoch ends what waited. A handle without a broker has nothing. */
static void ends(mdsal *broker) {
    mdsal closed = {0};
    CHECK(mdsal_waits(&closed, 0, 0) == 0 && mdsal_waits(&closed, UINT32_MAX, 255) == 0 && !closed.full && closed.at == NULL);
    made(broker, SERVES, "[\"offer\",\"m:hot\",{\"t\":\"2\"}]", "offered 1");
    waits(broker, ASKS, 0, MDSAL_NOTES);
    CHECK(mdsal_epoch(broker, mdsal_number(broker)) == MDSAL_OK);
    text_length = 0;
    nothing(broker);
    CHECK(mdsal_follow(&closed, (const uint8_t *)SCRIPT, strlen(SCRIPT), 0) == MDSAL_OK && mdsal_waits(&closed, 0, 0) == 0);
    mdsal_close(&closed);
}

int main(void) {
    mdsal broker = {0};
    CHECK(opened(&broker, SCRIPT) == MDSAL_OK);
    nothing(&broker);
    changes(&broker);
    requests(&broker);
    notes(&broker);
    ends(&broker);
    mdsal_close(&broker);
    puts("waits: ok");
    return 0;
}
