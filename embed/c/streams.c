/*
** Frames, epochs and a stand-by, by a careless host: each call on each kind of handle, a stream cut at each byte, and with each byte wrong. The
** expected frames are those of docs/FORMATS.md, "Frames", written by hand: in the module `plain`, node 0 is the box, and nodes 1 and 2 are `a` and `b`.
**
** Built with WRONG it has a wrong expectation: tools/embed checks that it is reported.
*/
#include "checks.h"

#define SCRIPT "{}"
#define OPENING "00000041\n{\"commit\":0,\"config\":[],\"operational\":[]}\n"
#define FIRST "00000052\n{\"commit\":1,\"config\":[[[0,1],\"x\"]],\"operational\":[]}\n"
#define SECOND "00000052\n{\"commit\":2,\"config\":[[[0,2],\"y\"]],\"operational\":[]}\n"
#define SNAPSHOT "00000064\n{\"commit\":2,\"config\":[[[0,1],\"x\"],[[0,2],\"y\"]],\"operational\":[]}\n"
#define THIRD "00000053\n{\"commit\":3,\"config\":[[[0,1],null]],\"operational\":[]}\n"

static uint32_t followed(mdsal *handle, const char *script, uint64_t first) {
    return kept(handle, mdsal_follow(handle, (const uint8_t *)script, strlen(script), first));
}

static uint32_t fed(mdsal *handle, const char *bytes) {
    return kept(handle, mdsal_feed(handle, (const uint8_t *)bytes, strlen(bytes)));
}

static uint32_t looked(mdsal *handle, uint32_t store, const char *path) {
    return kept(handle, mdsal_look(handle, store, (const uint8_t *)path, strlen(path)));
}

/* Commits one edit, by client 0 in slot 0. */
static void edit(mdsal *broker, const char *step) {
    CHECK(stepped(broker, 0, "[\"begin\",0,0,\"rw\"]") == MDSAL_OK && stepped(broker, 0, step) == MDSAL_OK && said("ok"));
    CHECK(stepped(broker, 0, "[\"submit\",0]") == MDSAL_OK && stepped(broker, 0, "[\"settle\",0]") == MDSAL_OK);
    CHECK(text_length > 5 && memcmp(text, "done ", 5) == 0);
}

/* A handle with neither a broker nor a stand-by. */
static void closed(mdsal *handle) {
    CHECK(kept(handle, mdsal_frames(handle, 0)) == MDSAL_NOT_OPEN && said(""));
    CHECK(kept(handle, mdsal_snapshot(handle)) == MDSAL_NOT_OPEN && said(""));
    CHECK(kept(handle, mdsal_epoch(handle, 0)) == MDSAL_NOT_OPEN && said(""));
    CHECK(fed(handle, OPENING) == MDSAL_NOT_OPEN && said(""));
    CHECK(kept(handle, mdsal_lead(handle, 0)) == MDSAL_NOT_OPEN && said(""));
    CHECK(looked(handle, 0, "/") == MDSAL_NOT_OPEN && said("") && looked(handle, 7, "/") == MDSAL_NOT_OPEN);
    CHECK(mdsal_number(handle) == 0 && mdsal_version(handle) == 0 && mdsal_left(handle) == 0);
}

static void bad_scripts(void) {
    mdsal handle = {0};
    closed(&handle);
    CHECK(followed(&handle, "{", 0) == MDSAL_BAD_SCRIPT && said("bad script at json\n"));
    closed(&handle);
    CHECK(followed(&handle, "{\"clients\":[{\"steps\":[]}]}", 0) == MDSAL_BAD_SCRIPT && said("bad script at clients\n"));
    CHECK(followed(&handle, "{\"order\":[0]}", 0) == MDSAL_BAD_SCRIPT && said("bad script at order\n"));
    CHECK(followed(&handle, "{\"modules\":[\"module m {\"]}", 0) == MDSAL_BAD_SCHEMA && text_length > 0);
    closed(&handle);
    mdsal_close(&handle);
    CHECK(!handle.full && handle.at == NULL);
}

/* The calls of a stand-by are refused by a broker, and change nothing. */
static void broker_refuses(mdsal *broker) {
    CHECK(followed(broker, SCRIPT, 0) == MDSAL_IS_OPEN);
    CHECK(fed(broker, OPENING) == MDSAL_IS_OPEN && said(""));
    CHECK(kept(broker, mdsal_lead(broker, 0)) == MDSAL_IS_OPEN && said(""));
    CHECK(looked(broker, 2, "/") == MDSAL_BAD_STEP && said("") && looked(broker, UINT32_MAX, "/") == MDSAL_BAD_STEP);
    CHECK(looked(broker, 0, "\xff") == MDSAL_BAD_STEP && said(""));
}

/* The calls of a broker are refused by a stand-by; before its first frame so are all that need one. */
static void standby_refuses(mdsal *standby, bool is_empty) {
    CHECK(opened(standby, SCRIPT) == MDSAL_IS_OPEN && followed(standby, SCRIPT, 0) == MDSAL_IS_OPEN);
    CHECK(stepped(standby, 0, "[\"pump\"]") == MDSAL_IS_STANDBY && said(""));
    CHECK(kept(standby, mdsal_report(standby)) == MDSAL_IS_STANDBY && said(""));
    CHECK(kept(standby, mdsal_frames(standby, 0)) == MDSAL_IS_STANDBY && said(""));
    CHECK(kept(standby, mdsal_epoch(standby, 0)) == MDSAL_IS_STANDBY && said(""));
    CHECK(mdsal_version(standby) == 0 && mdsal_left(standby) == 0 && mdsal_waits(standby, 0, 0) == 0);
    if (is_empty) {
        CHECK(kept(standby, mdsal_snapshot(standby)) == MDSAL_EMPTY && said(""));
        CHECK(looked(standby, 0, "/") == MDSAL_EMPTY && said("") && looked(standby, 2, "/") == MDSAL_EMPTY);
        CHECK(kept(standby, mdsal_lead(standby, 0)) == MDSAL_EMPTY && said("") && mdsal_number(standby) == 0);
    } else {
        CHECK(looked(standby, 2, "/") == MDSAL_BAD_STEP && looked(standby, 0, "\xff") == MDSAL_BAD_STEP);
    }
}

/* The frames of two commits, a snapshot, looks that cost nothing, and the next epoch. */
static void leads(mdsal *broker) {
    CHECK(kept(broker, mdsal_snapshot(broker)) == MDSAL_OK && said(OPENING));
    CHECK(mdsal_number(broker) == 0 && mdsal_left(broker) == 1000000);
    edit(broker, "[\"put\",0,\"config\",\"/plain:box/a\",\"x\"]");
    edit(broker, "[\"put\",0,\"config\",\"/plain:box/b\",\"y\"]");
    CHECK(mdsal_left(broker) == 1000000 - 6 && mdsal_number(broker) == 2);
    CHECK(kept(broker, mdsal_frames(broker, 0)) == MDSAL_OK && said(FIRST SECOND));
#ifdef WRONG
    CHECK(kept(broker, mdsal_frames(broker, 1)) == MDSAL_OK && said(FIRST));
#endif
    CHECK(kept(broker, mdsal_frames(broker, 1)) == MDSAL_OK && said(SECOND));
    CHECK(kept(broker, mdsal_frames(broker, 2)) == MDSAL_OK && said("") && kept(broker, mdsal_frames(broker, 99)) == MDSAL_OK && said(""));
    CHECK(kept(broker, mdsal_frames(broker, UINT64_MAX)) == MDSAL_OK && said(""));
    CHECK(kept(broker, mdsal_snapshot(broker)) == MDSAL_OK && said(SNAPSHOT));
    CHECK(looked(broker, 0, "/plain:box") == MDSAL_OK && said("data {\"a\":\"x\",\"b\":\"y\"}"));
    CHECK(looked(broker, 1, "/plain:box") == MDSAL_OK && said("absent"));
    CHECK(looked(broker, 0, "/plain:no") == MDSAL_OK && text_length > 13 && memcmp(text, "refused path ", 13) == 0);
    CHECK(mdsal_left(broker) == 1000000 - 6);
    broker_refuses(broker);
}

static void begins(mdsal *broker) {
    CHECK(kept(broker, mdsal_epoch(broker, 1)) == MDSAL_NOT_NEWEST && said("") && kept(broker, mdsal_epoch(broker, 3)) == MDSAL_NOT_NEWEST);
    CHECK(stepped(broker, 1, "[\"begin\",0,0,\"rw\"]") == MDSAL_OK && stepped(broker, 1, "[\"submit\",0]") == MDSAL_OK);
    CHECK(kept(broker, mdsal_epoch(broker, 2)) == MDSAL_PENDING && said("") && kept(broker, mdsal_epoch(broker, 9)) == MDSAL_PENDING);
    CHECK(mdsal_left(broker) == 1000000 - 8 && mdsal_number(broker) == 2);
    CHECK(stepped(broker, 1, "[\"settle\",0]") == MDSAL_OK && said("done 3") && mdsal_number(broker) == 3);
    CHECK(kept(broker, mdsal_epoch(broker, 2)) == MDSAL_NOT_NEWEST && kept(broker, mdsal_epoch(broker, 3)) == MDSAL_OK && said(""));
    CHECK(mdsal_left(broker) == 1000000 && mdsal_number(broker) == 3);
    CHECK(kept(broker, mdsal_frames(broker, 2)) == MDSAL_GONE && said("") && kept(broker, mdsal_frames(broker, 3)) == MDSAL_OK && said(""));
    CHECK(kept(broker, mdsal_report(broker)) == MDSAL_OK && said("order\ntree 0 0 {\"plain:box\":{\"a\":\"x\",\"b\":\"y\"}} {}\n"));
    CHECK(stepped(broker, 0, "[\"settle\",0]") == MDSAL_OK && said("refused empty-slot"));
    edit(broker, "[\"put\",0,\"config\",\"/plain:box/a\",\"z\"]");
    CHECK(said("done 1") && mdsal_number(broker) == 4);
}

/* A stream cut at each byte: the same frames, each time. */
static void cuts(void) {
    static const char stream[] = OPENING FIRST SECOND;
    for (size_t cut = 0; cut < sizeof stream; cut++) {
        mdsal it = {0};
        CHECK(followed(&it, SCRIPT, 0) == MDSAL_OK && said(""));
        standby_refuses(&it, true);
        CHECK(mdsal_feed(&it, (const uint8_t *)stream, cut) == MDSAL_OK);
        CHECK(fed(&it, stream + cut) == MDSAL_OK && said("") && mdsal_number(&it) == 2);
        standby_refuses(&it, false);
        CHECK(kept(&it, mdsal_snapshot(&it)) == MDSAL_OK && said(SNAPSHOT));
        CHECK(looked(&it, 0, "/plain:box/b") == MDSAL_OK && said("data \"y\""));
        mdsal_close(&it);
        closed(&it);
    }
}

/* A wrong byte anywhere in the last frame: the stand-by stays at the frame before, and can lead from there. */
static void wrong_bytes(void) {
    for (size_t at = 0; at < strlen(SECOND); at++) {
        char stream[] = SECOND;
        stream[at] ^= (char)0x80;
        mdsal it = {0};
        CHECK(followed(&it, SCRIPT, 0) == MDSAL_OK && fed(&it, OPENING FIRST) == MDSAL_OK);
        CHECK(fed(&it, stream) == MDSAL_BAD_STREAM && said("bad stream bad-frame 113\n"));
        CHECK(fed(&it, "") == MDSAL_BAD_STREAM && said("bad stream bad-frame 113\n") && mdsal_number(&it) == 1);
        CHECK(kept(&it, mdsal_lead(&it, 0)) == MDSAL_OK && said("") && mdsal_number(&it) == 1);
        edit(&it, "[\"put\",0,\"config\",\"/plain:box/b\",\"y\"]");
        CHECK(kept(&it, mdsal_frames(&it, 1)) == MDSAL_OK && said(SECOND));
        mdsal_close(&it);
    }
}

/* A stand-by that begins at a snapshot, meets a gap, is refused by a version, and leads. */
static void follows(void) {
    mdsal it = {0};
    CHECK(followed(&it, SCRIPT, 2) == MDSAL_OK && fed(&it, SNAPSHOT) == MDSAL_OK && mdsal_number(&it) == 2);
    CHECK(kept(&it, mdsal_lead(&it, 1)) == MDSAL_BAD_VERSION && said("") && kept(&it, mdsal_lead(&it, UINT32_MAX)) == MDSAL_BAD_VERSION);
    standby_refuses(&it, false);
    CHECK(fed(&it, FIRST) == MDSAL_BAD_STREAM && said("bad stream gap 3 1\n") && mdsal_number(&it) == 2);
    CHECK(kept(&it, mdsal_lead(&it, 0)) == MDSAL_OK && mdsal_version(&it) == 0 && mdsal_left(&it) == 1000000);
    CHECK(kept(&it, mdsal_frames(&it, 1)) == MDSAL_GONE && kept(&it, mdsal_frames(&it, 2)) == MDSAL_OK && said(""));
    edit(&it, "[\"delete\",0,\"config\",\"/plain:box/a\"]");
    CHECK(said("done 1") && kept(&it, mdsal_frames(&it, 2)) == MDSAL_OK && said(THIRD));
    mdsal_close(&it);
    CHECK(followed(&it, SCRIPT, 1) == MDSAL_OK && fed(&it, SNAPSHOT) == MDSAL_BAD_STREAM && said("bad stream gap 1 2\n"));
    standby_refuses(&it, true);
    mdsal_close(&it);
    closed(&it);
}

int main(void) {
    bad_scripts();
    mdsal broker = {0};
    CHECK(opened(&broker, SCRIPT) == MDSAL_OK);
    leads(&broker);
    begins(&broker);
    mdsal_close(&broker);
    cuts();
    wrong_bytes();
    follows();
    puts("streams: ok");
    return 0;
}
