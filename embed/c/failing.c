/*
** Each allocation of the calls for frames and stand-bys fails once. The call says so, and is made again: then everything is as if it had not failed.
**
** It prints how many allocations failed. It is linked with --wrap=malloc --wrap=realloc. Built with WRONG it has a wrong expectation.
*/
#include "checks.h"

static unsigned long allocations, failing, failed;

void *__real_malloc(size_t size);
void *__real_realloc(void *at, size_t size);
void *__wrap_malloc(size_t size);
void *__wrap_realloc(void *at, size_t size);

static bool fails(void) {
    return failing != 0 && ++allocations == failing;
}

void *__wrap_malloc(size_t size) {
    return fails() ? NULL : __real_malloc(size);
}

void *__wrap_realloc(void *at, size_t size) {
    return fails() ? NULL : __real_realloc(at, size);
}

/* The statuses of a call, and of the same call once more if memory ran out. */
#define AGAIN(handle, call) \
    do { \
        uint32_t status = kept(handle, call); \
        if (status == MDSAL_NO_MEMORY) { \
            failed++; \
            CHECK(said("") || said("no memory\n")); \
            status = kept(handle, call); \
        } \
        CHECK(status == MDSAL_OK); \
    } while (0)

#define T(text) (const uint8_t *)(text), strlen(text)
#define SCRIPT "{\"devices\":[{\"modules\":[\"module d { namespace 'urn:d'; prefix d; leaf n { type string; } }\"],\"config\":{\"d:n\":\"x\"}}]}"
#define OPENING "00000041\n{\"commit\":0,\"config\":[],\"operational\":[]}\n"
#define FIRST "00000052\n{\"commit\":1,\"config\":[[[0,1],\"x\"]],\"operational\":[]}\n"
#define SECOND "00000052\n{\"commit\":2,\"config\":[[[0,1],\"y\"]],\"operational\":[]}\n"

#define DEVICE "00000050\n{\"commit\":0,\"config\":[[[0],\"x\"]],\"operational\":[]}\n"
#define DEVICE_FIRST "00000050\n{\"commit\":1,\"config\":[[[0],\"y\"]],\"operational\":[]}\n"

/* A commit, without a failure. */
static void commit_in(mdsal *broker, const char *begin, const char *step) {
    unsigned long was = failing;
    failing = 0;
    CHECK(stepped(broker, 0, begin) == MDSAL_OK && stepped(broker, 0, step) == MDSAL_OK && said("ok"));
    CHECK(stepped(broker, 0, "[\"submit\",0]") == MDSAL_OK && stepped(broker, 0, "[\"settle\",0]") == MDSAL_OK && said("done 1"));
    failing = was;
}

static void commit(mdsal *broker, const char *step) {
    commit_in(broker, "[\"begin\",0,0,\"rw\"]", step);
}

/* The same of a device, which is mounted. */
static void commit_on_device(mdsal *broker) {
    unsigned long was = failing;
    failing = 0;
    CHECK(stepped(broker, 0, "[\"mount\",1,\"/plain:box\"]") == MDSAL_OK && said("ok"));
    failing = was;
    commit_in(broker, "[\"begin\",0,1,\"rw\"]", "[\"put\",0,\"config\",\"/d:n\",\"y\"]");
}

/* A broker that opens, sends a frame and begins an epoch, which takes no memory; nor does a look for what waits. */
static void leads(mdsal *broker) {
    AGAIN(broker, mdsal_open(broker, T(SCRIPT)));
    AGAIN(broker, mdsal_snapshot(broker));
    CHECK(said(OPENING));
    commit(broker, "[\"put\",0,\"config\",\"/plain:box/a\",\"x\"]");
    AGAIN(broker, mdsal_frames(broker, 0));
    CHECK(said(FIRST));
    AGAIN(broker, mdsal_look(broker, 0, T("/plain:box/a")));
    CHECK(said("data \"x\""));
    commit_on_device(broker);
    AGAIN(broker, mdsal_frames_of(broker, 1, 0));
    CHECK(said(DEVICE_FIRST));
    AGAIN(broker, mdsal_snapshot_of(broker, 1));
    CHECK(said(DEVICE_FIRST));
    AGAIN(broker, mdsal_look_of(broker, 1, 0, T("/d:n")));
    CHECK(said("data \"y\""));
    unsigned long before = allocations;
    CHECK(mdsal_waits(broker, 0, 0) == MDSAL_DECIDED && mdsal_waits(broker, 7, 0) == 0 && allocations == before);
    uint64_t newest[] = {1, 1};
    CHECK(mdsal_epoch_of(broker, newest, 2) == MDSAL_OK && mdsal_number_of(broker, 1) == 1 && allocations == before);
#ifdef WRONG
    AGAIN(broker, mdsal_frames(broker, 1));
    CHECK(!said(""));
#endif
    commit(broker, "[\"put\",0,\"config\",\"/plain:box/a\",\"y\"]");
    AGAIN(broker, mdsal_frames(broker, 1));
    CHECK(said(SECOND) && mdsal_number(broker) == 2);
}

/* A stand-by that follows both frames, meets a bad byte, and leads. */
static void follows(mdsal *standby) {
    uint64_t firsts[] = {0, 0};
    AGAIN(standby, mdsal_follow_of(standby, T(SCRIPT), firsts, 2));
    AGAIN(standby, mdsal_feed_of(standby, 1, T(DEVICE)));
    AGAIN(standby, mdsal_feed_of(standby, 1, T(DEVICE_FIRST)));
    AGAIN(standby, mdsal_look_of(standby, 1, 0, T("/d:n")));
    CHECK(said("data \"y\""));
    AGAIN(standby, mdsal_feed(standby, T(OPENING)));
    AGAIN(standby, mdsal_feed(standby, T(FIRST "00")));
    CHECK(mdsal_number(standby) == 1);
    AGAIN(standby, mdsal_feed(standby, T("000052\n{\"commit\":2,\"config\":[[[0,1],\"y\"]],\"operational\":[]}\n")));
    AGAIN(standby, mdsal_look(standby, 0, T("/plain:box/a")));
    CHECK(said("data \"y\"") && mdsal_number(standby) == 2);
    AGAIN(standby, mdsal_snapshot(standby));
    CHECK(said(SECOND));
    uint32_t status = kept(standby, mdsal_feed(standby, T("????????\n")));
    if (status == MDSAL_NO_MEMORY) {
        failed++;
        status = kept(standby, mdsal_feed(standby, T("????????\n")));
    }
    CHECK(status == MDSAL_BAD_STREAM && (said("bad stream bad-frame 175\n") || said("")));
    AGAIN(standby, mdsal_lead(standby, 0));
    CHECK(mdsal_number(standby) == 2 && mdsal_number_of(standby, 1) == 1 && mdsal_left(standby) == 1000000);
    AGAIN(standby, mdsal_snapshot_of(standby, 1));
    CHECK(said(DEVICE_FIRST));
}

int main(void) {
    unsigned long n = 1;
    do {
        mdsal broker = {0}, standby = {0};
        allocations = 0;
        failing = n++;
        leads(&broker);
        follows(&standby);
        failing = 0;
        mdsal_close(&broker);
        mdsal_close(&standby);
    } while (allocations >= n - 1);
    printf("each of %lu allocations failed in turn, %lu of them in a call that said so\n", n - 2, failed);
    return 0;
}
