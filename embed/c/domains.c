/*
** Frames, epochs and stand-bys of a broker with a device, by a careless host: each call of each domain, with numbers that no domain has. The expected
** frames are those of docs/FORMATS.md, "Frames", written by hand: in the device's module node 0 is the leaf `n`.
**
** Built with WRONG it has a wrong expectation: tools/embed checks that it is reported.
*/
#include "checks.h"

#define SCRIPT "{\"devices\":[{\"modules\":[\"module d { namespace 'urn:d'; prefix d; leaf n { type string; } }\"],\"config\":{\"d:n\":\"x\"}}]}"
#define OPENING "00000041\n{\"commit\":0,\"config\":[],\"operational\":[]}\n"
#define FIRST "00000052\n{\"commit\":1,\"config\":[[[0,1],\"x\"]],\"operational\":[]}\n"
#define DEVICE "00000050\n{\"commit\":0,\"config\":[[[0],\"x\"]],\"operational\":[]}\n"
#define DEVICE_FIRST "00000050\n{\"commit\":1,\"config\":[[[0],\"y\"]],\"operational\":[]}\n"
#define DEVICE_SECOND "00000050\n{\"commit\":2,\"config\":[[[0],\"z\"]],\"operational\":[]}\n"

static uint32_t followed(mdsal *handle, uint64_t own, uint64_t device, size_t count) {
    uint64_t firsts[] = {own, device, 0};
    return kept(handle, mdsal_follow_of(handle, (const uint8_t *)SCRIPT, strlen(SCRIPT), firsts, count));
}

static uint32_t fed(mdsal *handle, uint32_t domain, const char *bytes) {
    return kept(handle, mdsal_feed_of(handle, domain, (const uint8_t *)bytes, strlen(bytes)));
}

static uint32_t looked(mdsal *handle, uint32_t domain, uint32_t store, const char *path) {
    return kept(handle, mdsal_look_of(handle, domain, store, (const uint8_t *)path, strlen(path)));
}

static uint32_t begun(mdsal *handle, uint64_t own, uint64_t device, uint64_t none, size_t count) {
    uint64_t newest[] = {own, device, none};
    return kept(handle, mdsal_epoch_of(handle, newest, count));
}

/* Commits one edit in a domain, by client 0 in slot 0. */
static void edit(mdsal *broker, const char *begin, const char *step, const char *reply) {
    CHECK(stepped(broker, 0, begin) == MDSAL_OK && stepped(broker, 0, step) == MDSAL_OK && said("ok"));
    CHECK(stepped(broker, 0, "[\"submit\",0]") == MDSAL_OK && stepped(broker, 0, "[\"settle\",0]") == MDSAL_OK && said(reply));
}

static void mounted(mdsal *broker) {
    CHECK(stepped(broker, 0, "[\"begin\",0,1,\"rw\"]") == MDSAL_OK && text_length > 8 && memcmp(text, "refused ", 8) == 0);
    CHECK(stepped(broker, 0, "[\"mount\",1,\"/plain:box\"]") == MDSAL_OK && said("ok"));
}

/* A handle with neither a broker nor a stand-by. */
static void closed(mdsal *it) {
    for (uint32_t domain = 0; domain < 3; domain++) {
        CHECK(kept(it, mdsal_frames_of(it, domain, 0)) == MDSAL_NOT_OPEN && kept(it, mdsal_snapshot_of(it, domain)) == MDSAL_NOT_OPEN && said(""));
        CHECK(fed(it, domain, OPENING) == MDSAL_NOT_OPEN && looked(it, domain, 0, "/") == MDSAL_NOT_OPEN && mdsal_number_of(it, domain) == 0);
    }
    CHECK(begun(it, 0, 0, 0, 0) == MDSAL_NOT_OPEN && begun(it, 0, 0, 0, 3) == MDSAL_NOT_OPEN && mdsal_domains(it) == 0);
}

/* Domains that the script does not have. */
static void no_domain(mdsal *it, bool is_broker) {
    static const uint32_t none[] = {2, 3, 63, 64, 1U << 31, UINT32_MAX};
    CHECK(mdsal_domains(it) == 2);
    for (size_t k = 0; k < sizeof none / sizeof *none; k++) {
        CHECK(kept(it, mdsal_snapshot_of(it, none[k])) == MDSAL_BAD_DOMAIN && said(""));
        CHECK(looked(it, none[k], 0, "/") == MDSAL_BAD_DOMAIN && said("") && looked(it, none[k], 7, "\xff") == MDSAL_BAD_DOMAIN);
        CHECK(kept(it, mdsal_frames_of(it, none[k], 0)) == (is_broker ? MDSAL_BAD_DOMAIN : MDSAL_IS_STANDBY) && said(""));
        CHECK(fed(it, none[k], OPENING) == (is_broker ? MDSAL_IS_OPEN : MDSAL_BAD_DOMAIN) && said(""));
        CHECK(mdsal_number_of(it, none[k]) == 0);
    }
}

/* The commits of the device are frames of their own. */
static void leads(mdsal *broker) {
    CHECK(opened(broker, SCRIPT) == MDSAL_OK && kept(broker, mdsal_snapshot_of(broker, 1)) == MDSAL_OK && said(DEVICE));
    CHECK(looked(broker, 1, 0, "/d:n") == MDSAL_OK && said("data \"x\"") && looked(broker, 0, 0, "/d:n") == MDSAL_OK && memcmp(text, "refused path", 12) == 0);
    CHECK(looked(broker, 1, 2, "/d:n") == MDSAL_BAD_STEP && looked(broker, 1, 0, "\xff") == MDSAL_BAD_STEP);
    edit(broker, "[\"begin\",0,0,\"rw\"]", "[\"put\",0,\"config\",\"/plain:box/a\",\"x\"]", "done 1");
    mounted(broker);
    edit(broker, "[\"begin\",0,1,\"rw\"]", "[\"put\",0,\"config\",\"/d:n\",\"y\"]", "done 1");
    CHECK(kept(broker, mdsal_frames_of(broker, 1, 0)) == MDSAL_OK && said(DEVICE_FIRST) && mdsal_number_of(broker, 1) == 1);
#ifdef WRONG
    CHECK(kept(broker, mdsal_frames_of(broker, 1, 0)) == MDSAL_OK && said(FIRST));
#endif
    CHECK(kept(broker, mdsal_frames_of(broker, 0, 0)) == MDSAL_OK && said(FIRST) && kept(broker, mdsal_frames(broker, 0)) == MDSAL_OK && said(FIRST));
    CHECK(kept(broker, mdsal_frames_of(broker, 1, 1)) == MDSAL_OK && said("") && kept(broker, mdsal_frames_of(broker, 1, UINT64_MAX)) == MDSAL_OK && said(""));
    CHECK(looked(broker, 1, 0, "/d:n") == MDSAL_OK && said("data \"y\"") && looked(broker, 1, 1, "/d:n") == MDSAL_OK && said("absent"));
    no_domain(broker, true);
}

/* The next epoch compares each number that is given, and mounts end. */
static void begins(mdsal *broker) {
    CHECK(begun(broker, 1, 0, 0, 2) == MDSAL_NOT_NEWEST && said("") && begun(broker, 1, 2, 0, 2) == MDSAL_NOT_NEWEST);
    CHECK(begun(broker, 0, 1, 0, 2) == MDSAL_NOT_NEWEST && begun(broker, 1, 1, 0, 3) == MDSAL_NOT_NEWEST && begun(broker, 0, 0, 0, 1) == MDSAL_NOT_NEWEST);
    CHECK(stepped(broker, 1, "[\"begin\",0,1,\"rw\"]") == MDSAL_OK && stepped(broker, 1, "[\"submit\",0]") == MDSAL_OK);
    CHECK(begun(broker, 1, 1, 0, 2) == MDSAL_PENDING && begun(broker, 9, 9, 9, 3) == MDSAL_PENDING);
    CHECK(stepped(broker, 1, "[\"settle\",0]") == MDSAL_OK && said("done 2") && begun(broker, 1, 1, 0, 2) == MDSAL_NOT_NEWEST);
    CHECK(begun(broker, 1, 2, 0, 2) == MDSAL_OK && said("") && mdsal_number(broker) == 1 && mdsal_number_of(broker, 1) == 2);
    CHECK(kept(broker, mdsal_frames_of(broker, 1, 1)) == MDSAL_GONE && said("") && kept(broker, mdsal_frames_of(broker, 1, 2)) == MDSAL_OK && said(""));
    mounted(broker);
    CHECK(looked(broker, 1, 0, "/d:n") == MDSAL_OK && said("data \"y\""));
    CHECK(begun(broker, 7, 7, 7, 0) == MDSAL_OK && mdsal_number(broker) == 1 && mdsal_number_of(broker, 1) == 2);
    CHECK(begun(broker, 1, 7, 7, 1) == MDSAL_OK && mdsal_number_of(broker, 1) == 2);
}

/* A stand-by of both domains: the streams are apart, and it leads with the trees and the numbers of both. */
static void follows(void) {
    mdsal it = {0};
    CHECK(followed(&it, 1, 0, 2) == MDSAL_OK && said(""));
    no_domain(&it, false);
    CHECK(fed(&it, 1, DEVICE) == MDSAL_OK && mdsal_number_of(&it, 1) == 0 && kept(&it, mdsal_lead(&it, 0)) == MDSAL_EMPTY);
    CHECK(looked(&it, 0, 0, "/") == MDSAL_EMPTY && kept(&it, mdsal_snapshot_of(&it, 0)) == MDSAL_EMPTY && said(""));
    CHECK(fed(&it, 0, OPENING) == MDSAL_BAD_STREAM && said("bad stream gap 1 0\n"));
    mdsal_close(&it);
    CHECK(followed(&it, 1, 0, 2) == MDSAL_OK && fed(&it, 0, FIRST) == MDSAL_OK && looked(&it, 1, 0, "/") == MDSAL_EMPTY);
    CHECK(kept(&it, mdsal_snapshot_of(&it, 1)) == MDSAL_EMPTY && mdsal_number(&it) == 1);
    CHECK(fed(&it, 1, DEVICE) == MDSAL_OK && fed(&it, 1, DEVICE_FIRST) == MDSAL_OK && fed(&it, 1, DEVICE_SECOND) == MDSAL_OK);
    CHECK(fed(&it, 1, DEVICE_FIRST) == MDSAL_BAD_STREAM && said("bad stream gap 3 1\n") && mdsal_number_of(&it, 1) == 2 && fed(&it, 0, "") == MDSAL_OK);
    CHECK(looked(&it, 1, 0, "/d:n") == MDSAL_OK && said("data \"z\"") && begun(&it, 1, 2, 0, 2) == MDSAL_IS_STANDBY);
    CHECK(kept(&it, mdsal_lead(&it, 1)) == MDSAL_BAD_VERSION && kept(&it, mdsal_lead(&it, 0)) == MDSAL_OK && said(""));
    CHECK(mdsal_number(&it) == 1 && mdsal_number_of(&it, 1) == 2 && kept(&it, mdsal_frames_of(&it, 1, 1)) == MDSAL_GONE);
    mounted(&it);
    CHECK(looked(&it, 1, 0, "/d:n") == MDSAL_OK && said("data \"z\""));
    edit(&it, "[\"begin\",0,1,\"rw\"]", "[\"put\",0,\"config\",\"/d:n\",\"y\"]", "done 1");
    CHECK(mdsal_number_of(&it, 1) == 3 && kept(&it, mdsal_snapshot_of(&it, 1)) == MDSAL_OK && said("00000050\n{\"commit\":3,\"config\":[[[0],\"y\"]],\"operational\":[]}\n"));
    mdsal_close(&it);
    closed(&it);
}

/* A device without a frame begins as in the script. */
static void begins_as_in_the_script(void) {
    mdsal it = {0};
    CHECK(followed(&it, 0, 5, 1) == MDSAL_OK && fed(&it, 0, OPENING) == MDSAL_OK && fed(&it, 0, FIRST) == MDSAL_OK);
    CHECK(kept(&it, mdsal_lead(&it, 0)) == MDSAL_OK && mdsal_number(&it) == 1 && mdsal_number_of(&it, 1) == 0);
    CHECK(kept(&it, mdsal_snapshot_of(&it, 1)) == MDSAL_OK && said(DEVICE));
    mdsal_close(&it);
    CHECK(followed(&it, 0, 0, 3) == MDSAL_OK && followed(&it, 0, 0, 3) == MDSAL_IS_OPEN && mdsal_domains(&it) == 2);
    mdsal_close(&it);
}

int main(void) {
    mdsal broker = {0};
    closed(&broker);
    leads(&broker);
    begins(&broker);
    mdsal_close(&broker);
    closed(&broker);
    follows();
    begins_as_in_the_script();
    puts("domains: ok");
    return 0;
}
