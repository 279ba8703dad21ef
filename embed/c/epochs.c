/*
** A broker that goes on over epochs and restarts: the commits of both its domains are frames in two files, and it begins with what these have.
**
**   epochs SCRIPT FILE CALLS EPOCH
**
** It makes shared calls until this many commits' calls were made since the first start: each transaction counts one more, in `total` and in one of
** 1,000 cells, and is three shared calls. After each 100 of them the mounted device counts one more in its own domain, and the new frames are appended
** to FILE and to FILE.1, which has those of the device. Then `written NUMBER NUMBER` is printed: what is written is not lost, whenever the process is
** killed. After EPOCH shared calls the next epoch begins, the device is mounted again, and each file begins anew with one frame that has all rows.
*/
#define _POSIX_C_SOURCE 200809L
#include "mdsal.h"

#include <inttypes.h>
#include <stdio.h>
#include <stdlib.h>
#include <string.h>
#include <unistd.h>

#define TOTAL "/counters:counters/total"
#define PACKETS "/port:packets"
#define EACH 100
#define DOMAINS 2

static uint8_t *text; /* what the broker answered last */
static size_t room;

static void fail(const char *what, uint32_t status) {
    fprintf(stderr, "epochs: %s: status %u\n", what, status);
    exit(1);
}

/* Checks the status of a call, copies its text, and returns the length. */
static size_t reply(mdsal *handle, const char *what, uint32_t status) {
    if (status != MDSAL_OK) {
        fail(what, status);
    }
    size_t length = mdsal_reply(handle, text, room);
    if (length >= room) {
        room = 2 * length;
        text = realloc(text, room);
        if (text == NULL) {
            fail("no memory", MDSAL_NO_MEMORY);
        }
        length = mdsal_reply(handle, text, room);
    }
    text[length] = '\0';
    return length;
}

static void step(mdsal *broker, const char *bytes, const char *wanted) {
    size_t length = reply(broker, bytes, mdsal_step(broker, 0, (const uint8_t *)bytes, strlen(bytes)));
    if (length < strlen(wanted) || memcmp(text, wanted, strlen(wanted)) != 0) {
        fail(bytes, MDSAL_OK);
    }
}

/* Commits one more. */
static void count(mdsal *broker, uint64_t n) {
    char put[200];
    step(broker, "[\"begin\",0,0,\"rw\"]", "begun ");
    snprintf(put, sizeof put, "[\"put\",0,\"config\",\"" TOTAL "\",%" PRIu64 "]", n);
    step(broker, put, "ok");
    snprintf(put, sizeof put, "[\"put\",0,\"config\",\"/counters:counters/cell[k='%" PRIu64 "']\",{\"k\":%" PRIu64 ",\"v\":%" PRIu64 "}]", n % 1000, n % 1000, n);
    step(broker, put, "ok");
    step(broker, "[\"submit\",0]", "receipt ");
    step(broker, "[\"settle\",0]", "done ");
}

/* Commits one more to the device. */
static void count_packets(mdsal *broker, uint64_t n) {
    char put[200];
    step(broker, "[\"begin\",0,1,\"rw\"]", "begun ");
    snprintf(put, sizeof put, "[\"put\",0,\"operational\",\"" PACKETS "\",%" PRIu64 "]", n);
    step(broker, put, "ok");
    step(broker, "[\"submit\",0]", "receipt ");
    step(broker, "[\"settle\",0]", "done ");
}

static void mount(mdsal *broker) {
    step(broker, "[\"mount\",1,\"/counters:counters\"]", "ok");
}

static uint8_t *read_file(const char *path, size_t *length) {
    FILE *file = fopen(path, "rb");
    *length = 0;
    if (!file) {
        return NULL;
    }
    long size = fseek(file, 0, SEEK_END) == 0 ? ftell(file) : -1;
    uint8_t *bytes = size < 0 ? NULL : malloc((size_t)size + 1);
    rewind(file);
    if (bytes) {
        *length = fread(bytes, 1, (size_t)size, file);
        bytes[*length] = '\0';
    }
    fclose(file);
    return bytes;
}

static void write_file(const char *path, const char *how, size_t length) {
    FILE *file = fopen(path, how);
    if (!file || fwrite(text, 1, length, file) != length || fflush(file) != 0 || fsync(fileno(file)) != 0 || fclose(file) != 0) {
        fail(path, MDSAL_OK);
    }
}

/* The file of a domain's frames: FILE, or FILE.1 of the device. */
static const char *file_of(const char *path, uint32_t domain) {
    static char name[4096];
    snprintf(name, sizeof name, domain ? "%s.%u" : "%s", path, domain);
    return name;
}

/* Makes the file anew, with one frame. Until it is renamed, the old one counts. */
static void begin_file(mdsal *broker, const char *path, uint32_t domain) {
    char made[4096 + 4];
    snprintf(made, sizeof made, "%s.new", file_of(path, domain));
    write_file(made, "wb", reply(broker, "snapshot", mdsal_snapshot_of(broker, domain)));
    if (rename(made, file_of(path, domain)) != 0) {
        fail(made, MDSAL_OK);
    }
}

/* The length of all whole frames. */
static size_t whole_frames(const uint8_t *bytes, size_t length) {
    size_t at = 0;
    unsigned frame;
    while (at + 9 <= length && sscanf((const char *)bytes + at, "%8u", &frame) == 1 && at + frame + 10 <= length) {
        at += frame + 10;
    }
    return at;
}

/* The frames of a file, and the number of the first one. */
struct stream {
    uint8_t *frames;
    size_t length;
    uint64_t first;
};

/* Reads the whole frames of a file, which loses one that was not finished. */
static struct stream kept(const char *name) {
    struct stream it = {0};
    size_t length;
    it.frames = read_file(name, &length);
    it.length = whole_frames(it.frames, length);
    if (it.length < length && truncate(name, (off_t)it.length) != 0) {
        fail(name, MDSAL_OK);
    }
    if (it.length > 0 && sscanf((const char *)it.frames, "%*8u {\"commit\":%" SCNu64, &it.first) != 1) {
        fail(name, MDSAL_OK);
    }
    return it;
}

/* A broker that goes on with these streams. */
static void lead(mdsal *broker, const uint8_t *script, size_t length, const struct stream *streams) {
    uint64_t firsts[DOMAINS] = {streams[0].first, streams[1].first};
    reply(broker, "follow", mdsal_follow_of(broker, script, length, firsts, DOMAINS));
    for (uint32_t domain = 0; domain < DOMAINS; domain++) {
        reply(broker, "feed", mdsal_feed_of(broker, domain, streams[domain].length ? streams[domain].frames : script, streams[domain].length));
    }
    reply(broker, "lead", mdsal_lead(broker, 0));
}

/* Opens the broker that goes on with the files, or a new one with new files. The device is mounted. */
static void start(mdsal *broker, const char *script, const char *path) {
    size_t length;
    uint8_t *bytes = read_file(script, &length);
    if (!bytes) {
        fail(script, MDSAL_OK);
    }
    struct stream streams[DOMAINS] = {kept(file_of(path, 0)), kept(file_of(path, 1))};
    int is_new = streams[0].length == 0;
    if (is_new) {
        reply(broker, "open", mdsal_open(broker, bytes, length));
    } else {
        lead(broker, bytes, length, streams);
    }
    for (uint32_t domain = 0; domain < DOMAINS; domain++) {
        if (is_new || streams[domain].length == 0) {
            begin_file(broker, path, domain);
        }
        free(streams[domain].frames);
    }
    free(bytes);
    mount(broker);
}

/* The memory of this process, in kilobytes. */
static long resident(void) {
    long pages = 0;
    FILE *file = fopen("/proc/self/statm", "r");
    if (!file || fscanf(file, "%*d %ld", &pages) != 1 || fclose(file) != 0) {
        fail("/proc/self/statm", MDSAL_OK);
    }
    return pages * sysconf(_SC_PAGESIZE) / 1024;
}

/* Appends the frames above these numbers, which become the newest ones. */
static void append(mdsal *broker, const char *path, uint64_t *sent) {
    for (uint32_t domain = 0; domain < DOMAINS; domain++) {
        write_file(file_of(path, domain), "ab", reply(broker, "frames", mdsal_frames_of(broker, domain, sent[domain])));
        sent[domain] = mdsal_number_of(broker, domain);
    }
}

/* The next epoch: the files begin anew, and the device is mounted. */
static void begin_epoch(mdsal *broker, const char *path, const uint64_t *sent) {
    reply(broker, "epoch", mdsal_epoch_of(broker, sent, DOMAINS));
    for (uint32_t domain = 0; domain < DOMAINS; domain++) {
        begin_file(broker, path, domain);
    }
    mount(broker);
    printf("epoch at %" PRIu64 ", %ld KB\n", sent[0], resident());
}

/* What a domain has counted. */
static uint64_t total(mdsal *broker, uint32_t domain, uint32_t store, const char *path) {
    uint64_t counted = 0;
    reply(broker, "look", mdsal_look_of(broker, domain, store, (const uint8_t *)path, strlen(path)));
    sscanf((const char *)text, "data %" SCNu64, &counted);
    return counted;
}

static void run(mdsal *broker, const char *path, uint64_t calls, size_t epoch) {
    uint64_t sent[DOMAINS] = {mdsal_number_of(broker, 0), mdsal_number_of(broker, 1)};
    size_t left = mdsal_left(broker);
    printf("begins at %" PRIu64 " %" PRIu64 "\n", sent[0], sent[1]);
    while (3 * sent[0] < calls) {
        for (uint64_t n = sent[0] + 1, last = sent[0] + EACH; n <= last; n++) {
            count(broker, n);
        }
        count_packets(broker, sent[1] + 1);
        append(broker, path, sent);
        printf("written %" PRIu64 " %" PRIu64 "\n", sent[0], sent[1]);
        if (left - mdsal_left(broker) >= epoch) {
            begin_epoch(broker, path, sent);
        }
    }
    printf("total %" PRIu64 " %" PRIu64, total(broker, 0, 0, TOTAL), total(broker, 1, 1, PACKETS));
    printf(" at %" PRIu64 " %" PRIu64 ", %ld KB\n", sent[0], sent[1], resident());
}

int main(int argc, char **argv) {
    mdsal broker = {0};
    room = 65536;
    text = malloc(room);
    if (argc != 5 || text == NULL) {
        fprintf(stderr, "usage: epochs SCRIPT FILE CALLS EPOCH\n");
        return 2;
    }
    setvbuf(stdout, NULL, _IOLBF, 0);
    start(&broker, argv[1], argv[2]);
    run(&broker, argv[2], strtoull(argv[3], NULL, 10), strtoull(argv[4], NULL, 10));
    mdsal_close(&broker);
    free(text);
    return 0;
}
