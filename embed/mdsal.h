/*
** mdsal.h: the data broker as a C library, libmdsal.a.
**
** A program opens a broker from the text of a script (docs/FORMATS.md, "Scripts") without clients and without an order. Then it makes
** one step of one client at a time, in the format of a script's steps, and gets the reply as text. The library uses no threads, no files,
** no sockets and no global state.
**
**     mdsal broker = {0};
**     if (mdsal_open(&broker, script, script_len) != MDSAL_OK) ...        mdsal_reply has the reason
**     mdsal_step(&broker, 0, (const uint8_t *)"[\"begin\",0,0,\"rw\"]", 18);
**     n = mdsal_reply(&broker, out, sizeof out);                          "begun 0"
**     mdsal_close(&broker);
**
** Each commit of a domain is a frame (docs/FORMATS.md, "Frames"), which the program may keep in a file or send. A stand-by takes such frames, and
** can become the broker: after a restart, or when another process has failed. An epoch begins anew with an empty log, so a broker may run without
** end. Domain 0 is the controller's own; a script with devices has a stream for each of them too, by the calls whose names end in _of.
**
**     mdsal_frames(&broker, sent), n = mdsal_reply(&broker, out, sizeof out);    the frames above the number `sent`: append them to a file
**     mdsal_epoch(&broker, mdsal_number(&broker));                                if all frames are in the file
**     mdsal_follow(&standby, script, script_len, first);                          after a restart: feed what the file has, and lead
**     mdsal_feed(&standby, bytes, n), mdsal_lead(&standby, version);
**
** docs/EMBEDDING.md says which properties of the results are proved and which are only tested. The duties of a caller, below, are not checked.
**
** DUTIES OF A CALLER, at each call
**
**   - The handle was initialized to zeros, and only these functions wrote to it. It may be moved, but no two copies of it may be used.
**   - One call at a time on one handle. The calls may be made by different threads if a lock, or a thread's start or join, orders them;
**     hold the lock from a step until its reply is copied. Different handles are independent.
**   - No pointer is null, even if its length is 0; each is valid for its length; and `out` overlaps neither the handle nor the
**     broker's memory.
**   - malloc, realloc and free belong to one allocator. No call is made from a signal handler, nor in the child process after a fork of
**     a process with several threads.
**   - The stack is large enough: 1 MB was enough for every case of the test corpus.
**
** A handle of zeros, a closed handle, and one whose open failed all count as closed: each function may be called on it.
*/
#ifndef MDSAL_H
#define MDSAL_H

#include <stdbool.h>
#include <stddef.h>
#include <stdint.h>

#ifdef __cplusplus
extern "C" {
#endif

#define MDSAL_VERSION "0.1.0"

/*
** A broker or a stand-by, and the text of its last call. Initialize it to zeros, which is a closed handle: `mdsal broker = {0};`. The fields are private.
*/
typedef struct mdsal {
    bool full;
    void *at;
} mdsal;

/*
** Client numbers are below this. A client exists from its first step on. The broker has about 300 bytes for each number up to the
** greatest one that was used, so use small numbers.
*/
#define MDSAL_CLIENTS 65536

/*
** Statuses. Those below 21 equal the exit statuses of the command.
*/
enum {
    MDSAL_OK = 0,           /* done; mdsal_reply has the text */
    MDSAL_BAD_SCRIPT = 6,   /* open: the bytes are not a script, or it has clients or an order; the text names the place */
    MDSAL_BAD_SCHEMA = 7,   /* open: the modules do not give a schema; the text has the first fault */
    MDSAL_BAD_OPENING = 8,  /* open: an opening tree is not data of the schema, or breaks a rule; the text has the first fault */
    MDSAL_NO_MEMORY = 10,   /* memory ran out; see each function */
    MDSAL_BAD_STREAM = 12,  /* feed: the bytes are not the next frames; the text names the fault */
    MDSAL_BAD_EXPORT = 13,  /* frames, snapshot: the text of a frame has more than 16,777,216 bytes; the text has its number */
    MDSAL_NOT_OPEN = 21,    /* the handle has neither a broker nor a stand-by */
    MDSAL_IS_OPEN = 22,     /* open, follow: the handle has one already, which stays; feed, lead: it has a broker */
    MDSAL_BAD_STEP = 23,    /* step: the bytes are not a step; look: they are not UTF-8, or there is no such store */
    MDSAL_BAD_CLIENT = 24,  /* step: the client's number is MDSAL_CLIENTS or more */
    MDSAL_FULL = 25,        /* step: the log has 1,000,000 shared calls, and the step needs one more */
    MDSAL_LOST = 26,        /* step: memory ran out in an earlier step of this client, and it can make no more steps */
    MDSAL_UNTOLD = 27,      /* step: it was made, but memory ran out for the text of its reply; mdsal_report has it */
    MDSAL_BROKEN = 28,      /* step: memory ran out after a call was added to the log; the broker is closed */
    MDSAL_IS_STANDBY = 29,  /* step, report, frames, epoch: the handle has a stand-by */
    MDSAL_GONE = 30,        /* frames: the broker does not keep commits of numbers that low; they belong to an earlier epoch */
    MDSAL_PENDING = 31,     /* epoch: a submission is not decided */
    MDSAL_NOT_NEWEST = 32,  /* epoch: the newest commit has another number */
    MDSAL_EMPTY = 33,       /* lead, look, snapshot: the stand-by has no frame yet */
    MDSAL_BAD_VERSION = 34, /* lead: the script has no such version, or the trees are not trees of it */
    MDSAL_BAD_DOMAIN = 35   /* frames_of, snapshot_of, look_of, feed_of: the script has no domain of this number */
};

/*
** Opens a broker from the bytes of a script without `clients` and `order`: its modules, opening trees, devices, upgrades and version rules.
**
**   MDSAL_OK            The broker is open, before any step. The text is empty.
**   MDSAL_BAD_SCRIPT, MDSAL_BAD_SCHEMA, MDSAL_BAD_OPENING
**                       No broker is open. The text is the line of the command's status, for example
**                       "bad schema 0 module 0 unclosed 9", with a line feed at its end.
**   MDSAL_NO_MEMORY     No broker is open. The text is empty, or "no memory".
**   MDSAL_IS_OPEN       Nothing was changed, and the text is the same as before.
**
** A handle whose open failed must be closed too, since it may own a text.
*/
uint32_t mdsal_open(mdsal *handle, const uint8_t *script, size_t length);

/*
** Makes the next step of a client: JSON in the format of a script's step, for example ["put",0,"config","/plain:box/a","x"].
**
**   MDSAL_OK            The step was made. The text is its reply, as in a line of a report: "begun 0", "ok", "receipt 1",
**                       "conflict config "/plain:box/a" changed 1". A refused step was made too: its text starts with "refused".
**   MDSAL_BAD_STEP, MDSAL_BAD_CLIENT, MDSAL_FULL, MDSAL_LOST, MDSAL_NOT_OPEN
**                       Nothing was changed except the text, which is empty. A full broker still makes the steps that need no shared
**                       call: put, merge, delete, read, exists, mirror, and every step that is refused without a shared call.
**   MDSAL_NO_MEMORY     The step was not made. The client may be lost: then its later steps return MDSAL_LOST, its open transactions
**                       are never submitted, and its earlier submissions stay. Other clients and the report are unchanged.
**   MDSAL_UNTOLD        The step was made. The text is empty; the report has the reply.
**   MDSAL_BROKEN        A shared call was added to the log, but its answer could not be stored. No broker is open.
*/
uint32_t mdsal_step(mdsal *handle, uint32_t client, const uint8_t *step, size_t length);

/*
** Copies the text of the last call that has one to `out`, at most `room` bytes, and returns the whole length of the text. Bytes of
** `out` after the copy are not written. If `room` was too small, call it again: nothing changes. The text is UTF-8, without a zero at the
** end. A handle without a text returns 0.
*/
size_t mdsal_reply(mdsal *handle, uint8_t *out, size_t room);

/*
** Makes the report of all steps so far: the order of the shared calls, a line for each step, and the trees. It is the output of
** `mdsal sim` for the script with each client's steps so far as its program and the client of each shared call so far as its order, if
** these are within the limits of a script (at most 16 clients with 60,000 steps each).
**
**   MDSAL_OK            The text is the report.
**   MDSAL_NO_MEMORY, MDSAL_NOT_OPEN
**                       Nothing was changed except the text, which is empty.
*/
uint32_t mdsal_report(mdsal *handle);

/*
** Makes a text of frames: those of the commits of the controller's own domain with numbers above `above`, in order, none if there are none.
** Numbers of frames go on over epochs, and from a leader to the stand-by that follows it; the numbers in replies begin again.
**
**   MDSAL_OK            The text is the frames. If there is a frame for each number from `above` + 1 on, the stream has no gap.
**   MDSAL_GONE          `above` is below the number of the commit that this epoch began with.
**   MDSAL_BAD_EXPORT    The text is the line "bad export NUMBER" of the first commit whose frame is too long, with a line feed; no frame is given.
**   MDSAL_NO_MEMORY, MDSAL_NOT_OPEN, MDSAL_IS_STANDBY
**                       The text is empty.
**
** The broker is unchanged in each case.
*/
uint32_t mdsal_frames(mdsal *handle, uint64_t above);

/*
** Makes a text of one frame: that of the newest commit of a broker, or of a stand-by's last frame, with all rows. A stream may begin with it.
**
**   MDSAL_OK, MDSAL_BAD_EXPORT, MDSAL_NO_MEMORY, MDSAL_NOT_OPEN    as for mdsal_frames
**   MDSAL_EMPTY                                                    the stand-by has no frame yet
*/
uint32_t mdsal_snapshot(mdsal *handle);

/*
** Begins the next epoch of a broker, if no submission is pending and `newest` is the number of the newest commit: then the caller has its frame.
** It has the newest trees of all domains, and the log and the report are empty. What clients had ends: transactions, receipts, chains, listeners, providers,
** subscriptions, mounts, marks. It takes no memory.
**
**   MDSAL_OK            The next epoch began.
**   MDSAL_PENDING       A submission is not decided: settle or pump, and try again.
**   MDSAL_NOT_NEWEST    The newest commit has another number: take its frames, and try again.
**   MDSAL_NOT_OPEN, MDSAL_IS_STANDBY
**
** Nothing but the text, which is empty, is changed by a refusal.
*/
uint32_t mdsal_epoch(mdsal *handle, uint64_t newest);

/*
** Opens a stand-by of the broker of a script: it takes a stream of frames that begins with the frame of the number `first`, in which all rows are: the
** text of mdsal_snapshot at any time, also directly after mdsal_open, with the number 0. The statuses are those of mdsal_open; the opening trees of
** the script are not read. The script must be that of the broker that made the frames.
*/
uint32_t mdsal_follow(mdsal *handle, const uint8_t *script, size_t length, uint64_t first);

/*
** Feeds a stand-by with the next bytes of its stream, cut anywhere.
**
**   MDSAL_OK            They were taken; an unfinished frame waits for its end.
**   MDSAL_BAD_STREAM    The text is the line of the stream's first fault, with a line feed: "bad stream bad-frame AT", the bytes of the stream
**                       from AT on are no frame; "bad stream gap WANT GOT", a frame has another number than the next. The stand-by has its last
**                       good frame, and answers so from then on; it may still lead.
**   MDSAL_NO_MEMORY     Nothing of the bytes was taken.
**   MDSAL_NOT_OPEN, MDSAL_IS_OPEN
*/
uint32_t mdsal_feed(mdsal *handle, const uint8_t *bytes, size_t length);

/*
** Makes a stand-by the broker, by this version of the schema, as the script counts: mdsal_version of the broker that made the last frame. Its
** domains begin with the stand-by's trees, and frame numbers go on. An unfinished frame is left out. A device whose stream had no frame begins as the
** script has it, with the number 0. All devices are unmounted: a mount is a call, and the log is empty. Once it is mounted, a device has its trees.
**
**   MDSAL_OK            The handle has the broker, before any step.
**   MDSAL_EMPTY         There is no frame of domain 0 yet.
**   MDSAL_BAD_VERSION   The script has no such version, or the trees of a domain do not fit it.
**   MDSAL_NOT_OPEN, MDSAL_IS_OPEN
**                       In each of these cases nothing but the text, which is empty, is changed: the stand-by stays.
**   MDSAL_BAD_OPENING, MDSAL_NO_MEMORY
**                       The same, and the text is the line of the command's status, if memory did not run out for it.
*/
uint32_t mdsal_lead(mdsal *handle, uint32_t version);

/*
** Makes the text of a read in the newest tree of the controller's own domain, of a broker or a stand-by: "data JSON", "absent" or "refused path
** FAULT". Store 0 is the configuration, 1 the operational one. It is no step: it adds nothing to the log or the report, so a program may look as
** often as it likes.
**
**   MDSAL_OK, MDSAL_BAD_STEP, MDSAL_EMPTY, MDSAL_NO_MEMORY, MDSAL_NOT_OPEN    nothing but the text is changed
*/
uint32_t mdsal_look(mdsal *handle, uint32_t store, const uint8_t *path, size_t length);

/*
** The number of a broker's newest commit, or of a stand-by's last frame; 0 if there is none. The text stays.
*/
uint64_t mdsal_number(mdsal *handle);

/*
** The present version of a broker's schema, as the script counts: keep it beside the frames, for the next mdsal_lead. Else 0. The text stays.
*/
uint32_t mdsal_version(mdsal *handle);

/*
** How many shared calls a broker's log has room for: at 0, steps answer MDSAL_FULL, and a new epoch is due. Else 0. The text stays.
*/
size_t mdsal_left(mdsal *handle);

/*
** What waits for a client of a broker, as the sum of these. `slot` is the number of a slot, as in the client's steps. Each bit is set if and only if the
** step would give something now:
*/
#define MDSAL_REQUEST 1u  /* ["next-call",slot] would give a request */
#define MDSAL_NOTES 2u    /* ["take-notes"] would give a notification */
#define MDSAL_ANSWER 4u   /* ["collect",slot] would give the answer to the request in the slot */
#define MDSAL_DECIDED 8u  /* the submission whose receipt is in the slot is decided: ["settle",slot] would give its outcome, and decide nothing */
#define MDSAL_CHANGES 16u /* the batch of ["take",slot] would go beyond the one before: its domain has commits, which may have no change at its path */

/*
** It is no step: it adds nothing to the log or the report, takes no memory, and the text stays. So a program may poll as often as it likes. It is 0 if
** there is no broker, for a lost client, and for MDSAL_CLIENTS or more.
*/
uint32_t mdsal_waits(mdsal *handle, uint32_t client, uint8_t slot);

/*
** The same calls for any domain: 0 is the controller's own, and the devices have the numbers from 1 on, as in the script. Each domain has a stream
** with numbers of its own. A call of domain 0 does what the call without _of does.
**
**   mdsal_frames_of, mdsal_snapshot_of, mdsal_look_of, mdsal_feed_of
**                       As mdsal_frames, mdsal_snapshot, mdsal_look, mdsal_feed, for one domain.
**   MDSAL_BAD_DOMAIN    There is no domain of this number. Nothing but the text, which is empty, is changed.
**   mdsal_number_of     The number of the domain's newest commit or last frame; 0 if there is none. The text stays.
*/
uint32_t mdsal_frames_of(mdsal *handle, uint32_t domain, uint64_t above);
uint32_t mdsal_snapshot_of(mdsal *handle, uint32_t domain);
uint32_t mdsal_look_of(mdsal *handle, uint32_t domain, uint32_t store, const uint8_t *path, size_t length);
uint32_t mdsal_feed_of(mdsal *handle, uint32_t domain, const uint8_t *bytes, size_t length);
uint64_t mdsal_number_of(mdsal *handle, uint32_t domain);

/*
** Begins the next epoch as mdsal_epoch, by the numbers of the newest commits of the first `count` domains, domain 0 first: a program that keeps the
** frames of devices gives the numbers of all domains, and loses none of their commits. What a domain without a number here committed since the last
** frame that was taken is in its next snapshot alone: mdsal_frames_of cannot give it any more.
**
**   MDSAL_NOT_NEWEST    One of the commits has another number, or there are more numbers than domains.
*/
uint32_t mdsal_epoch_of(mdsal *handle, const uint64_t *newest, size_t count);

/*
** Opens a stand-by as mdsal_follow, with the numbers of the first frames of the first `count` domains, domain 0 first: the stream of a domain without a
** number here begins with the number 0. A domain may stay without a frame (see mdsal_lead), but for domain 0.
*/
uint32_t mdsal_follow_of(mdsal *handle, const uint8_t *script, size_t length, const uint64_t *firsts, size_t count);

/*
** How many domains the script of a broker or a stand-by has, with domain 0; else 0. The text stays.
*/
size_t mdsal_domains(mdsal *handle);

/*
** Frees the broker or the stand-by, and the text. The handle is zeros again, and may be opened again. On a closed handle it does nothing.
*/
void mdsal_close(mdsal *handle);

#ifdef __cplusplus
}
#endif

#endif
