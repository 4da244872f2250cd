/* falkirk.h: dataflows with rollback recovery in a process of your own.

   A session is opened over the text of a flow. It takes the lines that `falkirk live` takes on standard input, and answers what that
   writes, byte for byte (docs/live.md). Its records are in memory, and end with it; those of one that lasts are told, and you keep them.

   What the caller owes, and nothing checks:
   - a falkirk_session begins as FALKIRK_NONE; these calls alone write it; no copy of it is used;
   - one call at a time has it. Between calls it may go to another thread, by whatever orders the two (a lock, a thread's start or join);
   - a pointer is never NULL, not even beside a length of 0; so many bytes are there; what a call writes was written before, if with
     zeros, and overlaps nothing else it has;
   - malloc, realloc and free are one allocator's, and align as C asks. No call comes from a signal handler, nor from the forked child
     of a process with threads;
   - records that are told are those of one session over the same text, as its writes left them, or of one over another text, or none.
   Any bytes may be in a text or a line: what is wrong with them is answered. */
#ifndef FALKIRK_H
#define FALKIRK_H

#include <stdbool.h>
#include <stddef.h>
#include <stdint.h>

#ifdef __cplusplus
extern "C" {
#endif

/* A session, or none. Whoever opens it closes it. */
typedef struct {
    void *at;
} falkirk_session;
#define FALKIRK_NONE { NULL }

/* Bytes that a session owns. */
typedef struct {
    const uint8_t *at;
    size_t len;
} falkirk_bytes;

/* What was done to the record of an id: these bytes were put there, which the session owns; or it was removed: then `len` is 0, and `at`
   is as it was. */
typedef struct {
    uint64_t id;
    bool put;
    const uint8_t *at;
    size_t len;
} falkirk_write;

/* what calls answer */
enum {
    FALKIRK_ANSWERED = 0,       /* done; behind a line its answer is there */
    FALKIRK_FLOW_REFUSED = 1,   /* the text of the flow breaks a rule (docs/refusals.md); the answer is `refused CODE line N`, then and ever after */
    FALKIRK_NO_MEMORY = 2,      /* memory was refused, and there is no answer; a session answers every further line so */
    FALKIRK_NO_SESSION = 3,     /* there is no session that does this: it was not opened, it was closed, or it is told no records */
    FALKIRK_RECORD_MISSING = 4, /* no session goes on: a record that it needs was not told; every further line is answered so */
    FALKIRK_RECORD_DAMAGED = 5, /* the same: a record is none of a session */
    FALKIRK_RECORDS_FOREIGN = 6 /* the same: the records are of a session over another text */
};

/* Opens a session over the text of a flow, which may go once this returns. With `rests` each line that is accepted ends with steps until
   none is enabled, as by `falkirk live FLOW auto`. ANSWERED: an empty answer. FLOW_REFUSED: there is a session, to be closed, and its
   answer says why. NO_MEMORY: `session` is as it was. A session that it held before is closed by the first two. */
uint32_t falkirk_open(falkirk_session *session, const uint8_t *flow, size_t flow_len, bool rests);

/* Answers one line, without its line feed: all from the first line feed on is left out. The line may go once this returns. The answer
   is some lines, of which the last begins with `done` or `refused`; a line that is refused changes nothing. */
uint32_t falkirk_line(falkirk_session *session, const uint8_t *line, size_t line_len);

/* Copies the last answer into `room`, if it fits there; else `room` keeps what it has. Answers how many bytes the answer has: 0 where
   there is no session or no answer. So ask, and where that is more than room_len ask again with more room. */
size_t falkirk_answer(falkirk_session *session, uint8_t *room, size_t room_len);

/* The last answer where it lies: the bytes are the session's, and stay until the next call that may change it, which is any but
   falkirk_answer, falkirk_writes and falkirk_write_bytes. They are not to be written. False where there is no session; `out` is as it was. */
bool falkirk_answer_at(falkirk_session *session, falkirk_bytes *out);

/* Closes the session, if there is one, and frees all that it had. `session` is FALKIRK_NONE behind it. */
void falkirk_close(falkirk_session *session);

/* ---- A session that lasts. Gather; tell what you kept, or nothing; open. Behind that, and behind each line, before you tell its answer,
   do its writes to what you keep, in their order, and bring them to the disk. Among them is one root, under one of the two last ids. Some
   writes may be told twice: done again they change nothing. To lose nothing where you may be ended between two writes, keep all of a line
   or none of it (examples/from_c/kept.c). That no other record was changed than these writes tell is tried, and no proof says it
   (docs/embedding.md). Of records that no session told nothing is said but that they do no harm. */

/* Begins to be told records; none was told. A session that was held is closed. NO_MEMORY: `session` is as it was. */
uint32_t falkirk_gather(falkirk_session *session);

/* Tells that these bytes are under an id, in place of what was; or that nothing is there. NO_MEMORY: what was told stays. The bytes may go. */
uint32_t falkirk_put(falkirk_session *session, uint64_t id, const uint8_t *bytes, size_t len);
uint32_t falkirk_remove(falkirk_session *session, uint64_t id);

/* Opens a session that lasts over the text of a flow. Where records were told it goes on from there, as behind a failure of every node and
   their recovery (docs/live.md, "After a kill"). Its answer is what the last line that was kept showed; the line `show` tells how many
   batches came. No other answer but ANSWERED leaves a session that answers lines; it is to be closed. */
uint32_t falkirk_open_from(falkirk_session *session, const uint8_t *flow, size_t flow_len, bool rests);

/* The write of this place, from 0: at least those of the last line that was accepted, in order. False behind the last one, and where the
   session does not last; `out` is as it was. Its bytes stay as those of falkirk_answer_at do. */
bool falkirk_writes(falkirk_session *session, size_t place, falkirk_write *out);

/* Copies the bytes of the write of this place into `room`, as falkirk_answer does. */
size_t falkirk_write_bytes(falkirk_session *session, size_t place, uint8_t *room, size_t room_len);

#ifdef __cplusplus
}
#endif

#endif
