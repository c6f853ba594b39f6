/*
 * The trail: it takes event files in, answers backward and forward traces, and writes the kept log.
 *
 * The caller keeps everything: the counts, three tables and the buffers. A slice is passed as a pointer and a length in
 * elements, the pointer aligned for them and valid for that many, each with some value. A slice that a call writes overlaps
 * nothing else that the call is lent, and nothing else reads or writes it until the call returns; nothing else writes a slice
 * that it only reads. Where the length is 0, nothing is read or written through the pointer, which may be null. No call keeps a
 * pointer, allocates memory or touches anything else, and no call fails to return.
 *
 * Link with libtrail.a, which asks of the C library only memset; the calls follow the C calling convention of x86-64 Linux.
 * SLT_.._STACK below says how much stack each call needs.
 */
#ifndef TRAIL_H
#define TRAIL_H

#include <stddef.h>
#include <stdint.h>

#ifdef __cplusplus
extern "C" {
#endif

/* The version of the library. That of an event file is another number, which stands in its header. */
#define SLT_VERSION "0.1.0"

/*
 * The tables hold rows of 32-bit numbers, one row after the other, numbered from 0:
 *
 *   entity   sort (of slt_sort), latest version
 *   version  entity, start, end, previous version (SLT_NONE for none)
 *   edge     from version, to version, kind (of slt_kind, SLT_READ to SLT_EXECVE), time, count, last
 *
 * An edge stands for the event that was kept as it, at its time, and for those that repeat it: the count says how many these are,
 * and last is the time of the last one. The counts of all edges add up to the events accepted.
 *
 * A signed object counts as an object, but no event goes into it any more. Events out of it go on, and traces are as without the
 * signature.
 *
 * A table's capacity is its whole rows, at most SLT_MOST_.. of them; numbers past that are neither read nor written.
 *
 * Time is in hundredths of a second since the trail began; that of an event is at least 1. Events may have equal times: among these
 * the order in which they are taken in decides, so an event never follows, on a causal path, one that was taken in after it.
 */
#define SLT_ENTITY_WIDTH 2
#define SLT_VERSION_WIDTH 4
#define SLT_EDGE_WIDTH 6

#define SLT_MOST_ENTITIES 4096
#define SLT_MOST_VERSIONS 65536
#define SLT_MOST_EDGES 262144
#define SLT_MOST_ACCEPTED 1000000

#define SLT_NONE UINT32_C(0xFFFFFFFF)

enum slt_sort {
    SLT_OBJECT = 0,
    SLT_SUBJECT = 1,
    SLT_SIGNED_OBJECT = 2 /* in entity rows alone: an object is declared with sort 0, and signed by a signature */
};

/*
 * An event file has a header of 8 bytes, in bytes 3-4 its version, and records of 12, in byte 0 their kind: declarations, events
 * (SLT_READ to SLT_EXECVE) and, in files of version 2 alone, signatures. A signature has the number of the object that it signs in
 * bytes 2-3, and 0 in the bytes after these and in byte 1. Declarations and events are the same in files of version 1 and 2.
 * Numbers are little-endian.
 */
#define SLT_HEADER_LENGTH 8
#define SLT_RECORD_LENGTH 12

enum slt_kind {
    SLT_DECLARATION = 0,
    SLT_READ = 1,
    SLT_WRITE = 2,
    SLT_LOAD = 3,
    SLT_FORK = 4,
    SLT_EXECVE = 5,
    SLT_SIGNATURE = 6
};

/*
 * How many bytes of stack a thread needs that only makes the call, whatever it is lent, refused or not. Most of it is local
 * arrays of a fixed length: 1,589,248 bytes in slt_batch for the index of the edges, 135,168 in the other calls for the test of
 * the tables. Some 16,000 are for what the C library has on the thread's stack; frames and thread-local variables of the
 * caller come on top. On a thread with less a call ends in a fault at the guard page. c/stack.c makes each call with just this.
 */
#define SLT_BATCH_STACK 1610000
#define SLT_TRACE_STACK 160000
#define SLT_LOG_STACK 160000

/*
 * How many rows of each table are in use, how many events were accepted, and the time of the last one. All five 0 is a fresh
 * trail, whatever the tables hold. Rows past the counts mean nothing and are not written, except those that a record adds. A
 * signature is no event: it changes none of the five.
 */
typedef struct slt_counts {
    uint32_t entities;
    uint32_t versions;
    uint32_t edges;
    uint32_t accepted;
    uint32_t last;
} slt_counts;

/*
 * Why a call refused: the first of its conditions, in the order given with each call, that holds. slt_refusal_text has them in
 * words; here stands what it leaves out.
 */
enum slt_refusal {
    SLT_NOT_REFUSED = 0,
    /* because of the input */
    SLT_NOT_EVENT_FILE = 1,    /* under 8 bytes, or the mark "SLT" or the three zero bytes of the header differ */
    SLT_WRONG_VERSION = 2,
    SLT_CUT_SHORT = 3,         /* 1 to 11 bytes remain */
    SLT_BAD_FIELD = 4,         /* kind above 5 (in version 2 files above 6), declared sort above 1, or a zero field that is not 0 */
    SLT_UNDECLARED = 5,
    SLT_NOT_NEXT = 6,
    SLT_SOURCE_IS_TARGET = 7,
    SLT_WRONG_SORT = 8,
    SLT_TOO_EARLY = 9,
    /* because of the state */
    SLT_ENTITIES_FULL = 10,
    SLT_VERSIONS_FULL = 11,    /* where one is to be made */
    SLT_EDGES_FULL = 12,       /* where one is to be kept */
    SLT_ACCEPTED_FULL = 13,    /* SLT_MOST_ACCEPTED of them */
    SLT_BUFFER_SHORT = 14,
    SLT_OUTPUT_SHORT = 15,
    SLT_UNSOUND = 16,          /* crates/rules/specs/Sound.antt */
    /* because of a signature */
    SLT_SIGNED = 17
};

/* The reasons in words, each at its number. */
static const char *const slt_refusal_text[] = {
    "not refused",
    "not an event file",
    "an event file of a version that is neither 1 nor 2",
    "the file ends inside a record",
    "a field of the record has a value that it may not have",
    "an entity is not declared",
    "the declared number is not the next",
    "source equals target",
    "source or target of a sort that the kind does not allow, or a signature of a subject",
    "time 0, or earlier than the last accepted time",
    "no entity row left",
    "no version row left",
    "no edge row left",
    "as many events are accepted as there may be",
    "the work buffer is shorter than the versions, or the mark buffer than the entities",
    "the output is shorter than the kept log",
    "the counts and tables are not sound",
    "an event into a signed object, or a second signature of it"
};

/* `refusal` is one of slt_refusal in each answer. */

/*
 * How many records the batch took in, and how many edges a search for repeats that begins at the newest edge and stops at the
 * first hit tries for them: for each read, write and load taken in, the edges from the newest to the one that makes it a repeat,
 * that one counted, or all edges in use if none does; for other records none. It depends on what the call is lent and on nothing
 * else. The library finds the edge by an index, so `tried` does not measure its work: it says what a search without an index
 * would cost. A repeat adds how far back its edge lies, an event that is kept adds all edges in use. So in a batch that keeps no
 * edge, `tried` divided by its events is the mean distance, 1 if each event repeats the newest edge.
 */
typedef struct slt_batch_answer {
    uint32_t refusal;
    uint32_t taken;
    uint64_t tried;
} slt_batch_answer;

/* How many entities are marked. */
typedef struct slt_backward_answer {
    uint32_t refusal;
    uint32_t count;
} slt_backward_answer;

/* How many entities are marked, and the intake. */
typedef struct slt_forward_answer {
    uint32_t refusal;
    uint32_t count;
    uint32_t intake;
} slt_forward_answer;

/* How many bytes the kept log has. */
typedef struct slt_log_answer {
    uint32_t refusal;
    uint32_t length;
} slt_log_answer;

/*
 * Takes the records of an event file in, in order until the first one refused. A read, write or load that repeats what an edge from
 * its source's latest version gave its target keeps no edge: it adds one to the count of the newest such edge and sets its last time.
 * A signature makes an object a signed one, and changes nothing but its sort. From then on every event into it is refused, one that
 * would be a repeat too, in files of both versions.
 *
 * Refused with 16, 1, 2, then at each record with 3, 4; a declaration with 6, 10, 11; an event with 5, 7, 8, 17, 9, 13, 12, 11; a
 * signature with 5, 8, 17. Refused with 16, 1 or 2 it takes nothing in, tries no edge and writes nothing. Refused at a record, it
 * leaves the counts and the tables as the records before that one made them; `taken` says how many they are, and `tried` is for
 * them. Not refused, it has taken all of them in.
 */
slt_batch_answer slt_batch(
    slt_counts *counts,
    uint32_t *entities, size_t entities_length,
    uint32_t *versions, size_t versions_length,
    uint32_t *edges, size_t edges_length,
    const uint8_t *file, size_t file_length);

/*
 * The backward trace of an entity at a time. In a trail that batches grew from a fresh one, the marked entities are those with a
 * causal path to it by then, itself among them: a chain of accepted events up to that time, that time included, each accepted after
 * the one before and starting where it ended.
 *
 * Refused with 16, 5, 14; then the count is 0 and nothing is written. Not refused, `work` gets 1 or 0 for each version, marked
 * or not, and `marks` 1 for each entity with a marked version, else 0. The count is the number of ones in `marks`. Bytes past the
 * counts of versions and of entities are left alone.
 */
slt_backward_answer slt_backward(
    slt_counts counts,
    const uint32_t *entities, size_t entities_length,
    const uint32_t *versions, size_t versions_length,
    const uint32_t *edges, size_t edges_length,
    uint32_t entity, uint32_t time,
    uint8_t *work, size_t work_length,
    uint8_t *marks, size_t marks_length);

/*
 * The forward trace of a list of entities at a time; one entity is a list of one. The list may be of any length, empty too, and hold
 * an entity more than once: that, and the order of the members, changes nothing. An entity is marked exactly if the trace of one of
 * the members alone marks it. A member's intake is the greatest time, at or before the given one, of an edge that enters its start
 * version, else that version's start; the intake given is the earliest of the members', 0 for an empty list. In a trail that
 * batches grew from a fresh one, a member's intake is the time of the last kept event into it at or before the given time, 0 if
 * there is none, and it marks the entities with a causal path from it through events accepted after that one, itself among them;
 * so never less than what it reached by events later than the given time.
 *
 * Refused with 16, 5, 14: with 5 if any member is not declared; an empty list with 16 and 14 as any other. Buffers as for
 * slt_backward; refused, the intake is 0 too.
 */
slt_forward_answer slt_forward(
    slt_counts counts,
    const uint32_t *entities, size_t entities_length,
    const uint32_t *versions, size_t versions_length,
    const uint32_t *edges, size_t edges_length,
    const uint32_t *members, size_t members_length,
    uint32_t time,
    uint8_t *work, size_t work_length,
    uint8_t *marks, size_t marks_length);

/*
 * The length of a kept log, a size_t, by the entities and edges in use and the signed objects among these entities. With the
 * entities given for the signed objects too, it is always enough.
 */
#define SLT_LOG_LENGTH(entities, edges, signed_objects) \
    (SLT_HEADER_LENGTH + SLT_RECORD_LENGTH * ((size_t)(entities) + (size_t)(edges) + (size_t)(signed_objects)))

/*
 * Writes the kept log to the start of `out`: an event file with the header, all declarations by number, all edges in order as
 * events, then the signatures of all signed objects by number. A signed object is declared as any other, with sort 0. The file is
 * of version 2 if there is a signature, else of version 1. SLT_LOG_LENGTH says how many bytes it has, which is the length returned.
 * Counts and last times are not in it: a fresh trail that takes in the log of a trail that batches grew from a fresh one has the
 * same signed objects, and edges that each stand for their own event alone.
 *
 * Refused with 16, 15; then the length is 0 and nothing is written. Bytes after the log are left alone.
 */
slt_log_answer slt_kept_log(
    slt_counts counts,
    const uint32_t *entities, size_t entities_length,
    const uint32_t *versions, size_t versions_length,
    const uint32_t *edges, size_t edges_length,
    uint8_t *out, size_t out_length);

#ifdef __cplusplus
}
#endif

#endif
