/*
 * Each call on a thread that has just the stack which the header states for it: the example runs whole on one with that of
 * slt_batch; then a file that fills all tables and signs an object is taken in, the full tables are traced both ways and written
 * out as the kept log. A call that needs more stack ends in a fault. tools/c-test links the example with its main named `example`.
 */
#define _DEFAULT_SOURCE
#include <pthread.h>
#include <stdio.h>
#include <string.h>
#include <sys/mman.h>
#include <unistd.h>

#include "trail.h"

#define SUBJECTS (SLT_MOST_ENTITIES - 1)
#define FILE_LENGTH SLT_LOG_LENGTH(SLT_MOST_ENTITIES, SLT_MOST_EDGES, 1)

static uint8_t file[FILE_LENGTH] = { 0x53, 0x4C, 0x54, 2 };
static uint8_t log_bytes[FILE_LENGTH];
static slt_counts counts;
static uint32_t entities[SLT_ENTITY_WIDTH * SLT_MOST_ENTITIES];
static uint32_t versions[SLT_VERSION_WIDTH * SLT_MOST_VERSIONS];
static uint32_t edges[SLT_EDGE_WIDTH * SLT_MOST_EDGES];
static uint8_t work[SLT_MOST_VERSIONS];
static uint8_t marks[SLT_MOST_ENTITIES];
static uint32_t members[2 * SLT_MOST_ENTITIES];

static slt_batch_answer batch_answer;
static slt_backward_answer backward_answer;
static slt_forward_answer forward_answer;
static slt_log_answer log_answer;

#define LENGTH(array) (sizeof(array) / sizeof((array)[0]))
#define TABLES entities, LENGTH(entities), versions, LENGTH(versions), edges, LENGTH(edges)

static int wrong;

static void expect(const char *what, int holds)
{
    if (!holds) {
        printf("wrong: %s\n", what);
        wrong = 1;
    }
}

static uint8_t *put_record(uint8_t *to, uint8_t kind, uint8_t sort, uint32_t source, uint32_t target, uint32_t time)
{
    uint8_t record[SLT_RECORD_LENGTH] = {
        kind, sort, (uint8_t)source, (uint8_t)(source >> 8), (uint8_t)target, (uint8_t)(target >> 8), 0, 0,
        (uint8_t)time, (uint8_t)(time >> 8), (uint8_t)(time >> 16), (uint8_t)(time >> 24),
    };
    memcpy(to, record, sizeof record);
    return to + sizeof record;
}

/*
 * As many entities as there may be, all but the last of them subjects, and forks from each subject to the next, round and round:
 * past the first round each makes a version. Where the versions are as many as there may be, the last fork is repeated, and each
 * time an edge is kept. The last entity is an object, and signed.
 */
static void make_file(void)
{
    uint8_t *to = file + SLT_HEADER_LENGTH;
    for (uint32_t x = 0; x < SLT_MOST_ENTITIES; x++) {
        to = put_record(to, SLT_DECLARATION, x < SUBJECTS ? SLT_SUBJECT : SLT_OBJECT, x, 0, 0);
    }
    for (uint32_t time = 1; time <= SLT_MOST_EDGES; time++) {
        uint32_t last = SLT_MOST_VERSIONS - 2;
        uint32_t step = time < last ? time : last;
        to = put_record(to, SLT_FORK, 0, (step - 1) % SUBJECTS, step % SUBJECTS, time);
    }
    put_record(to, SLT_SIGNATURE, 0, SUBJECTS, 0, 0);
}

int example(void);

static void *run_example(void *unused)
{
    wrong |= example();
    return unused;
}

static void *take_in(void *unused)
{
    batch_answer = slt_batch(&counts, TABLES, file, LENGTH(file));
    return unused;
}

static void *trace_backward(void *unused)
{
    backward_answer = slt_backward(counts, TABLES, 0, counts.last, work, LENGTH(work), marks, LENGTH(marks));
    return unused;
}

/* From every subject, twice and more. */
static void *trace_forward(void *unused)
{
    for (uint32_t i = 0; i < LENGTH(members); i++) {
        members[i] = i % SUBJECTS;
    }
    forward_answer = slt_forward(counts, TABLES, members, LENGTH(members), 0, work, LENGTH(work), marks, LENGTH(marks));
    return unused;
}

static void *write_log(void *unused)
{
    log_answer = slt_kept_log(counts, TABLES, log_bytes, LENGTH(log_bytes));
    return unused;
}

/* Runs a call on a thread with a stack of just so many bytes, below which stands a page that faults. */
static void on_stack_of(size_t bytes, void *(*call)(void *))
{
    size_t page = (size_t)sysconf(_SC_PAGESIZE);
    uint8_t *memory = mmap(NULL, page + bytes, PROT_READ | PROT_WRITE, MAP_PRIVATE | MAP_ANONYMOUS, -1, 0);
    pthread_attr_t attributes;
    pthread_t thread;
    expect("a thread runs the call", memory != MAP_FAILED && mprotect(memory, page, PROT_NONE) == 0
        && pthread_attr_init(&attributes) == 0 && pthread_attr_setstack(&attributes, memory + page, bytes) == 0
        && pthread_create(&thread, &attributes, call, NULL) == 0 && pthread_join(thread, NULL) == 0);
}

int main(void)
{
    slt_counts full = { SLT_MOST_ENTITIES, SLT_MOST_VERSIONS, SLT_MOST_EDGES, SLT_MOST_EDGES, SLT_MOST_EDGES };
    make_file();
    on_stack_of(SLT_BATCH_STACK, run_example);
    on_stack_of(SLT_BATCH_STACK, take_in);
    expect("the file fills all tables", batch_answer.refusal == SLT_NOT_REFUSED && memcmp(&counts, &full, sizeof full) == 0);
    on_stack_of(SLT_TRACE_STACK, trace_backward);
    expect("the first comes from all subjects", backward_answer.refusal == SLT_NOT_REFUSED && backward_answer.count == SUBJECTS);
    on_stack_of(SLT_TRACE_STACK, trace_forward);
    expect("they reach all subjects", forward_answer.refusal == SLT_NOT_REFUSED && forward_answer.count == SUBJECTS);
    on_stack_of(SLT_LOG_STACK, write_log);
    expect("the kept log is the file", log_answer.refusal == SLT_NOT_REFUSED && log_answer.length == FILE_LENGTH
        && memcmp(log_bytes, file, sizeof file) == 0);
    printf("stack: slt_batch in %d bytes, traces in %d, slt_kept_log in %d\n", SLT_BATCH_STACK, SLT_TRACE_STACK, SLT_LOG_STACK);
    return wrong;
}
