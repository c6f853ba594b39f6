/*
 * The worked trail of document 01 through the C calls: its event file is taken in from bytes, then traced both ways and written
 * out as the kept log. Then the report is signed (document 02, 2.4), and the log written once more. Prints what the calls give,
 * and fails where that differs from the documents.
 */
#include <inttypes.h>
#include <stdio.h>
#include <string.h>

#include "trail.h"

#define ROWS 8

/* The header; then per record: kind, sort, entity or source, target, 0, time, each number little-endian. */
static const uint8_t file[] = {
    0x53, 0x4C, 0x54, 1, 0, 0, 0, 0,
    SLT_DECLARATION, SLT_OBJECT, 0, 0, 0, 0, 0, 0, 0, 0, 0, 0, /* 0 object, the study */
    SLT_DECLARATION, SLT_SUBJECT, 1, 0, 0, 0, 0, 0, 0, 0, 0, 0, /* 1 subject, the stager */
    SLT_DECLARATION, SLT_OBJECT, 2, 0, 0, 0, 0, 0, 0, 0, 0, 0, /* 2 object, the report */
    SLT_DECLARATION, SLT_OBJECT, 3, 0, 0, 0, 0, 0, 0, 0, 0, 0, /* 3 object, the montage */
    SLT_READ, 0, 0, 0, 1, 0, 0, 0, 1, 0, 0, 0, /* time 1: read 0 to 1 */
    SLT_WRITE, 0, 1, 0, 2, 0, 0, 0, 2, 0, 0, 0, /* time 2: write 1 to 2 */
    SLT_READ, 0, 0, 0, 1, 0, 0, 0, 3, 0, 0, 0, /* time 3: read 0 to 1 */
    SLT_WRITE, 0, 1, 0, 2, 0, 0, 0, 4, 0, 0, 0, /* time 4: write 1 to 2 */
    SLT_READ, 0, 3, 0, 1, 0, 0, 0, 5, 0, 0, 0, /* time 5: read 3 to 1 */
    SLT_WRITE, 0, 1, 0, 2, 0, 0, 0, 6, 0, 0, 0, /* time 6: write 1 to 2 */
    SLT_READ, 0, 3, 0, 1, 0, 0, 0, 7, 0, 0, 0, /* time 7: read 3 to 1 */
};

/* A file of version 2, which may hold signatures; and one more write, in a file of version 1. */
static const uint8_t signature[] = {
    0x53, 0x4C, 0x54, 2, 0, 0, 0, 0,
    SLT_SIGNATURE, 0, 2, 0, 0, 0, 0, 0, 0, 0, 0, 0, /* the report is signed */
};
static const uint8_t late_write[] = {
    0x53, 0x4C, 0x54, 1, 0, 0, 0, 0,
    SLT_WRITE, 0, 1, 0, 2, 0, 0, 0, 8, 0, 0, 0, /* time 8: write 1 to 2 */
};

/* What a caller keeps of a trail. */
typedef struct trail {
    slt_counts counts;
    uint32_t entities[SLT_ENTITY_WIDTH * ROWS];
    uint32_t versions[SLT_VERSION_WIDTH * ROWS];
    uint32_t edges[SLT_EDGE_WIDTH * ROWS];
} trail;

static trail worked, regrown;
static uint8_t work[ROWS];
static uint8_t marks[ROWS];
static uint8_t log_bytes[SLT_LOG_LENGTH(ROWS, ROWS, ROWS)];

#define LENGTH(array) (sizeof(array) / sizeof((array)[0]))
#define TABLES(t) (t).entities, LENGTH((t).entities), (t).versions, LENGTH((t).versions), (t).edges, LENGTH((t).edges)
#define NO_TABLES NULL, 0, NULL, 0, NULL, 0

static int wrong;

static void expect(const char *what, int holds)
{
    if (!holds) {
        printf("wrong: %s\n", what);
        wrong = 1;
    }
}

static void print_reason(uint32_t refusal)
{
    if (refusal != SLT_NOT_REFUSED) {
        printf("refused: %s\n", slt_refusal_text[refusal]);
    }
}

static void print_batch(const char *what, slt_batch_answer answer)
{
    printf("%s refusal %u taken %u tried %" PRIu64 "\n", what, answer.refusal, answer.taken, answer.tried);
    print_reason(answer.refusal);
}

static void print_marks(void)
{
    printf(" marks");
    for (uint32_t x = 0; x < worked.counts.entities; x++) {
        printf(" %u", marks[x]);
    }
    printf("\n");
}

static int marks_are(uint8_t a, uint8_t b, uint8_t c, uint8_t d)
{
    return marks[0] == a && marks[1] == b && marks[2] == c && marks[3] == d;
}

static uint32_t sort_of(const trail *t, uint32_t entity)
{
    return t->entities[SLT_ENTITY_WIDTH * entity];
}

static void print_sorts(const trail *t)
{
    printf("sorts");
    for (uint32_t x = 0; x < t->counts.entities; x++) {
        printf(" %u", sort_of(t, x));
    }
    printf("\n");
}

static void take_in(void)
{
    static const uint32_t rows[] = {
        0, 1, 1, 1, 2, 3,
        1, 2, 2, 2, 2, 4,
        3, 4, 1, 5, 2, 7,
        4, 2, 2, 6, 1, 6,
    };
    slt_batch_answer answer = slt_batch(&worked.counts, TABLES(worked), file, sizeof file);
    slt_counts counts = worked.counts;
    print_batch("batch", answer);
    printf("trail %u %u %u %u %u\n", counts.entities, counts.versions, counts.edges, counts.accepted, counts.last);
    for (uint32_t k = 0; k < counts.edges; k++) {
        const uint32_t *row = worked.edges + SLT_EDGE_WIDTH * k;
        printf("edge %u %u %u %u count %u last %u\n",
            row[0], row[1], row[2], row[3], row[4], row[5]);
    }
    expect("all eleven records are taken in", answer.refusal == SLT_NOT_REFUSED && answer.taken == 11);
    expect("0, 1, 2, 1, 2, 3 and 2 edges are tried", answer.tried == 11);
    expect("the counts",
        counts.entities == 4 && counts.versions == 5 && counts.edges == 4 && counts.accepted == 7 && counts.last == 7);
    expect("the edges", memcmp(worked.edges, rows, sizeof rows) == 0);
}

static void trace_backward(uint32_t entity, uint32_t time)
{
    slt_backward_answer answer = slt_backward(worked.counts, TABLES(worked), entity, time, work, LENGTH(work), marks, LENGTH(marks));
    printf("backward %u at %u refusal %u count %u", entity, time, answer.refusal, answer.count);
    print_marks();
    expect("the report comes from study and stager",
        answer.refusal == SLT_NOT_REFUSED && answer.count == 3 && marks_are(1, 1, 1, 0));
}

/* Forward from each entity of a list, all at once. */
static void trace_forward(
    const uint32_t *members, size_t length, uint32_t time, const char *what, uint32_t count, uint32_t intake, const uint8_t marked[4])
{
    slt_forward_answer answer =
        slt_forward(worked.counts, TABLES(worked), members, length, time, work, LENGTH(work), marks, LENGTH(marks));
    printf("forward");
    for (size_t i = 0; i < length; i++) {
        printf(" %u", members[i]);
    }
    printf(" at %u refusal %u count %u intake %u", time, answer.refusal, answer.count, answer.intake);
    print_marks();
    expect(what, answer.refusal == SLT_NOT_REFUSED && answer.count == count && answer.intake == intake
        && marks_are(marked[0], marked[1], marked[2], marked[3]));
}

static void trace_forwards(void)
{
    static const uint32_t montage[] = { 3 }, both[] = { 1, 2 }, repeated[] = { 2, 1, 1, 2 };
    static const uint8_t from_montage[] = { 0, 1, 1, 1 }, from_both[] = { 0, 1, 1, 0 }, from_none[] = { 0, 0, 0, 0 };
    trace_forward(montage, LENGTH(montage), 0, "the montage reaches stager and report", 3, 0, from_montage);
    trace_forward(both, LENGTH(both), 6, "stager and report, from the stager's intake", 2, 5, from_both);
    trace_forward(repeated, LENGTH(repeated), 6, "repeats and the order change nothing", 2, 5, from_both);
    trace_forward(NULL, 0, 6, "an empty list marks nothing", 0, 0, from_none);
}

/* One member that is not declared refuses the list, and no mark is written. */
static void refused_forward(void)
{
    static const uint32_t members[] = { 3, 1, 4 };
    memset(marks, 0xA5, sizeof marks);
    slt_forward_answer answer =
        slt_forward(worked.counts, TABLES(worked), members, LENGTH(members), 6, work, LENGTH(work), marks, LENGTH(marks));
    printf("forward 3 1 4 at 6 refusal %u count %u intake %u\n", answer.refusal, answer.count, answer.intake);
    print_reason(answer.refusal);
    expect("4 is not declared", answer.refusal == SLT_UNDECLARED && answer.count == 0 && answer.intake == 0);
    expect("no mark is written", marks_are(0xA5, 0xA5, 0xA5, 0xA5));
}

/* The log, taken into a fresh trail, gives the same signatures and edges, each edge standing for its own event alone. */
static void write_log(uint8_t version, uint32_t length, uint32_t records)
{
    slt_log_answer answer = slt_kept_log(worked.counts, TABLES(worked), log_bytes, LENGTH(log_bytes));
    printf("kept log refusal %u length %u version %u\n", answer.refusal, answer.length, log_bytes[3]);
    expect("the kept log has a header and these records", answer.refusal == SLT_NOT_REFUSED && answer.length == length);
    expect("its version is 2 if there is a signature", log_bytes[3] == version);
    regrown.counts = (slt_counts){ 0, 0, 0, 0, 0 };
    slt_batch_answer batch = slt_batch(&regrown.counts, TABLES(regrown), log_bytes, answer.length);
    printf("kept log again refusal %u taken %u tried %" PRIu64 " edges %u\n",
        batch.refusal, batch.taken, batch.tried, regrown.counts.edges);
    print_sorts(&regrown);
    expect("the kept log is taken in", batch.refusal == SLT_NOT_REFUSED && batch.taken == records);
    expect("no edge is hit: 0, 1, 2 and 3 are tried", batch.tried == 6);
    expect("as many entities", regrown.counts.entities == worked.counts.entities);
    expect("as many edges", regrown.counts.edges == worked.counts.edges);
    for (uint32_t x = 0; x < regrown.counts.entities; x++) {
        expect("the same are signed", sort_of(&regrown, x) == sort_of(&worked, x));
    }
    for (uint32_t k = 0; k < regrown.counts.edges; k++) {
        const uint32_t *row = regrown.edges + SLT_EDGE_WIDTH * k;
        expect("its edges are those kept", memcmp(row, worked.edges + SLT_EDGE_WIDTH * k, 4 * sizeof row[0]) == 0);
        expect("each stands for one event", row[4] == 1 && row[5] == row[3]);
    }
}

/* The report is signed: its sort becomes 2, no count changes, and it takes no more writes. */
static void sign_report(void)
{
    slt_counts before = worked.counts;
    slt_batch_answer signing = slt_batch(&worked.counts, TABLES(worked), signature, sizeof signature);
    print_batch("signature", signing);
    print_sorts(&worked);
    slt_batch_answer writing = slt_batch(&worked.counts, TABLES(worked), late_write, sizeof late_write);
    print_batch("write", writing);
    expect("the signature is taken in", signing.refusal == SLT_NOT_REFUSED && signing.taken == 1 && signing.tried == 0);
    expect("the report is signed", sort_of(&worked, 2) == SLT_SIGNED_OBJECT);
    expect("a signed report takes no write", writing.refusal == SLT_SIGNED && writing.taken == 0 && writing.tried == 0);
    expect("the counts stay", memcmp(&before, &worked.counts, sizeof before) == 0);
}

/* A refused call writes nothing. */
static void refused_log(void)
{
    uint8_t out[SLT_LOG_LENGTH(4, 4, 0) - 1];
    memset(out, 0xA5, sizeof out);
    slt_log_answer answer = slt_kept_log(worked.counts, TABLES(worked), out, sizeof out);
    printf("kept log in 103 bytes refusal %u length %u\n", answer.refusal, answer.length);
    print_reason(answer.refusal);
    expect("103 bytes are too few", answer.refusal == SLT_OUTPUT_SHORT && answer.length == 0);
    for (size_t i = 0; i < sizeof out; i++) {
        expect("nothing is written", out[i] == 0xA5);
    }
}

static void refused_batch(void)
{
    slt_counts before = worked.counts;
    slt_batch_answer answer = slt_batch(&worked.counts, TABLES(worked), NULL, 0);
    print_batch("empty file", answer);
    expect("an empty file is refused", answer.refusal == SLT_NOT_EVENT_FILE && answer.taken == 0 && answer.tried == 0);
    expect("the counts stay", memcmp(&before, &worked.counts, sizeof before) == 0);
}

/* Where the length is 0, the pointer may be null: a fresh trail in no tables. */
static void nothing_lent(void)
{
    static const uint8_t header[SLT_HEADER_LENGTH] = { 0x53, 0x4C, 0x54, 1, 0, 0, 0, 0 };
    slt_counts fresh = { 0, 0, 0, 0, 0 };
    uint32_t none = 0;
    expect("a header alone is taken in", slt_batch(&fresh, NO_TABLES, header, sizeof header).refusal == SLT_NOT_REFUSED);
    expect("no entity to trace back", slt_backward(fresh, NO_TABLES, 0, 0, NULL, 0, NULL, 0).refusal == SLT_UNDECLARED);
    expect("no entity to trace on", slt_forward(fresh, NO_TABLES, &none, 1, 0, NULL, 0, NULL, 0).refusal == SLT_UNDECLARED);
    expect("an empty list to trace on", slt_forward(fresh, NO_TABLES, NULL, 0, 0, NULL, 0, NULL, 0).refusal == SLT_NOT_REFUSED);
    expect("no room for a header", slt_kept_log(fresh, NO_TABLES, NULL, 0).refusal == SLT_OUTPUT_SHORT);
}

int main(void)
{
    expect("a text for each refusal", LENGTH(slt_refusal_text) == SLT_SIGNED + 1);
    take_in();
    trace_backward(2, 4);
    trace_forwards();
    refused_forward();
    refused_log();
    refused_batch();
    write_log(1, 104, 8);
    sign_report();
    write_log(2, 116, 9);
    nothing_lent();
    return wrong;
}
