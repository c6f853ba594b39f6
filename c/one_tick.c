/*
 * Events in one tick (document 02, 2.5): their order in the file decides what is causal. At one time a stager reads a study, writes
 * a report and reads a montage: the report comes from the study, and not from the montage. Prints what the calls give, and fails
 * where that differs from the document.
 */
#include <stdio.h>

#include "trail.h"

#define ROWS 8
#define LENGTH(array) (sizeof(array) / sizeof((array)[0]))

enum { STUDY, STAGER, REPORT, MONTAGE, ENTITIES };

static const uint8_t tick[] = {
    0x53, 0x4C, 0x54, 1, 0, 0, 0, 0,
    SLT_DECLARATION, SLT_OBJECT, STUDY, 0, 0, 0, 0, 0, 0, 0, 0, 0,
    SLT_DECLARATION, SLT_SUBJECT, STAGER, 0, 0, 0, 0, 0, 0, 0, 0, 0,
    SLT_DECLARATION, SLT_OBJECT, REPORT, 0, 0, 0, 0, 0, 0, 0, 0, 0,
    SLT_DECLARATION, SLT_OBJECT, MONTAGE, 0, 0, 0, 0, 0, 0, 0, 0, 0,
    SLT_READ, 0, STUDY, 0, STAGER, 0, 0, 0, 5, 0, 0, 0,
    SLT_WRITE, 0, STAGER, 0, REPORT, 0, 0, 0, 5, 0, 0, 0,
    SLT_READ, 0, MONTAGE, 0, STAGER, 0, 0, 0, 5, 0, 0, 0,
};

/* One more event of that tick, in the next file; and one that is earlier. */
static const uint8_t next_write[] = {
    0x53, 0x4C, 0x54, 1, 0, 0, 0, 0,
    SLT_WRITE, 0, STAGER, 0, REPORT, 0, 0, 0, 5, 0, 0, 0,
};
static const uint8_t earlier_write[] = {
    0x53, 0x4C, 0x54, 1, 0, 0, 0, 0,
    SLT_WRITE, 0, STAGER, 0, REPORT, 0, 0, 0, 4, 0, 0, 0,
};

static slt_counts counts;
static uint32_t entities[SLT_ENTITY_WIDTH * ROWS];
static uint32_t versions[SLT_VERSION_WIDTH * ROWS];
static uint32_t edges[SLT_EDGE_WIDTH * ROWS];
#define TABLES entities, LENGTH(entities), versions, LENGTH(versions), edges, LENGTH(edges)

static int wrong;

static void take_in(const char *what, const uint8_t *file, size_t length, uint32_t refusal, uint32_t taken)
{
    slt_batch_answer answer = slt_batch(&counts, TABLES, file, length);
    printf("%s refusal %u taken %u accepted %u last %u\n", what, answer.refusal, answer.taken, counts.accepted, counts.last);
    wrong |= answer.refusal != refusal || answer.taken != taken;
}

/* Whether the study and the montage stand behind the report at a time. */
static void behind_the_report(uint32_t time, uint8_t study, uint8_t montage)
{
    uint8_t work[ROWS] = { 0 }, marks[ENTITIES] = { 0 };
    slt_backward_answer answer = slt_backward(counts, TABLES, REPORT, time, work, sizeof work, marks, sizeof marks);
    printf("report at %u refusal %u study %u montage %u\n", time, answer.refusal, marks[STUDY], marks[MONTAGE]);
    wrong |= answer.refusal != SLT_NOT_REFUSED || marks[STUDY] != study || marks[MONTAGE] != montage;
}

int main(void)
{
    take_in("tick", tick, sizeof tick, SLT_NOT_REFUSED, 7);
    behind_the_report(4, 0, 0);
    behind_the_report(5, 1, 0);
    take_in("next file, same tick", next_write, sizeof next_write, SLT_NOT_REFUSED, 1);
    behind_the_report(5, 1, 1);
    take_in("earlier", earlier_write, sizeof earlier_write, SLT_TOO_EARLY, 0);
    return wrong;
}
