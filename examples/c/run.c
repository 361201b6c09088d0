/* Case A of document 01: written by the writer, played tick by tick where the record stands, by value, and whole; then which vertices are
   worth a rewrite. */
#include "planner.h"

/* Declared here, not included: an Arm machine has no headers for x86-64. */
int printf(const char *format, ...);

enum { VERTICES = 4 };

static const uint8_t cores[] = {2, 3};
static const uint8_t kinds[VERTICES] = {0, 1, 0, 1};
static const uint32_t wcets[VERTICES] = {4, 9, 6, 3};
static const uint16_t edges[] = {0 * 256 + 1, 0 * 256 + 2, 1 * 256 + 3, 2 * 256 + 3};

static uint8_t file[PLANNER_LONGEST_FILE];
static size_t length;

static void print_instants(const char *what, const uint32_t *instants)
{
    printf("%s", what);
    for (int v = 0; v < VERTICES; v++)
        printf(" %u", (unsigned)instants[v]);
    printf("\n");
}

/* No time here is 0, so a vertex finishes at the instant at which nothing of it is left. */
static void note_finished(const PlannerRecord *run, uint32_t *finishes)
{
    for (int v = 0; v < VERTICES; v++)
        if (run->left[v] == 0 && finishes[v] == 0)
            finishes[v] = (uint32_t)run->instant;
}

/* How many predecessors each vertex still waits for, where that has changed. */
static void print_waiting(const PlannerRecord *run, uint8_t *shown)
{
    int same = 1;
    for (int v = 0; v < VERTICES; v++) {
        same = same && shown[v] == run->waiting[v];
        shown[v] = run->waiting[v];
    }
    if (same)
        return;
    printf("unfinished predecessors at %llu:", (unsigned long long)run->instant);
    for (int v = 0; v < VERTICES; v++)
        printf(" %u", (unsigned)shown[v]);
    printf("\n");
}

/* The three vertices with the largest gains, the lower number first among equals. */
static void print_best(const char *what, const uint64_t *gains)
{
    int named[VERTICES] = {0};
    printf("%s", what);
    for (int i = 0; i < 3; i++) {
        int best = -1;
        for (int v = 0; v < VERTICES; v++)
            if (!named[v] && (best < 0 || gains[best] < gains[v]))
                best = v;
        named[best] = 1;
        printf("%s %d by %llu", i == 0 ? "" : ",", best, (unsigned long long)gains[best]);
    }
    printf("\n");
}

int main(void)
{
    PlannerCount written = planner_write(cores, sizeof cores, kinds, VERTICES, wcets, VERTICES, edges, sizeof edges / sizeof edges[0], file, sizeof file);
    length = written.count;
    printf("file of %llu bytes\n", (unsigned long long)written.count);

    /* Tick by tick, in the caller's own record. */
    PlannerRun started = planner_start(file, length, wcets, VERTICES);
    PlannerRecord run = started.run;
    uint32_t stepped[VERTICES] = {0};
    uint8_t shown[VERTICES] = {0};
    print_waiting(&run, shown);
    while (planner_tick_in_place(&run, file, length).moved) {
        note_finished(&run, stepped);
        print_waiting(&run, shown);
    }
    printf("done at %llu\n", (unsigned long long)run.instant);
    print_instants("finishes in place", stepped);

    /* Tick by tick, each tick handing back the next record. */
    uint32_t valued[VERTICES] = {0};
    PlannerTick tick = planner_tick(started.run, file, length);
    while (tick.moved) {
        note_finished(&tick.run, valued);
        tick = planner_tick(tick.run, file, length);
    }
    print_instants("finishes by value", valued);

    /* Whole. */
    uint32_t finishes[VERTICES];
    PlannerFinish whole = planner_run(file, length, wcets, VERTICES, finishes, VERTICES);
    print_instants("finishes whole", finishes);
    printf("finish %llu\n", (unsigned long long)whole.finish);

    /* What a rewrite would gain, in parts of a tick; and what would be worth it next, once vertex 1 takes 3 ticks. */
    uint64_t gains[VERTICES];
    planner_gains(file, length, gains, VERTICES);
    print_best("rewrite", gains);
    planner_gains_altered(file, length, 1, 3, gains, VERTICES);
    print_best("rewrite next", gains);

    /* A refusal changes nothing that was lent. */
    const uint32_t above[VERTICES] = {4, 10, 6, 3};
    PlannerFinish refused = planner_run(file, length, above, VERTICES, finishes, VERTICES);
    printf("refused %u at %u\n", (unsigned)refused.number, (unsigned)refused.place);
    print_instants("finishes kept", finishes);
    run.left[3] = 4;
    PlannerMoved unsuited = planner_tick_in_place(&run, file, length);
    printf("refused %u at %u, %u ticks left of vertex 3\n", (unsigned)unsuited.number, (unsigned)unsuited.place, (unsigned)run.left[3]);
    run.left[3] = 0;
    run.waiting[3] = 1;
    unsuited = planner_tick_in_place(&run, file, length);
    printf("refused %u at %u, vertex 3 waits for %u\n", (unsigned)unsuited.number, (unsigned)unsuited.place, (unsigned)run.waiting[3]);
    return 0;
}
