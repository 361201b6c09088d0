/* Times the proved planner beside the plain one, in one process: equal answers first, then times, best of several rounds. */
#include "plain.h"
#include "planner.h"

/* Declared here, since where this is compiled for another machine there are no headers of a C library. */
int printf(const char *, ...);
int open(const char *, int, ...);
long read(int, void *, unsigned long);
int close(int);
int memcmp(const void *, const void *, unsigned long);
void *memset(void *, int, unsigned long);
void *memcpy(void *, const void *, unsigned long);
struct moment {
    long seconds, nanoseconds;
};
int clock_gettime(int, struct moment *);

#define ROOM 9304 /* of a longer file only that it is longer matters */
#define ROUNDS 40
#define ROUND_NS 1000000 /* of each side in each round, about */
#define ALTERED 1000 /* times, the files of a row in turn */
#define TURNS 64 /* numberings at random of one graph */
#define LONGEST_LOG 65536
#define LONGEST_STG 65536

struct input {
    const char *name;
    uint8_t file[ROOM];
    size_t length;
    /* The lists of the file's records, whatever stands in them, for the writer. */
    uint8_t cores[ROOM / 8], kind[ROOM / 8];
    uint32_t wcet[ROOM / 8];
    uint16_t edge[ROOM / 8];
    size_t kinds, vertices, edges;
    /* Every vertex takes its WCET. Where a file has no vertex, or too many, the times are as many as some other file's. */
    uint32_t times[VERTICES];
    size_t n;
    PlannerRecord half; /* halfway through that run, where there is one */
    /* The log of that run, and the log that is replayed: the same, where no other was recorded. */
    uint8_t run_log[PLANNER_LONGEST_RUN_LOG];
    const uint8_t *log;
    size_t log_length;
    /* The Standard Task Graph text of the graph, where it has one, and the text that is read: the same, where no longer one was made. */
    uint8_t own_stg[PLANNER_LONGEST_WRITTEN_STG];
    const uint8_t *stg;
    size_t stg_length;
    /* The limit that enough cores of each type are asked for: halfway between NEW-B-1's whole ticks with one core of it and with sixteen. */
    uint32_t limit[KINDS];
};

/* What is wanted of a call: nothing, as much as of document 01's entries, or as much as of those that an order brought. */
enum wanted { NOTHING, BASE, ORDER };

/* Which calls are timed. A graph with more than 4,096 complete paths doesn't get the second bound, and one that is there for it says nothing
   new of the others. Nor does one whose times alone are large, but of the runs and their logs, or whose log alone is long. Texts are timed on
   graphs that have one, an entry and an exit, and nothing else is. A file that is to be mended is refused by all others. */
enum timed { EVERY_CALL, BUT_SECOND, SECOND_ALONE, RUNS_ALONE, REPLAY_ALONE, TEXTS_ALONE, STG_READ_ALONE, MEND_ALONE };

/* A row of the table: one input, or one graph in several numberings, which take turns while a call is timed. A file that is timed over and
   over is learnt by heart: the processor comes to foresee its every branch, as it can't with a file that is new to it. */
struct row {
    const struct input *inputs;
    size_t many;
    double goal[ORDER + 1]; /* for proved / plain, by what is wanted of a call; 0 is none */
    enum timed timed;
};

/* Answers. */

static uint32_t met; /* bit k: some answer had number k */

static int differ(const struct input *in, const char *call) {
    printf("%s: the two sides of %s differ\n", in->name, call);
    return 1;
}

/* Notes the number of an answer; whether the two sides give the same one. */
static int same(uint32_t number, uint32_t place, uint32_t plain_number, uint32_t plain_place) {
    met |= (uint32_t)1 << number % 32;
    return number == plain_number && place == plain_place;
}

static int differ_read(const struct input *in) {
    PlannerGraph a = planner_read(in->file, in->length);
    struct plain_graph b = plain_read(in->file, in->length);
    return !same(a.number, a.place, b.number, b.place) || a.graph.kinds != b.kinds || a.graph.n != b.n || a.graph.edges != b.edges ||
           memcmp(a.graph.cores, b.cores, sizeof b.cores) || memcmp(a.graph.kind, b.kind, sizeof b.kind) ||
           memcmp(a.graph.wcet, b.wcet, sizeof b.wcet) || memcmp(a.graph.edge, b.edge, sizeof b.edge);
}

static int differ_write_with(const struct input *in, size_t wcets, size_t room) {
    static uint8_t one[ROOM], other[ROOM];
    memset(one, 0xA5, sizeof one);
    memset(other, 0xA5, sizeof other);
    PlannerCount a = planner_write(in->cores, in->kinds, in->kind, in->vertices, in->wcet, wcets, in->edge, in->edges, one, room);
    struct plain_count b = plain_write(in->cores, in->kinds, in->kind, in->vertices, in->wcet, wcets, in->edge, in->edges, other, room);
    return !same(a.number, a.place, b.number, b.place) || a.count != b.count || memcmp(one, other, sizeof one);
}

static int differ_bounds(const struct input *in) {
    PlannerBounds a = planner_bounds(in->file, in->length);
    struct plain_bounds b = plain_bounds(in->file, in->length);
    return !same(a.number, a.place, b.number, b.place) || a.old_b != b.old || a.new_b_1 != b.new || a.ticks != b.ticks;
}

static int differ_path_with(const struct input *in, size_t room) {
    uint8_t one[VERTICES], other[VERTICES];
    memset(one, 0xA5, sizeof one);
    memset(other, 0xA5, sizeof other);
    PlannerCount a = planner_path(in->file, in->length, one, room);
    struct plain_count b = plain_path(in->file, in->length, other, room);
    return !same(a.number, a.place, b.number, b.place) || a.count != b.count || memcmp(one, other, sizeof one);
}

static int differ_record(const PlannerRecord *a, const struct plain_record *b) {
    return a->n != b->n || a->instant != b->instant || memcmp(a->left, b->left, sizeof b->left) || memcmp(a->ran, b->ran, sizeof b->ran) ||
           memcmp(a->waiting, b->waiting, sizeof b->waiting);
}

static int differ_start_with(const struct input *in, const uint32_t *times, size_t count) {
    PlannerRun a = planner_start(in->file, in->length, times, count);
    struct plain_step b = plain_start(in->file, in->length, times, count);
    return !same(a.number, a.place, b.number, b.place) || differ_record(&a.run, &b.run);
}

static struct plain_record as_plain(const PlannerRecord *run) {
    struct plain_record plain = {.n = run->n, .instant = run->instant, .ran = {run->ran[0], run->ran[1]}};
    memcpy(plain.left, run->left, sizeof plain.left);
    memcpy(plain.waiting, run->waiting, sizeof plain.waiting);
    return plain;
}

/* By value and in place; the record moves on. */
static int differ_tick_with(const struct input *in, PlannerRecord *run) {
    struct plain_step b = plain_tick(as_plain(run), in->file, in->length);
    PlannerTick a = planner_tick(*run, in->file, in->length);
    PlannerMoved c = planner_tick_in_place(run, in->file, in->length);
    return !same(a.number, a.place, b.number, b.place) || a.moved != b.moved || differ_record(&a.run, &b.run) || !same(c.number, c.place, b.number, b.place) ||
           c.moved != b.moved || differ_record(run, &b.run);
}

static int differ_run_with(const struct input *in, const uint32_t *times, size_t count, size_t room) {
    uint32_t one[VERTICES], other[VERTICES];
    memset(one, 0xA5, sizeof one);
    memset(other, 0xA5, sizeof other);
    PlannerFinish a = planner_run(in->file, in->length, times, count, one, room);
    struct plain_finish b = plain_run(in->file, in->length, times, count, other, room);
    return !same(a.number, a.place, b.number, b.place) || a.finish != b.finish || memcmp(one, other, sizeof one);
}

static int differ_gains_with(const struct input *in, size_t room) {
    uint64_t one[VERTICES], other[VERTICES];
    memset(one, 0xA5, sizeof one);
    memset(other, 0xA5, sizeof other);
    PlannerCount a = planner_gains(in->file, in->length, one, room);
    struct plain_count b = plain_gains(in->file, in->length, other, room);
    return !same(a.number, a.place, b.number, b.place) || a.count != b.count || memcmp(one, other, sizeof one);
}

static int differ_gains_altered_with(const struct input *in, size_t vertex, uint32_t wcet, size_t room) {
    uint64_t one[VERTICES], other[VERTICES];
    memset(one, 0xA5, sizeof one);
    memset(other, 0xA5, sizeof other);
    PlannerCount a = planner_gains_altered(in->file, in->length, (uint32_t)vertex, wcet, one, room);
    struct plain_count b = plain_gains_altered(in->file, in->length, (uint32_t)vertex, wcet, other, room);
    return !same(a.number, a.place, b.number, b.place) || a.count != b.count || memcmp(one, other, sizeof one);
}

static int differ_late_with(const struct input *in, const uint32_t *times, size_t count, uint32_t d) {
    PlannerLate a = planner_late(in->file, in->length, times, count, d);
    struct plain_late b = plain_late(in->file, in->length, times, count, d);
    return !same(a.number, a.place, b.number, b.place) || a.yes != b.yes || a.played != b.played;
}

static int differ_replay_with(const struct input *in, const uint8_t *log, size_t length, size_t room) {
    uint32_t one[VERTICES], other[VERTICES];
    memset(one, 0xA5, sizeof one);
    memset(other, 0xA5, sizeof other);
    PlannerFinish a = planner_replay(in->file, in->length, log, length, one, room);
    struct plain_finish b = plain_replay(in->file, in->length, log, length, other, room);
    return !same(a.number, a.place, b.number, b.place) || a.finish != b.finish || memcmp(one, other, sizeof one);
}

static int differ_log_with(const struct input *in, const uint32_t *times, size_t count, size_t room) {
    uint8_t one[PLANNER_LONGEST_RUN_LOG], other[PLANNER_LONGEST_RUN_LOG];
    memset(one, 0xA5, sizeof one);
    memset(other, 0xA5, sizeof other);
    PlannerCount a = planner_log(in->file, in->length, times, count, one, room);
    struct plain_count b = plain_log(in->file, in->length, times, count, other, room);
    return !same(a.number, a.place, b.number, b.place) || a.count != b.count || memcmp(one, other, sizeof one);
}

static int differ_stg_read_with(const struct input *in, const uint8_t *stg, size_t length, size_t count, size_t room) {
    static uint8_t one[ROOM], other[ROOM];
    memset(one, 0xA5, sizeof one);
    memset(other, 0xA5, sizeof other);
    PlannerCount a = planner_stg_read(stg, length, in->cores, in->kinds, in->kind, count, one, room);
    struct plain_count b = plain_stg_read(stg, length, in->cores, in->kinds, in->kind, count, other, room);
    return !same(a.number, a.place, b.number, b.place) || a.count != b.count || memcmp(one, other, sizeof one);
}

static int differ_stg_write_with(const struct input *in, size_t room) {
    uint8_t one[PLANNER_LONGEST_WRITTEN_STG], other[PLANNER_LONGEST_WRITTEN_STG];
    memset(one, 0xA5, sizeof one);
    memset(other, 0xA5, sizeof other);
    PlannerCount a = planner_stg_write(in->file, in->length, one, room);
    struct plain_count b = plain_stg_write(in->file, in->length, other, room);
    return !same(a.number, a.place, b.number, b.place) || a.count != b.count || memcmp(one, other, sizeof one);
}

static int differ_second(const struct input *in) {
    PlannerSecond a = planner_second(in->file, in->length);
    struct plain_second b = plain_second(in->file, in->length);
    return !same(a.number, a.place, b.number, b.place) || a.parts != b.parts;
}

static int differ_mend_with(const uint8_t *file, size_t length, size_t room, size_t list_room) {
    static uint8_t one[ROOM], other[ROOM], one_list[2 * ROOM], other_list[2 * ROOM];
    memset(one, 0xA5, sizeof one);
    memset(other, 0xA5, sizeof other);
    memset(one_list, 0xA5, sizeof one_list);
    memset(other_list, 0xA5, sizeof other_list);
    PlannerMended a = planner_mend(file, length, one, room, one_list, list_room);
    struct plain_mended b = plain_mend(file, length, other, room, other_list, list_room);
    return !same(a.number, a.place, b.number, b.place) || a.length != b.length || a.list_length != b.list_length || memcmp(one, other, sizeof one) ||
           memcmp(one_list, other_list, sizeof one_list);
}

static int differ_enough_with(const struct input *in, uint32_t kind, uint32_t limit) {
    PlannerEnough a = planner_enough(in->file, in->length, kind, limit);
    struct plain_enough b = plain_enough(in->file, in->length, kind, limit);
    return !same(a.number, a.place, b.number, b.place) || a.cores != b.cores;
}

#define SEED 88172645463325252u

static uint64_t seed = SEED;

static uint32_t below(uint32_t n) {
    seed ^= seed << 13;
    seed ^= seed >> 7;
    seed ^= seed << 17;
    return (uint32_t)(seed >> 32) % n;
}

/* By ticks around the run's finish and around NEW-B-1's, by one anywhere in the run, and by the largest. */
static int differ_late_around(const struct input *in, const uint32_t *times) {
    uint32_t finishes[VERTICES], finish = (uint32_t)plain_run(in->file, in->length, times, in->n, finishes, VERTICES).finish;
    uint32_t ticks = (uint32_t)plain_bounds(in->file, in->length).ticks;
    uint32_t ds[] = {0, finish - 1, finish, finish + 1, ticks - 1, ticks, ticks + 1, below(finish + 1), UINT32_MAX / 2, UINT32_MAX};
    for (size_t i = 0; i < sizeof ds / sizeof ds[0]; i++)
        if (differ_late_with(in, times, in->n, ds[i]))
            return 1;
    return 0;
}

/* The log with one record changed: a byte, a tick earlier, a tick later, in the other's place, or dropped. */
static size_t change_log(const struct input *in, uint8_t *log) {
    memcpy(log, in->log, in->log_length);
    if (in->log_length == 0)
        return 0;
    uint8_t *r = log + 8 * below((uint32_t)in->log_length / 8);
    size_t rest = in->log_length - 8 - (size_t)(r - log);
    switch (below(5)) {
    case 0: r[below(8)] ^= (uint8_t)(1u << below(8)); break;
    case 1: r[4]--; break;
    case 2: r[4]++; break;
    case 3:
        if (rest > 0)
            for (size_t i = 0; i < 8; i++) {
                uint8_t byte = r[i];
                r[i] = r[8 + i];
                r[8 + i] = byte;
            }
        break;
    default:
        for (size_t i = 0; i < rest; i++)
            r[i] = r[8 + i];
        return in->log_length - 8;
    }
    return in->log_length;
}

/* The log as it is, broken off, and changed. */
static int differ_logs(const struct input *in) {
    static uint8_t log[LONGEST_LOG];
    if (differ_replay_with(in, in->log, in->log_length, VERTICES) || differ_replay_with(in, in->log, in->log_length, in->n) ||
        differ_replay_with(in, in->log, in->log_length, in->n - 1) || differ_replay_with(in, in->log, 0, in->n) ||
        (in->log_length > 0 && differ_replay_with(in, in->log, in->log_length - 1, in->n)))
        return 1;
    for (int i = 0; i < 6; i++)
        if (differ_replay_with(in, log, change_log(in, log), below(2) ? in->n : in->n - 1))
            return 1;
    return 0;
}

/* The text with a byte more, a byte less or another one, mostly one that has a meaning there; or with the begin of a line twice. */
static size_t change_stg(const struct input *in, uint8_t *stg) {
    static const uint8_t bytes[] = " \t\n\r#0123456789+";
    size_t at = below((uint32_t)in->stg_length + 1), behind = at; /* where the text goes on after the change */
    memcpy(stg, in->stg, at);
    uint8_t *end = stg + at;
    switch (below(4)) {
    case 0: *end++ = bytes[below(sizeof bytes - 1)]; break;
    case 1: behind = at < in->stg_length ? at + 1 : at; break;
    case 2:
        *end++ = bytes[below(sizeof bytes - 1)];
        behind = at < in->stg_length ? at + 1 : at;
        break;
    default:
        while (behind > 0 && in->stg[behind - 1] != '\n')
            behind--;
    }
    memcpy(end, in->stg + behind, in->stg_length - behind);
    return (size_t)(end - stg) + in->stg_length - behind;
}

/* The text as it is, broken off, and changed; with a type too few, and too little room. */
static int differ_texts(const struct input *in) {
    static uint8_t stg[2 * LONGEST_STG + 1];
    if (differ_stg_read_with(in, in->stg, in->stg_length, in->vertices, ROOM) ||
        differ_stg_read_with(in, in->stg, in->stg_length, in->vertices, in->length) ||
        (in->length > 0 && differ_stg_read_with(in, in->stg, in->stg_length, in->vertices, in->length - 1)) ||
        (in->vertices > 0 && differ_stg_read_with(in, in->stg, in->stg_length, in->vertices - 1, ROOM)) ||
        (in->stg_length > 0 && differ_stg_read_with(in, in->stg, below((uint32_t)in->stg_length), in->vertices, ROOM)))
        return 1;
    for (int i = 0; i < 4; i++)
        if (differ_stg_read_with(in, stg, change_stg(in, stg), in->vertices, ROOM))
            return 1;
    return 0;
}

/* The file with some records edited as by hand: a stray byte, an edge from a vertex to itself, one edge over another, two that change places. */
static void edit(const struct input *in, uint8_t *file) {
    uint8_t *edges = file + 8 * (in->length / 8 - in->edges), other[8];
    memcpy(file, in->file, in->length);
    for (uint32_t left = in->edges > 0 ? 1 + below(8) : 0; left > 0; left--) {
        uint8_t *r = edges + 8 * below((uint32_t)in->edges), *q = edges + 8 * below((uint32_t)in->edges);
        switch (below(5)) {
        case 0: r[3 + below(5)] = (uint8_t)below(256); break;
        case 1: r[2] = r[1]; break;
        case 2: memcpy(r, q, 8); break;
        case 3: file[8 * below((uint32_t)in->length / 8) + 3] ^= 1; break;
        default:
            memcpy(other, r, 8);
            memcpy(r, q, 8);
            memcpy(q, other, 8);
        }
    }
}

/* The file as it is, and edited; with a byte less for it, and for the list. */
static int differ_mends(const struct input *in) {
    static uint8_t file[ROOM];
    size_t list = in->length / 8 * 16;
    if (differ_mend_with(in->file, in->length, ROOM, 2 * ROOM) || differ_mend_with(in->file, in->length, in->length, list) ||
        (in->length > 0 && differ_mend_with(in->file, in->length, in->length - 1, list)) ||
        (list > 0 && differ_mend_with(in->file, in->length, in->length, list - 1)))
        return 1;
    for (int i = 0; i < 3; i++) {
        edit(in, file);
        if (differ_mend_with(file, in->length, ROOM, 2 * ROOM))
            return 1;
    }
    return 0;
}

/* NEW-B-1's whole ticks where a type has so many cores. */
static uint32_t ticks_with(const struct input *in, size_t kind, uint8_t cores) {
    static uint8_t file[ROOM];
    memcpy(file, in->file, in->length);
    file[8 * kind + 2] = cores;
    return (uint32_t)plain_bounds(file, in->length).ticks;
}

/* Of some type, by the bound of some number of cores and one below, by 0 and by the most; and of a type that is not declared. */
static int differ_enoughs(const struct input *in) {
    static const uint32_t undeclared[] = {10, 255, 256, 257, UINT32_MAX};
    uint32_t kind = in->kinds > 0 ? below((uint32_t)in->kinds) : 0, ticks = ticks_with(in, kind % KINDS, (uint8_t)(1 + below(16)));
    return differ_enough_with(in, kind, ticks) || differ_enough_with(in, kind, ticks - 1) || differ_enough_with(in, kind, 0) ||
           differ_enough_with(in, kind, UINT32_MAX) || differ_enough_with(in, (uint32_t)in->kinds, 0) ||
           differ_enough_with(in, undeclared[below(5)], ticks);
}

/* Some ticks of a run with these times; then of a record with one thing changed, which may or may not suit any more. */
static int differ_ticks(const struct input *in, const uint32_t *times) {
    PlannerRecord run = planner_start(in->file, in->length, times, in->n).run;
    for (int i = 0; i < 4; i++)
        if (differ_tick_with(in, &run))
            return 1;
    switch (below(9)) {
    case 0: run.n += 1 - 2 * below(2); break;
    case 1: run.instant = 128000001 - below(3); break;
    case 2: run.left[below(VERTICES)] ^= 1u << below(21); break;
    case 3: run.ran[below(2)] ^= (uint64_t)1 << below(64); break;
    case 4: run.instant = (uint64_t)-1 - below(1000); break;
    case 5: run.waiting[below((uint32_t)in->n)]++; break;
    case 6: run.waiting[below((uint32_t)in->n)]--; break;
    case 7: run.waiting[below(VERTICES)] ^= (uint8_t)(1u << below(8)); break;
    default: run.left[below((uint32_t)in->n)] = 1; break;
    }
    return differ_tick_with(in, &run);
}

static int differ_any(const struct input *in) {
    uint32_t times[VERTICES];
    if (differ_read(in))
        return differ(in, "read");
    if (differ_write_with(in, in->vertices, ROOM) || differ_write_with(in, in->vertices, in->length) ||
        (in->length > 0 && differ_write_with(in, in->vertices, in->length - 1)) || (in->vertices > 0 && differ_write_with(in, in->vertices - 1, ROOM)))
        return differ(in, "write");
    if (differ_bounds(in))
        return differ(in, "bounds");
    if (differ_path_with(in, VERTICES) || differ_path_with(in, in->n) || differ_path_with(in, in->n - 1))
        return differ(in, "path");
    for (int i = 0; i < 4; i++) { /* any times up to the WCETs, some of them 0, in the end all of them */
        for (size_t v = 0; v < in->n; v++)
            times[v] = below(4) < (uint32_t)i ? 0 : below(in->times[v] + 1);
        if (differ_run_with(in, times, in->n, in->n))
            return differ(in, "run");
        if (differ_late_around(in, times))
            return differ(in, "late");
        if (differ_log_with(in, times, in->n, PLANNER_LONGEST_RUN_LOG))
            return differ(in, "log");
        if (differ_start_with(in, times, in->n))
            return differ(in, "start");
        if (differ_ticks(in, times))
            return differ(in, "tick");
    }
    times[below((uint32_t)in->n)] = 1000001;
    if (differ_start_with(in, in->times, in->n) || differ_start_with(in, in->times, in->n - 1) || differ_start_with(in, times, in->n))
        return differ(in, "start");
    if (differ_run_with(in, in->times, in->n, VERTICES) || differ_run_with(in, in->times, in->n, in->n - 1) ||
        differ_run_with(in, in->times, in->n - 1, VERTICES) || differ_run_with(in, times, in->n, VERTICES))
        return differ(in, "run");
    if (differ_late_around(in, in->times) || differ_late_with(in, in->times, in->n - 1, 0) || differ_late_with(in, times, in->n, UINT32_MAX) ||
        differ_late_with(in, times, in->n, 0))
        return differ(in, "late");
    if (differ_log_with(in, in->times, in->n, 16 * in->n) || differ_log_with(in, in->times, in->n, 15) ||
        differ_log_with(in, in->times, in->n - 1, PLANNER_LONGEST_RUN_LOG) || differ_log_with(in, times, in->n, 0))
        return differ(in, "log");
    if (differ_logs(in))
        return differ(in, "replay");
    if (differ_gains_with(in, VERTICES) || differ_gains_with(in, in->n) || differ_gains_with(in, in->n - 1))
        return differ(in, "gains");
    size_t v = below((uint32_t)in->n);
    uint32_t wcet = below(1000001);
    if (differ_gains_altered_with(in, v, wcet, VERTICES) || differ_gains_altered_with(in, v, in->times[v] / 2, in->n) ||
        differ_gains_altered_with(in, v, wcet, in->n - 1) || differ_gains_altered_with(in, v, 1000001, in->n - 1) ||
        differ_gains_altered_with(in, in->n, 1000001, in->n))
        return differ(in, "altered");
    if (differ_second(in))
        return differ(in, "second");
    if (differ_texts(in))
        return differ(in, "stg read");
    if (differ_stg_write_with(in, PLANNER_LONGEST_WRITTEN_STG) || differ_stg_write_with(in, 0) ||
        (in->stg == in->own_stg && in->stg_length > 0 && (differ_stg_write_with(in, in->stg_length) || differ_stg_write_with(in, in->stg_length - 1))))
        return differ(in, "stg write");
    if (differ_mends(in))
        return differ(in, "mend");
    if (differ_enoughs(in))
        return differ(in, "enough");
    return 0;
}

static void take_lists(struct input *in);

/* Each file of a row as it is; then, in turn, with bytes altered or its end cut off, so that every number occurs. */
static int differ_altered(const struct row *row) {
    static struct input altered;
    int bad = 0;
    for (size_t k = 0; k < row->many && !bad; k++)
        bad = differ_any(&row->inputs[k]);
    for (size_t i = 0; i < ALTERED && !bad; i++) {
        altered = row->inputs[i % row->many];
        uint32_t length = (uint32_t)altered.length;
        for (uint32_t left = 1 + below(2); left > 0; left--) {
            uint8_t *byte = &altered.file[below(length)];
            *byte = below(2) ? (uint8_t)below(256) : (uint8_t)(*byte ^ 1u << below(8));
        }
        if (below(16) == 0)
            altered.length = below(length + 1);
        take_lists(&altered);
        bad = differ_any(&altered);
    }
    return bad;
}

/* Inputs. */

static uint32_t wcet_at(const struct input *in, size_t k) {
    const uint8_t *r = in->file + 8 * k;
    return r[4] | (uint32_t)r[5] << 8 | (uint32_t)r[6] << 16 | (uint32_t)r[7] << 24;
}

static void take_lists(struct input *in) {
    in->kinds = in->vertices = in->edges = 0;
    for (size_t k = 0; k < in->length / 8; k++) {
        const uint8_t *r = in->file + 8 * k;
        if (r[0] == 0x54)
            in->cores[in->kinds++] = r[2];
        if (r[0] == 0x45)
            in->edge[in->edges++] = (uint16_t)(r[1] << 8 | r[2]);
        if (r[0] == 0x56) {
            in->kind[in->vertices] = r[2];
            in->wcet[in->vertices++] = wcet_at(in, k);
        }
    }
}

/* The record halfway through the run in which every vertex takes its WCET. A vertex that has begun goes on to its end, so that the
   finishes say where each one stands, and who of its predecessors is unfinished. Of a file that is refused the record says nothing. */
static PlannerRecord halfway(const struct input *in) {
    uint32_t finishes[VERTICES] = {0};
    uint64_t half = plain_run(in->file, in->length, in->times, in->n, finishes, VERTICES).finish / 2;
    PlannerRecord run = {.n = in->n, .instant = half};
    for (size_t v = 0; v < in->n; v++) {
        if (finishes[v] <= half)
            continue;
        run.left[v] = in->times[v];
        if (finishes[v] - in->times[v] < half) {
            run.left[v] = (uint32_t)(finishes[v] - half);
            run.ran[v / 64] |= (uint64_t)1 << v % 64;
        }
    }
    for (size_t i = 0; i < in->edges; i++) {
        size_t from = in->edge[i] >> 8, to = in->edge[i] & 255;
        if (from < in->n && to < in->n && finishes[from] > half)
            run.waiting[to]++;
    }
    return run;
}

/* The lists, times and record of an input whose file stands. */
static void complete(struct input *in) {
    take_lists(in);
    in->n = in->vertices < VERTICES ? in->vertices : VERTICES;
    memcpy(in->times, in->wcet, sizeof in->times);
    if (in->n == 0)
        in->n = 1;
    in->half = halfway(in);
    in->log = in->run_log;
    in->log_length = (size_t)plain_log(in->file, in->length, in->times, in->n, in->run_log, sizeof in->run_log).count;
    in->stg = in->own_stg;
    in->stg_length = (size_t)plain_stg_write(in->file, in->length, in->own_stg, sizeof in->own_stg).count;
    for (size_t s = 0; s < KINDS && s < in->kinds; s++)
        in->limit[s] = ticks_with(in, s, 16) + (ticks_with(in, s, 1) - ticks_with(in, s, 16)) / 2;
}

static int from_file(struct input *in, const char *name, const char *path) {
    int fd = open(path, 0);
    long got = fd < 0 ? -1 : read(fd, in->file, ROOM);
    if (got < 0) {
        printf("%s can't be read\n", path);
        return 1;
    }
    close(fd);
    in->name = name;
    in->length = (size_t)got;
    complete(in);
    return 0;
}

static void put_record(uint8_t *r, uint8_t tag, size_t number, size_t third, uint32_t word) {
    r[0] = tag;
    r[1] = (uint8_t)number;
    r[2] = (uint8_t)third;
    r[3] = 0;
    for (int i = 0; i < 4; i++)
        r[4 + i] = (uint8_t)(word >> 8 * i);
}

static void put(struct input *in, uint8_t tag, size_t number, size_t third, uint32_t word) {
    put_record(in->file + in->length, tag, number, third, word);
    in->length += 8;
}

/* The file of an input whose lists of types and vertices stand, with these edges. */
static void from_lists(struct input *in, const char *name, uint8_t has[VERTICES][VERTICES]) {
    in->name = name;
    in->length = 0;
    for (size_t s = 0; s < in->kinds; s++)
        put(in, 0x54, s, in->cores[s], 0);
    for (size_t v = 0; v < in->vertices; v++)
        put(in, 0x56, v, in->kind[v], in->wcet[v]);
    for (size_t u = 0; u < in->vertices; u++)
        for (size_t v = 0; v < in->vertices; v++)
            if (has[u][v])
                put(in, 0x45, u, v, 0);
    complete(in);
}

/* The deepest of the largest: 10 types, a path through all 128 vertices, and the shortest edges beside it, 1,024 in all. */
static void deepest(struct input *in, const char *name) {
    uint8_t has[VERTICES][VERTICES] = {{0}};
    for (size_t step = 1, edges = 0; edges < EDGES; step++)
        for (size_t u = 0; u + step < VERTICES && edges < EDGES; u++, edges++)
            has[u][u + step] = 1;
    in->kinds = KINDS;
    in->vertices = VERTICES;
    for (size_t s = 0; s < KINDS; s++)
        in->cores[s] = (uint8_t)(1 + 7 * s % 16);
    for (size_t v = 0; v < VERTICES; v++) {
        in->kind[v] = (uint8_t)(v % KINDS);
        in->wcet[v] = (uint32_t)(1 + v * v % 1009);
    }
    from_lists(in, name, has);
}

/* The widest: one type with 16 cores, a source, 126 vertices beside each other, and a sink. */
static void widest(struct input *in, const char *name) {
    uint8_t has[VERTICES][VERTICES] = {{0}};
    for (size_t v = 1; v < VERTICES - 1; v++)
        has[0][v] = has[v][VERTICES - 1] = 1;
    in->kinds = 1;
    in->vertices = VERTICES;
    in->cores[0] = 16;
    seed = SEED;
    for (size_t v = 0; v < VERTICES; v++) {
        in->kind[v] = 0;
        in->wcet[v] = 1 + below(1000);
    }
    from_lists(in, name, has);
}

/* The most open: 10 types, 64 sources, 64 sinks, and an edge from each source to 16 of the sinks, 1,024 in all. */
static void open_ends(struct input *in, const char *name) {
    uint8_t has[VERTICES][VERTICES] = {{0}};
    for (size_t u = 0; u < VERTICES / 2; u++)
        for (size_t k = 0; k < 16; k++)
            has[u][VERTICES / 2 + (u + 5 * k) % (VERTICES / 2)] = 1;
    in->kinds = KINDS;
    in->vertices = VERTICES;
    for (size_t s = 0; s < KINDS; s++)
        in->cores[s] = (uint8_t)(1 + 7 * s % 16);
    for (size_t v = 0; v < VERTICES; v++) {
        in->kind[v] = (uint8_t)(v % KINDS);
        in->wcet[v] = (uint32_t)(1 + v * v % 1009);
    }
    from_lists(in, name, has);
}

/* The slowest to get the second bound: 128 vertices and 4,096 complete paths, all their forks in front, so that each path has the long way
   behind them to itself. Of the graphs tried it takes plain C longest: with vertices before the forks, or beside the long way, it takes less. */
static void many_paths(struct input *in, const char *name) {
    uint8_t has[VERTICES][VERTICES] = {{0}};
    for (size_t v = 1; v < 14; v++) /* every way from the first of 14 to the last: 2^12 */
        for (size_t u = 0; u < v; u++)
            has[u][v] = 1;
    for (size_t v = 14; v < VERTICES; v++)
        has[v - 1][v] = 1;
    in->kinds = KINDS;
    in->vertices = VERTICES;
    for (size_t s = 0; s < KINDS; s++)
        in->cores[s] = (uint8_t)(1 + 7 * s % 16);
    for (size_t v = 0; v < VERTICES; v++) {
        in->kind[v] = (uint8_t)(v % KINDS);
        in->wcet[v] = (uint32_t)(1 + v * v % 1009);
    }
    from_lists(in, name, has);
}

/* The same number of paths where each fork has four vertices beside each other, six times, on three types, and the long way behind them. */
static void many_beside(struct input *in, const char *name) {
    uint8_t has[VERTICES][VERTICES] = {{0}};
    size_t joint = 0;
    for (size_t fork = 0; fork < 6; fork++, joint += 5)
        for (size_t k = 1; k <= 4; k++)
            has[joint][joint + k] = has[joint + k][joint + 5] = 1;
    for (; joint + 1 < VERTICES; joint++)
        has[joint][joint + 1] = 1;
    in->kinds = 3;
    in->vertices = VERTICES;
    for (size_t s = 0; s < in->kinds; s++)
        in->cores[s] = (uint8_t)(2 + s);
    for (size_t v = 0; v < VERTICES; v++) {
        in->kind[v] = (uint8_t)(v % in->kinds);
        in->wcet[v] = (uint32_t)(1 + v * v % 1009);
    }
    from_lists(in, name, has);
}

/* The longest run: one type of one core, and all 128 vertices one behind the other, each at the largest WCET. */
static void longest_run(struct input *in, const char *name) {
    uint8_t has[VERTICES][VERTICES] = {{0}};
    in->kinds = 1;
    in->vertices = VERTICES;
    in->cores[0] = 1;
    for (size_t v = 0; v < VERTICES; v++) {
        in->kind[v] = 0;
        in->wcet[v] = 1000000;
        if (v > 0)
            has[v - 1][v] = 1;
    }
    from_lists(in, name, has);
}

/* The same file with its edges downwards. */
static void downwards(struct input *in, const char *name, const struct input *of) {
    size_t first = of->length / 8 - of->edges;
    in->name = name;
    in->length = of->length;
    memcpy(in->file, of->file, 8 * first);
    for (size_t i = 0; i < of->edges; i++)
        memcpy(in->file + 8 * (first + i), of->file + of->length - 8 * (i + 1), 8);
    complete(in);
}

/* The graph between an entry and an exit of no time. */
static void framed(struct input *in, const char *name, const struct input *of) {
    uint8_t has[VERTICES][VERTICES] = {{0}}, entered[VERTICES] = {0}, left[VERTICES] = {0};
    for (size_t i = 0; i < of->edges; i++) {
        size_t from = of->edge[i] >> 8, to = of->edge[i] & 255;
        has[1 + from][1 + to] = left[from] = entered[to] = 1;
    }
    memcpy(in->cores, of->cores, sizeof in->cores);
    in->kinds = of->kinds;
    in->vertices = of->vertices + 2;
    in->kind[0] = in->kind[in->vertices - 1] = 0;
    in->wcet[0] = in->wcet[in->vertices - 1] = 0;
    for (size_t v = 0; v < of->vertices; v++) {
        in->kind[1 + v] = of->kind[v];
        in->wcet[1 + v] = of->wcet[v];
        has[0][1 + v] = !entered[v];
        has[1 + v][in->vertices - 1] = !left[v];
    }
    from_lists(in, name, has);
}

/* The longest text that is written: 126 tasks at the largest WCET, 1,024 edges, and predecessors with as many digits as can be. What is numbered
   from 100 on stands before 1 to 99, each of which waits for ten at least. */
static void longest_text(struct input *in, const char *name) {
    uint8_t has[VERTICES][VERTICES] = {{0}};
    size_t edges = 27 + 98 + 1, last = VERTICES - 1;
    for (size_t v = 100; v < last; v++)
        has[v == 100 ? 0 : v - 1][v] = 1;
    for (size_t v = 2; v < 100; v++)
        has[v - 1][v] = 1;
    has[99][last] = 1;
    for (size_t round = 0; round < 27 && edges < EDGES; round++)
        for (size_t v = 1; v < 100 && edges < EDGES; v++, edges++)
            has[100 + (v + round) % 27][v] = 1;
    in->kinds = KINDS;
    in->vertices = VERTICES;
    for (size_t s = 0; s < KINDS; s++)
        in->cores[s] = (uint8_t)(1 + 7 * s % 16);
    for (size_t v = 0; v < VERTICES; v++) {
        in->kind[v] = (uint8_t)(v % KINDS);
        in->wcet[v] = v == 0 || v == last ? 0 : 1000000;
    }
    from_lists(in, name, has);
}

/* The longest text that is read, of the same graph: every number has ten digits, blanks and tabs stand between them, and lines that are skipped
   make up the rest. */
static void text_of_length(struct input *in, const char *name, const struct input *of, uint8_t *stg) {
    size_t length = 0, digits = 0;
    *in = *of;
    in->name = name;
    for (size_t i = 0; i < of->stg_length; i++) {
        size_t ahead = 0;
        uint8_t byte = of->stg[i];
        if (byte == ' ' || byte == '\n') {
            for (size_t k = 0; byte == ' ' && k < 10; k++)
                stg[length++] = k % 2 ? ' ' : '\t';
            if (byte == '\n')
                stg[length++] = byte;
            digits = 0;
            continue;
        }
        while (of->stg[i + ahead] != ' ' && of->stg[i + ahead] != '\n')
            ahead++;
        for (; digits + ahead < 10; digits++)
            stg[length++] = '0';
        stg[length++] = byte;
        digits++;
    }
    for (size_t column = 0; length < LONGEST_STG; length++, column = (column + 1) % 80)
        stg[length] = column == 0 ? '#' : column == 79 || length == LONGEST_STG - 1 ? '\n' : '.';
    in->stg = stg;
    in->stg_length = length;
}

/* A frame as another scheduler may run it, every vertex at its WCET: cores are never idle while someone waits for them, but whoever runs may be
   set aside for another at any tick, or be stopped and started at one instant where nobody waits. */
struct frame {
    const struct input *in;
    uint32_t left[VERTICES];
    size_t waits[VERTICES]; /* how many predecessors are unfinished */
    uint8_t runs[VERTICES], idle[KINDS];
    uint8_t stops[VERTICES], starts[VERTICES]; /* at this instant */
    size_t unfinished;
};

static int waiting(const struct frame *f, size_t v) { return f->left[v] > 0 && f->waits[v] == 0 && !f->runs[v]; }

/* The first vertex of a type that waits, from a number on and round; VERTICES where none does. */
static size_t next_waiting(const struct frame *f, size_t kind, size_t from) {
    for (size_t i = 0; i < f->in->vertices; i++) {
        size_t v = (from + i) % f->in->vertices;
        if (f->in->kind[v] == kind && waiting(f, v))
            return v;
    }
    return VERTICES;
}

static void give_core(struct frame *f, size_t v) {
    f->runs[v] = f->starts[v] = 1;
    f->idle[f->in->kind[v]]--;
}

static void take_core(struct frame *f, size_t v) {
    f->runs[v] = 0;
    f->stops[v] = 1;
    f->idle[f->in->kind[v]]++;
}

/* The vertex is finished; so is, at once, whatever of no time waited for it alone. */
static void end(struct frame *f, size_t v) {
    f->unfinished--;
    for (size_t i = 0; i < f->in->edges; i++) {
        size_t w = f->in->edge[i] & 255;
        if (f->in->edge[i] >> 8 == v && --f->waits[w] == 0 && f->left[w] == 0)
            end(f, w);
    }
}

/* Some of those that run are set aside, while so many more times are wanted; then every idle core goes to someone who waits. Each vertex has
   two records, and two more for each time that it is set aside. */
static void give_cores(struct frame *f, size_t *more) {
    size_t n = f->in->vertices;
    for (size_t v = 0; v < n && *more > 0; v++)
        if (f->runs[v] && !f->starts[v] && below(2) == 0) {
            size_t other = next_waiting(f, f->in->kind[v], below((uint32_t)n));
            take_core(f, v);
            give_core(f, other < VERTICES ? other : v);
            --*more;
        }
    for (size_t s = 0; s < f->in->kinds; s++)
        for (size_t v; f->idle[s] > 0 && (v = next_waiting(f, s, below((uint32_t)n))) < VERTICES;)
            give_core(f, v);
}

/* The records of an instant, and where the next ones go. */
static uint8_t *tell(struct frame *f, uint8_t *at, uint32_t instant) {
    for (int starts = 0; starts < 2; starts++)
        for (size_t v = 0; v < f->in->vertices; v++) {
            uint8_t *told = starts ? &f->starts[v] : &f->stops[v];
            if (*told) {
                put_record(at, starts ? 0x53 : 0x50, v, 0, instant);
                at += 8;
            }
            *told = 0;
        }
    return at;
}

/* The input gets such a log, of 8,192 records, instead of its run's; 1 where the frame is too short for so many. */
static int record_frame(struct input *in, const char *name, const struct input *of, uint8_t *log) {
    struct frame f = {.in = in};
    uint8_t *at = log;
    size_t more = LONGEST_LOG / 16;
    *in = *of;
    in->name = name;
    seed = SEED;
    memcpy(f.idle, in->cores, sizeof f.idle);
    memcpy(f.left, in->wcet, sizeof f.left);
    for (size_t i = 0; i < in->edges; i++)
        f.waits[in->edge[i] & 255]++;
    f.unfinished = in->vertices;
    for (size_t v = 0; v < in->vertices; v++)
        more -= f.left[v] > 0;
    for (size_t v = 0; v < in->vertices; v++)
        if (f.left[v] == 0 && f.waits[v] == 0)
            end(&f, v);
    for (uint32_t instant = 0;; instant++) {
        for (size_t v = 0; v < in->vertices; v++)
            if (f.runs[v] && --f.left[v] == 0) {
                take_core(&f, v);
                end(&f, v);
            }
        give_cores(&f, &more);
        at = tell(&f, at, instant);
        if (f.unfinished == 0)
            break;
    }
    in->log = log;
    in->log_length = (size_t)(at - log);
    if (in->log_length == LONGEST_LOG)
        return 0;
    printf("%s: the frame has %d records\n", name, (int)(in->log_length / 8));
    return 1;
}

/* New numbers: against the edges, where they went upwards; from the lowest to the highest and back, so that along a path every other edge
   goes down; and any. */
static void against(uint8_t *as, size_t n) {
    for (size_t v = 0; v < n; v++)
        as[v] = (uint8_t)(n - 1 - v);
}

static void to_and_fro(uint8_t *as, size_t n) {
    for (size_t v = 0; v < n; v++)
        as[v] = (uint8_t)(v % 2 == 0 ? v / 2 : n - 1 - v / 2);
}

static void at_random(uint8_t *as, size_t n) {
    for (size_t v = 0; v < n; v++) {
        size_t other = below((uint32_t)v + 1);
        as[v] = as[other];
        as[other] = (uint8_t)v;
    }
}

/* The same graph with other numbers for its vertices, so many times. The seed is set, so that a row is the same whatever other rows there are. */
static void renumbered(struct input *inputs, size_t many, const char *name, const struct input *up, void (*number)(uint8_t *, size_t)) {
    seed = SEED;
    for (struct input *in = inputs; in < inputs + many; in++) {
        uint8_t has[VERTICES][VERTICES] = {{0}}, as[VERTICES] = {0};
        number(as, up->vertices);
        in->kinds = up->kinds;
        in->vertices = up->vertices;
        memcpy(in->cores, up->cores, sizeof in->cores);
        for (size_t v = 0; v < up->vertices; v++) {
            in->kind[as[v]] = up->kind[v];
            in->wcet[as[v]] = up->wcet[v];
        }
        for (size_t i = 0; i < up->edges; i++)
            has[as[up->edge[i] >> 8]][as[up->edge[i] & 255]] = 1;
        from_lists(in, name, has);
    }
}

/* The same file with every vertex of its first type, and 16 cores of each other: cores that no vertex can use. */
static void of_one_type(struct input *in) {
    for (size_t k = 0; k < in->length / 8; k++) {
        uint8_t *r = in->file + 8 * k;
        if (r[0] == 0x54 && r[1] != 0)
            r[2] = 16;
        if (r[0] == 0x56)
            r[2] = 0;
    }
    complete(in);
}

/* The limits of document 01 from both sides, and the examples of document 000: compared, not timed. */
static const char *const cases[] = {
    "crates/cases/data/kinds-10.graph",     "crates/cases/data/kinds-11.graph",     "crates/cases/data/vertices-128.graph", "crates/cases/data/vertices-129.graph",
    "crates/cases/data/edges-1024.graph",   "crates/cases/data/edges-1025.graph",   "crates/cases/data/wcet-1000000.graph", "crates/cases/data/wcet-1000001.graph",
    "crates/cases/data/length-9296.graph",  "crates/cases/data/length-9304.graph",  "crates/cases/data/length-7.graph",     "crates/cases/data/length-0.graph",
    "crates/cases/data/zeros-8.graph",      "crates/cases/data/example-1.graph",    "crates/cases/data/example-2.graph",    "crates/cases/data/example-3.graph",
};
#define CASES (sizeof cases / sizeof cases[0])

/* Times. */

static uint64_t now(void) {
    struct moment m;
    clock_gettime(1, &m); /* the clock that is never set */
    return (uint64_t)m.seconds * 1000000000u + (uint64_t)m.nanoseconds;
}

static volatile uint64_t kept; /* an answer of every call goes here, so that none is left out */
static uint8_t written[ROOM], done[2 * ROOM], vertices[VERTICES];
static uint32_t finishes[VERTICES];
static uint64_t gains[VERTICES];

/* A call as it is timed hands back its number, which must be 0: the time of a refusal says nothing. */
static uint32_t told(uint32_t number, uint64_t answer) {
    kept += answer;
    return number;
}

static uint32_t proved_read(const struct input *in) {
    PlannerGraph a = planner_read(in->file, in->length);
    return told(a.number, a.graph.edges);
}
static uint32_t proved_write(const struct input *in) {
    PlannerCount a = planner_write(in->cores, in->kinds, in->kind, in->vertices, in->wcet, in->vertices, in->edge, in->edges, written, ROOM);
    return told(a.number, a.count);
}
static uint32_t proved_bounds(const struct input *in) {
    PlannerBounds a = planner_bounds(in->file, in->length);
    return told(a.number, a.ticks);
}
static uint32_t proved_path(const struct input *in) {
    PlannerCount a = planner_path(in->file, in->length, vertices, VERTICES);
    return told(a.number, a.count);
}
static uint32_t proved_start(const struct input *in) {
    PlannerRun a = planner_start(in->file, in->length, in->times, in->n);
    return told(a.number, a.run.left[0]);
}
static uint32_t proved_tick(const struct input *in) {
    PlannerTick a = planner_tick(in->half, in->file, in->length);
    return told(a.number, a.run.instant);
}
static uint32_t proved_run(const struct input *in) {
    PlannerFinish a = planner_run(in->file, in->length, in->times, in->n, finishes, VERTICES);
    return told(a.number, a.finish);
}

static uint32_t proved_gains(const struct input *in) {
    PlannerCount a = planner_gains(in->file, in->length, gains, VERTICES);
    return told(a.number, gains[0]);
}
/* The middle vertex takes half as long. */
static uint32_t proved_altered(const struct input *in) {
    PlannerCount a = planner_gains_altered(in->file, in->length, (uint32_t)(in->n / 2), in->times[in->n / 2] / 2, gains, VERTICES);
    return told(a.number, gains[0]);
}
/* What the sheet's lines need. */
static uint32_t proved_sheet(const struct input *in) {
    uint32_t number = proved_bounds(in);
    number |= proved_path(in);
    number |= proved_gains(in);
    return number;
}

static uint32_t proved_second(const struct input *in) {
    PlannerSecond a = planner_second(in->file, in->length);
    return told(a.number, a.parts);
}

/* By the middle of the run: not yet, and half of it is played. */
static uint32_t middle(const struct input *in) { return (uint32_t)in->half.instant; }

static uint32_t proved_late(const struct input *in) {
    PlannerLate a = planner_late(in->file, in->length, in->times, in->n, middle(in));
    return told(a.number, a.played);
}

static uint32_t proved_replay(const struct input *in) {
    PlannerFinish a = planner_replay(in->file, in->length, in->log, in->log_length, finishes, VERTICES);
    return told(a.number, a.finish);
}
static uint32_t proved_log(const struct input *in) {
    PlannerCount a = planner_log(in->file, in->length, in->times, in->n, written, ROOM);
    return told(a.number, a.count);
}

static uint32_t proved_stg_read(const struct input *in) {
    PlannerCount a = planner_stg_read(in->stg, in->stg_length, in->cores, in->kinds, in->kind, in->vertices, written, ROOM);
    return told(a.number, a.count);
}
static uint32_t proved_stg_write(const struct input *in) {
    PlannerCount a = planner_stg_write(in->file, in->length, written, ROOM);
    return told(a.number, a.count);
}

static uint32_t proved_mend(const struct input *in) {
    PlannerMended a = planner_mend(in->file, in->length, written, ROOM, done, 2 * ROOM);
    return told(a.number, a.length + a.list_length);
}

/* Of each type, one after the other. */
static uint32_t proved_enough(const struct input *in) {
    uint32_t number = 0;
    for (size_t s = 0; s < in->kinds; s++) {
        PlannerEnough a = planner_enough(in->file, in->length, (uint32_t)s, in->limit[s]);
        number |= told(a.number, a.cores);
    }
    return number;
}

static uint32_t c_read(const struct input *in) {
    struct plain_graph a = plain_read(in->file, in->length);
    return told(a.number, a.edges);
}
static uint32_t c_write(const struct input *in) {
    struct plain_count a = plain_write(in->cores, in->kinds, in->kind, in->vertices, in->wcet, in->vertices, in->edge, in->edges, written, ROOM);
    return told(a.number, a.count);
}
static uint32_t c_bounds(const struct input *in) {
    struct plain_bounds a = plain_bounds(in->file, in->length);
    return told(a.number, a.ticks);
}
static uint32_t c_path(const struct input *in) {
    struct plain_count a = plain_path(in->file, in->length, vertices, VERTICES);
    return told(a.number, a.count);
}
static uint32_t c_start(const struct input *in) {
    struct plain_step a = plain_start(in->file, in->length, in->times, in->n);
    return told(a.number, a.run.left[0]);
}
static uint32_t c_tick(const struct input *in) {
    struct plain_step a = plain_tick(as_plain(&in->half), in->file, in->length);
    return told(a.number, a.run.instant);
}
static uint32_t c_run(const struct input *in) {
    struct plain_finish a = plain_run(in->file, in->length, in->times, in->n, finishes, VERTICES);
    return told(a.number, a.finish);
}
static uint32_t c_gains(const struct input *in) {
    struct plain_count a = plain_gains(in->file, in->length, gains, VERTICES);
    return told(a.number, gains[0]);
}
static uint32_t c_altered(const struct input *in) {
    struct plain_count a = plain_gains_altered(in->file, in->length, (uint32_t)(in->n / 2), in->times[in->n / 2] / 2, gains, VERTICES);
    return told(a.number, gains[0]);
}
static uint32_t c_sheet(const struct input *in) {
    uint32_t number = c_bounds(in);
    number |= c_path(in);
    number |= c_gains(in);
    return number;
}
static uint32_t c_second(const struct input *in) {
    struct plain_second a = plain_second(in->file, in->length);
    return told(a.number, a.parts);
}

static uint32_t c_late(const struct input *in) {
    struct plain_late a = plain_late(in->file, in->length, in->times, in->n, middle(in));
    return told(a.number, a.played);
}

static uint32_t c_replay(const struct input *in) {
    struct plain_finish a = plain_replay(in->file, in->length, in->log, in->log_length, finishes, VERTICES);
    return told(a.number, a.finish);
}
static uint32_t c_log(const struct input *in) {
    struct plain_count a = plain_log(in->file, in->length, in->times, in->n, written, ROOM);
    return told(a.number, a.count);
}

static uint32_t c_stg_read(const struct input *in) {
    struct plain_count a = plain_stg_read(in->stg, in->stg_length, in->cores, in->kinds, in->kind, in->vertices, written, ROOM);
    return told(a.number, a.count);
}
static uint32_t c_stg_write(const struct input *in) {
    struct plain_count a = plain_stg_write(in->file, in->length, written, ROOM);
    return told(a.number, a.count);
}

static uint32_t c_mend(const struct input *in) {
    struct plain_mended a = plain_mend(in->file, in->length, written, ROOM, done, 2 * ROOM);
    return told(a.number, a.length + a.list_length);
}

static uint32_t c_enough(const struct input *in) {
    uint32_t number = 0;
    for (size_t s = 0; s < in->kinds; s++) {
        struct plain_enough a = plain_enough(in->file, in->length, (uint32_t)s, in->limit[s]);
        number |= told(a.number, a.cores);
    }
    return number;
}

/* Just what is timed, compared. */
static int differ_write(const struct input *in) { return differ_write_with(in, in->vertices, ROOM); }
static int differ_path(const struct input *in) { return differ_path_with(in, VERTICES); }
static int differ_start(const struct input *in) { return differ_start_with(in, in->times, in->n); }
static int differ_run(const struct input *in) { return differ_run_with(in, in->times, in->n, VERTICES); }
static int differ_gains(const struct input *in) { return differ_gains_with(in, VERTICES); }
static int differ_gains_altered(const struct input *in) { return differ_gains_altered_with(in, in->n / 2, in->times[in->n / 2] / 2, VERTICES); }
static int differ_late(const struct input *in) { return differ_late_with(in, in->times, in->n, middle(in)); }
static int differ_replay(const struct input *in) { return differ_replay_with(in, in->log, in->log_length, VERTICES); }
static int differ_log(const struct input *in) { return differ_log_with(in, in->times, in->n, PLANNER_LONGEST_RUN_LOG); }
static int differ_stg_read(const struct input *in) { return differ_stg_read_with(in, in->stg, in->stg_length, in->vertices, ROOM); }
static int differ_stg_write(const struct input *in) { return differ_stg_write_with(in, PLANNER_LONGEST_WRITTEN_STG); }
static int differ_mend(const struct input *in) { return differ_mend_with(in->file, in->length, ROOM, 2 * ROOM); }
static int differ_enough(const struct input *in) {
    int some = 0;
    for (size_t s = 0; s < in->kinds; s++)
        some |= differ_enough_with(in, (uint32_t)s, in->limit[s]);
    return some;
}
static int differ_sheet(const struct input *in) { return differ_bounds(in) || differ_path(in) || differ_gains(in); }
static int differ_tick(const struct input *in) {
    PlannerRecord run = in->half;
    return differ_tick_with(in, &run);
}

typedef uint32_t (*work)(const struct input *);

static const struct {
    const char *name;
    work proved, plain;
    int (*differ)(const struct input *);
    enum wanted wanted;
} calls[] = {
    {"read", proved_read, c_read, differ_read, BASE},         {"write", proved_write, c_write, differ_write, NOTHING},
    {"bounds", proved_bounds, c_bounds, differ_bounds, BASE}, {"path", proved_path, c_path, differ_path, BASE},
    {"start", proved_start, c_start, differ_start, NOTHING},  {"tick", proved_tick, c_tick, differ_tick, NOTHING},
    {"run", proved_run, c_run, differ_run, BASE},             {"gains", proved_gains, c_gains, differ_gains, ORDER},
    {"altered", proved_altered, c_altered, differ_gains_altered, ORDER}, {"second", proved_second, c_second, differ_second, ORDER},
    {"late", proved_late, c_late, differ_late, ORDER},       {"sheet", proved_sheet, c_sheet, differ_sheet, ORDER},
    {"replay", proved_replay, c_replay, differ_replay, ORDER}, {"log", proved_log, c_log, differ_log, ORDER},
    {"stg read", proved_stg_read, c_stg_read, differ_stg_read, ORDER}, {"stg write", proved_stg_write, c_stg_write, differ_stg_write, ORDER},
    {"mend", proved_mend, c_mend, differ_mend, ORDER},       {"enough", proved_enough, c_enough, differ_enough, ORDER},
};
#define CALLS (sizeof calls / sizeof calls[0])

static int is_timed(const struct row *row, size_t call) {
    work w = calls[call].proved;
    int text = w == proved_stg_read || w == proved_stg_write;
    switch (row->timed) {
    case BUT_SECOND: return w != proved_second && !text;
    case SECOND_ALONE: return w == proved_second;
    case RUNS_ALONE: return w == proved_run || w == proved_late || w == proved_replay || w == proved_log;
    case REPLAY_ALONE: return w == proved_replay;
    case TEXTS_ALONE: return text;
    case STG_READ_ALONE: return w == proved_stg_read;
    case MEND_ALONE: return w == proved_mend;
    default: return !text;
    }
}

/* Of so many calls for each file of the row, in turn. */
static double time_of(work w, const struct row *row, uint64_t times) {
    uint64_t begin = now();
    for (uint64_t i = 0; i < times; i++)
        for (size_t k = 0; k < row->many; k++)
            w(&row->inputs[k]);
    return (double)(now() - begin);
}

/* As often as makes a round. */
static uint64_t often(work w, const struct row *row) {
    uint64_t times = 1;
    while (time_of(w, row, times) < ROUND_NS / 2)
        times *= 2;
    return times;
}

/* Nothing is timed but answers that are equal and no refusals. */
static int unfit(const struct input *in, size_t call) {
    if (calls[call].differ(in))
        return differ(in, calls[call].name);
    if (calls[call].proved(in) == 0 && calls[call].plain(in) == 0)
        return 0;
    printf("%s: %s is refused, so that its time says nothing\n", in->name, calls[call].name);
    return 1;
}

/* A line of the table, from nanoseconds; its ratio. Two times that are not above 0 have none: a difference of times may be anything. */
static double print_line(const char *input, const char *call, double proved, double plain, int ratios_only) {
    printf("| %s | %s |", input, call);
    if (proved > 0 && plain > 0)
        printf(" %.2f |", proved / plain);
    else
        printf(" - |");
    if (!ratios_only)
        printf(" %.2f | %.2f |", proved / 1e3, plain / 1e3);
    printf("\n");
    return proved / plain;
}

/* What a call takes beside the reading of its file: a difference of two times, so that a ratio of two of them would say little. */
static void print_rest(const char *input, const char *call, double proved, double plain, int ratios_only) {
    printf("| %s | %s less read | - |", input, call);
    if (!ratios_only)
        printf(" %.2f | %.2f |", proved / 1e3, plain / 1e3);
    printf("\n");
}

/* A line of the table for each call. The ratios are kept for the goals. A tick reads the file first, and most of its time goes there: what it
   takes more than a read of the same file has a line of its own. */
static int compare(const struct row *row, int ratios_only, double *ratios) {
    double read_proved = 0, read_plain = 0;
    for (size_t i = 0; i < CALLS; i++) {
        if (!is_timed(row, i))
            continue;
        for (size_t k = 0; k < row->many; k++)
            if (unfit(&row->inputs[k], i))
                return 1;
        uint64_t proved_times = often(calls[i].proved, row), plain_times = often(calls[i].plain, row);
        double proved = 1e18, plain = 1e18;
        for (int round = 0; round < ROUNDS; round++) {
            double a = time_of(calls[i].proved, row, proved_times), b = time_of(calls[i].plain, row, plain_times);
            proved = a < proved ? a : proved;
            plain = b < plain ? b : plain;
        }
        proved /= (double)(proved_times * row->many);
        plain /= (double)(plain_times * row->many);
        ratios[i] = print_line(row->inputs->name, calls[i].name, proved, plain, ratios_only);
        if (calls[i].proved == proved_read) {
            read_proved = proved;
            read_plain = plain;
        }
        if (calls[i].proved == proved_tick)
            print_rest(row->inputs->name, calls[i].name, proved - read_proved, plain - read_plain, ratios_only);
    }
    return 0;
}

static void print_goal(double goal) {
    if (goal > 0)
        printf(" %g |", goal);
    else
        printf(" - |");
}

/* Says which calls are above their goals, in the two digits that the table shows; whether some are. */
static int missed(const struct row *row, const double *ratios) {
    int some = 0;
    printf("| %s |", row->inputs->name);
    print_goal(row->goal[BASE]);
    print_goal(row->goal[ORDER]);
    for (size_t i = 0; i < CALLS; i++) {
        double goal = row->goal[calls[i].wanted];
        if (goal > 0 && is_timed(row, i) && ratios[i] >= goal + 0.005) {
            printf("%s %s %.2f", some ? "," : " no:", calls[i].name, ratios[i]);
            some = 1;
        }
    }
    printf(some ? " |\n" : " yes |\n");
    return some;
}

/* The rows. */

static struct input case_a, board, board_turns[TURNS], largest[3], largest_turns[TURNS], deep[3], deep_turns[TURNS], wide, wide_turns[TURNS];
static struct input ends, ends_turns[TURNS], paths[2], longest, recorded[2], texts[3], edited[2];
static uint8_t recorded_logs[2][LONGEST_LOG], longest_stg[LONGEST_STG];

/* By what is wanted. On four vertices what a call does whatever the graph, such as zeroing tables, is most of it. */
#define FOUR {[BASE] = 3}
#define BOARD {[BASE] = 1.5, [ORDER] = 2}
#define LARGE {[BASE] = 1.5, [ORDER] = 3}
#define ALONE {[ORDER] = 3}

static const struct row rows[] = {
    {&case_a, 1, FOUR, EVERY_CALL},      {&board, 1, BOARD, EVERY_CALL},      {board_turns, TURNS, BOARD, EVERY_CALL},
    {&largest[0], 1, LARGE, BUT_SECOND}, {&largest[1], 1, LARGE, BUT_SECOND}, {&largest[2], 1, LARGE, BUT_SECOND},
    {largest_turns, TURNS, LARGE, BUT_SECOND},
    {&deep[0], 1, LARGE, BUT_SECOND},    {&deep[1], 1, LARGE, BUT_SECOND},    {&deep[2], 1, LARGE, BUT_SECOND},
    {deep_turns, TURNS, LARGE, BUT_SECOND},
    {&wide, 1, LARGE, EVERY_CALL},       {wide_turns, TURNS, LARGE, EVERY_CALL},
    {&ends, 1, LARGE, EVERY_CALL},       {ends_turns, TURNS, LARGE, EVERY_CALL},
    {&paths[0], 1, ALONE, SECOND_ALONE}, {&paths[1], 1, ALONE, SECOND_ALONE}, {&longest, 1, LARGE, RUNS_ALONE},
    {&recorded[0], 1, ALONE, REPLAY_ALONE}, {&recorded[1], 1, ALONE, REPLAY_ALONE},
    {&texts[0], 1, {[ORDER] = 2}, TEXTS_ALONE}, {&texts[1], 1, ALONE, TEXTS_ALONE}, {&texts[2], 1, ALONE, STG_READ_ALONE},
    {&edited[0], 1, {[ORDER] = 2}, MEND_ALONE}, {&edited[1], 1, ALONE, MEND_ALONE},
};
#define ROWS (sizeof rows / sizeof rows[0])

static int make_inputs(void) {
    if (from_file(&case_a, "case A", "samples/case-a.graph") || from_file(&board, "board", "samples/board.graph") ||
        from_file(&largest[0], "largest, upwards", "crates/cases/data/length-9296.graph"))
        return 1;
    deepest(&deep[0], "deepest, upwards");
    widest(&wide, "wide");
    open_ends(&ends, "open");
    many_paths(&paths[0], "4,096 paths");
    many_beside(&paths[1], "4,096 paths, beside");
    longest_run(&longest, "128,000,000 ticks");
    framed(&texts[0], "board, as a text", &board);
    longest_text(&texts[1], "126 tasks, 1,024 edges");
    text_of_length(&texts[2], "65,536 bytes of text", &texts[1], longest_stg);
    downwards(&edited[0], "board, edges downwards", &board);
    downwards(&edited[1], "1,024 edges downwards", &largest[0]);
    renumbered(&largest[1], 1, "largest, against", &largest[0], against);
    renumbered(&largest[2], 1, "largest, to and fro", &largest[0], to_and_fro);
    renumbered(&deep[1], 1, "deepest, against", &deep[0], against);
    renumbered(&deep[2], 1, "deepest, to and fro", &deep[0], to_and_fro);
    renumbered(board_turns, TURNS, "board, at random", &board, at_random);
    renumbered(largest_turns, TURNS, "largest, at random", &largest[0], at_random);
    renumbered(deep_turns, TURNS, "deepest, at random", &deep[0], at_random);
    renumbered(wide_turns, TURNS, "wide, at random", &wide, at_random);
    renumbered(ends_turns, TURNS, "open, at random", &ends, at_random);
    return record_frame(&recorded[0], "largest, 8,192 records", &largest[0], recorded_logs[0]) ||
           record_frame(&recorded[1], "open, 8,192 records", &ends, recorded_logs[1]);
}

static int differ_anywhere(void) {
    for (size_t i = 0; i < ROWS; i++)
        if (differ_altered(&rows[i]))
            return 1;
    for (size_t i = 0; i < CASES; i++) {
        static struct input in;
        if (from_file(&in, cases[i], cases[i]) || differ_any(&in))
            return 1;
        of_one_type(&in);
        if (differ_any(&in))
            return 1;
    }
    printf("equal answers: %d inputs, those at random in %d numberings, each as it is and altered %d times, and %d cases, as they are and on one type; "
           "numbers met:",
           (int)ROWS, TURNS, ALTERED, (int)CASES);
    for (int k = 0; k < 32; k++)
        if (met >> k & 1)
            printf(" %d", k);
    printf("\n\n");
    if (met == 0x7FFFFFF - ((uint32_t)1 << 12))
        return 0;
    printf("these should be 0 to 26 but for 12\n");
    return 1;
}

/* With the word `ratios`, ratios alone; with `goals`, also whether they are within the goals, and 1 where one isn't. */
int main(int count, char **words) {
    int ratios_only = count > 1 && words[1][0] == 'r', goals = count > 1 && words[1][0] == 'g', some = 0;
    double ratios[ROWS][CALLS];
    if (make_inputs() || differ_anywhere())
        return 1;
    printf(ratios_only ? "| input | call | proved / plain |\n|---|---|---|\n"
                       : "| input | call | proved / plain | proved, microseconds | plain, microseconds |\n|---|---|---|---|---|\n");
    for (size_t i = 0; i < ROWS; i++)
        if (compare(&rows[i], ratios_only, ratios[i]))
            return 1;
    if (goals)
        printf("\n| input | goal of read, bounds, path, run | of gains, altered, second, late, sheet, replay, log, stg read, stg write, mend, enough | within them |\n|---|---|---|---|\n");
    for (size_t i = 0; goals && i < ROWS; i++)
        some |= missed(&rows[i], ratios[i]);
    return some;
}
