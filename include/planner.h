/*
 * The planner for C (C11 or later), C++ (C++11 or later) and, through the same declarations, Rust. Link target/staticlib/libplanner.a, which is
 * x86-64 code and wants memcpy and memset of the C library and nothing else.
 *
 * Graphs. A graph is the bytes of its file: records of 8 bytes, which docs/FILE.md describes.
 *
 * Answers. Each begins with `number` and `place`. Number 0, at place 0, is no refusal. Otherwise docs/REFUSALS.md says what the number
 * means and what the place counts: the lowest number that applies is given, with the first place it holds for. On a refusal nothing lent
 * has changed: every list and record holds what it held. On success the places of a lent list past the answer also keep what they held.
 * Bytes of padding in an answer may be anything, so that answers are compared field by field and not by memcmp.
 *
 * What a caller owes. Nothing checks any of this.
 * - A list is a pointer and then a length, counted in elements. So many elements lie there, aligned for their type. Of an empty list the
 *   pointer isn't looked at: it may be null. A pointer to a run record is never null.
 * - A list or record that is written (a parameter without `const`) overlaps nothing else that is lent to the same call. Lists that are only
 *   read may overlap each other.
 * - Until the call returns, nobody else changes what is lent to it, or reads what it writes.
 * - The stack has the room that PLANNER_STACK_.. says.
 * That is all: whatever stands in the lists and in a record, every function returns an answer. A list that is written may be uninitialised,
 * since no answer depends on what it held. All else that is lent is read.
 *
 * What a caller may count on. No pointer is kept after the call. The library has no state and allocates nothing, so that calls may be made
 * from several threads at once, and within a signal handler. It reads and writes no file.
 */
#ifndef PLANNER_H
#define PLANNER_H

#include <stddef.h>
#include <stdint.h>

/* Limits of a graph. What is above them is refused. */
#define PLANNER_MOST_KINDS 10      /* types; there is one at least */
#define PLANNER_MOST_CORES 16      /* of a type; there is one at least */
#define PLANNER_MOST_VERTICES 128  /* there is one at least */
#define PLANNER_MOST_EDGES 1024    /* there may be none */
#define PLANNER_MOST_WCET 1000000  /* of a vertex, in ticks; it may be 0 */
#define PLANNER_RECORD_LENGTH 8    /* of a file, of a log and of a list of mends, in bytes */
#define PLANNER_LONGEST_FILE 9296  /* so many types, vertices and edges, in bytes */

/* In a run record the instant plus all that remains is at most this: 128 vertices at the largest WCET. No run finishes later. */
#define PLANNER_LATEST_INSTANT 128000000

#define PLANNER_PARTS_PER_TICK 720720

/* Complete paths, from a source to a sink, of a graph that gets NEW-B-2. */
#define PLANNER_MOST_PATHS 4096

/* Of a log, in bytes: what is longer is refused. The log of a run has two records for each vertex at most. */
#define PLANNER_LONGEST_LOG 65536
#define PLANNER_LONGEST_RUN_LOG 2048

/* Of a text in the layout of the Standard Task Graph Set, in bytes: what is longer is refused. What is written has 126 tasks and 1,024 edges at
   most, and so no more bytes than this. */
#define PLANNER_LONGEST_STG 65536
#define PLANNER_LONGEST_WRITTEN_STG 5759

/* The list of what was done to mend a file, in bytes: two records at most for each record of the file. */
#define PLANNER_LONGEST_MENDS 18592

/* The stack that a call needs, in bytes, with its answer and what it is handed by value: no call needs more than 20,480. Measured over the
   requests of tests/, which reach every limit and every refusal, and rounded up to pages of 4,096 bytes with 512 to spare at the least: no
   theorem bounds it, and docs/STACK.md has the measures. What a signal handler needs comes on top, and what the system's loader needs where
   memcpy or memset is bound at its first call. */
#define PLANNER_STACK_READ 16384
#define PLANNER_STACK_WRITE 16384
#define PLANNER_STACK_BOUNDS 12288
#define PLANNER_STACK_PATH 12288
#define PLANNER_STACK_START 12288
#define PLANNER_STACK_TICK 16384
#define PLANNER_STACK_TICK_IN_PLACE 16384
#define PLANNER_STACK_RUN 12288
#define PLANNER_STACK_GAINS 12288
#define PLANNER_STACK_GAINS_ALTERED 16384
#define PLANNER_STACK_SECOND 20480
#define PLANNER_STACK_LATE 12288
#define PLANNER_STACK_REPLAY 12288
#define PLANNER_STACK_LOG 12288
#define PLANNER_STACK_STG_READ 20480
#define PLANNER_STACK_STG_WRITE 12288
#define PLANNER_STACK_MEND 16384
#define PLANNER_STACK_ENOUGH 16384

#ifdef __cplusplus
#define PLANNER_SIZE(type, size) static_assert(sizeof(type) == (size), "the library lays " #type " out otherwise")
extern "C" {
#else
#define PLANNER_SIZE(type, size) _Static_assert(sizeof(type) == (size), "the library lays " #type " out otherwise")
#endif

/* Counts and lists of a graph; unused places are zero. */
typedef struct PlannerLists {
    size_t kinds;                         /* how many types, 1 to 10 */
    size_t n;                             /* how many vertices, 1 to 128 */
    size_t edges;                         /* how many edges, 0 to 1,024 */
    uint8_t cores[PLANNER_MOST_KINDS];    /* of each type, 1 to 16 */
    uint8_t kind[PLANNER_MOST_VERTICES];  /* the type of each vertex */
    uint32_t wcet[PLANNER_MOST_VERTICES]; /* of each vertex, in ticks */
    uint16_t edge[PLANNER_MOST_EDGES];    /* from * 256 + to */
} PlannerLists;
PLANNER_SIZE(PlannerLists, 2728);

/* A run record. Places from n on are zero and unmarked. A caller may copy it, keep it and read it; one that was changed by hand either
   still suits the graph or is refused with 16. The numbers in `waiting` follow from the rest: a start lays them down, every tick keeps them,
   and a record in which one of them is wrong is refused with 16 too, also where the run is done. A vertex whose number is 0 is ready where it
   has ticks left, and finished where it has none; with another number it is unfinished, also where it has none left. */
typedef struct PlannerRecord {
    size_t n;                               /* how many vertices */
    uint64_t instant;                       /* ticks since the start */
    uint32_t left[PLANNER_MOST_VERTICES];   /* the ticks that remain of each vertex */
    uint64_t ran[2];                        /* bit v % 64 of word v / 64: v ran in the last tick and is unfinished */
    uint8_t waiting[PLANNER_MOST_VERTICES]; /* how many predecessors of each vertex, one edge before it, are unfinished */
} PlannerRecord;
PLANNER_SIZE(PlannerRecord, 672);

typedef struct PlannerGraph {
    uint32_t number;
    uint32_t place;
    PlannerLists graph; /* zero throughout beside a refusal */
} PlannerGraph;
PLANNER_SIZE(PlannerGraph, 2736);

typedef struct PlannerCount {
    uint32_t number;
    uint32_t place;
    uint64_t count; /* 0 beside a refusal */
} PlannerCount;
PLANNER_SIZE(PlannerCount, 16);

typedef struct PlannerBounds {
    uint32_t number;
    uint32_t place;
    uint64_t old_b;   /* OLD-B in parts; all three are 0 beside a refusal */
    uint64_t new_b_1; /* NEW-B-1 in parts */
    uint64_t ticks;   /* NEW-B-1 in whole ticks, rounded down once */
} PlannerBounds;
PLANNER_SIZE(PlannerBounds, 32);

typedef struct PlannerRun {
    uint32_t number;
    uint32_t place;
    PlannerRecord run; /* zero and unmarked throughout beside a refusal */
} PlannerRun;
PLANNER_SIZE(PlannerRun, 680);

typedef struct PlannerMoved {
    uint32_t number;
    uint32_t place;
    uint32_t moved; /* 1 moved; 0 done, or refused */
} PlannerMoved;
PLANNER_SIZE(PlannerMoved, 12);

typedef struct PlannerTick {
    uint32_t number;
    uint32_t place;
    uint32_t moved;    /* 1 moved; 0 done, or refused */
    PlannerRecord run; /* the record after the tick; where nothing moved, the one that was given */
} PlannerTick;
PLANNER_SIZE(PlannerTick, 688);

typedef struct PlannerFinish {
    uint32_t number;
    uint32_t place;
    uint64_t finish; /* 0 beside a refusal */
} PlannerFinish;
PLANNER_SIZE(PlannerFinish, 16);

typedef struct PlannerSecond {
    uint32_t number;
    uint32_t place;
    uint64_t parts; /* NEW-B-2 in parts; 0 beside a refusal */
} PlannerSecond;
PLANNER_SIZE(PlannerSecond, 16);

typedef struct PlannerLate {
    uint32_t number;
    uint32_t place;
    uint64_t yes;    /* 1 where the run ends by the tick; 0 where it doesn't, or refused */
    uint64_t played; /* in ticks; 0 beside a refusal */
} PlannerLate;
PLANNER_SIZE(PlannerLate, 24);

typedef struct PlannerMended {
    uint32_t number;
    uint32_t place;
    uint64_t length;      /* of the mended file, in bytes; both are 0 beside a refusal */
    uint64_t list_length; /* of the list, in bytes */
} PlannerMended;
PLANNER_SIZE(PlannerMended, 24);

typedef struct PlannerEnough {
    uint32_t number;
    uint32_t place;
    uint64_t cores; /* 1 to 16; 0 beside a refusal */
} PlannerEnough;
PLANNER_SIZE(PlannerEnough, 16);

/* Reads a file: its counts and lists. Refuses with 1 to 11. */
PlannerGraph planner_read(const uint8_t *file, size_t file_length);

/* Writes the file of a graph into `out` and counts its bytes: 8 for each type, vertex and edge. Takes the cores of each type, the type
   and WCET of each vertex, and the edges as from * 256 + to. Refuses with 13 (types and WCETs of different lengths), then 4 to 11, with the
   places that the records would have had, then 15 (`out` is shorter than the file). */
PlannerCount planner_write(const uint8_t *cores, size_t cores_length, const uint8_t *kinds, size_t kinds_length, const uint32_t *wcets,
                           size_t wcets_length, const uint16_t *edges, size_t edges_length, uint8_t *out, size_t out_length);

/* The bounds OLD-B and NEW-B-1 of a file's graph. No work-conserving schedule of it ends after tick `ticks`, whatever execution times up to
   the WCETs its vertices take. Cores of a type that no vertex has count for nothing. Refuses with 1 to 11. */
PlannerBounds planner_bounds(const uint8_t *file, size_t file_length);

/* The path that gives NEW-B-1: its vertices, from a source to a sink, into `out`, and how many they are. Refuses with 1 to 11, then 15 (`out`
   has fewer places than the graph has vertices, even where the path is shorter). */
PlannerCount planner_path(const uint8_t *file, size_t file_length, uint8_t *out, size_t out_length);

/* A run record at instant 0. Takes the execution time of each vertex, in ticks. Refuses with 1 to 11, then 13 (not one time for each vertex),
   then 14 (a time above that vertex's WCET; the place is the vertex). */
PlannerRun planner_start(const uint8_t *file, size_t file_length, const uint32_t *times, size_t times_length);

/* One tick of the list schedule: takes a record and hands one back. A run whose vertices are all finished is done, and does not move; every
   other tick moves, the one that ends the last vertex too. Refuses with 1 to 11, then 16 (the record doesn't suit this graph, or its numbers
   of unfinished predecessors are not those of its remainders), and then hands back the record it was given. */
PlannerTick planner_tick(PlannerRecord run, const uint8_t *file, size_t file_length);

/* The same tick, where the caller's record moves on where it stands. Where nothing moves, it holds what it held. */
PlannerMoved planner_tick_in_place(PlannerRecord *run, const uint8_t *file, size_t file_length);

/* A whole run: the instant at which each vertex finishes into `finishes`, and the finish of the run, both in ticks. Takes the execution time
   of each vertex. Refuses with 1 to 11, then 13, then 14, as a start does, then 15 (`finishes` has fewer places than the graph has
   vertices). */
PlannerFinish planner_run(const uint8_t *file, size_t file_length, const uint32_t *times, size_t times_length, uint32_t *finishes,
                          size_t finishes_length);

/* What a rewrite would gain: for each vertex NEW-B-1 less NEW-B-1 of the same graph with that vertex's WCET set to 0, in parts, into `gains`,
   and how many vertices there are. No gain is more than the vertex's WCET in parts. Refuses with 1 to 11, then 15 (`gains` has fewer places
   than the graph has vertices). */
PlannerCount planner_gains(const uint8_t *file, size_t file_length, uint64_t *gains, size_t gains_length);

/* The gains of the graph in which one vertex has another WCET: both bounds are taken there, and the file stays as it is. Refuses with 1 to 11,
   then 7 at 0 (the graph doesn't have that vertex, whatever the WCET), then 7 at the vertex's record (the WCET is above the limit), then
   15. */
PlannerCount planner_gains_altered(const uint8_t *file, size_t file_length, uint32_t vertex, uint32_t wcet, uint64_t *gains,
                                   size_t gains_length);

/* The bound NEW-B-2 of a file's graph, which counts on each path only those other vertices that can take a core from one of its own. It is at
   most NEW-B-1, and no work-conserving schedule of the graph ends after it: in whole ticks it is `parts` / 720720, rounded down. Refuses with
   1 to 11, then 17 at 0 (the graph has more than 4,096 complete paths; NEW-B-1 has no such limit). */
PlannerSecond planner_second(const uint8_t *file, size_t file_length);

/* Late or not: `yes` is 1 where the run with these execution times ends by tick `d`, that is, where the finish that planner_run gives is at
   most `d`. `played` is how many ticks of the run were played to tell: none where NEW-B-1's whole ticks are at most `d`, since no run ends
   after them, and otherwise the smaller of `d` and the finish. Any `d` will do, and what a call costs grows with neither `d` nor the times.
   Refuses with 1 to 11, then 13, then 14, as a start does. */
PlannerLate planner_late(const uint8_t *file, size_t file_length, const uint32_t *times, size_t times_length, uint32_t d);

/* Replays a recorded frame: takes a log of which vertex ran when, and puts each vertex's execution time, its total in the log, into `times`; one
   that is absent took 0. `finish` is the frame's, in ticks. Accepts exactly the logs that are work-conserving schedules of the graph, ours or
   another's: none that it accepts ends after the bounds. A log has records of 8 bytes and no header: byte 0 is 0x53 for a start or 0x50 for a
   stop, byte 1 the vertex, bytes 2 and 3 zero, bytes 4 to 7 the instant, low byte first. They ascend strictly by instant, stops before starts,
   then vertex. Refuses with 1 to 11, then 18 (the log is malformed; the place is 0 for a wrong length, else the first record at fault, else 0
   where a vertex runs at the end), 19 (ran before a predecessor had finished; the place is the first start at fault), 20 (more at once than
   cores; the same), 21 (a total above that vertex's WCET; the place is the vertex), 22 (a core idle while a ready vertex of its type waited;
   the place is the first such instant), then 15 (`times` has fewer places than the graph has vertices). Each is looked for in the whole log
   before the next. */
PlannerFinish planner_replay(const uint8_t *file, size_t file_length, const uint8_t *log, size_t log_length, uint32_t *times,
                             size_t times_length);

/* The log of a run: what planner_replay takes, of the list schedule with these execution times, into `log`, and how many bytes it has: 16 for
   each vertex that takes time, which starts once and stops once. Replayed, it gives these times and the run's finish. Refuses with 1 to 11,
   then 13, then 14, as a start does, then 15 (`log` is shorter than the log). */
PlannerCount planner_log(const uint8_t *file, size_t file_length, const uint32_t *times, size_t times_length, uint8_t *log, size_t log_length);

/* Reads a text in the layout of the Standard Task Graph Set and writes its graph's file into `out`; `count` is the file's length. The text has
   the number of tasks n, 1 to 126, alone in a line; then n + 2 lines, of task 0, which is the entry, to task n + 1, which is the exit, each with
   the task's number, its time, how many predecessors it has, and these; then any number of lines that are skipped, whose first byte that is no
   blank or tab is `#`. Fields are parted by blanks or tabs, which may also stand at either end of a line, and every line ends with a line feed.
   Numbers are decimal, of one to ten digits; entry and exit have time 0. Takes the cores of each type and the type of each task, with the
   entry's and the exit's: a task is the vertex of its number. Refuses with 23 (the text is not laid out so, or has a predecessor twice or one
   above n + 1; the place is the first line at fault or missing, counted from 0, and 0 where the text is longer than 65,536 bytes), then 13
   (not a type for each of the n + 2 tasks), then 4 to 11, with the places that the records would have had (7 for a time above the limit, 9 for
   a task that is its own predecessor; 6 and 10 never), then 15 (`out` is shorter than the file). */
PlannerCount planner_stg_read(const uint8_t *text, size_t text_length, const uint8_t *cores, size_t cores_length, const uint8_t *kinds,
                              size_t kinds_length, uint8_t *out, size_t out_length);

/* Writes such a text of a file's graph into `out`, with one blank between fields, predecessors upwards, no zeros in front and nothing skipped;
   `count` is its length. Read with the file's own cores and types it gives the file again. Refuses with 1 to 11, then 24 at 0 (the graph has
   fewer than three vertices, another source than the first vertex, another sink than the last, or one of these has a WCET above 0), then 15
   (`out` is shorter than the text). */
PlannerCount planner_stg_write(const uint8_t *file, size_t file_length, uint8_t *out, size_t out_length);

/* Mends a hand-edited file: writes the mended file into `out` and what was done into `list`; `length` and `list_length` say how long both are.
   Bytes that must be 0 are cleared; an edge from a vertex to itself is dropped, and so is every later double of an edge; the edges that are kept
   are put in order. Nothing else changes: numbers, cores, types, WCETs and ends that are wrong, cycles, and too many or too few records of a
   kind are left for planner_read to refuse. A file that needs no mend comes back as it is, with an empty list, and a mended file needs none. The
   list has records of 8 bytes: byte 0 is 0x43 (C, cleared), 0x44 (D, dropped since it goes from a vertex to itself), 0x58 (X, dropped as a later
   double) or 0x4D (M, moved: its place among the kept edges is another one now), bytes 1 and 2 the number of the record in `file`, low byte
   first, and the others are zero. They ascend by record, then C, D, X, M; no record has a letter twice, and one that is dropped may have a C
   too. Refuses with 1 (the length), 2 at the first record of unknown kind (a stray byte is no refusal here), 3 at the first type behind a vertex
   or an edge, or vertex behind an edge, then 15 at 0 (`out` is shorter than `file`, or `list` has fewer than 16 bytes for each record of it,
   even where the answers are shorter). */
PlannerMended planner_mend(const uint8_t *file, size_t file_length, uint8_t *out, size_t out_length, uint8_t *list, size_t list_length);

/* How many cores of one type are enough: the smallest number from 1 to 16 with which NEW-B-1's whole ticks are at most `limit`, all else as
   declared; how many the file gives the type doesn't matter. More cores than that are enough too. A declared type that no vertex has is answered
   like any other, although its cores change nothing. Refuses with 1 to 11, then 25 at 0 (type `kind` is not declared, whatever the limit), then
   26 at 0 (none of the sixteen numbers meets the limit). */
PlannerEnough planner_enough(const uint8_t *file, size_t file_length, uint32_t kind, uint32_t limit);

#ifdef __cplusplus
}
#endif
#undef PLANNER_SIZE
#endif
