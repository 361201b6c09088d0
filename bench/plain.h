/* The planner's work in plain C, to be timed beside the proved one: no proofs, arrays on the stack, the refusals 1 to 26. */
#ifndef PLAIN_H
#define PLAIN_H

#include <stddef.h>
#include <stdint.h>

#define KINDS 10
#define VERTICES 128
#define EDGES 1024

/* `number` 0 is no refusal. */
struct plain_graph {
    uint32_t number, place;
    size_t kinds, n, edges;
    uint8_t cores[KINDS];
    uint8_t kind[VERTICES];
    uint32_t wcet[VERTICES];
    uint16_t edge[EDGES]; /* from * 256 + to */
};

struct plain_bounds {
    uint32_t number, place;
    uint64_t old, new, ticks;
};

struct plain_count {
    uint32_t number, place;
    uint64_t count;
};

struct plain_finish {
    uint32_t number, place;
    uint64_t finish;
};

struct plain_second {
    uint32_t number, place;
    uint64_t parts;
};

struct plain_late {
    uint32_t number, place;
    uint64_t yes, played;
};

struct plain_mended {
    uint32_t number, place;
    uint64_t length, list_length; /* in bytes */
};

struct plain_enough {
    uint32_t number, place;
    uint64_t cores;
};

struct plain_record {
    size_t n;
    uint64_t instant;
    uint32_t left[VERTICES];
    uint64_t ran[2]; /* bit v % 64 of word v / 64: v ran in the last tick and is unfinished */
    uint8_t waiting[VERTICES]; /* how many predecessors of each vertex are unfinished */
};

/* `moved` is 1 where the tick moved the run; of a start it says nothing. */
struct plain_step {
    uint32_t number, place, moved;
    struct plain_record run;
};

struct plain_graph plain_read(const uint8_t *file, size_t length);
struct plain_count plain_write(const uint8_t *cores, size_t kinds, const uint8_t *kind, size_t n, const uint32_t *wcet, size_t wcets,
                               const uint16_t *edge, size_t edges, uint8_t *out, size_t room);
struct plain_bounds plain_bounds(const uint8_t *file, size_t length);
struct plain_count plain_path(const uint8_t *file, size_t length, uint8_t *out, size_t room);
struct plain_step plain_start(const uint8_t *file, size_t length, const uint32_t *times, size_t count);
struct plain_step plain_tick(struct plain_record run, const uint8_t *file, size_t length);
struct plain_finish plain_run(const uint8_t *file, size_t length, const uint32_t *times, size_t count, uint32_t *finishes, size_t room);
struct plain_count plain_gains(const uint8_t *file, size_t length, uint64_t *gains, size_t room);
struct plain_count plain_gains_altered(const uint8_t *file, size_t length, uint32_t vertex, uint32_t wcet, uint64_t *gains, size_t room);
struct plain_second plain_second(const uint8_t *file, size_t length);
struct plain_late plain_late(const uint8_t *file, size_t length, const uint32_t *times, size_t count, uint32_t d);
struct plain_finish plain_replay(const uint8_t *file, size_t length, const uint8_t *log, size_t log_length, uint32_t *times, size_t room);
struct plain_count plain_log(const uint8_t *file, size_t length, const uint32_t *times, size_t count, uint8_t *log, size_t room);
struct plain_count plain_stg_read(const uint8_t *text, size_t length, const uint8_t *cores, size_t kinds, const uint8_t *kind, size_t count, uint8_t *out,
                                  size_t room);
struct plain_count plain_stg_write(const uint8_t *file, size_t length, uint8_t *out, size_t room);
struct plain_mended plain_mend(const uint8_t *file, size_t length, uint8_t *out, size_t room, uint8_t *list, size_t list_room);
struct plain_enough plain_enough(const uint8_t *file, size_t length, uint32_t kind, uint32_t limit);

#endif
