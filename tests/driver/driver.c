/* Answers the requests of the tests from outside through include/planner.h, as the program `probe` answers them through the crates: a line
   for each. tests/README.md has the form of requests and lines.

   An empty list is lent as a null pointer. Each answer is made on a stack of its own: where less than 512 bytes are left
   of what the header says of the entry, the program says so and ends with 1. With the word `stacks` it prints how much each entry took, instead
   of the lines. */
#include "planner.h"
#include "stack.h"

/* Declared here, not included: an Arm machine has no headers for x86-64. */
int dprintf(int to, const char *format, ...);
long read(int from, void *bytes, size_t most);
long write(int to, const void *bytes, size_t count);
void *memcpy(void *to, const void *from, size_t count);
void *memset(void *bytes, int value, size_t count);

/* SPARE is what the header leaves of each stack. */
enum { LONGEST_PAYLOAD = 262144, LARGEST_ROOM = 32768, PRESET = 0xA5, SPARE = 512 };

/* The line. */

static char line[32 * LARGEST_ROOM];
static size_t line_length;

static void text(const char *word)
{
    while (*word != 0)
        line[line_length++] = *word++;
}

/* A blank and a number. */
static void field(uint64_t number)
{
    char digits[20];
    size_t count = 0;
    do {
        digits[count++] = (char)('0' + number % 10);
        number /= 10;
    } while (number > 0);
    text(" ");
    while (count > 0)
        line[line_length++] = digits[--count];
}

static void bytes(const uint8_t *list, size_t count)
{
    for (size_t i = 0; i < count; i++)
        field(list[i]);
}

static void halves(const uint16_t *list, size_t count)
{
    for (size_t i = 0; i < count; i++)
        field(list[i]);
}

static void words(const uint32_t *list, size_t count)
{
    for (size_t i = 0; i < count; i++)
        field(list[i]);
}

static void long_words(const uint64_t *list, size_t count)
{
    for (size_t i = 0; i < count; i++)
        field(list[i]);
}

static void record(const PlannerRecord *run)
{
    text(" :");
    field(run->n);
    field(run->instant);
    words(run->left, PLANNER_MOST_VERTICES);
    field(run->ran[0]);
    field(run->ran[1]);
    bytes(run->waiting, PLANNER_MOST_VERTICES);
}

/* A refusal, or the word of an answer that is none; whether it was a refusal. Only number 0 at place 0 is none. */
static int refused(uint32_t number, uint32_t place, const char *word)
{
    if (number == 0 && place == 0) {
        text(word);
        return 0;
    }
    text("refused");
    field(number);
    text(" at");
    field(place);
    return 1;
}

/* The same with a number behind the word. Beside a refusal it is 0, and is shown where it isn't. */
static void counted(uint32_t number, uint32_t place, const char *word, uint64_t count)
{
    if (!refused(number, place, word) || count != 0)
        field(count);
}

static void reported(uint32_t number, uint32_t place, uint32_t moved)
{
    if (refused(number, place, moved == 0 ? "done" : "moved") ? moved != 0 : moved > 1)
        field(moved);
}

/* The payload: taken from its front, field by field. */

static const uint8_t *payload;
static size_t payload_left;
static int payload_good;

/* So many bytes, low byte first. */
static uint64_t take(size_t width)
{
    uint64_t value = 0;
    if (payload_left < width) {
        payload_good = 0;
        return 0;
    }
    for (size_t i = width; i > 0; i--)
        value = value << 8 | payload[i - 1];
    payload += width;
    payload_left -= width;
    return value;
}

/* What is lent: a pointer, aligned for any element, and how many elements. */
struct list {
    void *at;
    size_t length;
};

static uint64_t lent[(LONGEST_PAYLOAD + 8 * LARGEST_ROOM) / 8 + 16];
static size_t lent_count;

static struct list lend(size_t length, size_t element)
{
    void *at = length == 0 ? NULL : &lent[lent_count];
    lent_count += (length * element + 7) / 8;
    return (struct list){at, length};
}

static struct list take_list(size_t element)
{
    size_t size = (size_t)take(4);
    if (size > payload_left || size % element != 0) {
        payload_good = 0;
        size = 0;
    }
    struct list taken = lend(size / element, element);
    if (size > 0)
        memcpy(taken.at, payload, size);
    payload += size;
    payload_left -= size;
    return taken;
}

/* A list to be written. */
static struct list take_room(size_t element)
{
    uint64_t length = take(8);
    if (length > LARGEST_ROOM) {
        payload_good = 0;
        length = 0;
    }
    struct list room = lend((size_t)length, element);
    if (length > 0)
        memset(room.at, PRESET, (size_t)length * element);
    return room;
}

/* A number that the entry takes in 32 bits. */
static uint32_t take_word(void)
{
    uint64_t number = take(8);
    if (number > UINT32_MAX)
        payload_good = 0;
    return (uint32_t)number;
}

/* A run record travels as it lies in memory, and is lent as it came. */
static PlannerRecord *take_record(void)
{
    struct list taken = take_list(1);
    if (taken.length != sizeof(PlannerRecord))
        payload_good = 0;
    return taken.at;
}

static int all_taken(void) { return payload_good && payload_left == 0; }

/* The letters: each takes its fields, calls its entry and tells the answer. Where the request is not of its form, it tells nothing. */

static int zero(const void *list, size_t from, size_t to)
{
    const uint8_t *byte = list;
    while (from < to && byte[from] == 0)
        from++;
    return from >= to;
}

static void letter_r(void)
{
    struct list file = take_list(1);
    if (!all_taken())
        return;
    PlannerGraph a = planner_read(file.at, file.length);
    const PlannerLists *g = &a.graph;
    int clean = zero(g->cores, g->kinds, sizeof g->cores) && zero(g->kind, g->n, sizeof g->kind) &&
                zero(g->wcet, g->n * sizeof g->wcet[0], sizeof g->wcet) && zero(g->edge, g->edges * sizeof g->edge[0], sizeof g->edge);
    if (refused(a.number, a.place, "graph")) {
        clean = clean && g->kinds == 0 && g->n == 0 && g->edges == 0;
    } else {
        field(g->kinds);
        field(g->n);
        field(g->edges);
        bytes(g->cores, g->kinds);
        bytes(g->kind, g->n);
        words(g->wcet, g->n);
        halves(g->edge, g->edges);
    }
    text(clean ? " clean" : " dirty");
}

static void letter_w(void)
{
    struct list cores = take_list(1), kinds = take_list(1), wcets = take_list(4), edges = take_list(2), out = take_room(1);
    if (!all_taken())
        return;
    PlannerCount a =
        planner_write(cores.at, cores.length, kinds.at, kinds.length, wcets.at, wcets.length, edges.at, edges.length, out.at, out.length);
    counted(a.number, a.place, "wrote", a.count);
    text(" :");
    bytes(out.at, out.length);
}

static void letter_b(void)
{
    struct list file = take_list(1);
    if (!all_taken())
        return;
    PlannerBounds a = planner_bounds(file.at, file.length);
    if (refused(a.number, a.place, "old"))
        text(" old");
    field(a.old_b);
    text(" new");
    field(a.new_b_1);
    text(" ticks");
    field(a.ticks);
}

static void letter_p(void)
{
    struct list file = take_list(1), out = take_room(1);
    if (!all_taken())
        return;
    PlannerCount a = planner_path(file.at, file.length, out.at, out.length);
    counted(a.number, a.place, "path", a.count);
    text(" :");
    bytes(out.at, out.length);
}

static void letter_s(void)
{
    struct list file = take_list(1), times = take_list(4);
    if (!all_taken())
        return;
    PlannerRun a = planner_start(file.at, file.length, times.at, times.length);
    refused(a.number, a.place, "started");
    record(&a.run);
}

/* A tick in place, or one that is told as if it had been. */
static void tell_tick(PlannerMoved (*tick)(PlannerRecord *, const uint8_t *, size_t))
{
    struct list file = take_list(1);
    PlannerRecord *run = take_record();
    if (!all_taken())
        return;
    PlannerMoved a = tick(run, file.at, file.length);
    reported(a.number, a.place, a.moved);
    record(run);
}

static PlannerMoved tick_by_value(PlannerRecord *run, const uint8_t *file, size_t file_length)
{
    PlannerTick a = planner_tick(*run, file, file_length);
    *run = a.run;
    return (PlannerMoved){a.number, a.place, a.moved};
}

static void letter_t(void) { tell_tick(tick_by_value); }

static void letter_i(void) { tell_tick(planner_tick_in_place); }

static void letter_x(void)
{
    struct list file = take_list(1), times = take_list(4), finishes = take_room(4);
    if (!all_taken())
        return;
    PlannerFinish a = planner_run(file.at, file.length, times.at, times.length, finishes.at, finishes.length);
    counted(a.number, a.place, "finish", a.finish);
    text(" :");
    words(finishes.at, finishes.length);
}

static void tell_gains(PlannerCount a, struct list gains)
{
    counted(a.number, a.place, "gains", a.count);
    text(" :");
    long_words(gains.at, gains.length);
}

static void letter_g(void)
{
    struct list file = take_list(1), gains = take_room(8);
    if (!all_taken())
        return;
    tell_gains(planner_gains(file.at, file.length, gains.at, gains.length), gains);
}

static void letter_a(void)
{
    struct list file = take_list(1);
    uint32_t vertex = take_word(), wcet = take_word();
    struct list gains = take_room(8);
    if (!all_taken())
        return;
    tell_gains(planner_gains_altered(file.at, file.length, vertex, wcet, gains.at, gains.length), gains);
}

static void letter_n(void)
{
    struct list file = take_list(1);
    if (!all_taken())
        return;
    PlannerSecond a = planner_second(file.at, file.length);
    if (refused(a.number, a.place, "second"))
        text(" second");
    field(a.parts);
}

/* A yes is 1, and a number of ticks stands behind every answer; what else stands there is shown. */
static void letter_d(void)
{
    struct list file = take_list(1), times = take_list(4);
    uint32_t d = take_word();
    if (!all_taken())
        return;
    PlannerLate a = planner_late(file.at, file.length, times.at, times.length, d);
    const char *word = a.yes == 0 ? "no" : "yes";
    if (refused(a.number, a.place, word)) {
        text(" ");
        text(word);
    }
    if (a.yes > 1)
        field(a.yes);
    text(" played");
    field(a.played);
}

static void letter_l(void)
{
    struct list file = take_list(1), log = take_list(1), times = take_room(4);
    if (!all_taken())
        return;
    PlannerFinish a = planner_replay(file.at, file.length, log.at, log.length, times.at, times.length);
    counted(a.number, a.place, "replayed", a.finish);
    text(" :");
    words(times.at, times.length);
}

static void letter_o(void)
{
    struct list file = take_list(1), times = take_list(4), log = take_room(1);
    if (!all_taken())
        return;
    PlannerCount a = planner_log(file.at, file.length, times.at, times.length, log.at, log.length);
    counted(a.number, a.place, "log", a.count);
    text(" :");
    bytes(log.at, log.length);
}

static void letter_u(void)
{
    struct list stg = take_list(1), cores = take_list(1), kinds = take_list(1), out = take_room(1);
    if (!all_taken())
        return;
    PlannerCount a = planner_stg_read(stg.at, stg.length, cores.at, cores.length, kinds.at, kinds.length, out.at, out.length);
    counted(a.number, a.place, "read", a.count);
    text(" :");
    bytes(out.at, out.length);
}

static void letter_v(void)
{
    struct list file = take_list(1), out = take_room(1);
    if (!all_taken())
        return;
    PlannerCount a = planner_stg_write(file.at, file.length, out.at, out.length);
    counted(a.number, a.place, "text", a.count);
    text(" :");
    bytes(out.at, out.length);
}

/* Two lengths stand behind an answer. Beside a refusal both are 0, and are shown where they aren't. */
static void letter_m(void)
{
    struct list file = take_list(1), out = take_room(1), list = take_room(1);
    if (!all_taken())
        return;
    PlannerMended a = planner_mend(file.at, file.length, out.at, out.length, list.at, list.length);
    if (!refused(a.number, a.place, "mended") || a.length != 0 || a.list_length != 0) {
        field(a.length);
        field(a.list_length);
    }
    text(" :");
    bytes(out.at, out.length);
    text(" :");
    bytes(list.at, list.length);
}

static void letter_c(void)
{
    struct list file = take_list(1);
    uint32_t kind = take_word(), limit = take_word();
    if (!all_taken())
        return;
    PlannerEnough a = planner_enough(file.at, file.length, kind, limit);
    if (refused(a.number, a.place, "cores"))
        text(" cores");
    field(a.cores);
}

static struct letter {
    char letter;
    void (*answer)(void);
    const char *entry;
    size_t most;  /* bytes of stack, as the header says */
    size_t taken; /* by any answer until now */
} letters[] = {
    {'R', letter_r, "planner_read", PLANNER_STACK_READ, 0},
    {'W', letter_w, "planner_write", PLANNER_STACK_WRITE, 0},
    {'B', letter_b, "planner_bounds", PLANNER_STACK_BOUNDS, 0},
    {'P', letter_p, "planner_path", PLANNER_STACK_PATH, 0},
    {'S', letter_s, "planner_start", PLANNER_STACK_START, 0},
    {'T', letter_t, "planner_tick", PLANNER_STACK_TICK, 0},
    {'I', letter_i, "planner_tick_in_place", PLANNER_STACK_TICK_IN_PLACE, 0},
    {'X', letter_x, "planner_run", PLANNER_STACK_RUN, 0},
    {'G', letter_g, "planner_gains", PLANNER_STACK_GAINS, 0},
    {'A', letter_a, "planner_gains_altered", PLANNER_STACK_GAINS_ALTERED, 0},
    {'N', letter_n, "planner_second", PLANNER_STACK_SECOND, 0},
    {'D', letter_d, "planner_late", PLANNER_STACK_LATE, 0},
    {'L', letter_l, "planner_replay", PLANNER_STACK_REPLAY, 0},
    {'O', letter_o, "planner_log", PLANNER_STACK_LOG, 0},
    {'U', letter_u, "planner_stg_read", PLANNER_STACK_STG_READ, 0},
    {'V', letter_v, "planner_stg_write", PLANNER_STACK_STG_WRITE, 0},
    {'M', letter_m, "planner_mend", PLANNER_STACK_MEND, 0},
    {'C', letter_c, "planner_enough", PLANNER_STACK_ENOUGH, 0},
};
enum { LETTERS = sizeof letters / sizeof letters[0] };

/* A plug-in gets a small stack: whatever the header says, no entry may take more than this. */
enum { SMALL_STACK = 24576 };

/* The requests. */

static uint8_t input[LONGEST_PAYLOAD];

/* Reads so many bytes, or as many as there are. */
static size_t read_all(uint8_t *to, size_t count)
{
    size_t got = 0;
    while (got < count) {
        long more = read(0, to + got, count - got);
        if (more <= 0)
            break;
        got += (size_t)more;
    }
    return got;
}

static void write_line(void)
{
    size_t done = 0;
    while (done < line_length) {
        long more = write(1, line + done, line_length - done);
        if (more <= 0)
            break;
        done += (size_t)more;
    }
}

static void answer(char letter, size_t length)
{
    payload = input;
    payload_left = length;
    payload_good = 1;
    lent_count = 0;
    for (size_t i = 0; i < LETTERS; i++) {
        if (letters[i].letter != letter)
            continue;
        size_t taken = stack_taken(letters[i].answer);
        if (letters[i].taken < taken)
            letters[i].taken = taken;
    }
}

/* One request, and its line; whether another may follow. */
static int turn(void)
{
    uint8_t head[5];
    size_t got = read_all(head, sizeof head);
    int whole_request = got == sizeof head;
    line_length = 0;
    if (got == 0)
        return 0;
    if (whole_request) {
        size_t length = head[1] | (size_t)head[2] << 8 | (size_t)head[3] << 16 | (size_t)head[4] << 24, left = length;
        while (whole_request && left > 0) { /* a payload that is too long is read and dropped */
            size_t part = left < sizeof input ? left : sizeof input;
            whole_request = read_all(input, part) == part;
            left -= part;
        }
        if (whole_request && length <= sizeof input)
            answer((char)head[0], length);
    }
    text(line_length == 0 ? "bad request\n" : "\n");
    return whole_request;
}

int main(int count, char **arguments)
{
    int stacks = count > 1 && arguments[1][0] == 's', more = 1, above = 0;
    while (more) {
        more = turn();
        if (!stacks)
            write_line();
    }
    for (size_t i = 0; i < LETTERS; i++) {
        struct letter *l = &letters[i];
        int too_much = l->taken + SPARE > l->most || l->taken > SMALL_STACK;
        if (stacks || too_much)
            dprintf(stacks ? 1 : 2, "%s took %zu bytes of stack, planner.h says %zu\n", l->entry, l->taken, l->most);
        above |= too_much;
    }
    return above;
}
