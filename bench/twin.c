/* The plan engine, written by hand.
 *
 * Steps are read straight from the file's records. Shared memory is the lent
 * memory itself, and the lent work buffer holds the workers' page copies with
 * their twins. For every worker there is a byte that says what a turn of it
 * may do, so that a turn that passes costs one look. A run to the end takes no
 * turns: it goes round by round. The sum of shared memory's words is worked out
 * once, and then moved by each commit. */
#include "twin.h"

#include <string.h>

/* For what runs with turns and runs without share, so that both have it in their
 * loops; left to the compiler, each step would cost a call or two. */
#define IN_PLACE static inline __attribute__((always_inline))

enum {
    RECORD = 7,
    MOST_FILE = 7280,
    MOST_TURNS = 65535,
    MOST_WORKERS = 8,
    MOST_STEPS = 128,
    QUEUES = 8,
    PAGE = 256,
    PAGES = 8,
    MEMORY = PAGE * PAGES,
    BLOCK = 64, /* of a page: what a commit looks at together */
    LOG = 8256,
    LOG_RECORD = 8,
    REPORT = 20,
    WORK = 32768,
    MOST_PLANS = 40,
    LENGTH = 4
};

enum {
    OP_PLAN = 0,
    OP_SIZE = 1,
    OP_SLEEP = 2,
    OP_SET = 16,
    OP_LOAD,
    OP_STORE,
    OP_ADD,
    OP_SUBTRACT,
    OP_SKIP_ZERO,
    OP_SKIP_NONZERO,
    OP_LOCK = 32,
    OP_UNLOCK,
    OP_WAIT,
    OP_SIGNAL,
    OP_BROADCAST,
    OP_BARRIER,
    OP_EXIT,
    OP_START,
    OPS
};

/* Offsets in a record. */
enum { AT_WORKER = 2, AT_OP, AT_REGISTER, AT_NUMBER };

/* What a turn of a worker may do. */
enum { PASS = 0, TO_FENCE = 1, HOLDS_TOKEN = 2 };

/* Fates, as the report has them. */
enum {
    GOING = 0,
    EXITED,
    FAILED,
    ON_CONDITION,
    AT_BARRIER,
    ASLEEP,
    NO_WORKER = 255
};

enum { NOBODY = 255, FAILURE = 254, AWAKE = 253, STARTED = 1 };

/* --- The file ---------------------------------------------------------- */

/* Limits of the operands of one op; an op without a row is unknown. */
struct limits {
    uint8_t known;
    uint8_t register_most;
    uint16_t number_least;
    uint16_t number_most;
};

static const struct limits LIMITS[OPS] = {
    [OP_SET] = {1, 3, 0, 65535},
    [OP_LOAD] = {1, 3, 0, 2046},
    [OP_STORE] = {1, 3, 0, 2046},
    [OP_ADD] = {1, 3, 0, 3},
    [OP_SUBTRACT] = {1, 3, 0, 3},
    [OP_SKIP_ZERO] = {1, 3, 1, 127},
    [OP_SKIP_NONZERO] = {1, 3, 1, 127},
    [OP_LOCK] = {1, 0, 0, 15},
    [OP_UNLOCK] = {1, 0, 0, 15},
    [OP_WAIT] = {1, 0, 0, 7},
    [OP_SIGNAL] = {1, 0, 0, 7},
    [OP_BROADCAST] = {1, 0, 0, 7},
    [OP_BARRIER] = {1, 0, 0, 7},
    [OP_EXIT] = {1, 0, 0, 0},
    [OP_START] = {1, 0, 0, 7}, /* and a worker of the plan */
};

/* Where the parts of a plan lie in its file. */
struct plan {
    unsigned workers;
    unsigned last;                    /* worker of the last step read */
    unsigned last_barrier;            /* one above the last barrier read */
    unsigned last_sleeper;            /* 0: no sleep record read */
    unsigned reach;                   /* furthest landing of its skips */
    int too_far;                      /* some skip lands too far */
    unsigned first[MOST_WORKERS + 1]; /* index of each worker's first step */
    uint8_t size[QUEUES];             /* 0: a barrier without a size */
    uint8_t fate[MOST_WORKERS];       /* as the run begins: GOING or ASLEEP */
};

static unsigned number_of(const uint8_t *record)
{
    return record[AT_NUMBER] | (unsigned)record[AT_NUMBER + 1] << 8;
}

static int is_skip(unsigned op)
{
    return op == OP_SKIP_ZERO || op == OP_SKIP_NONZERO;
}

static unsigned read_plan(struct plan *p, const uint8_t *record)
{
    unsigned workers = record[AT_WORKER];
    if (record[AT_OP] != OP_PLAN || workers < 1 || workers > MOST_WORKERS ||
        record[AT_REGISTER] != 0 || number_of(record) != 0)
        return 3;
    p->workers = workers;
    p->first[0] = 1;
    return 0;
}

/* first[0] lies right behind the last barrier or sleep record, so one of these
 * at another index comes after a step. */
static unsigned read_size(struct plan *p, const uint8_t *record, unsigned index)
{
    unsigned barrier = record[AT_REGISTER], size = number_of(record);
    if (index != p->first[0] || record[AT_WORKER] != 0 || barrier >= QUEUES ||
        barrier < p->last_barrier || size < 1 || size > 8)
        return 4;
    if (p->last_sleeper != 0)
        return 4;
    p->size[barrier] = (uint8_t)size;
    p->last_barrier = barrier + 1;
    p->first[0] = index + 1;
    return 0;
}

/* Sleepers ascend from above worker 0, who never sleeps. */
static unsigned read_sleep(struct plan *p, const uint8_t *record, unsigned index)
{
    unsigned worker = record[AT_WORKER];
    if (index != p->first[0] || worker >= p->workers || worker <= p->last_sleeper)
        return 14;
    if (record[AT_REGISTER] != 0 || number_of(record) != 0)
        return 14;
    p->fate[worker] = ASLEEP;
    p->last_sleeper = worker;
    p->first[0] = index + 1;
    return 0;
}

/* Ends the steps of all workers up to this one, at a record index. */
static void go_on_to(struct plan *p, unsigned worker, unsigned index)
{
    while (p->last < worker) {
        if (p->reach > index)
            p->too_far = 1;
        p->reach = 0;
        p->last += 1;
        p->first[p->last] = index;
    }
}

/* A barrier must have a size, and a worker that is started be in the plan. */
static unsigned read_name(const struct plan *p, unsigned op, unsigned number)
{
    if (op == OP_BARRIER && p->size[number] == 0)
        return 9;
    if (op == OP_START && number >= p->workers)
        return 7;
    return 0;
}

static unsigned read_step(struct plan *p, const uint8_t *record, unsigned index)
{
    unsigned op = record[AT_OP], worker = record[AT_WORKER];
    unsigned number = number_of(record);
    if (op >= OPS || !LIMITS[op].known)
        return 6;
    if (worker >= p->workers || worker < p->last)
        return 5;
    go_on_to(p, worker, index);
    if (index - p->first[worker] >= MOST_STEPS)
        return 8;
    if (record[AT_REGISTER] > LIMITS[op].register_most ||
        number < LIMITS[op].number_least || number > LIMITS[op].number_most)
        return 7;
    if (op >= OP_BARRIER)
        return read_name(p, op, number);
    if (is_skip(op) && index + 1 + number > p->reach)
        p->reach = index + 1 + number;
    return 0;
}

static unsigned read_record(struct plan *p, const uint8_t *record, unsigned index)
{
    if (record[0] != 0x4D || record[1] != 0x50)
        return 2;
    if (index == 0)
        return read_plan(p, record);
    if (record[AT_OP] > OP_SLEEP)
        return read_step(p, record, index);
    if (record[AT_OP] == OP_PLAN)
        return 3;
    if (record[AT_OP] == OP_SIZE)
        return read_size(p, record, index);
    return read_sleep(p, record, index);
}

/* The first skip that lands too far. */
static uint32_t far_skip(const struct plan *p, const uint8_t *file)
{
    for (unsigned worker = 0; worker < p->workers; worker++) {
        unsigned behind = p->first[worker + 1];
        for (unsigned index = p->first[worker]; index < behind; index++) {
            const uint8_t *record = file + index * RECORD;
            if (is_skip(record[AT_OP]) && index + 1 + number_of(record) > behind)
                return 10 + 256 * index;
        }
    }
    return 0;
}

static uint32_t read_file(struct plan *p, const uint8_t *file, size_t file_len)
{
    memset(p, 0, sizeof *p);
    if (file_len == 0 || file_len > MOST_FILE || file_len % RECORD != 0)
        return 1;
    unsigned records = (unsigned)file_len / RECORD;
    for (unsigned index = 0; index < records; index++) {
        unsigned refusal = read_record(p, file + index * RECORD, index);
        if (refusal != 0)
            return refusal + 256 * index;
    }
    go_on_to(p, p->workers, records);
    return p->too_far ? far_skip(p, file) : 0;
}

uint32_t twin_check(const uint8_t *file, size_t file_len)
{
    struct plan plan;
    return read_file(&plan, file, file_len);
}

/* --- Queues of workers -------------------------------------------------- */

/* Up to eight workers, a byte each, the first one in the lowest byte. */
struct queue {
    uint64_t bytes;
    unsigned len;
};

static void push(struct queue *q, unsigned worker)
{
    q->bytes |= (uint64_t)worker << 8 * q->len;
    q->len += 1;
}

static unsigned first_of(const struct queue *q)
{
    return (unsigned)(q->bytes & 255);
}

static unsigned pop(struct queue *q)
{
    unsigned worker = first_of(q);
    q->bytes >>= 8;
    q->len -= 1;
    return worker;
}

static void put_behind_first(struct queue *q, unsigned worker)
{
    q->bytes = q->bytes >> 8 << 16 | (uint64_t)worker << 8 | first_of(q);
    q->len += 1;
}

/* Seven leave no rest; it goes up by 64 bits then, which takes two shifts. */
static void put_all_behind_first(struct queue *q, const struct queue *all)
{
    uint64_t rest = q->bytes >> 8;
    q->bytes = rest << 8 * all->len << 8 | all->bytes << 8 | first_of(q);
    q->len += all->len;
}

/* --- The engine --------------------------------------------------------- */

struct worker {
    const uint8_t *step;    /* record of the step at hand */
    const uint8_t *behind;  /* behind the last step */
    uint8_t *copies;        /* for each page its working copy and its twin */
    uint16_t registers[4];
    uint16_t held;          /* bit l: it holds lock l */
    uint8_t count;          /* of the locks that it holds */
    uint8_t copied;         /* bit p: page p is copied */
    uint8_t fate;
    uint8_t name;
};

struct engine {
    uint8_t may[MOST_WORKERS];
    struct worker workers[MOST_WORKERS];
    uint8_t *memory;
    uint32_t sum;           /* of the memory's words at even addresses */
    uint8_t *log;
    unsigned log_fill;
    unsigned moves;
    unsigned rounds;
    unsigned running;       /* workers in the list that have not arrived */
    struct queue list, next;
    struct queue conditions[QUEUES], barriers[QUEUES];
    const struct plan *plan;
};

static uint8_t *copy_of(const struct worker *w, unsigned page)
{
    return w->copies + page * 2 * PAGE;
}

static const uint8_t *page_seen(const struct engine *e, const struct worker *w,
                                unsigned page)
{
    return w->copied >> page & 1 ? copy_of(w, page) : e->memory + page * PAGE;
}

static uint8_t *page_to_write(const struct engine *e, struct worker *w,
                              unsigned page)
{
    uint8_t *copy = copy_of(w, page);
    if (!(w->copied >> page & 1)) {
        memcpy(copy, e->memory + page * PAGE, PAGE);
        memcpy(copy + PAGE, e->memory + page * PAGE, PAGE);
        w->copied |= (uint8_t)(1u << page);
    }
    return copy;
}

static uint16_t load(const struct engine *e, const struct worker *w, unsigned at)
{
    unsigned above = at + 1;
    unsigned low = page_seen(e, w, at / PAGE)[at % PAGE];
    unsigned high = page_seen(e, w, above / PAGE)[above % PAGE];
    return (uint16_t)(low | high << 8);
}

IN_PLACE void store(const struct engine *e, struct worker *w, unsigned at,
                    uint16_t value)
{
    unsigned above = at + 1;
    page_to_write(e, w, at / PAGE)[at % PAGE] = (uint8_t)(value & 255);
    page_to_write(e, w, above / PAGE)[above % PAGE] = (uint8_t)(value >> 8);
}

/* The sum of the words in so many bytes. The low byte of a word comes first, as
 * it does on the machines that the twin is built for. */
static uint32_t sum_of(const uint8_t *bytes, unsigned len)
{
    uint32_t sum = 0;
    for (unsigned i = 0; i < len; i += sizeof(uint16_t)) {
        uint16_t word;
        memcpy(&word, bytes + i, sizeof word);
        sum += word;
    }
    return sum;
}

/* Whether a block has a byte that differs from its twin. */
static int differs(const uint8_t *copy, const uint8_t *twin)
{
    uint64_t any = 0;
    for (unsigned i = 0; i < BLOCK; i += sizeof any) {
        uint64_t one, other;
        memcpy(&one, copy + i, sizeof one);
        memcpy(&other, twin + i, sizeof other);
        any |= one ^ other;
    }
    return any != 0;
}

/* Writes the bytes of a block that differ from its twin, and no other. Gives by
 * how much the sum moved, modulo 2^32. */
static uint32_t commit_block(uint8_t *restrict shared,
                             const uint8_t *restrict copy,
                             const uint8_t *restrict twin)
{
    uint32_t before = sum_of(shared, BLOCK);
    for (unsigned i = 0; i < BLOCK; i++)
        shared[i] = copy[i] != twin[i] ? copy[i] : shared[i];
    return sum_of(shared, BLOCK) - before;
}

static uint32_t commit_page(uint8_t *shared, const uint8_t *copy)
{
    const uint8_t *twin = copy + PAGE;
    uint32_t moved = 0;
    for (unsigned at = 0; at < PAGE; at += BLOCK)
        if (differs(copy + at, twin + at))
            moved += commit_block(shared + at, copy + at, twin + at);
    return moved;
}

static void commit_copies(struct engine *e, struct worker *w)
{
    unsigned left = w->copied;
    for (unsigned page = 0; left != 0; page++, left >>= 1)
        if (left & 1)
            e->sum += commit_page(e->memory + page * PAGE, copy_of(w, page));
    w->copied = 0;
}

/* Apart from the above, so that a step of a worker without copies costs a look. */
IN_PLACE void commit(struct engine *e, struct worker *w)
{
    if (w->copied != 0)
        commit_copies(e, w);
}

/* The op of a record, or of the end. */
static unsigned op_at(const uint8_t *step, const uint8_t *behind)
{
    return step == behind ? OP_EXIT : step[AT_OP];
}

/* A step on registers or memory. */
IN_PLACE void plain_step(const struct engine *e, struct worker *w, unsigned op)
{
    const uint8_t *record = w->step;
    unsigned number = number_of(record);
    uint16_t *own = &w->registers[record[AT_REGISTER]];
    w->step += RECORD;
    switch (op) {
    case OP_SET:
        *own = (uint16_t)number;
        break;
    case OP_LOAD:
        *own = load(e, w, number);
        break;
    case OP_STORE:
        store(e, w, number, *own);
        break;
    case OP_ADD:
        *own = (uint16_t)(*own + w->registers[number]);
        break;
    case OP_SUBTRACT:
        *own = (uint16_t)(*own - w->registers[number]);
        break;
    case OP_SKIP_ZERO:
        w->step += *own == 0 ? number * RECORD : 0;
        break;
    case OP_SKIP_NONZERO:
        w->step += *own != 0 ? number * RECORD : 0;
        break;
    }
}

/* The holder is out of the list, and the next one in it gets the token. Where
 * the list is empty now, whoever plays goes on to the next one. */
IN_PLACE void pass_token(struct engine *e, struct worker *w)
{
    e->may[w->name] = PASS;
    pop(&e->list);
    if (e->list.len != 0)
        e->may[first_of(&e->list)] = HOLDS_TOKEN;
}

/* The list is empty: a round is completed. Whether anybody is left for another. */
static int next_round(struct engine *e)
{
    e->rounds += 1;
    e->list = e->next;
    e->next = (struct queue){0, 0};
    return e->list.len != 0;
}

IN_PLACE void give_up_token(struct engine *e, struct worker *w)
{
    push(&e->next, w->name);
    pass_token(e, w);
}

IN_PLACE void leave(struct engine *e, struct worker *w, uint8_t fate)
{
    w->fate = fate;
    pass_token(e, w);
}

IN_PLACE void write_log(struct engine *e, const struct worker *w, unsigned op,
                      unsigned number, unsigned outcome)
{
    unsigned round = e->rounds + 1;
    uint8_t *to = e->log + e->log_fill;
    to[0] = 0x4D;
    to[1] = 0x4C;
    to[2] = (uint8_t)(round & 255);
    to[3] = (uint8_t)(round >> 8);
    to[4] = w->name;
    to[5] = (uint8_t)op;
    to[6] = (uint8_t)number;
    to[7] = (uint8_t)outcome;
    e->log_fill += LOG_RECORD;
}

IN_PLACE void fail(struct engine *e, struct worker *w, unsigned op, unsigned number)
{
    write_log(e, w, op, number, FAILURE);
    w->copied = 0;
    leave(e, w, FAILED);
}

IN_PLACE void lock(struct engine *e, struct worker *w, unsigned number)
{
    if (w->count == 0)
        commit(e, w);
    w->held |= (uint16_t)(1u << number);
    w->count += 1;
    write_log(e, w, OP_LOCK, number, w->count);
}

IN_PLACE void unlock(struct engine *e, struct worker *w, unsigned number)
{
    w->held &= (uint16_t)~(1u << number);
    w->count -= 1;
    write_log(e, w, OP_UNLOCK, number, w->count);
    if (w->count == 0) {
        commit(e, w);
        give_up_token(e, w);
    }
}

IN_PLACE void wait_on(struct engine *e, struct worker *w, unsigned condition)
{
    commit(e, w);
    push(&e->conditions[condition], w->name);
    write_log(e, w, OP_WAIT, condition, NOBODY);
    leave(e, w, ON_CONDITION);
}

IN_PLACE void wake_one(struct engine *e, struct worker *w, unsigned condition)
{
    struct queue *waiting = &e->conditions[condition];
    unsigned woken = NOBODY;
    commit(e, w);
    if (waiting->len != 0) {
        woken = pop(waiting);
        e->workers[woken].fate = GOING;
        put_behind_first(&e->list, woken);
    }
    write_log(e, w, OP_SIGNAL, condition, woken);
    if (w->count == 0)
        give_up_token(e, w);
}

IN_PLACE void wake_all(struct engine *e, struct worker *w, unsigned condition)
{
    struct queue all = e->conditions[condition];
    commit(e, w);
    e->conditions[condition] = (struct queue){0, 0};
    put_all_behind_first(&e->list, &all);
    for (unsigned i = 0; i < all.len; i++)
        e->workers[all.bytes >> 8 * i & 255].fate = GOING;
    write_log(e, w, OP_BROADCAST, condition, all.len);
    if (w->count == 0)
        give_up_token(e, w);
}

IN_PLACE void meet(struct engine *e, struct worker *w, unsigned barrier)
{
    struct queue *met = &e->barriers[barrier];
    unsigned size = e->plan->size[barrier];
    commit(e, w);
    if (met->len + 1 < size) {
        push(met, w->name);
        write_log(e, w, OP_BARRIER, barrier, 0);
        leave(e, w, AT_BARRIER);
        return;
    }
    while (met->len != 0) {
        unsigned freed = pop(met);
        e->workers[freed].fate = GOING;
        push(&e->next, freed);
    }
    write_log(e, w, OP_BARRIER, barrier, size);
    give_up_token(e, w);
}

/* The caller keeps the token, with no lock held too. */
IN_PLACE void start_worker(struct engine *e, struct worker *w, unsigned name)
{
    unsigned outcome = AWAKE;
    commit(e, w);
    if (e->workers[name].fate == ASLEEP) {
        e->workers[name].fate = GOING;
        push(&e->next, name);
        outcome = STARTED;
    }
    write_log(e, w, OP_START, name, outcome);
}

IN_PLACE void exit_plan(struct engine *e, struct worker *w)
{
    commit(e, w);
    write_log(e, w, OP_EXIT, 0, NOBODY);
    leave(e, w, EXITED);
}

/* A worker locks only what it does not hold and unlocks only what it holds,
 * whatever others hold. Wait needs a lock, barrier and exit need none. */
static int fails(const struct worker *w, unsigned op, unsigned number)
{
    switch (op) {
    case OP_LOCK:
        return w->held >> number & 1;
    case OP_UNLOCK:
        return !(w->held >> number & 1);
    case OP_WAIT:
        return w->count == 0;
    case OP_BARRIER:
    case OP_EXIT:
        return w->count != 0;
    }
    return 0;
}

IN_PLACE void token_step(struct engine *e, struct worker *w, unsigned op)
{
    unsigned number = w->step == w->behind ? 0 : number_of(w->step);
    if (fails(w, op, number)) {
        fail(e, w, op, number);
        return;
    }
    w->step += op == OP_EXIT ? 0 : RECORD;
    switch (op) {
    case OP_LOCK:
        lock(e, w, number);
        break;
    case OP_UNLOCK:
        unlock(e, w, number);
        break;
    case OP_WAIT:
        wait_on(e, w, number);
        break;
    case OP_SIGNAL:
        wake_one(e, w, number);
        break;
    case OP_BROADCAST:
        wake_all(e, w, number);
        break;
    case OP_BARRIER:
        meet(e, w, number);
        break;
    case OP_START:
        start_worker(e, w, number);
        break;
    case OP_EXIT:
        exit_plan(e, w);
        break;
    }
}

/* --- Turns --------------------------------------------------------------- */

/* Lets all workers of the list run to the fence. */
static void begin_round(struct engine *e)
{
    uint64_t bytes = e->list.bytes;
    e->running = e->list.len;
    for (unsigned i = 0; i < e->list.len; i++, bytes >>= 8)
        e->may[bytes & 255] = TO_FENCE;
}

static void arrive(struct engine *e, struct worker *w)
{
    e->may[w->name] = PASS;
    e->running -= 1;
    if (e->running == 0)
        e->may[first_of(&e->list)] = HOLDS_TOKEN;
}

static void move(struct engine *e, struct worker *w)
{
    unsigned op = op_at(w->step, w->behind);
    e->moves += 1;
    if (op < OP_LOCK)
        plain_step(e, w, op);
    else if (e->may[w->name] == HOLDS_TOKEN)
        token_step(e, w, op);
    else
        arrive(e, w);
}

static void play(struct engine *e, const uint8_t *turns, size_t turns_len)
{
    begin_round(e);
    for (size_t i = 0; i < turns_len; i++)
        if (e->may[turns[i]] != PASS) {
            move(e, &e->workers[turns[i]]);
            if (e->list.len != 0)
                continue;
            if (!next_round(e)) /* the plan has ended: the rest passes */
                return;
            begin_round(e);
        }
}

/* --- Rounds without turns ------------------------------------------------ */

/* A worker runs by itself up to a step that synchronises, or its end: its op. */
static inline unsigned run_by_itself(struct engine *e, struct worker *w)
{
    unsigned op, moves = 0;
    while ((op = op_at(w->step, w->behind)) < OP_LOCK) {
        plain_step(e, w, op);
        moves += 1;
    }
    e->moves += moves;
    return op;
}

/* Nobody commits on the way to the fence, so that one after the other will do. */
static void meet_at_fence(struct engine *e)
{
    uint64_t bytes = e->list.bytes;
    for (unsigned i = 0; i < e->list.len; i++, bytes >>= 8)
        run_by_itself(e, &e->workers[bytes & 255]);
    e->moves += e->list.len; /* the arrivals */
}

/* The first in the list goes on until it is out of it. */
static void hold_token(struct engine *e)
{
    unsigned name = first_of(&e->list);
    struct worker *w = &e->workers[name];
    do {
        unsigned op = run_by_itself(e, w);
        e->moves += 1;
        token_step(e, w, op);
    } while (e->list.len != 0 && first_of(&e->list) == name);
}

/* Worker 0 never sleeps, so that there is a first round. */
static void play_to_end(struct engine *e)
{
    do {
        meet_at_fence(e);
        while (e->list.len != 0)
            hold_token(e);
    } while (next_round(e));
}

/* --- The run ------------------------------------------------------------ */

IN_PLACE void start(struct engine *e, const struct plan *plan, const uint8_t *file,
                    uint8_t *memory, uint8_t *log, uint8_t *work)
{
    memset(e, 0, sizeof *e);
    e->plan = plan;
    e->memory = memory;
    e->sum = sum_of(memory, MEMORY);
    e->log = log;
    for (unsigned i = 0; i < plan->workers; i++) {
        struct worker *w = &e->workers[i];
        w->name = (uint8_t)i;
        w->step = file + plan->first[i] * RECORD;
        w->behind = file + plan->first[i + 1] * RECORD;
        w->copies = work + i * PAGES * 2 * PAGE;
        w->fate = plan->fate[i];
        if (w->fate == GOING)
            push(&e->list, i);
    }
}

/* Whether a worker of this fate lets a plan be finished. */
static int is_over(unsigned fate)
{
    return fate == EXITED || fate == FAILED || fate == ASLEEP;
}

/* 0 going, 1 finished, 2 stuck. */
static uint8_t end_of(const struct engine *e)
{
    if (e->list.len != 0)
        return 0;
    for (unsigned i = 0; i < e->plan->workers; i++)
        if (!is_over(e->workers[i].fate))
            return 2;
    return 1;
}

static void put_two(uint8_t *to, unsigned number)
{
    to[0] = (uint8_t)(number & 255);
    to[1] = (uint8_t)(number >> 8);
}

static void put_four(uint8_t *to, uint32_t number)
{
    put_two(to, number & 65535);
    put_two(to + 2, number >> 16);
}

IN_PLACE void fill_report(const struct engine *e, uint8_t *report)
{
    report[0] = end_of(e);
    report[1] = (uint8_t)e->plan->workers;
    put_two(report + 2, e->moves);
    put_two(report + 4, e->rounds);
    put_two(report + 6, e->log_fill / LOG_RECORD);
    memset(report + 8, NO_WORKER, MOST_WORKERS);
    for (unsigned i = 0; i < e->plan->workers; i++)
        report[8 + i] = e->workers[i].fate;
    put_four(report + 16, e->sum);
}

/* What a run leaves beside memory and work. */
IN_PLACE void finish(const struct engine *e, uint8_t *report)
{
    fill_report(e, report);
    memset(e->log + e->log_fill, 0, LOG - e->log_fill);
}

static int names_nobody(const uint8_t *turns, size_t turns_len, unsigned workers)
{
    uint8_t most = 0;
    for (size_t i = 0; i < turns_len; i++)
        most = turns[i] > most ? turns[i] : most;
    return turns_len != 0 && most >= workers;
}

uint32_t twin_run(const uint8_t *file, size_t file_len,
                  const uint8_t *turns, size_t turns_len,
                  uint8_t *memory, size_t memory_len,
                  uint8_t *log, size_t log_len,
                  uint8_t *report, size_t report_len,
                  uint8_t *work, size_t work_len)
{
    struct plan plan;
    struct engine engine;
    uint32_t refusal;
    if (memory_len != MEMORY || log_len != LOG || report_len != REPORT ||
        work_len != WORK)
        return 11;
    if (turns_len > MOST_TURNS)
        return 12;
    refusal = read_file(&plan, file, file_len);
    if (refusal != 0)
        return refusal;
    if (names_nobody(turns, turns_len, plan.workers))
        return 13;
    start(&engine, &plan, file, memory, log, work);
    play(&engine, turns, turns_len);
    finish(&engine, report);
    memset(work, 0, WORK);
    return 0;
}

/* --- Many plans ---------------------------------------------------------- */

static uint32_t length_of(const uint8_t *lengths, size_t plan)
{
    const uint8_t *at = lengths + plan * LENGTH;
    return at[0] | (uint32_t)at[1] << 8 | (uint32_t)at[2] << 16 |
           (uint32_t)at[3] << 24;
}

/* The sum is exact: forty such numbers are far below 2^64. */
static int add_up(size_t count, const uint8_t *lengths, size_t files_len)
{
    uint64_t sum = 0;
    for (size_t plan = 0; plan < count; plan++)
        sum += length_of(lengths, plan);
    return sum == files_len;
}

/* One plan of many: 0, or the number of its refusal. Work is not cleared: no
 * run reads what it has not written there. */
static uint8_t run_one(const uint8_t *file, size_t file_len, uint8_t *memory,
                       uint8_t *log, uint8_t *report, uint8_t *work)
{
    struct plan plan;
    struct engine engine;
    uint32_t refusal = read_file(&plan, file, file_len);
    if (refusal != 0)
        return (uint8_t)(refusal & 255);
    start(&engine, &plan, file, memory, log, work);
    play_to_end(&engine);
    finish(&engine, report);
    return 0;
}

uint32_t twin_run_all(size_t count,
                      const uint8_t *files, size_t files_len,
                      const uint8_t *lengths, size_t lengths_len,
                      uint8_t *memories, size_t memories_len,
                      uint8_t *logs, size_t logs_len,
                      uint8_t *reports, size_t reports_len,
                      uint8_t *answers, size_t answers_len,
                      uint8_t *work, size_t work_len)
{
    const uint8_t *file = files;
    int any = 0;
    if (work_len != WORK)
        return 11;
    if (count < 1 || count > MOST_PLANS)
        return 15;
    if (lengths_len != count * LENGTH || memories_len != count * MEMORY ||
        logs_len != count * LOG || reports_len != count * REPORT ||
        answers_len != count || !add_up(count, lengths, files_len))
        return 15;
    for (size_t plan = 0; plan < count; plan++) {
        uint32_t file_len = length_of(lengths, plan);
        answers[plan] = run_one(file, file_len, memories + plan * MEMORY,
                                logs + plan * LOG, reports + plan * REPORT, work);
        any |= answers[plan] == 0;
        file += file_len;
    }
    if (any) /* an accepted run leaves work all zero, whoever comes after it */
        memset(work, 0, WORK);
    return 0;
}
