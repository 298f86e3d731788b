/* The engine: it runs the network of the tables above on one rank or several.
 *
 * THE NETWORK. A process is fired by the row of its kind (docs/MODEL.md, "Firing"); each row is one
 * function below. Each process lives on one rank and is fired there only. A rank is this program
 * itself, a forked copy of it on the same machine, or a process that an MPI launcher started. Ranks
 * share no memory.
 *
 * WIRES. A channel between two ranks has four parts, which always add up to its capacity
 * (docs/MODEL.md, "Wires"):
 *
 *     the model's   here                                              at the rank of
 *     ring          `count` tokens of `ring`                          its reader
 *     flight        tokens in an outbox, and in messages              its writer, or on their way
 *     credit        `credit`                                          its writer
 *     back          `back`, and credits in messages                   its reader, or on their way
 *
 * A writer puts a token only if it has credit, and has one less from then on. A reader gives a
 * place back after it has taken the token out, never when the token arrives. So each token that
 * arrives has its place in the ring, and the capacities bound a rank's memory. A channel within one
 * rank is its ring alone: its reader sees all its tokens, and its writer has all other places as
 * credit.
 *
 * MESSAGES. Tokens and credits for another rank gather in an outbox. It is sent when it is full,
 * before a long body, FLUSH_NS after it became due, and when its rank can fire nothing. Messages
 * between two ranks keep their order, so the tokens of a channel do.
 *
 * NO DEADLOCK. A rank waits for others in three places only, and keeps receiving in each of them,
 * which needs no buffer and no room: until a message of its own is sent (`send_outbox`), when it
 * can fire nothing (`idle`), and at the end (`farewell`). So every message arrives. A rank that can
 * fire nothing has already sent all its tokens and given back all its places. So if no rank can
 * fire and no message is in flight, all is quiet in the sense of the model: every item has its
 * outcome, and the sink, which is on rank 0 with the source, has ended the run.
 *
 * THE ORDER OF FIRINGS. By what its rank knows, an emit chooses among the lines with credit, a head
 * prefers what came back to a new token, and a tail lets out before it takes in. All of these are
 * ways of the model (docs/MODEL.md, "Ways"), so the results don't depend on them, nor on how late a
 * message comes.
 *
 * THE END. Rank 0 says goodbye to all ranks when the input has ended and as many outcomes were
 * emitted as items sent, when the sink has met a trap, or when writing has failed. Each rank then
 * says goodbye to those with which it shares a wire, and leaves when all of them have said it.
 */
#ifdef __GNUC__
#pragma GCC diagnostic pop
#endif
#include <errno.h>
#include <fcntl.h>
#include <poll.h>
#include <signal.h>
#include <stdbool.h>
#include <stdio.h>
#include <stdlib.h>
#include <sys/resource.h>
#include <sys/socket.h>
#include <sys/uio.h>
#include <sys/un.h>
#include <sys/wait.h>
#include <time.h>
#include <unistd.h>
#ifdef P3L_MPI
#include <mpi.h>
#ifdef __linux__
#include <linux/tcp.h>
#include <netinet/in.h>
#endif
#endif

/* ---- endings, memory and clocks */

/* The statuses are those of `p3l run`, and two more: LOST, a rank ended early; BROKEN, the
 * engine broke its own rule. */
enum {
    DONE = 0,
    USAGE = 2,
    REFUSED = 6,
    TRAPPED = 7,
    READ_FAULT = 8,
    WRITE_FAULT = 10,
    NO_MEMORY = 11,
    TOO_LONG = 14,
    LOST = 16,
    BROKEN = 70
};

enum { MOST_RANKS = 512 };

static int my_rank, ranks = 1;
static bool stopping; /* set once no process may fire any more */

static void stop_ranks(int status);

/* Ends the run of all ranks at once. */
static _Noreturn void fail(int status, const char *line)
{
    fprintf(stderr, "%s\n", line);
    stop_ranks(status);
    _exit(status);
}

/* Allocates zeroed memory for `count` objects, or ends the run. */
static void *room_for(size_t count, size_t size)
{
    void *room = calloc(count > 0 ? count : 1, size);
    if (room == NULL) fail(NO_MEMORY, "no memory");
    return room;
}

static uint64_t nanoseconds(clockid_t clock)
{
    struct timespec t;
    clock_gettime(clock, &t);
    return (uint64_t)t.tv_sec * 1000000000u + (uint64_t)t.tv_nsec;
}

static size_t bytes(int words) { return (size_t)words * sizeof(int64_t); }

/* Copies words. Most tokens have few, for which a loop takes less time than a call. */
static inline void copy_words(int64_t *to, const int64_t *from, int count)
{
    if (count > 4) memcpy(to, from, bytes(count));
    else
        for (int i = 0; i < count; i++) to[i] = from[i];
}

/* ---- nodes: their meaning, by form (docs/MODEL.md, "What an item comes to")
 *
 * The function of a node gives 0 and its out words, or a trap: 1 + its kind + 8 * its module.
 * Only nodes whose parts run one after another have one. */

struct node;
typedef int64_t meaning(const struct node *node, const int64_t *in, int64_t *out);

/* The words of one element in one array of a token: three nested loops, whose innermost is one
 * copy where its words are adjacent. Each step of a free index shifts all of them. */
struct area {
    size_t start, by_first, by_second;
    size_t count[3], stride[3];
};

struct node {
    const struct node_row *row;
    const struct module_row *module;
    const int32_t *parts;
    meaning *run;
    struct area *ins, *outs; /* a map's slices */
    int between;             /* the most words of a token between two parts of a comp */
    int64_t *work; /* a comp's tokens between its parts, a map's element, a fold's halves */
};

static struct node nodes[NODES];

static const struct node *part_of(const struct node *node, int i) { return &nodes[node->parts[i]]; }

/* The outcome of a `seq` or a `comp`: if its module has a rescue number, a trap becomes that
 * number. */
static int64_t rescued(const struct node *node, int64_t trap, int64_t *out)
{
    if (trap == 0 || !node->module->has_rescue) return trap;
    for (int i = 0; i < node->row->outs; i++) out[i] = node->module->rescue;
    return 0;
}

static int64_t run_seq(const struct node *node, const int64_t *in, int64_t *out)
{
    return rescued(node, node->module->body(in, out), out);
}

static int64_t run_comp(const struct node *node, const int64_t *in, int64_t *out)
{
    int last = node->row->parts - 1;
    for (int i = 0; i <= last; i++) {
        const struct node *part = part_of(node, i);
        int64_t *to = i == last ? out : node->work + i % 2 * node->between;
        int64_t trap = part->run(part, in, to);
        if (trap != 0) return rescued(node, trap, out);
        in = to;
    }
    return 0;
}

/* Copies the words of element (i, j) from an array of the whole token; returns the end of the
 * copy. */
static int64_t *copy_out(const struct area *area, size_t i, size_t j, const int64_t *whole,
                         int64_t *piece)
{
    const int64_t *base = whole + area->start + i * area->by_first + j * area->by_second;
    for (size_t a = 0; a < area->count[0]; a++)
        for (size_t b = 0; b < area->count[1]; b++) {
            const int64_t *from = base + a * area->stride[0] + b * area->stride[1];
            size_t count = area->count[2], stride = area->stride[2];
            if (stride == 1 && count > 4) memcpy(piece, from, count * sizeof *piece);
            else
                for (size_t c = 0; c < count; c++) piece[c] = from[c * stride];
            piece += count;
        }
    return piece;
}

/* Copies the words of element (i, j) into an array of the whole token; returns the end of what
 * was read. */
static const int64_t *copy_in(const struct area *area, size_t i, size_t j, const int64_t *piece,
                              int64_t *whole)
{
    int64_t *base = whole + area->start + i * area->by_first + j * area->by_second;
    for (size_t a = 0; a < area->count[0]; a++)
        for (size_t b = 0; b < area->count[1]; b++) {
            int64_t *to = base + a * area->stride[0] + b * area->stride[1];
            size_t count = area->count[2], stride = area->stride[2];
            if (stride == 1 && count > 4) memcpy(to, piece, count * sizeof *piece);
            else
                for (size_t c = 0; c < count; c++) to[c * stride] = piece[c];
            piece += count;
        }
    return piece;
}

static int64_t elements_of(const struct node *map)
{
    return (int64_t)map->row->first * map->row->second;
}

/* Copies the in words of a map's element from the whole token. */
static void cut(const struct node *map, const int64_t *whole, int64_t *piece, int64_t element)
{
    size_t i = (size_t)(element / map->row->second), j = (size_t)(element % map->row->second);
    for (int s = 0; s < map->row->in_slices; s++)
        piece = copy_out(&map->ins[s], i, j, whole, piece);
}

/* Copies the out words of a map's element into the whole token. */
static void join(const struct node *map, const int64_t *piece, int64_t *whole, int64_t element)
{
    size_t i = (size_t)(element / map->row->second), j = (size_t)(element % map->row->second);
    for (int s = 0; s < map->row->out_slices; s++)
        piece = copy_in(&map->outs[s], i, j, piece, whole);
}

static int64_t run_map(const struct node *node, const int64_t *in, int64_t *out)
{
    const struct node *part = part_of(node, 0);
    int64_t *piece = node->work, *result = node->work + part->row->ins;
    for (int64_t element = 0, all = elements_of(node); element < all; element++) {
        cut(node, in, piece, element);
        int64_t trap = part->run(part, piece, result);
        if (trap != 0) return trap;
        join(node, result, out, element);
    }
    return 0;
}

/* Folds by halves, the first rounded down: the left trap, else the right one, else the operator
 * on both. Each level has its own pair of results in `pairs`. */
static int64_t fold_halves(const struct node *reduce, const int64_t *in, int64_t count,
                           int64_t *out, int64_t *pairs)
{
    const struct node *combine = part_of(reduce, 0);
    int64_t words = reduce->row->second;
    if (count == 1) {
        memcpy(out, in, bytes((int)words));
        return 0;
    }
    if (count == 2) return combine->run(combine, in, out);
    int64_t half = count / 2, *below = pairs + 2 * words;
    int64_t trap = fold_halves(reduce, in, half, pairs, below);
    if (trap == 0)
        trap = fold_halves(reduce, in + half * words, count - half, pairs + words, below);
    return trap != 0 ? trap : combine->run(combine, pairs, out);
}

static int64_t fold(const struct node *reduce, const int64_t *in, int64_t count, int64_t *out)
{
    return fold_halves(reduce, in, count, out, reduce->work);
}

static int64_t run_reduce(const struct node *node, const int64_t *in, int64_t *out)
{
    return fold(node, in, node->row->first, out);
}

static meaning *const MEANING[] = { [FORM_SEQ] = run_seq,
                                    [FORM_COMP] = run_comp,
                                    [FORM_MAP] = run_map,
                                    [FORM_REDUCE] = run_reduce,
                                    [FORM_LOOP] = NULL };

/* Adds a loop around those of the area, or lengthens the outermost one if their words are
 * adjacent. */
static void add_row(struct area *area, size_t count, size_t stride)
{
    int at = 2;
    while (at > 0 && area->count[at - 1] > 1) at--;
    if (area->count[at] > 1 && stride == area->count[at] * area->stride[at]) {
        area->count[at] *= count;
        return;
    }
    if (area->count[at] > 1) at--;
    area->count[at] = count;
    area->stride[at] = stride;
}

/* The area of a slice. A dimension of size 1 needs no loop. */
static struct area area_of(const struct slice_row *slice, const struct dim_row *dims)
{
    struct area area = { .start = (size_t)slice->start,
                         .count = { 1, 1, 1 },
                         .stride = { 1, 1, 1 } };
    size_t stride = 1;
    for (int d = slice->dims - 1; d >= 0; d--) {
        size_t size = (size_t)dims[d].size;
        if (dims[d].place == PLACE_FIRST) area.by_first += stride;
        else if (dims[d].place == PLACE_SECOND) area.by_second += stride;
        else if (size > 1) add_row(&area, size, stride);
        stride *= size;
    }
    return area;
}

static const struct slice_row *next_slice = SLICE;
static const struct dim_row *next_dim = DIM;

static struct area *next_areas(int count)
{
    struct area *areas = room_for((size_t)count, sizeof *areas);
    for (int i = 0; i < count; i++) {
        areas[i] = area_of(next_slice, next_dim);
        next_dim += next_slice->dims;
        next_slice++;
    }
    return areas;
}

/* Finds where the parts and the slices of each node begin: the rows give only their numbers. */
static void make_nodes(void)
{
    const int32_t *next_part = PART;
    for (int n = 0; n < NODES; n++) {
        struct node *node = &nodes[n];
        node->row = &NODE[n];
        node->module = &MODULE[node->row->module];
        node->parts = next_part;
        node->run = MEANING[node->row->form];
        for (int i = 0; i + 1 < node->row->parts; i++)
            if (NODE[next_part[i]].outs > node->between) node->between = NODE[next_part[i]].outs;
        next_part += node->row->parts;
        node->ins = next_areas(node->row->in_slices);
        node->outs = next_areas(node->row->out_slices);
    }
}

static size_t work_of(const struct node *node)
{
    if (node->row->form == FORM_COMP) return 2 * (size_t)node->between;
    if (node->row->form == FORM_MAP)
        return (size_t)(part_of(node, 0)->row->ins + part_of(node, 0)->row->outs);
    size_t levels = 1;
    for (int count = node->row->first; count > 1; count -= count / 2) levels++;
    return node->row->form == FORM_REDUCE ? 2 * levels * (size_t)node->row->second : 0;
}

/* Allocates the work memory of a node that runs on this rank, and of all nodes below it. All
 * processes of a node share it, since they fire one at a time. */
static void prepare(int n)
{
    struct node *node = &nodes[n];
    if (node->work == NULL) node->work = room_for(work_of(node), sizeof(int64_t));
    for (int i = 0; i < node->row->parts; i++) prepare(node->parts[i]);
}

/* ---- channels and processes: their state */

/* A token is a row of words: 0 or its trap, its tags from the oldest to the newest, and the
 * words of its value. */
struct channel {
    int capacity, words, tags;
    int stride;         /* the words of a row */
    int writer, reader; /* processes */
    int writer_rank, reader_rank;
    int64_t *ring; /* rows, from `front` on, round the end */
    int front, count;
    int credit; /* the writer's, if the channel is between two ranks */
    int back;   /* places freed by its reader and not yet given back */
};

struct process {
    const struct process_row *row;
    const struct node *node;
    const int32_t *ins, *outs; /* channels */
    int rank;
    int64_t number; /* the next one: of a token, an element or a segment */
    bool holds;     /* it holds a token whose pieces aren't all sent */
    int64_t *held; /* rows: the token held, the joined results, or the tokens that wait in a tail */
    int line;      /* the line that an emit or a collect tries first; a split's next word */
    bool queued;
    int pace;     /* firings between two looks at the clock */
    bool is_long; /* its firings take longer than tokens may wait in an outbox */
};

static struct channel channels[CHANNELS];
static struct process processes[PROCESSES];

/* Counts of this rank, for --stats. */
static struct {
    bool wanted;
    uint64_t firings, messages, tokens;
    uint64_t begun_cpu_ns, idle_ns, idle_cpu_ns;
} stats;

static bool is_between_ranks(const struct channel *c) { return c->writer_rank != c->reader_rank; }

/* Queues of the processes that may be able to fire, each at most once. Those that only move
 * tokens come first, since they supply the others. */
struct queue {
    int at[PROCESSES];
    int head, count;
};
static struct queue movers, bodies;

static bool runs_body(int kind) { return kind == KIND_RUN || kind == KIND_JOIN; }

/* Queues a process, if it is this rank's and isn't queued. */
static void wake(int p)
{
    struct process *process = &processes[p];
    if (process->queued || process->rank != my_rank) return;
    struct queue *queue = runs_body(process->row->kind) ? &bodies : &movers;
    int at = queue->head + queue->count++;
    queue->at[at < PROCESSES ? at : at - PROCESSES] = p;
    process->queued = true;
}

static bool is_idle(void) { return movers.count == 0 && bodies.count == 0; }

/* Takes the next process out of the queues, or gives NULL. */
static struct process *next_queued(void)
{
    struct queue *queue = movers.count > 0 ? &movers : &bodies;
    if (queue->count == 0) return NULL;
    struct process *process = &processes[queue->at[queue->head]];
    queue->head = queue->head + 1 < PROCESSES ? queue->head + 1 : 0;
    queue->count--;
    process->queued = false;
    return process;
}

static inline int64_t *row_of(struct channel *c, int at)
{
    if (c->ring == NULL)
        c->ring = room_for((size_t)c->capacity * (size_t)c->stride, sizeof(int64_t));
    return c->ring + (size_t)at * (size_t)c->stride;
}

/* The first free row of a ring. */
static inline int64_t *free_row(struct channel *c)
{
    int at = c->front + c->count;
    return row_of(c, at < c->capacity ? at : at - c->capacity);
}

/* ---- the carrier: how messages go from rank to rank. There are two, with one interface:
 *
 *   start_carrier   begins, once `most_words` is known, the most words that a message has
 *   post            begins to send a message, whose words stay in use until it is posted
 *   is_posted       tells whether the message of a slot was sent; goes on sending
 *   receive         opens all messages that have come; goes on sending; false where none had come
 *   rest            waits for a message, for room to send one, or for input where it is asked to
 *   end_carrier     sends the last messages, and ends
 *   stop_ranks      ends all ranks at once, by force
 *
 * A rank uses its slots for another rank in turn. */

enum { SLOTS = 4, LEAST_BUFFER = 8192 };

static int most_words;
static bool wants_input; /* the source waits for bytes */

static void open_message(const int64_t *message, int words, int from);
static bool has_wire(int a, int b);
static bool tell_caller(int status);

#ifndef P3L_MPI

/* Forked copies of this program. Two ranks that share a wire are joined by a pair of sockets.
 * Rank 0 is the program itself. */

/* The time between two looks for messages while something can fire; the longest wait of a token
 * in an outbox; and the time of busy waiting before a rank sleeps, which is about the cost of
 * waking up. */
enum { LOOK_NS = 15000, FLUSH_NS = 20000, SPIN_NS = 30000 };

struct link {
    int socket; /* -1 if there is no wire, or the other rank has left */
    struct {
        const int64_t *at;
        int64_t words;
        size_t done;
        bool open;
    } out[SLOTS];
    int next; /* the slot that is being sent */
    char *in; /* bytes received; those from `start` to `end` are still to be opened */
    size_t start, end, room;
};

static struct link links[MOST_RANKS];
static pid_t children[MOST_RANKS];

static void stop_ranks(int status)
{
    (void)status;
    for (int r = 1; r < MOST_RANKS && my_rank == 0; r++)
        if (children[r] > 0) kill(children[r], SIGKILL);
}

static int *ends_of_pairs(int a, int b)
{
    static int *ends;
    if (ends == NULL) ends = room_for((size_t)ranks * (size_t)ranks, sizeof *ends);
    return &ends[a * ranks + b];
}

/* Makes the sockets between all ranks that have a wire. */
static void make_pairs(void)
{
    for (int a = 0; a < ranks; a++)
        for (int b = 0; b < a; b++) {
            int pair[2] = { -1, -1 };
            if (has_wire(a, b) && socketpair(AF_UNIX, SOCK_STREAM, 0, pair) != 0)
                fail(LOST, "ranks can't be started");
            *ends_of_pairs(a, b) = pair[0];
            *ends_of_pairs(b, a) = pair[1];
        }
}

/* Keeps this rank's ends of its sockets, and closes those of the others. */
static void keep_links(void)
{
    for (int a = 0; a < ranks; a++)
        for (int b = 0; b < ranks; b++) {
            int end = a == b ? -1 : *ends_of_pairs(a, b);
            if (a == my_rank) links[b].socket = end;
            if (end >= 0 && a == my_rank) fcntl(end, F_SETFL, O_NONBLOCK);
            if (end >= 0 && a != my_rank) close(end);
        }
}

/* Closes the streams, which are rank 0's: the reader of the output then sees its end as soon as
 * rank 0 ends. */
static void leave_streams(void)
{
    int none = open("/dev/null", O_RDWR);
    if (none < 0) return;
    dup2(none, 0);
    dup2(none, 1);
    if (none > 1) close(none);
}

/* Allows as many descriptors as the system permits. */
static void raise_descriptors(void)
{
    struct rlimit limit;
    if (getrlimit(RLIMIT_NOFILE, &limit) != 0) return;
    limit.rlim_cur = limit.rlim_max;
    setrlimit(RLIMIT_NOFILE, &limit);
}

static void fork_ranks(void)
{
    if (ranks == 1) return;
    raise_descriptors();
    make_pairs();
    for (int r = 1; r < ranks && my_rank == 0; r++) {
        children[r] = fork();
        if (children[r] < 0) fail(LOST, "ranks can't be started");
        if (children[r] == 0) my_rank = r;
    }
    if (my_rank != 0) leave_streams();
    keep_links();
}

static void start_carrier(void) {}

static bool has_left(int rank);

/* Handles a socket that its other end has closed. After a goodbye that is normal. Otherwise a
 * rank was lost, and rank 0 ends the run, with the status of that rank if it failed with one;
 * the other ranks end when rank 0 does. */
static void lose(int rank)
{
    int status = 0;
    close(links[rank].socket);
    links[rank].socket = -1;
    if (has_left(rank)) return;
    if (my_rank != 0 && rank == 0) _exit(LOST);
    if (my_rank != 0) return;
    waitpid(children[rank], &status, 0);
    children[rank] = 0;
    if (!WIFEXITED(status) || WEXITSTATUS(status) == 0 || WEXITSTATUS(status) == LOST)
        fail(LOST, "a rank was lost");
    stop_ranks(LOST);
    _exit(WEXITSTATUS(status));
}

/* Sends as much as the socket takes without waiting. A message is its number of words, and its
 * words. */
static void push(int rank)
{
    struct link *link = &links[rank];
    while (link->socket >= 0 && link->out[link->next].open) {
        int64_t *words = &link->out[link->next].words;
        size_t done = link->out[link->next].done, all = ((size_t)*words + 1) * sizeof *words;
        struct iovec parts[2] = { { words, sizeof *words },
                                  { (void *)link->out[link->next].at, all - sizeof *words } };
        int first = done < sizeof *words ? 0 : 1;
        size_t skip = done - (first == 0 ? 0 : sizeof *words);
        parts[first].iov_base = (char *)parts[first].iov_base + skip;
        parts[first].iov_len -= skip;
        ssize_t sent = writev(link->socket, parts + first, 2 - first);
        if (sent < 0 && errno == EINTR) continue;
        if (sent < 0 && (errno == EAGAIN || errno == EWOULDBLOCK || errno == ENOBUFS)) return;
        if (sent < 0) {
            lose(rank);
            return;
        }
        link->out[link->next].done += (size_t)sent;
        if (link->out[link->next].done < all) continue;
        link->out[link->next].open = false;
        link->next = (link->next + 1) % SLOTS;
    }
}

static void post(int rank, int slot, const int64_t *message, int words)
{
    struct link *link = &links[rank];
    link->out[slot].at = message;
    link->out[slot].words = words;
    link->out[slot].done = 0;
    link->out[slot].open = true;
    push(rank);
}

static bool is_posted(int rank, int slot)
{
    if (links[rank].out[slot].open) push(rank);
    return !links[rank].out[slot].open || links[rank].socket < 0;
}

/* Opens each message that was received whole. */
static void open_whole(struct link *link, int from)
{
    int64_t words;
    while (link->end - link->start >= sizeof words) {
        memcpy(&words, link->in + link->start, sizeof words);
        size_t all = ((size_t)words + 1) * sizeof words;
        if (link->end - link->start < all) return;
        open_message((const int64_t *)(const void *)(link->in + link->start) + 1, (int)words, from);
        link->start += all;
    }
}

/* Reads what a rank has sent, and opens it; false if nothing was there. */
static bool pull(int rank)
{
    struct link *link = &links[rank];
    if (link->in == NULL) link->in = room_for(link->room = 2 * bytes(most_words + 1), 1);
    if (link->start > 0) memmove(link->in, link->in + link->start, link->end - link->start);
    link->end -= link->start;
    link->start = 0;
    ssize_t got = read(link->socket, link->in + link->end, link->room - link->end);
    if (got < 0 && (errno == EINTR || errno == EAGAIN || errno == EWOULDBLOCK)) return false;
    if (got <= 0) {
        lose(rank);
        return false;
    }
    link->end += (size_t)got;
    open_whole(link, rank);
    return true;
}

/* Polls the sockets for messages, for room to send, and standard input if asked; waits at most
 * `ms` milliseconds, -1 for ever. */
static int ask(struct pollfd *asked, bool for_input, int ms)
{
    for (int r = 0; r < ranks; r++) {
        const struct link *link = &links[r];
        asked[r].fd = link->socket;
        asked[r].events = (short)(POLLIN | (link->out[link->next].open ? POLLOUT : 0));
        asked[r].revents = 0;
    }
    asked[my_rank].fd = for_input ? 0 : -1;
    return poll(asked, (nfds_t)ranks, ms);
}

static struct pollfd asked[MOST_RANKS];

static bool receive(void)
{
    bool any = false;
    if (ranks == 1 || ask(asked, false, 0) <= 0) return false;
    for (int r = 0; r < ranks; r++) {
        if (asked[r].fd < 0 || asked[r].revents == 0) continue;
        if (asked[r].revents & POLLOUT) push(r);
        if (links[r].socket >= 0 && asked[r].revents & (POLLIN | POLLHUP | POLLERR)) any |= pull(r);
    }
    return any;
}

static void rest(bool for_input) { ask(asked, for_input, -1); }

static void end_carrier(void)
{
    for (int r = 0; r < ranks; r++)
        for (int slot = 0; slot < SLOTS; slot++)
            while (!is_posted(r, slot)) ask(asked, false, 1);
    for (int r = 1; r < ranks && my_rank == 0; r++) waitpid(children[r], NULL, 0);
}

#else

/* MPI. It has no wait with a time limit, so a rank without work polls for a while, and then
 * sleeps for longer and longer between two looks. */

enum {
    LOOK_NS = 5000,
    FLUSH_NS = 20000,
    SPIN_NS = 100000,
    SHORTEST_SLEEP_NS = 10000,
    LONGEST_SLEEP_NS = 200000,
    ABORT_S = 10,
    LEAVE_S = 60
};

static MPI_Request requests[MOST_RANKS][SLOTS];
static MPI_Request inbox_request;
static int64_t *inbox;
static long sleep_ns = SHORTEST_SLEEP_NS;

/* Rank 0 tells its status to its caller, if it has one, and leaves; the launcher then ends the
 * others. Otherwise MPI passes the status on; where it can't, as on a machine that is cut off, this
 * rank ends by the alarm. */
static void stop_ranks(int status)
{
    int has_begun = 0;
    if (tell_caller(status)) _exit(status);
    MPI_Initialized(&has_begun);
    alarm(ABORT_S);
    if (has_begun) MPI_Abort(MPI_COMM_WORLD, status);
}

static void request_message(void)
{
    MPI_Irecv(inbox, most_words, MPI_INT64_T, MPI_ANY_SOURCE, 0, MPI_COMM_WORLD, &inbox_request);
}

static void start_carrier(void)
{
    inbox = room_for((size_t)most_words, sizeof *inbox);
    for (int r = 0; r < ranks; r++)
        for (int slot = 0; slot < SLOTS; slot++) requests[r][slot] = MPI_REQUEST_NULL;
    request_message();
    /* An empty message makes the connection, so that its loss is noticed. */
    if (my_rank != 0) MPI_Send(inbox, 0, MPI_INT64_T, 0, 0, MPI_COMM_WORLD);
}

static void post(int rank, int slot, const int64_t *message, int words)
{
    MPI_Isend(message, words, MPI_INT64_T, rank, 0, MPI_COMM_WORLD, &requests[rank][slot]);
}

static bool is_posted(int rank, int slot)
{
    int done;
    MPI_Test(&requests[rank][slot], &done, MPI_STATUS_IGNORE);
    return done != 0;
}

static bool receive(void)
{
    int there, words;
    MPI_Status status;
    bool any = false;
    for (;;) {
        MPI_Test(&inbox_request, &there, &status);
        if (!there) return any;
        MPI_Get_count(&status, MPI_INT64_T, &words);
        open_message(inbox, words, status.MPI_SOURCE);
        request_message();
        sleep_ns = SHORTEST_SLEEP_NS;
        any = true;
    }
}

/* MPI doesn't notice that a machine is gone, or the cable to it: its connections stay silent for a
 * quarter of an hour. So each rank asks the system to probe them, which the system of the other
 * machine answers, even while a rank there runs a long body. A connection without any answer for
 * SILENCE_MS is lost. */
enum { MOST_SOCKETS = 4096, PROBE_S = 4, SILENCE_MS = 20000 };
#define SECOND_NS UINT64_C(1000000000)
#define SILENCE_NS (SILENCE_MS / 1000 * SECOND_NS)

#ifdef __linux__

/* Turns the probes of a connection on; false if they were on before. */
static bool begin_probes(int socket)
{
    int seconds = 0, on = 1, period = PROBE_S;
    socklen_t size = sizeof seconds;
    getsockopt(socket, IPPROTO_TCP, TCP_KEEPIDLE, &seconds, &size);
    if (seconds == period) return false;
    setsockopt(socket, IPPROTO_TCP, TCP_KEEPIDLE, &period, sizeof period);
    setsockopt(socket, IPPROTO_TCP, TCP_KEEPINTVL, &period, sizeof period);
    setsockopt(socket, SOL_SOCKET, SO_KEEPALIVE, &on, sizeof on);
    return true;
}

/* Decides whether a descriptor is a connection of TCP that is lost. */
static bool is_lost(int socket, uint64_t now_ns)
{
    static uint64_t probed_since[MOST_SOCKETS];
    enum { ESTABLISHED = 1 };
    struct tcp_info info;
    socklen_t size = sizeof info;
    memset(&info, 0, sizeof info);
    if (getsockopt(socket, IPPROTO_TCP, TCP_INFO, &info, &size) != 0) return false;
    if (info.tcpi_state != ESTABLISHED) return false;
    if (begin_probes(socket)) probed_since[socket] = now_ns;
    return now_ns - probed_since[socket] > SILENCE_NS && info.tcpi_last_ack_recv > SILENCE_MS;
}

#else

static bool is_lost(int socket, uint64_t now_ns)
{
    (void)socket, (void)now_ns;
    return false;
}

#endif

/* Ends the run if a connection is lost; looks once a second. */
static void look_for_losses(void)
{
    static uint64_t before_ns;
    uint64_t now_ns = nanoseconds(CLOCK_MONOTONIC);
    if (now_ns - before_ns < SECOND_NS) return;
    before_ns = now_ns;
    for (int socket = 3; socket < MOST_SOCKETS; socket++)
        if (is_lost(socket, now_ns)) fail(LOST, "a rank was lost");
}

static bool caller_has_ended(void);

static void rest(bool for_input)
{
    struct timespec t = { 0, sleep_ns };
    (void)for_input; /* it never sleeps for long */
    if (caller_has_ended()) stop_ranks(LOST);
    look_for_losses();
    nanosleep(&t, NULL);
    if (sleep_ns < LONGEST_SLEEP_NS) sleep_ns *= 2;
}

/* Sends the last messages. All results are written by now, so a rank that MPI then holds up ends
 * after a while. */
static void end_carrier(void)
{
    alarm(LEAVE_S);
    for (int r = 0; r < ranks; r++)
        for (int slot = 0; slot < SLOTS; slot++) MPI_Wait(&requests[r][slot], MPI_STATUS_IGNORE);
    MPI_Cancel(&inbox_request);
    MPI_Wait(&inbox_request, MPI_STATUS_IGNORE);
    MPI_Finalize();
}

#endif

/* ---- outboxes: what waits to be sent to another rank */

/* A message is a list of records. Each begins with a word, whose lowest two bits give its form.
 * A token's row follows its word, and the counts of a rank follow its goodbye. */
enum { TOKEN, CREDIT, GOODBYE };
enum { COUNTS = 5 };
static int64_t record(int form, int channel, int count)
{
    return form + 4 * ((int64_t)channel + ((int64_t)count << 24));
}

struct outbox {
    int64_t *buffer[SLOTS];
    int slot, fill;
    int *owed, owed_count; /* the channels from that rank with places to give back */
    bool is_due;           /* its records may wait for FLUSH_NS at most */
    uint64_t due_since;
};

static struct outbox outboxes[MOST_RANKS];
static uint64_t recent_ns; /* the time of the last look at the clock */
static int goodbyes;       /* how many ranks have said it */
static bool said_goodbye[MOST_RANKS];
static uint64_t counts_of[MOST_RANKS][COUNTS];

#ifndef P3L_MPI
static bool has_left(int rank) { return said_goodbye[rank]; }
#endif

/* Receives a token. Its writer had credit, so it has a place. */
static void accept_token(struct channel *c, const int64_t *token)
{
    if (c->count == c->capacity) fail(BROKEN, "engine fault: a token without a place");
    memcpy(free_row(c), token, bytes(c->stride));
    if (c->count++ == 0) wake(c->reader);
}

static void accept_credit(struct channel *c, int places)
{
    if (c->credit == 0) wake(c->writer);
    c->credit += places;
}

static void accept_goodbye(int from, const int64_t *counts)
{
    for (int i = 0; i < COUNTS; i++) counts_of[from][i] = (uint64_t)counts[i];
    said_goodbye[from] = true;
    goodbyes++;
    if (from == 0) stopping = true;
}

static void open_message(const int64_t *message, int words, int from)
{
    for (const int64_t *at = message, *end = message + words; at < end;) {
        int64_t head = *at++;
        struct channel *c = &channels[(head >> 2) & 0xffffff];
        if ((head & 3) == TOKEN) {
            accept_token(c, at);
            at += c->stride;
        } else if ((head & 3) == CREDIT) {
            accept_credit(c, (int)(head >> 26));
        } else {
            accept_goodbye(from, at);
            at += COUNTS;
        }
    }
}

static int64_t *buffer_of(struct outbox *box)
{
    if (box->buffer[box->slot] == NULL)
        box->buffer[box->slot] = room_for((size_t)most_words, sizeof(int64_t));
    return box->buffer[box->slot];
}

/* Puts the credits behind the tokens, at the end of the buffer, which is reserved for them. */
static void add_credits(struct outbox *box)
{
    int64_t *buffer = buffer_of(box);
    for (int i = 0; i < box->owed_count; i++) {
        struct channel *c = &channels[box->owed[i]];
        buffer[box->fill++] = record(CREDIT, box->owed[i], c->back);
        c->back = 0;
    }
    box->owed_count = 0;
}

/* Sends what an outbox holds, and turns to its next buffer. It receives while that one is still
 * being sent. */
static void send_outbox(int rank)
{
    struct outbox *box = &outboxes[rank];
    if (box->fill == 0 && box->owed_count == 0) return;
    add_credits(box);
    box->is_due = false;
    stats.messages++;
    post(rank, box->slot, box->buffer[box->slot], box->fill);
    box->slot = (box->slot + 1) % SLOTS;
    box->fill = 0;
    while (!is_posted(rank, box->slot))
        if (!receive()) rest(false);
}

static void send_all(void)
{
    for (int r = 0; r < ranks; r++) send_outbox(r);
}

static void send_due(void)
{
    for (int r = 0; r < ranks; r++)
        if (outboxes[r].is_due && recent_ns - outboxes[r].due_since > FLUSH_NS) send_outbox(r);
}

static void make_due(struct outbox *box)
{
    if (box->is_due) return;
    box->is_due = true;
    box->due_since = recent_ns;
}

/* The row of the next token for another rank, in its outbox. */
static int64_t *sent_row(struct channel *c)
{
    struct outbox *box = &outboxes[c->reader_rank];
    if (box->fill + 1 + c->stride > most_words - CHANNELS) send_outbox(c->reader_rank);
    return buffer_of(box) + box->fill + 1;
}

static void put_sent(struct channel *c)
{
    struct outbox *box = &outboxes[c->reader_rank];
    box->buffer[box->slot][box->fill] = record(TOKEN, (int)(c - channels), 0);
    box->fill += 1 + c->stride;
    c->credit--;
    stats.tokens++;
    make_due(box);
}

/* Notes a freed place, which goes back with the next message. Half the places of a channel make
 * a message due. */
static void give_back(struct channel *c)
{
    struct outbox *box = &outboxes[c->writer_rank];
    if (c->back++ == 0) box->owed[box->owed_count++] = (int)(c - channels);
    if (2 * c->back >= c->capacity) make_due(box);
}

static void make_outboxes(void)
{
    int widest = COUNTS;
    for (int i = 0; i < CHANNELS; i++)
        if (channels[i].stride > widest) widest = channels[i].stride;
    most_words = (widest + 1 > LEAST_BUFFER ? widest + 1 : LEAST_BUFFER) + CHANNELS;
    for (int r = 0; r < ranks; r++) outboxes[r].owed = room_for(CHANNELS, sizeof(int));
}

static int wires_of(int rank)
{
    int count = 0;
    for (int r = 0; r < ranks; r++) count += has_wire(rank, r);
    return count;
}

static void say_goodbye(int rank)
{
    struct outbox *box = &outboxes[rank];
    send_outbox(rank);
    int64_t *at = buffer_of(box);
    *at++ = record(GOODBYE, 0, 0);
    for (int i = 0; i < COUNTS; i++) *at++ = (int64_t)counts_of[my_rank][i];
    box->fill = 1 + COUNTS;
    send_outbox(rank);
}

/* Says goodbye to all ranks that have a wire with this one, and waits until all of them have
 * said it. */
static void farewell(void)
{
    int wires = wires_of(my_rank);
    for (int r = 0; r < ranks; r++)
        if (has_wire(my_rank, r)) say_goodbye(r);
    while (goodbyes < wires)
        if (!receive()) rest(false);
}

/* ---- channels as processes see them. A firing puts its token before it takes the one that it
 * came from. */

static inline bool has_front(int i) { return channels[i].count > 0; }

/* The first token of a ring that has one. */
static inline const int64_t *front(int i)
{
    const struct channel *c = &channels[i];
    return c->ring + (size_t)c->front * (size_t)c->stride;
}

/* How many tokens its writer may put. */
static inline int credit(int i)
{
    const struct channel *c = &channels[i];
    return is_between_ranks(c) ? c->credit : c->capacity - c->count;
}

static inline bool has_room(int i) { return credit(i) > 0; }

/* The row of the next token of a channel that has room. */
static inline int64_t *next_row(int i)
{
    struct channel *c = &channels[i];
    return is_between_ranks(c) ? sent_row(c) : free_row(c);
}

/* Puts the token that was written to the next row. */
static inline void put(int i)
{
    struct channel *c = &channels[i];
    if (is_between_ranks(c)) put_sent(c);
    else if (c->count++ == 0) wake(c->reader);
}

static inline void take(int i)
{
    struct channel *c = &channels[i];
    c->front = c->front + 1 < c->capacity ? c->front + 1 : 0;
    int before = c->count--;
    if (is_between_ranks(c)) give_back(c);
    else if (before == c->capacity) wake(c->writer);
}

/* Copies a token's trap and its first `tags` tags; and the words of a value from behind `had`
 * tags to behind `has` tags. */
static void copy_token(int64_t *to, int has, const int64_t *from, int had, int tags, int words)
{
    copy_words(to, from, 1 + tags);
    if (from[0] == 0) copy_words(to + 1 + has, from + 1 + had, words);
}

/* ---- the input (docs/FORMATS.md, "The stream") */

/* The limit of the input, in bytes. */
#define MOST_INPUT ((uint64_t)1 << 36)

enum { BAD_WORD = 100, WRONG_COUNT = 101, OUT_OF_RANGE = 102, MOST_DIGITS = 19 };
enum { MOST_READ = 1 << 18 };

static struct {
    char at[MOST_READ + 1]; /* a line feed follows the last byte that was read */
    size_t start, end;
    bool at_end;
    uint64_t taken;
} input;
static bool input_ended;
static uint64_t items_sent, outcomes_emitted;

static int end_status;
static char end_line[256];

static void end_with(int status, const char *line)
{
    end_status = status;
    snprintf(end_line, sizeof end_line, "%s", line);
}

static void end_input(int status, const char *line)
{
    input_ended = true;
    end_with(status, line);
}

static bool input_is_ready(void)
{
    struct pollfd asks = { 0, POLLIN, 0 };
    return poll(&asks, 1, 0) != 0;
}

/* Reads more bytes, once all before are used; false if that would have to wait. */
static bool read_input(void)
{
    if (input.taken == MOST_INPUT) {
        end_input(TOO_LONG, "input too long");
        return true;
    }
    if (!input_is_ready()) return false;
    size_t most = MOST_READ;
    if (most > MOST_INPUT - input.taken) most = (size_t)(MOST_INPUT - input.taken);
    ssize_t got = read(0, input.at, most);
    if (got < 0 && (errno == EINTR || errno == EAGAIN || errno == EWOULDBLOCK)) return false;
    if (got < 0) {
        end_input(READ_FAULT, "read fault");
        return true;
    }
    input.at_end = got == 0;
    input.start = 0;
    input.end = (size_t)got;
    input.at[got] = '\n';
    input.taken += (uint64_t)got;
    return true;
}

/* The line that is being read. Only its numbers are kept, so a line of any length needs no more
 * room than an item. */
static struct {
    uint64_t passed;        /* lines before this one */
    uint64_t words;         /* complete ones of this line */
    bool begun, has_return; /* it has a byte; its last one was a carriage return */
    bool in_word, is_negative, has_digits;
    int digits; /* of the word, without leading zeros */
    uint64_t value;
} line;

static int64_t *item;

/* Refuses the line, which ends the input. */
static void refuse_line(int fault)
{
    char text[96];
    unsigned long long number = (unsigned long long)line.passed + 1;
    if (fault == WRONG_COUNT)
        snprintf(text, sizeof text, "stream: line %llu: 101 WrongCount %llu", number,
                 (unsigned long long)line.words);
    else
        snprintf(text, sizeof text, "stream: line %llu: %d %s", number, fault,
                 fault == BAD_WORD ? "BadWord" : "OutOfRange");
    end_input(REFUSED, text);
}

static inline void end_word(int width)
{
    if (!line.in_word) return;
    line.in_word = false;
    if (!line.has_digits) {
        refuse_line(BAD_WORD);
        return;
    }
    if (line.digits > MOST_DIGITS || line.value > (uint64_t)INT64_MAX + line.is_negative) {
        refuse_line(OUT_OF_RANGE);
        return;
    }
    if (line.words < (uint64_t)width)
        item[line.words] = p3l_signed(line.is_negative ? 0 - line.value : line.value);
    line.words++;
}

static void begin_word(void)
{
    line.in_word = true;
    line.is_negative = line.has_digits = false;
    line.digits = 0;
    line.value = 0;
}

/* Reads digits; returns their end. The value of more than MOST_DIGITS digits wraps and isn't
 * used. */
static const char *read_digits(const char *at, const char *end)
{
    if (!line.in_word) begin_word();
    line.has_digits = true;
    if (line.digits == 0)
        while (at < end && *at == '0') at++;
    const char *first = at;
    uint64_t value = line.value;
    for (; at < end && *at >= '0' && *at <= '9'; at++) value = 10 * value + (uint64_t)(*at - '0');
    line.value = value;
    line.digits = at - first > MOST_DIGITS ? MOST_DIGITS + 1 : line.digits + (int)(at - first);
    if (line.digits > MOST_DIGITS) line.digits = MOST_DIGITS + 1;
    return at;
}

/* Reads a line up to its line feed, to the end of the bytes, or to its first fault; returns
 * where it stopped. */
static const char *read_bytes(const char *at, const char *end, int width)
{
    line.begun = true;
    while (at < end && *at != '\n' && !input_ended) {
        if (line.has_return) {
            refuse_line(BAD_WORD);
            break;
        }
        if (*at >= '0' && *at <= '9') {
            at = read_digits(at, end);
            continue;
        }
        if (*at == ' ' || *at == '\t') end_word(width);
        else if (*at == '\r') line.has_return = true;
        else if (*at == '-' && !line.in_word) {
            begin_word();
            line.is_negative = true;
        } else refuse_line(BAD_WORD);
        at++;
    }
    return at;
}

/* Reads an item as most of them are written: words of less than MOST_DIGITS digits, one blank
 * between two, and all of the line in the buffer. Returns the end of the line, or NULL where it is
 * written otherwise. */
static const char *read_plain(const char *at, const char *end, int width)
{
    for (int i = 0; i < width; i++) {
        bool is_negative = *at == '-';
        const char *first = at += is_negative;
        uint64_t value = 0;
        for (; *at >= '0' && *at <= '9'; at++) value = 10 * value + (uint64_t)(*at - '0');
        if (at == first || at - first >= MOST_DIGITS || at == end) return NULL;
        if (*at++ != (i + 1 < width ? ' ' : '\n')) return NULL;
        item[i] = is_negative ? -(int64_t)value : (int64_t)value;
    }
    return at;
}

/* Ends a line; true if it is an item, false if it has no words or is refused. */
static inline bool end_line_of(int width)
{
    line.has_return = line.begun = false;
    end_word(width);
    if (input_ended) return false;
    if (line.words != 0 && line.words != (uint64_t)width) {
        refuse_line(WRONG_COUNT);
        return false;
    }
    bool is_item = line.words != 0;
    line.words = 0;
    line.passed++;
    return is_item;
}

/* Reads the next item into `item`; false if there is none, or none yet. */
static bool next_item(int width)
{
    while (!input_ended) {
        while (input.start < input.end && !input_ended) {
            const char *first = input.at + input.start, *end = input.at + input.end;
            const char *next = line.begun ? NULL : read_plain(first, end, width);
            if (next != NULL) {
                input.start = (size_t)(next - input.at);
                line.passed++;
                return true;
            }
            const char *stop = read_bytes(first, end, width);
            input.start = (size_t)(stop - input.at);
            if (input.start == input.end || input_ended) break;
            input.start++;
            if (end_line_of(width)) return true;
        }
        if (input_ended) return false;
        if (!input.at_end) {
            wants_input = !read_input();
            if (wants_input) return false;
            continue;
        }
        bool is_item = line.begun && end_line_of(width);
        input_ended = true;
        return is_item;
    }
    return false;
}

/* Wakes the source if it waits for bytes and some are there; false otherwise. */
static bool find_input(void)
{
    if (!wants_input || !input_is_ready()) return false;
    wants_input = false;
    wake(0);
    return true;
}

/* ---- the output */

enum { MOST_NUMBER = 20 }; /* bytes of a word */

static struct {
    char at[65536];
    size_t fill;
} output;

/* Writes the buffered results; false if that failed, which ends the run. */
static bool write_output(void)
{
    for (size_t at = 0; at < output.fill;) {
        ssize_t wrote = write(1, output.at + at, output.fill - at);
        if (wrote >= 0) {
            at += (size_t)wrote;
            continue;
        }
        if (errno == EINTR) continue;
        if (errno == EAGAIN || errno == EWOULDBLOCK) {
            struct pollfd asks = { 1, POLLOUT, 0 };
            poll(&asks, 1, -1);
            continue;
        }
        end_with(WRITE_FAULT, "write fault");
        output.fill = 0;
        stopping = true;
        return false;
    }
    output.fill = 0;
    return true;
}

static const char PAIRS[] = "0001020304050607080910111213141516171819202122232425262728293031323334"
                            "3536373839404142434445464748"
                            "4950515253545556575859606162636465666768697071727374757677787980818283"
                            "848586878889909192939495969798"
                            "99";

/* Writes a word in decimal, two digits at a time; returns its end. */
static char *put_number(char *to, int64_t word)
{
    char digits[MOST_NUMBER];
    int at = MOST_NUMBER;
    uint64_t left = word < 0 ? 0 - (uint64_t)word : (uint64_t)word;
    for (; left >= 100; left /= 100) memcpy(digits + (at -= 2), PAIRS + 2 * (left % 100), 2);
    if (left >= 10) memcpy(digits + (at -= 2), PAIRS + 2 * left, 2);
    else digits[--at] = (char)('0' + left);
    if (word < 0) *to++ = '-';
    memcpy(to, digits + at, (size_t)(MOST_NUMBER - at));
    return to + (MOST_NUMBER - at);
}

/* Buffers the line of a result; false if writing failed. */
static bool put_result(const int64_t *words, int count)
{
    for (int i = 0; i < count; i++) {
        if (output.fill + MOST_NUMBER + 2 > sizeof output.at && !write_output()) return false;
        char *end = put_number(output.at + output.fill, words[i]);
        *end++ = i + 1 < count ? ' ' : '\n';
        output.fill = (size_t)(end - output.at);
    }
    return true;
}

/* ---- firing: a function for each kind of process, by its row in docs/MODEL.md; true where it
 * fired */

/* Stops the run once every item has its outcome. */
static void look_for_end(void)
{
    if (input_ended && outcomes_emitted == items_sent) stopping = true;
}

static bool fire_source(struct process *p)
{
    int out = p->outs[0], words = p->node->row->ins;
    if (!has_room(out)) return false;
    if (!next_item(words)) {
        look_for_end();
        return false;
    }
    int64_t *token = next_row(out);
    token[0] = 0;
    copy_words(token + 1, item, words);
    put(out);
    items_sent++;
    return true;
}

/* The kinds of traps, by their numbers. */
enum { TURNS_SPENT = 5 };

static const char *const TRAPS[] = { "division by zero",   "division overflow",
                                     "index out of range", "shift out of range",
                                     "budget spent",       "turns spent" };

static void emit_trap(int64_t trap)
{
    char text[sizeof end_line];
    snprintf(text, sizeof text, "trap: item %llu: %s in %s", (unsigned long long)outcomes_emitted,
             TRAPS[(trap - 1) % 8], MODULE[(trap - 1) / 8].name);
    end_with(TRAPPED, text);
    stopping = true;
}

static bool fire_sink(struct process *p)
{
    int in = p->ins[0];
    if (!has_front(in)) return false;
    const int64_t *token = front(in);
    outcomes_emitted++;
    if (token[0] != 0) emit_trap(token[0]);
    else if (!put_result(token + 1, p->node->row->outs)) return false;
    take(in);
    look_for_end();
    return true;
}

static bool fire_run(struct process *p)
{
    int in = p->ins[0], out = p->outs[0], tags = channels[in].tags;
    if (!has_front(in) || !has_room(out)) return false;
    const int64_t *from = front(in);
    int64_t *to = next_row(out);
    copy_words(to, from, 1 + tags);
    if (from[0] == 0) {
        const int64_t *words = from + 1 + tags;
        int64_t *results = to + 1 + tags;
        to[0] = p->row->arg == 0 ? p->node->run(p->node, words, results)
                                 : fold(p->node, words, p->row->arg, results);
    }
    put(out);
    take(in);
    return true;
}

/* Finds the line with the most credit, or the first one that is known to be empty; -1 if none
 * has credit. It begins behind the line used last. */
static int idlest_line(const struct process *p)
{
    int best = -1, most = 0;
    for (int k = 0; k < p->row->outs; k++) {
        int i = p->line + k < p->row->outs ? p->line + k : p->line + k - p->row->outs;
        int has = credit(p->outs[i]);
        if (has <= most) continue;
        best = i;
        most = has;
        if (has == channels[p->outs[i]].capacity) break;
    }
    return best;
}

static bool fire_emit(struct process *p)
{
    int in = p->ins[0], tags = channels[in].tags;
    if (!has_front(in)) return false;
    int best = idlest_line(p);
    if (best < 0) return false;
    int out = p->outs[best];
    int64_t *to = next_row(out);
    copy_token(to, tags + 1, front(in), tags, tags, channels[in].words);
    to[1 + tags] = p->number++;
    p->line = best + 1 < p->row->outs ? best + 1 : 0;
    put(out);
    take(in);
    return true;
}

static bool fire_collect(struct process *p)
{
    int out = p->outs[0], tags = channels[out].tags;
    if (!has_room(out)) return false;
    for (int k = 0; k < p->row->ins; k++) {
        int i = p->line + k < p->row->ins ? p->line + k : p->line + k - p->row->ins, in = p->ins[i];
        if (!has_front(in) || front(in)[1 + tags] != p->number) continue;
        copy_token(next_row(out), tags, front(in), tags + 1, tags, channels[out].words);
        p->number++;
        p->line = i + 1 < p->row->ins ? i + 1 : 0;
        put(out);
        take(in);
        return true;
    }
    return false;
}

/* Takes a token to send it in pieces. */
static bool hold(struct process *p)
{
    int in = p->ins[0];
    if (!has_front(in)) return false;
    memcpy(p->held, front(in), bytes(channels[in].stride));
    p->holds = true;
    p->number = 0;
    take(in);
    return true;
}

static bool fire_scatter(struct process *p)
{
    if (!p->holds) return hold(p);
    int out = p->outs[p->number % p->row->outs], tags = channels[out].tags;
    if (!has_room(out)) return false;
    int64_t *to = next_row(out);
    memcpy(to, p->held, bytes(1 + tags));
    if (to[0] == 0) cut(p->node, p->held + 1 + tags, to + 1 + tags, p->number);
    put(out);
    if (++p->number == elements_of(p->node)) p->holds = false;
    return true;
}

/* Joins each result as it comes. Of several traps the first in order stays. */
static bool fire_gather(struct process *p)
{
    int out = p->outs[0], tags = channels[out].tags;
    if (p->number == elements_of(p->node)) {
        if (!has_room(out)) return false;
        memcpy(next_row(out), p->held, bytes(channels[out].stride));
        p->number = 0;
        put(out);
        return true;
    }
    int in = p->ins[p->number % p->row->ins];
    if (!has_front(in)) return false;
    const int64_t *piece = front(in);
    if (p->number == 0) memcpy(p->held, piece, bytes(1 + tags));
    if (p->held[0] == 0) p->held[0] = piece[0];
    if (p->held[0] == 0) join(p->node, piece + 1 + tags, p->held + 1 + tags, p->number);
    p->number++;
    take(in);
    return true;
}

/* Sends the segments one after another. `line` is the first word of the next one. */
static bool fire_split(struct process *p)
{
    if (!p->holds) {
        p->line = 0;
        return hold(p);
    }
    int out = p->outs[p->number], tags = channels[out].tags, words = channels[out].words;
    if (!has_room(out)) return false;
    int64_t *to = next_row(out);
    memcpy(to, p->held, bytes(1 + tags));
    if (to[0] == 0) memcpy(to + 1 + tags, p->held + 1 + tags + p->line, bytes(words));
    p->line += words;
    put(out);
    if (++p->number == p->row->outs) p->holds = false;
    return true;
}

static bool fire_join(struct process *p)
{
    int left = p->ins[0], right = p->ins[1], out = p->outs[0], tags = channels[out].tags,
        words = channels[out].words;
    if (!has_front(left) || !has_front(right) || !has_room(out)) return false;
    const struct node *combine = part_of(p->node, 0);
    int64_t *to = next_row(out);
    memcpy(to, front(left), bytes(1 + tags));
    if (to[0] == 0) to[0] = front(right)[0];
    if (to[0] == 0) {
        memcpy(p->held, front(left) + 1 + tags, bytes(words));
        memcpy(p->held + words, front(right) + 1 + tags, bytes(words));
        to[0] = combine->run(combine, p->held, to + 1 + tags);
    }
    put(out);
    take(left);
    take(right);
    return true;
}

static bool fire_head(struct process *p)
{
    int in = p->ins[0], round = p->ins[1], credits = p->ins[2], out = p->outs[0],
        tags = channels[in].tags;
    if (!has_room(out)) return false;
    if (has_front(round)) {
        copy_words(next_row(out), front(round), channels[out].stride);
        put(out);
        take(round);
        return true;
    }
    if (!has_front(in) || !has_front(credits)) return false;
    int64_t *to = next_row(out);
    copy_token(to, tags + 2, front(in), tags, tags, channels[in].words);
    to[1 + tags] = p->number++;
    to[2 + tags] = 1;
    put(out);
    take(in);
    take(credits);
    return true;
}

/* The place where a tail holds the token with this number. Its first word is 1 if the token is
 * there. The tokens in a loop have successive numbers, and no more of them than places, so each
 * has its own. */
static int64_t *place_in_tail(struct process *p, int64_t number)
{
    int places = channels[p->outs[2]].capacity, stride = channels[p->ins[0]].stride;
    return p->held + (size_t)(number % places) * (size_t)(stride + 1);
}

static bool let_out(struct process *p)
{
    int out = p->outs[0], credits = p->outs[2], tags = channels[out].tags;
    int64_t *place = place_in_tail(p, p->number);
    if (place[0] == 0 || !has_room(out) || !has_room(credits)) return false;
    copy_token(next_row(out), tags, place + 1, tags + 2, tags, channels[out].words);
    put(out);
    next_row(credits)[0] = 0;
    put(credits);
    place[0] = 0;
    p->number++;
    return true;
}

/* Judges a token from the body: returns its trap or 0, and sets `again` if it needs another
 * turn. */
static int64_t judge(const struct process *p, const int64_t *token, int tags, bool *again)
{
    const struct node *condition = part_of(p->node, 1);
    int64_t more = 0, trap = token[0];
    if (trap == 0) trap = condition->run(condition, token + 1 + tags, &more);
    if (trap == 0 && more != 0 && token[tags] >= p->node->row->first)
        trap = 1 + TURNS_SPENT + 8 * (int64_t)p->node->row->module;
    *again = trap == 0 && more != 0;
    return trap;
}

static bool fire_tail(struct process *p)
{
    if (let_out(p)) return true;
    int in = p->ins[0], round = p->outs[1], tags = channels[in].tags;
    if (!has_front(in) || !has_room(round)) return false;
    bool again;
    const int64_t *token = front(in);
    int64_t trap = judge(p, token, tags, &again);
    int64_t *to = again ? next_row(round) : place_in_tail(p, token[tags - 1]) + 1;
    memcpy(to, token, bytes(channels[in].stride));
    to[0] = trap;
    if (again) {
        to[tags]++;
        put(round);
    } else {
        to[-1] = 1;
    }
    take(in);
    return true;
}

/* No network has a fold-gather any more. */
static bool (*const FIRE[KINDS])(struct process *) = {
    [KIND_SOURCE] = fire_source, [KIND_SINK] = fire_sink,       [KIND_RUN] = fire_run,
    [KIND_EMIT] = fire_emit,     [KIND_COLLECT] = fire_collect, [KIND_SCATTER] = fire_scatter,
    [KIND_GATHER] = fire_gather, [KIND_SPLIT] = fire_split,     [KIND_JOIN] = fire_join,
    [KIND_HEAD] = fire_head,     [KIND_TAIL] = fire_tail
};

/* The words that a process of a kind holds. */
static size_t words_held(const struct process *p)
{
    switch (p->row->kind) {
    case KIND_SCATTER:
    case KIND_SPLIT: return (size_t)channels[p->ins[0]].stride;
    case KIND_GATHER: return (size_t)channels[p->outs[0]].stride;
    case KIND_JOIN: return 2 * (size_t)channels[p->outs[0]].words;
    case KIND_TAIL:
        return (size_t)channels[p->outs[2]].capacity * (size_t)(channels[p->ins[0]].stride + 1);
    default: return 0;
    }
}

/* ---- the map: the rank of each process. Every rank finds the same one.
 *
 * The processes that run bodies go by their load, the longest first, each to the rank that is
 * then least loaded. That gives a bound; within it each goes to the rank where most of its
 * tokens come from and go to, so that neighbours of a pipe stay together. The others go where
 * most of their tokens come from and go to, as long as no rank gets much more of them than its
 * share of all work. Source and sink are on rank 0. */

/* The turns that a token is assumed to take in a loop, to estimate how many tokens a channel
 * carries. */
enum { GUESSED_TURNS = 4 };

static double rate[CHANNELS]; /* tokens for one item */
static double load_of[MOST_RANKS];
static double share; /* one and a half times the average load of a rank */
static bool *wires;  /* pairs of ranks that share a channel; rank 0 has a wire with all */

static bool has_wire(int a, int b) { return wires[a * ranks + b]; }

static double rate_out(const struct process *p)
{
    double in = p->row->ins > 0 ? rate[p->ins[0]] : 1, all = 0;
    for (int i = 0; i < p->row->ins; i++) all += rate[p->ins[i]];
    switch (p->row->kind) {
    case KIND_EMIT: return in / p->row->outs;
    case KIND_COLLECT: return all;
    case KIND_SCATTER: return in * (double)elements_of(p->node) / p->row->outs;
    case KIND_GATHER: return all / (double)elements_of(p->node);
    case KIND_HEAD: return in * GUESSED_TURNS;
    case KIND_TAIL: return in / GUESSED_TURNS;
    default: return in;
    }
}

/* Estimates the tokens that each channel carries for an item, from the source on, until nothing
 * changes. */
static void find_rates(void)
{
    bool is_new = true;
    for (int pass = 0; is_new && pass < PROCESSES; pass++) {
        is_new = false;
        for (int p = 0; p < PROCESSES; p++) {
            double out = rate_out(&processes[p]);
            for (int i = 0; i < processes[p].row->outs; i++) {
                int c = processes[p].outs[i];
                double found =
                    processes[p].row->kind == KIND_TAIL && i == 1 ? rate[processes[p].ins[0]] : out;
                is_new |= rate[c] != found;
                rate[c] = found;
            }
        }
    }
}

/* Computes how much a process would exchange with each rank: words, and a constant for each
 * token. */
static void find_traffic(int p, double *traffic)
{
    const struct process *process = &processes[p];
    for (int r = 0; r < ranks; r++) traffic[r] = 0;
    for (int i = 0; i < process->row->ins + process->row->outs; i++) {
        int c = process->ins[i];
        int other = i < process->row->ins ? channels[c].writer : channels[c].reader;
        if (processes[other].rank >= 0)
            traffic[processes[other].rank] += rate[c] * (channels[c].stride + 16);
    }
}

/* Chooses the rank with the most traffic among those that stay within the bound; among equals
 * the least loaded one, and then the last, since rank 0 also serves the streams. If none stays
 * within it, the least loaded one. */
static int nearest(int p, double bound)
{
    static double traffic[MOST_RANKS];
    double load = (double)processes[p].row->load, slack = 1e-9 * bound;
    int best = -1, idlest = ranks - 1;
    find_traffic(p, traffic);
    for (int r = ranks - 1; r >= 0; r--) {
        if (load_of[r] < load_of[idlest]) idlest = r;
        if (load_of[r] + load > bound + slack) continue;
        bool is_better = best < 0 || traffic[r] > traffic[best] ||
                         (traffic[r] == traffic[best] && load_of[r] < load_of[best]);
        if (is_better) best = r;
    }
    return best >= 0 ? best : idlest;
}

static bool is_body(int p) { return runs_body(processes[p].row->kind); }

static int by_load(const void *a, const void *b)
{
    int p = *(const int *)a, q = *(const int *)b;
    if (processes[p].row->load != processes[q].row->load)
        return processes[p].row->load < processes[q].row->load ? 1 : -1;
    return p < q ? -1 : 1;
}

/* Sums up the load of the processes that run no bodies, for each rank. */
static void count_movers(void)
{
    for (int r = 0; r < ranks; r++) load_of[r] = 0;
    for (int p = 0; p < PROCESSES; p++)
        if (!is_body(p) && processes[p].rank >= 0)
            load_of[processes[p].rank] += (double)processes[p].row->load;
}

/* Places the processes that run bodies, longest first, by traffic within a bound; returns the
 * greatest load of a rank. */
static double place_bodies(const int *order, int count, double bound)
{
    double greatest = 0;
    count_movers();
    for (int i = 0; i < count; i++) processes[order[i]].rank = -1;
    for (int i = 0; i < count; i++) {
        int r = nearest(order[i], bound);
        processes[order[i]].rank = r;
        load_of[r] += (double)processes[order[i]].row->load;
        if (load_of[r] > greatest) greatest = load_of[r];
    }
    return greatest;
}

/* Places the others. Several rounds are needed, since some have only neighbours of their own
 * sort. */
static void place_movers(void)
{
    count_movers();
    for (int round = 0; round < 3; round++)
        for (int p = 2; p < PROCESSES; p++) {
            if (is_body(p)) continue;
            double load = (double)processes[p].row->load;
            if (processes[p].rank >= 0) load_of[processes[p].rank] -= load;
            processes[p].rank = nearest(p, share);
            load_of[processes[p].rank] += load;
        }
}

static void find_wires(void)
{
    wires = room_for((size_t)ranks * (size_t)ranks, sizeof *wires);
    for (int r = 1; r < ranks; r++) wires[r] = wires[r * ranks] = true;
    for (int c = 0; c < CHANNELS; c++) {
        int a = channels[c].writer_rank, b = channels[c].reader_rank;
        if (a != b) wires[a * ranks + b] = wires[b * ranks + a] = true;
    }
}

static void find_ranks(void)
{
    static int order[PROCESSES];
    int count = 0;
    double all = 0, greatest = 0;
    for (int p = 0; p < PROCESSES; p++) {
        double load = (double)processes[p].row->load;
        processes[p].rank = p < 2 ? 0 : -1;
        if (is_body(p)) order[count++] = p;
        if (load > greatest) greatest = load;
        all += load;
    }
    share = 1.5 * (all / ranks > greatest ? all / ranks : greatest);
    qsort(order, (size_t)count, sizeof *order, by_load);
    find_rates();
    place_bodies(order, count, place_bodies(order, count, 0));
    place_movers();
    place_bodies(order, count, place_bodies(order, count, 0));
    for (int c = 0; c < CHANNELS; c++) {
        channels[c].writer_rank = processes[channels[c].writer].rank;
        channels[c].reader_rank = processes[channels[c].reader].rank;
    }
    find_wires();
}

/* ---- the start */

static void make_channels(void)
{
    for (int i = 0; i < CHANNELS; i++) {
        struct channel *c = &channels[i];
        c->capacity = CHANNEL[i].capacity;
        c->words = CHANNEL[i].words;
        c->tags = CHANNEL[i].tags;
        c->stride = 1 + c->tags + c->words;
    }
}

static void make_processes(void)
{
    const int32_t *end = END;
    for (int i = 0; i < PROCESSES; i++) {
        struct process *p = &processes[i];
        p->row = &PROCESS[i];
        p->node = &nodes[p->row->node];
        p->ins = end;
        p->outs = end + p->row->ins;
        p->pace = 1;
        for (int k = 0; k < p->row->ins; k++) channels[*end++].reader = i;
        for (int k = 0; k < p->row->outs; k++) channels[*end++].writer = i;
    }
}

/* Allocates the memory of a process of this rank. */
static void start_process(struct process *p)
{
    size_t held = words_held(p);
    if (held > 0) p->held = room_for(held, sizeof(int64_t));
    if (p->row->kind == KIND_SOURCE) item = room_for((size_t)p->node->row->ins, sizeof(int64_t));
    if (p->row->kind == KIND_RUN) prepare(p->row->node);
    if (p->row->kind == KIND_JOIN) prepare(p->node->parts[0]);
    if (p->row->kind == KIND_TAIL) prepare(p->node->parts[1]);
}

/* Puts the first tokens into a loop's channel of credits, and sets the writer's credit. */
static void start_channel(struct channel *c, int credits)
{
    if (is_between_ranks(c) && c->writer_rank == my_rank) c->credit = c->capacity - credits;
    if (c->reader_rank != my_rank || credits == 0) return;
    row_of(c, 0);
    c->count = credits;
}

static void start(void)
{
    for (int i = 0; i < PROCESSES; i++) {
        if (processes[i].rank == my_rank) start_process(&processes[i]);
        wake(i);
    }
    for (int i = 0; i < CHANNELS; i++) start_channel(&channels[i], CHANNEL[i].credits);
    make_outboxes();
    start_carrier();
}

/* ---- the loop of a rank */

enum { MOST_FIRINGS = 256, MOST_PACE = 64, CROWDED_NS = 100000, CROWDED_FOR_NS = 50000000 };

static uint64_t looked_ns, looked_input_ns;

/* Receives messages and sends what is due, unless it did so just before. */
static void look_round(void)
{
    recent_ns = nanoseconds(CLOCK_MONOTONIC);
    if (recent_ns - looked_ns < LOOK_NS) return;
    looked_ns = recent_ns;
    receive();
    send_due();
    if (recent_ns - looked_input_ns < FLUSH_NS) return;
    looked_input_ns = recent_ns;
    find_input();
}

/* Looks at the clock after some firings of a process, and adapts their number; false if it is
 * the turn of others. */
static bool may_go_on(struct process *p, uint64_t begun)
{
    uint64_t before = recent_ns;
    recent_ns = nanoseconds(CLOCK_MONOTONIC);
    uint64_t took = recent_ns - before;
    p->is_long = p->pace == 1 && took > FLUSH_NS;
    if (took > LOOK_NS / 2) p->pace = (p->pace + 1) / 2;
    else if (took < LOOK_NS / 8 && p->pace < MOST_PACE) p->pace *= 2;
    return recent_ns - begun < LOOK_NS;
}

/* Fires a process repeatedly, up to a limit of firings and of time. */
static void turn(struct process *p)
{
    uint64_t begun = recent_ns;
    if (p->is_long) send_all();
    for (int fired = 1; fired <= MOST_FIRINGS; fired++) {
        if (!FIRE[p->row->kind](p) || stopping) return;
        stats.firings++;
        if (ranks > 1 && fired % p->pace == 0 && !may_go_on(p, begun)) break;
    }
    wake((int)(p - processes));
}

/* Decides whether a waiting rank goes on polling, and doesn't sleep yet. If it lost the
 * processor between two looks, others need it: then it sleeps at once for a while, since the
 * system wakes sleepers first. */
static bool may_spin(uint64_t begun)
{
    static uint64_t last_ns, crowded_until;
    if (last_ns >= begun && recent_ns - last_ns > CROWDED_NS)
        crowded_until = recent_ns + CROWDED_FOR_NS;
    last_ns = recent_ns;
    return recent_ns - begun < SPIN_NS && recent_ns >= crowded_until;
}

/* Waits until a process may be able to fire. First it sends all tokens and credits; before it
 * sleeps, it writes all results. */
static void idle(void)
{
    uint64_t begun = nanoseconds(CLOCK_MONOTONIC),
             begun_cpu = stats.wanted ? nanoseconds(CLOCK_PROCESS_CPUTIME_ID) : 0;
    send_all();
    recent_ns = begun;
    while (is_idle() && !stopping) {
        if (receive() || find_input()) continue;
        if (ranks == 1 && !wants_input) fail(BROKEN, "engine fault: nothing can fire");
        recent_ns = nanoseconds(CLOCK_MONOTONIC);
        if (ranks > 1 && may_spin(begun)) continue;
        else if (output.fill > 0) write_output();
        else rest(wants_input);
    }
    recent_ns = nanoseconds(CLOCK_MONOTONIC);
    stats.idle_ns += recent_ns - begun;
    if (stats.wanted) stats.idle_cpu_ns += nanoseconds(CLOCK_PROCESS_CPUTIME_ID) - begun_cpu;
}

static void run(void)
{
    stats.begun_cpu_ns = nanoseconds(CLOCK_PROCESS_CPUTIME_ID);
    recent_ns = nanoseconds(CLOCK_MONOTONIC);
    while (!stopping) {
        struct process *p = next_queued();
        if (p == NULL) {
            idle();
            continue;
        }
        turn(p);
        if (ranks > 1) look_round();
    }
    if (my_rank == 0) write_output();
    uint64_t cpu_ns = nanoseconds(CLOCK_PROCESS_CPUTIME_ID) - stats.begun_cpu_ns;
    uint64_t counts[COUNTS] = { cpu_ns - stats.idle_cpu_ns, stats.idle_ns, stats.firings,
                                stats.messages, stats.tokens };
    memcpy(counts_of[my_rank], counts, sizeof counts);
    farewell();
}

/* Writes the counts of all ranks, which came with their goodbyes. */
static void say_stats(void)
{
    for (int r = 0; r < ranks; r++) {
        const uint64_t *counts = counts_of[r];
        fprintf(stderr,
                "rank %d: work %.3f s, waiting %.3f s, firings %llu, messages %llu, tokens %llu\n",
                r, 1e-9 * (double)counts[0], 1e-9 * (double)counts[1],
                (unsigned long long)counts[2], (unsigned long long)counts[3],
                (unsigned long long)counts[4]);
    }
}

/* ---- the caller: over MPI a program may be called by hand, as `./m --ranks K`
 *
 * Launchers don't keep streams whole: one ends a job whose input comes too fast, another loses
 * results on a full disk. So the program that is called by hand starts the launcher, and hands
 * its own standard streams to rank 0, over a socket that rank 0 finds by `--streams PATH`. Over
 * the same socket rank 0 tells it the status. A run that ends with a status is thus told from
 * one that lost a rank; what the launcher says is written only where no status was told. */

static int caller = -1; /* rank 0's socket to the program that was called */

#ifdef P3L_MPI
/* Decides whether the program that was called has ended; then no one waits for the results. */
static bool caller_has_ended(void)
{
    struct pollfd asks = { caller, 0, 0 };
    return caller >= 0 && poll(&asks, 1, 0) > 0;
}
#endif

/* Tells the status to the program that was called; false if the launcher was called by hand. */
static bool tell_caller(int status)
{
    char byte = (char)status;
    if (caller < 0) return false;
    while (write(caller, &byte, 1) < 0 && errno == EINTR) {}
    close(caller);
    caller = -1;
    return true;
}

#ifdef P3L_MPI

enum { STREAMS = 3, ENDING_MS = 1000, MOST_SAID = 16384 };
#define SOON_NS (3 * SECOND_NS)

static const char NO_CALLER[] = "rank 0 must be on the machine of its caller";

static struct sockaddr_un address_of(const char *path)
{
    struct sockaddr_un address = { .sun_family = AF_UNIX };
    if (strlen(path) >= sizeof address.sun_path)
        fail(LOST, "the name of the folder for temporary files is too long");
    memcpy(address.sun_path, path, strlen(path));
    return address;
}

/* Room for the descriptors of the standard streams, which go with a message of one byte. */
union packet {
    struct cmsghdr head;
    char at[CMSG_SPACE(STREAMS * sizeof(int))];
};

static struct msghdr message_of(union packet *packet, struct iovec *part)
{
    struct msghdr message = { .msg_iov = part,
                              .msg_iovlen = 1,
                              .msg_control = packet->at,
                              .msg_controllen = sizeof packet->at };
    return message;
}

static void send_streams(int socket)
{
    static const int streams[STREAMS] = { 0, 1, 2 };
    union packet packet;
    char byte = 0;
    struct iovec part = { &byte, 1 };
    struct msghdr message = message_of(&packet, &part);
    memset(&packet, 0, sizeof packet);
    struct cmsghdr *head = CMSG_FIRSTHDR(&message);
    head->cmsg_level = SOL_SOCKET;
    head->cmsg_type = SCM_RIGHTS;
    head->cmsg_len = CMSG_LEN(sizeof streams);
    memcpy(CMSG_DATA(head), streams, sizeof streams);
    while (sendmsg(socket, &message, 0) < 0 && errno == EINTR) {}
}

/* Receives the caller's streams, and uses them in the place of the launcher's. */
static void take_streams(const char *path)
{
    struct sockaddr_un address = address_of(path);
    int streams[STREAMS];
    union packet packet;
    char byte;
    struct iovec part = { &byte, 1 };
    struct msghdr message = message_of(&packet, &part);
    int from = socket(AF_UNIX, SOCK_STREAM, 0);
    if (from < 0 || connect(from, (const struct sockaddr *)&address, sizeof address) != 0)
        fail(LOST, NO_CALLER);
    if (recvmsg(from, &message, 0) != 1) fail(LOST, NO_CALLER);
    const struct cmsghdr *head = CMSG_FIRSTHDR(&message);
    if (head == NULL || head->cmsg_type != SCM_RIGHTS || head->cmsg_len != CMSG_LEN(sizeof streams))
        fail(LOST, NO_CALLER);
    memcpy(streams, CMSG_DATA(head), sizeof streams);
    for (int i = 0; i < STREAMS; i++) {
        dup2(streams[i], i);
        close(streams[i]);
    }
    caller = from;
}

static volatile sig_atomic_t signalled;
static pid_t launcher;
static int launcher_status; /* as waitpid gives it, once the launcher has ended */

static void pass_signal(int number)
{
    signalled = number;
    if (launcher > 0) kill(launcher, number);
}

/* Handles the signals that end a program, but for those that the caller has turned off. */
static void watch_signals(void (*handler)(int))
{
    static const int numbers[] = { SIGINT, SIGTERM, SIGHUP };
    struct sigaction action = { .sa_handler = handler }, before;
    for (size_t i = 0; i < sizeof numbers / sizeof *numbers; i++)
        if (sigaction(numbers[i], NULL, &before) == 0 && before.sa_handler != SIG_IGN)
            sigaction(numbers[i], &action, NULL);
}

/* Executes the launcher of the MPI that this program was compiled with. */
static _Noreturn void exec_launcher(char **words)
{
    const char *chosen = getenv("P3L_MPIEXEC");
#ifdef OPEN_MPI
    static const char *const names[] = { "mpiexec.openmpi", "mpiexec", "mpirun" };
    setenv("OMPI_MCA_rmaps_base_oversubscribe", "1", 0);
    setenv("PRTE_MCA_rmaps_default_mapping_policy", ":oversubscribe", 0);
#else
    static const char *const names[] = { "mpiexec.hydra", "mpiexec.mpich", "mpiexec" };
#endif
    if (chosen != NULL) execvp(words[0] = (char *)chosen, words);
    for (size_t i = 0; chosen == NULL && i < sizeof names / sizeof *names; i++)
        execvp(words[0] = (char *)names[i], words);
    fprintf(stderr, "no MPI launcher was found\n");
    _exit(LOST);
}

/* Starts the launcher with an empty input; returns a pipe from which all its output is read. */
static int start_launcher(char **words)
{
    int said[2];
    if (pipe(said) != 0) fail(LOST, "the MPI launcher can't be started");
    launcher = fork();
    if (launcher < 0) fail(LOST, "the MPI launcher can't be started");
    if (launcher == 0) {
        int none = open("/dev/null", O_RDONLY);
        dup2(none, 0);
        dup2(said[1], 1);
        dup2(said[1], 2);
        close(said[0]);
        signal(SIGPIPE, SIG_DFL);
        exec_launcher(words);
    }
    close(said[1]);
    return said[0];
}

/* A private folder with a socket, to which rank 0 connects. */
struct meeting {
    char folder[64], path[80];
    int socket;
};

static struct meeting make_meeting(void)
{
    struct meeting meeting;
    const char *temporary = getenv("TMPDIR");
    if (temporary == NULL || strlen(temporary) > 40) temporary = "/tmp";
    snprintf(meeting.folder, sizeof meeting.folder, "%s/p3l-XXXXXX", temporary);
    if (mkdtemp(meeting.folder) == NULL) fail(LOST, "there is no folder for temporary files");
    snprintf(meeting.path, sizeof meeting.path, "%s/streams", meeting.folder);
    struct sockaddr_un address = address_of(meeting.path);
    meeting.socket = socket(AF_UNIX, SOCK_STREAM, 0);
    bool is_made = meeting.socket >= 0 &&
                   bind(meeting.socket, (const struct sockaddr *)&address, sizeof address) == 0;
    if (!is_made || listen(meeting.socket, 1) != 0)
        fail(LOST, "there is no folder for temporary files");
    fcntl(meeting.socket, F_SETFD, FD_CLOEXEC);
    return meeting;
}

static void end_meeting(struct meeting *meeting)
{
    if (meeting->socket < 0) return;
    close(meeting->socket);
    unlink(meeting->path);
    rmdir(meeting->folder);
    meeting->socket = -1;
}

static char said[MOST_SAID];
static size_t said_bytes;

/* Keeps the launcher's output, up to a limit; false at its end. */
static bool hear_launcher(int pipe)
{
    char more[4096];
    ssize_t got = read(pipe, more, sizeof more);
    if (got < 0 && errno == EINTR) return true;
    if (got <= 0) return false;
    size_t kept = (size_t)got < sizeof said - said_bytes ? (size_t)got : sizeof said - said_bytes;
    memcpy(said + said_bytes, more, kept);
    said_bytes += kept;
    return true;
}

static void show_said(void)
{
    fwrite(said, 1, said_bytes, stderr);
    said_bytes = 0;
}

static bool launcher_has_ended(void)
{
    if (launcher > 0 && waitpid(launcher, &launcher_status, WNOHANG) == launcher) launcher = 0;
    return launcher == 0;
}

/* Hands the streams to rank 0, and waits for its status; -1 if there is none. If rank 0 doesn't
 * connect soon, the launcher's output is shown: some launchers say why, and never end. */
static int await_status(struct meeting *meeting, int pipe)
{
    int told = -1, socket = -1;
    bool speaks = true;
    uint64_t begun = nanoseconds(CLOCK_MONOTONIC);
    for (;;) {
        struct pollfd asks[2] = { { socket >= 0 ? socket : meeting->socket, POLLIN, 0 },
                                  { speaks ? pipe : -1, POLLIN, 0 } };
        if (poll(asks, 2, 100) < 0 && errno != EINTR) return -1;
        if (asks[1].revents != 0) speaks = hear_launcher(pipe);
        if (socket < 0 && nanoseconds(CLOCK_MONOTONIC) - begun > SOON_NS) show_said();
        if (asks[0].revents != 0 && socket < 0) {
            socket = accept(meeting->socket, NULL, NULL);
            if (socket >= 0) send_streams(socket);
            end_meeting(meeting);
        } else if (asks[0].revents != 0) {
            unsigned char byte;
            if (read(socket, &byte, 1) == 1) told = byte;
            close(socket);
            return told;
        }
        if (signalled != 0) return -1;
        if (socket < 0 && launcher_has_ended()) return -1;
    }
}

/* Waits for the launcher's end, and forces it after a while: some hang after their ranks have
 * ended. */
static void await_launcher(int pipe)
{
    bool speaks = true;
    for (int ms = 0; !launcher_has_ended(); ms += 5) {
        struct pollfd asks = { speaks ? pipe : -1, POLLIN, 0 };
        if (poll(&asks, 1, 5) > 0) speaks = hear_launcher(pipe);
        if (ms == ENDING_MS) kill(launcher, SIGTERM);
        if (ms == 2 * ENDING_MS) kill(launcher, SIGKILL);
    }
}

/* Runs the program on `count` ranks, and ends with its status. */
static _Noreturn void launch(char *program, char *count, char *hosts, bool wants_stats)
{
    struct meeting meeting = make_meeting();
    char *words[12] = { NULL, "-n", count };
    int at = 3;
    if (hosts != NULL) {
        words[at++] = "--hostfile";
        words[at++] = hosts;
    }
    words[at++] = program;
    words[at++] = "--streams";
    words[at++] = meeting.path;
    if (wants_stats) words[at++] = "--stats";
    watch_signals(pass_signal);
    int pipe = start_launcher(words);
    int status = await_status(&meeting, pipe);
    end_meeting(&meeting);
    await_launcher(pipe);
    if (status >= 0) exit(status);
    if (signalled != 0) {
        watch_signals(SIG_DFL);
        raise(signalled);
    }
    if (WIFEXITED(launcher_status) && WEXITSTATUS(launcher_status) == NO_MEMORY)
        fail(NO_MEMORY, "no memory");
    show_said();
    fail(LOST, "a rank was lost");
}

#endif

/* ---- the program */

static const char HELP[] =
    "Reads items from standard input, a line each, and writes a line for each result.\n"
    "\n"
    "    --ranks K      run on K ranks, 1 to 512\n"
#ifdef P3L_MPI
    "    --hosts FILE   start them on the machines that FILE lists, this one first\n"
#endif
    "    --stats        write the work of each rank to standard error\n"
    "    --help         write this\n"
    "\n"
#ifdef P3L_MPI
    "Ranks are processes of MPI: --ranks starts the launcher, or one starts this program by hand.\n"
    "P3L_MPIEXEC names another launcher.\n"
#else
    "Ranks are processes of this machine. Compiled by mpicc -DP3L_MPI, they are those of MPI.\n"
#endif
    "\n"
    "The status is 0; 6 for a line that is no item, 7 for an item that trapped, 8 where reading\n"
    "failed, 10 where writing did, 11 without memory, 14 for too long an input; 16 where a rank\n"
    "was lost, and 2 for words that aren't these.\n";

static _Noreturn void refuse_words(void)
{
    fprintf(stderr, "usage: the words are not those of --help\n");
    exit(USAGE);
}

/* The value of an option, written `NAME VALUE` or `NAME=VALUE`; NULL if the word is another one. */
static char *value_of(const char *name, char **argv, int *at)
{
    size_t length = strlen(name);
    char *word = argv[*at];
    if (strncmp(word, name, length) != 0) return NULL;
    if (word[length] == '=') return word + length + 1;
    if (word[length] != 0) return NULL;
    if (argv[*at + 1] == NULL) refuse_words();
    return argv[++*at];
}

/* The words of a call. */
static struct {
    char *ranks, *hosts, *streams;
    bool stats;
} words;

static void set_once(char **word, char *value)
{
    if (*word != NULL) refuse_words();
    *word = value;
}

static void read_words(char **argv)
{
    for (int i = 1; argv[i] != NULL; i++) {
        char *value;
        if ((value = value_of("--ranks", argv, &i)) != NULL) set_once(&words.ranks, value);
#ifdef P3L_MPI
        else if ((value = value_of("--hosts", argv, &i)) != NULL) set_once(&words.hosts, value);
        else if ((value = value_of("--streams", argv, &i)) != NULL) set_once(&words.streams, value);
#endif
        else if (strcmp(argv[i], "--stats") == 0 && !words.stats) words.stats = true;
        else if (strcmp(argv[i], "--help") == 0 || strcmp(argv[i], "-h") == 0) {
            fputs(HELP, stdout);
            exit(fflush(stdout) != 0 ? WRITE_FAULT : DONE);
        } else refuse_words();
    }
    stats.wanted = words.stats;
    if (words.hosts != NULL && words.ranks == NULL) refuse_words();
}

/* The requested number of ranks. */
static int ranks_asked(void)
{
    const char *digits = words.ranks;
    if (digits == NULL) return 1;
    size_t length = strlen(digits);
    if (length == 0 || length > 3 || strspn(digits, "0123456789") != length || digits[0] == '0')
        refuse_words();
    int count = atoi(digits);
    if (count > MOST_RANKS) refuse_words();
    return count;
}

/* Occupies the numbers of standard streams that are closed, so that no other file gets them.
 * Reading such an input fails, and so does writing such an output. */
static void open_streams(void)
{
    static const int modes[] = { O_WRONLY, O_RDONLY, O_RDWR };
    for (int stream = 0; stream < 3; stream++)
        if (fcntl(stream, F_GETFD) < 0 && open("/dev/null", modes[stream]) != stream) _exit(BROKEN);
}

#ifdef P3L_MPI
/* Decides whether a launcher started this program. */
static bool is_launched(void)
{
    return getenv("PMI_RANK") != NULL || getenv("PMIX_RANK") != NULL ||
           getenv("OMPI_COMM_WORLD_RANK") != NULL;
}
#endif

/* Finds out which rank this is, and how many there are. */
static void find_rank(int *argc, char ***argv)
{
#ifdef P3L_MPI
    read_words(*argv);
    ranks_asked();
    if (words.ranks != NULL && is_launched()) refuse_words();
    if (words.ranks != NULL) launch((*argv)[0], words.ranks, words.hosts, words.stats);
    MPI_Init(argc, argv);
    MPI_Comm_rank(MPI_COMM_WORLD, &my_rank);
    MPI_Comm_size(MPI_COMM_WORLD, &ranks);
    if (ranks > MOST_RANKS) fail(USAGE, "usage: at most 512 ranks");
    if (words.streams != NULL && my_rank == 0) take_streams(words.streams);
#else
    (void)argc;
    read_words(*argv);
    ranks = ranks_asked();
#endif
}

int main(int argc, char **argv)
{
    (void)p3l_shr;
    open_streams();
    signal(SIGPIPE, SIG_IGN);
    find_rank(&argc, &argv);
    make_nodes();
    make_channels();
    make_processes();
    find_ranks();
#ifndef P3L_MPI
    fork_ranks();
#endif
    start();
    run();
    if (my_rank == 0 && stats.wanted && end_status != WRITE_FAULT) say_stats();
    if (my_rank == 0 && end_status != DONE) fprintf(stderr, "%s\n", end_line);
    tell_caller(end_status);
    end_carrier();
    return my_rank == 0 ? end_status : DONE;
}
