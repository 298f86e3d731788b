/* The same networks by hand: a pipe of N runs, or a farm of N workers on demand, of the body y = x * 3 + 1, fired one process at a
   time under round robin from a set of ready processes, over rings. It reads a number a line and writes one a line: each by one
   write, or gathered up to 64 KiB as p3l does. Usage: machine pipe|farm N CAPACITY each|gathered < numbers */
#include <stdint.h>
#include <stdio.h>
#include <stdlib.h>
#include <string.h>
#include <unistd.h>

typedef struct { int64_t word; uint64_t tag; } Token;
typedef struct { Token *at; uint32_t first, length, room; uint32_t writer, reader; } Ring;
typedef enum { SOURCE, SINK, RUN, EMIT, COLLECT } Kind;
typedef struct { Kind kind; uint32_t in, out, workers; uint64_t number; } Proc;

static Proc *procs;
static Ring *rings;
static uint64_t *ready;
static uint32_t proc_count, word_count;
static int has_item, ended;
static int64_t item;
static uint64_t fired;
static char input[1 << 16];
static size_t input_at, input_length;

static int next_byte(void) {
    if (input_at == input_length) {
        ssize_t got = read(0, input, sizeof input);
        if (got <= 0)
            return -1;
        input_at = 0;
        input_length = (size_t)got;
    }
    return (unsigned char)input[input_at++];
}

static void fill(void) {
    int byte = next_byte(), minus = 0;
    uint64_t value = 0;
    if (byte < 0) {
        ended = 1;
        return;
    }
    if (byte == '-') {
        minus = 1;
        byte = next_byte();
    }
    for (; byte >= '0' && byte <= '9'; byte = next_byte())
        value = value * 10 + (uint64_t)(byte - '0');
    item = minus ? -(int64_t)value : (int64_t)value;
    has_item = 1;
}

static int has_room(uint32_t ring) { return rings[ring].length < rings[ring].room; }

static void push(uint32_t ring, Token token) {
    Ring *r = &rings[ring];
    uint32_t at = r->first + r->length++;
    r->at[at >= r->room ? at - r->room : at] = token;
}

static Token pop(uint32_t ring) {
    Ring *r = &rings[ring];
    Token token = r->at[r->first];
    r->first = r->first + 1 == r->room ? 0 : r->first + 1;
    r->length--;
    return token;
}

/* The worker's channel with room and the fewest tokens, the first of equals; the first of the outs where none has. */
static int emptiest(const Proc *p, uint32_t *found) {
    uint32_t fewest = UINT32_MAX;
    for (uint32_t w = 0; w < p->workers; w++) {
        uint32_t length = rings[p->out + w].length;
        if (has_room(p->out + w) && length < fewest) {
            fewest = length;
            *found = p->out + w;
        }
    }
    return fewest != UINT32_MAX;
}

/* The worker's channel whose first token has the number that is due. */
static int due(const Proc *p, uint32_t *found) {
    for (uint32_t w = 0; w < p->workers; w++) {
        const Ring *r = &rings[p->in + w];
        if (r->length && r->at[r->first].tag == p->number) {
            *found = p->in + w;
            return 1;
        }
    }
    return 0;
}

static int can_fire(uint32_t n) {
    const Proc *p = &procs[n];
    uint32_t found;
    switch (p->kind) {
    case SOURCE: return has_item && has_room(p->out);
    case SINK: return rings[p->in].length > 0;
    case RUN: return rings[p->in].length > 0 && has_room(p->out);
    case EMIT: return rings[p->in].length > 0 && emptiest(p, &found);
    default: return has_room(p->out) && due(p, &found);
    }
}

static void look(uint32_t n) {
    uint64_t bit = 1ull << (n & 63);
    if (can_fire(n))
        ready[n >> 6] |= bit;
    else
        ready[n >> 6] &= ~bit;
}

static void look_round(uint32_t ring) {
    look(rings[ring].writer);
    look(rings[ring].reader);
}

static char output[1 << 16];
static size_t output_length;
static int is_gathered;

static void flush(void) {
    if (write(1, output, output_length) != (ssize_t)output_length)
        exit(10);
    output_length = 0;
}

static void put(int64_t value) {
    if (sizeof output - output_length < 24)
        flush();
    output_length += (size_t)snprintf(output + output_length, 24, "%lld\n", (long long)value);
    if (!is_gathered)
        flush();
}

static void fire(uint32_t n) {
    Proc *p = &procs[n];
    Token token;
    uint32_t at = 0;
    fired++;
    switch (p->kind) {
    case SOURCE:
        push(p->out, (Token){item, 0});
        has_item = 0;
        look_round(p->out);
        break;
    case SINK:
        put(pop(p->in).word);
        look_round(p->in);
        break;
    case RUN:
        token = pop(p->in);
        token.word = (int64_t)((uint64_t)token.word * 3 + 1);
        push(p->out, token);
        look_round(p->in);
        look_round(p->out);
        break;
    case EMIT:
        emptiest(p, &at);
        token = pop(p->in);
        token.tag = p->number++;
        push(at, token);
        look_round(p->in);
        look_round(at);
        break;
    case COLLECT:
        due(p, &at);
        push(p->out, pop(at));
        p->number++;
        look_round(at);
        look_round(p->out);
        break;
    }
}

static int next_ready(uint32_t from, uint32_t *found) {
    for (uint32_t step = 0; step <= word_count; step++) {
        uint32_t word = (from / 64 + step) % word_count;
        uint64_t bits = ready[word];
        if (step == 0)
            bits &= ~0ull << (from & 63);
        else if (step == word_count)
            bits &= ~(~0ull << (from & 63));
        if (bits) {
            *found = word * 64 + (uint32_t)__builtin_ctzll(bits);
            return 1;
        }
    }
    return 0;
}

static void channel(uint32_t at, uint32_t room, uint32_t writer, uint32_t reader) {
    rings[at] = (Ring){malloc(room * sizeof(Token)), 0, 0, room, writer, reader};
}

int main(int count, char **words) {
    uint32_t n = count == 5 ? (uint32_t)atoi(words[2]) : 0, room = count == 5 ? (uint32_t)atoi(words[3]) : 0, cursor = 0, found;
    if (!n || !room)
        return 2;
    is_gathered = strcmp(words[4], "gathered") == 0;
    int is_farm = strcmp(words[1], "farm") == 0;
    procs = calloc(n + 4, sizeof *procs);
    rings = calloc(2 * n + 2, sizeof *rings);
    if (is_farm) {
        /* 0 source, 1 sink, 2 emit, 3 collect, then the workers; channels 0 and 1, those to the workers, those from them. */
        proc_count = n + 4;
        procs[2] = (Proc){EMIT, 0, 2, n, 0};
        procs[3] = (Proc){COLLECT, 2 + n, 1, n, 0};
        channel(0, room, 0, 2);
        channel(1, room, 3, 1);
        for (uint32_t w = 0; w < n; w++) {
            procs[4 + w] = (Proc){RUN, 2 + w, 2 + n + w, 0, 0};
            channel(2 + w, room, 2, 4 + w);
            channel(2 + n + w, room, 4 + w, 3);
        }
    } else {
        /* 0 source, 1 sink, then the stages; channels 0 and 1, then those between the stages. */
        proc_count = n + 2;
        for (uint32_t s = 0; s < n; s++)
            procs[2 + s] = (Proc){RUN, s ? 1 + s : 0, s + 1 < n ? 2 + s : 1, 0, 0};
        channel(0, room, 0, 2);
        channel(1, room, n + 1, 1);
        for (uint32_t s = 0; s + 1 < n; s++)
            channel(2 + s, room, 2 + s, 3 + s);
    }
    procs[0] = (Proc){SOURCE, 0, 0, 0, 0};
    procs[1] = (Proc){SINK, 1, 0, 0, 0};
    word_count = proc_count / 64 + 1;
    ready = calloc(word_count, sizeof *ready);
    for (;;) {
        if (!has_item && !ended) {
            fill();
            look(0);
        }
        if (!next_ready(cursor, &found))
            break;
        cursor = found + 1 == proc_count ? 0 : found + 1;
        fire(found);
    }
    flush();
    fprintf(stderr, "fired %llu\n", (unsigned long long)fired);
    return 0;
}
