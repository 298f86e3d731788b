/* A farm by hand over MPI: rank 0 reads, sends BATCH items in a message to the rank that has room
 * for it, and writes the results in the order of the items. The other ranks run the body.
 *
 *     mpicc -O2 -DBODY='"work.h"' -DBATCH=32 farm_mpi.c
 *     mpiexec -n 4 ./a.out FILE
 *
 * The items are in FILE, since launchers have no flow control on their input.
 */
#include BODY
#include "stream.h"
#include <mpi.h>

/* A rank has at most WINDOW messages that it hasn't answered; at most RING of all have no result
 * that is written. */
enum { WINDOW = 4, RING = 4096 };

/* A message: its number, how many items or results it has, and their words. A message without any
 * is the last one. */
enum { HEAD = 2, MOST_WORDS = HEAD + BATCH * (IN > OUT ? IN : OUT) };

static int ranks, my_rank;
static int64_t sent, due;            /* messages that are sent, and whose results are written */
static int64_t message[MOST_WORDS];
static int64_t *results[RING];       /* the results that wait for those before them */
static int room[1024];               /* the messages that a rank may still get */

static void send(int rank, int width)
{
    int words = HEAD + (int)message[1] * width;
    MPI_Send(message, words, MPI_INT64_T, rank, 0, MPI_COMM_WORLD);
}

static int receive(int rank)
{
    MPI_Status status;
    MPI_Recv(message, MOST_WORDS, MPI_INT64_T, rank, 0, MPI_COMM_WORLD, &status);
    return status.MPI_SOURCE;
}

/* Answers each message with the results of its items. */
static void serve(void)
{
    static int64_t done[BATCH * OUT];
    for (receive(0); message[1] > 0; receive(0)) {
        for (int64_t i = 0; i < message[1]; i++) body(message + HEAD + i * IN, done + i * OUT);
        memcpy(message + HEAD, done, (size_t)(message[1] * OUT) * sizeof *done);
        send(0, OUT);
    }
}

/* Reads the items of a message; returns 0 where the input has ended before. */
static int fill_message(void)
{
    message[0] = sent;
    message[1] = 0;
    while (message[1] < BATCH && read_item(message + HEAD + message[1] * IN)) message[1]++;
    return message[1] > 0;
}

/* Returns the rank with the most room, or 0 if none has any. */
static int idlest_rank(void)
{
    int best = 0;
    for (int r = 1; r < ranks; r++)
        if (room[r] > room[best]) best = r;
    return best;
}

static void keep_results(void)
{
    size_t bytes = (HEAD + (size_t)message[1] * OUT) * sizeof *message;
    int64_t **place = &results[message[0] % RING];
    *place = malloc(bytes);
    if (*place == NULL) exit(11);
    memcpy(*place, message, bytes);
}

static void write_due(void)
{
    for (; due < sent && results[due % RING] != NULL; due++) {
        int64_t *next = results[due % RING];
        for (int64_t i = 0; i < next[1]; i++) write_result(next + HEAD + i * OUT);
        free(next);
        results[due % RING] = NULL;
    }
}

static void give_out(void)
{
    int has_items = 1, open = 0;
    for (int r = 1; r < ranks; r++) room[r] = WINDOW;
    while (has_items || open > 0) {
        int rank = has_items && sent - due < RING ? idlest_rank() : 0;
        if (rank > 0) {
            has_items = fill_message();
            if (!has_items) continue;
            send(rank, IN);
            sent++;
            room[rank]--;
            open++;
        } else {
            room[receive(MPI_ANY_SOURCE)]++;
            open--;
            keep_results();
            write_due();
        }
    }
    message[1] = 0;
    for (int r = 1; r < ranks; r++) send(r, 0);
    flush_results();
}

int main(int argc, char **argv)
{
    MPI_Init(&argc, &argv);
    MPI_Comm_rank(MPI_COMM_WORLD, &my_rank);
    MPI_Comm_size(MPI_COMM_WORLD, &ranks);
    if (my_rank > 0) serve();
    else if (argc < 2 || (input = open(argv[1], O_RDONLY)) < 0) MPI_Abort(MPI_COMM_WORLD, 2);
    else give_out();
    MPI_Finalize();
    return 0;
}
