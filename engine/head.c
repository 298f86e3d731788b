/* The words of the program's text: what its bodies call, and the rows of its tables. */
#define _POSIX_C_SOURCE 200809L
#include <limits.h>
#include <stddef.h>
#include <stdint.h>
#include <string.h>

/* Warnings that a program's source earns where it has a variable that is never read, a test that is
 * always the same, or no shift. From the engine on they count again. */
#ifdef __GNUC__
#pragma GCC diagnostic push
#pragma GCC diagnostic ignored "-Wunused-variable"
#pragma GCC diagnostic ignored "-Wunused-but-set-variable"
#pragma GCC diagnostic ignored "-Wtautological-compare"
#pragma GCC diagnostic ignored "-Wunused-function"
#endif

_Static_assert(INT_MAX <= INT64_MAX, "an int is wider than a word");

/* Converts modulo 2^64; C leaves the plain conversion of a large number to the compiler. */
static inline int64_t p3l_signed(uint64_t u)
{
    return u <= INT64_MAX ? (int64_t)u : -1 - (int64_t)(UINT64_MAX - u);
}

/* Shifts right with copies of the sign, by 0 to 63 places; C leaves the plain shift of a negative
 * number to the compiler. Compilers make one instruction of this form. */
static inline int64_t p3l_shr(int64_t x, int64_t k)
{
    return x < 0 ? -1 - ((-1 - x) >> k) : x >> k;
}

enum { FORM_SEQ, FORM_COMP, FORM_PIPE, FORM_FARM, FORM_MAP, FORM_REDUCE, FORM_LOOP };
enum { KIND_SOURCE, KIND_SINK, KIND_RUN, KIND_EMIT, KIND_COLLECT, KIND_SCATTER, KIND_GATHER,
       KIND_SPLIT, KIND_FOLD_GATHER, KIND_JOIN, KIND_HEAD, KIND_TAIL, KINDS };
enum { PLACE_REST, PLACE_FIRST, PLACE_SECOND };

/* A module: its name; the function of its body, if it is a `seq`, which gives 0 where it has filled
 * its out words, and else its trap, 1 + its kind + 8 * the module's number; and its rescue number,
 * if it has one. */
struct module_row {
    const char *name;
    int64_t (*body)(const int64_t *restrict in, int64_t *restrict out);
    int32_t has_rescue;
    int64_t rescue;
};

/* A node of the tree: its form, its module, the words of its tokens, how many parts it has, the
 * two numbers of its form, and how many slices. A map's numbers are the sizes of its free
 * indices; a reduce's are its elements and the words of one; a loop's are its turns and its
 * tokens. */
struct node_row { int32_t form, module, ins, outs, parts, first, second, in_slices, out_slices; };

/* A slice of a map's token: its first word, and how many dimensions its array has. */
struct slice_row { int32_t start, dims; };

/* A dimension of an array: its size, and the free index that runs over it, if one does. */
struct dim_row { int32_t size, place; };

/* A process: its kind, its node, the elements that it folds, if it folds a segment; how many
 * channels it reads and writes; and its ticks for one item. */
struct process_row { int32_t kind, node, arg, ins, outs; int64_t load; };

/* A channel: its capacity, the credits that are in it at first, and the words and the tags of
 * its tokens. */
struct channel_row { int32_t capacity, credits, words, tags; };
