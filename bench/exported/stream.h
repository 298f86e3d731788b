/* The streams of the programs by hand: items of IN words, a line each, and results of OUT words.
 * They trust their input: every line is an item. */
#include <fcntl.h>
#include <stdint.h>
#include <stdio.h>
#include <stdlib.h>
#include <string.h>
#include <unistd.h>

enum { LONGEST_NUMBER = 20 };

static int input = 0; /* a descriptor */

static struct {
    char at[65536];
    size_t start, end;
} unread;

static struct {
    char at[65536];
    size_t fill;
} unwritten;

/* Returns the next byte of the input, or -1 at its end. */
static int next_byte(void)
{
    if (unread.start == unread.end) {
        ssize_t got = read(input, unread.at, sizeof unread.at);
        if (got <= 0) return -1;
        unread.start = 0;
        unread.end = (size_t)got;
    }
    return (unsigned char)unread.at[unread.start++];
}

/* Reads a number and the blank behind it; returns 0 at the end of the input. */
static int read_number(int64_t *number)
{
    uint64_t value = 0;
    int byte = next_byte(), is_negative = byte == '-';
    if (byte < 0) return 0;
    if (is_negative) byte = next_byte();
    for (; byte >= '0' && byte <= '9'; byte = next_byte())
        value = 10 * value + (uint64_t)(byte - '0');
    *number = (int64_t)(is_negative ? 0 - value : value);
    return 1;
}

/* Reads an item; returns 0 at the end of the input. */
static int read_item(int64_t *words)
{
    for (int i = 0; i < IN; i++)
        if (!read_number(&words[i])) return 0;
    return 1;
}

static void flush_results(void)
{
    for (size_t at = 0; at < unwritten.fill;) {
        ssize_t wrote = write(1, unwritten.at + at, unwritten.fill - at);
        if (wrote <= 0) exit(10);
        at += (size_t)wrote;
    }
    unwritten.fill = 0;
}

static void write_number(int64_t number, char behind)
{
    char digits[LONGEST_NUMBER];
    int count = 0;
    uint64_t left = number < 0 ? 0 - (uint64_t)number : (uint64_t)number;
    if (unwritten.fill + LONGEST_NUMBER + 2 > sizeof unwritten.at) flush_results();
    do digits[count++] = (char)('0' + left % 10);
    while ((left /= 10) > 0);
    if (number < 0) unwritten.at[unwritten.fill++] = '-';
    while (count > 0) unwritten.at[unwritten.fill++] = digits[--count];
    unwritten.at[unwritten.fill++] = behind;
}

static void write_result(const int64_t *words)
{
    for (int i = 0; i < OUT; i++) write_number(words[i], i + 1 < OUT ? ' ' : '\n');
}
