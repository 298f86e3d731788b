/* A program by hand on one processor: it reads an item, runs the body, and writes the result.
 *
 *     cc -O2 -DBODY='"work.h"' one.c
 */
#include BODY
#include "stream.h"

int main(void)
{
    static int64_t item[IN], result[OUT];
    while (read_item(item)) {
        body(item, result);
        write_result(result);
    }
    flush_results();
    return 0;
}
