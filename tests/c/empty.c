/*
 * empty MODEL - every slice of every call as NULL with length 0, one at a time and together. Each
 * call must give the number, and leave the other memory, that it does for a length of 0 at a
 * pointer that is not NULL.
 */
#include "calls.h"

#define LIMIT 50

/* The same slices empty, by NULL and by another pointer. */
static int same(const struct call *call, const struct inputs *in, unsigned empty)
{
    static struct outcome null, other;
    static uint64_t something;

    absent = NULL;
    make(call, in, empty, &null);
    absent = &something;
    make(call, in, empty, &other);
    if (memcmp(&null, &other, sizeof null) == 0)
        return 1;
    printf("%s: empty slices %u (bits) as NULL give %lu, as other pointers %lu\n", call->name,
           empty, (unsigned long)null.number, (unsigned long)other.number);
    return 0;
}

int main(int argc, char **argv)
{
    struct inputs *in;
    unsigned empty;
    int c, made = 0, differ = 0;

    if (argc != 2)
        fail("no model", "empty");
    in = inputs_of(argv[1], LIMIT);
    if (in->table_file_len == 0)
        fail("is not answered", argv[1]);
    for (c = 0; c < CALLS; c++) {
        for (empty = 0; empty < 1u << calls[c].slices; empty++) {
            made++;
            differ += !same(&calls[c], in, empty);
        }
    }
    free_inputs(in);
    printf("%d inputs of %d calls with empty slices, as NULL and as other pointers: %d differ\n",
           made, CALLS, differ);
    return differ != 0;
}
