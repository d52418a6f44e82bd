/* What `take` calls of the kit's library `os`, for a machine that is no x86-64: the kit's own is compiled for that alone. */
#include <errno.h>
#include <stddef.h>
#include <string.h>

static int count;
static char **words;

/* The C library hands its arguments to constructors too. */
__attribute__((constructor)) static void keep(int c, char **w)
{
    count = c;
    words = w;
}

size_t rattle_arg_count(void) { return count; }

/* The length of word i, which is put into `to`; -1 where there is no such word, -2 where it has no room. */
ptrdiff_t rattle_arg(size_t i, unsigned char *to, size_t room)
{
    if (i >= (size_t)count) return -1;
    size_t length = strlen(words[i]);
    memcpy(to, words[i], length < room ? length : room);
    return length <= room ? (ptrdiff_t)length : -2;
}

void rattle_set_errno(int error) { errno = error; }
