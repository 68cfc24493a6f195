/* Loaded before the C library: one call of malloc finds no memory, the one whose number is in REFUSE, and the empty
   file that TOLD names is then made. */
#define _GNU_SOURCE
#include <dlfcn.h>
#include <errno.h>
#include <fcntl.h>
#include <stdatomic.h>
#include <stdlib.h>
#include <unistd.h>

static void tell(void)
{
    const char *file = getenv("TOLD");
    int fd = file ? open(file, O_WRONLY | O_CREAT, 0600) : -1;
    if (fd >= 0)
        close(fd);
}

void *malloc(size_t size)
{
    static void *(*next)(size_t);
    static atomic_long calls;
    if (!next)
        next = (void *(*)(size_t))dlsym(RTLD_NEXT, "malloc");
    const char *word = getenv("REFUSE");
    if (word && atomic_fetch_add(&calls, 1) + 1 == atol(word)) {
        tell();
        errno = ENOMEM;
        return NULL;
    }
    return next(size);
}
