/* Lets requests for memory of a program fail: the Nth alone, N from the variable REFUSE, or that and all after it if
   REFUSE_ON is set. If the variable TOLD names a file, it is made once a request is refused.

   If the variable WINDOWS is set, the program says by requests of two sizes, which no other request has, where its
   requests count: from after one of OPENS bytes up to one of CLOSES bytes, anew each time. The file TOLD then gets a
   character for each such window: r if a request in it was refused, else g.

   To make a block smaller, or no larger than it is already, is no request for memory: it is never refused, nor counted.
   Rattle's library asks for memory by malloc and realloc alone.

   Loaded by LD_PRELOAD, by tools/refuse.py alone. */
#include <fcntl.h>
#include <malloc.h>
#include <stdlib.h>
#include <unistd.h>

#define OPENS 999979
#define CLOSES 999983

extern void *__libc_malloc(size_t);
extern void *__libc_realloc(void *, size_t);

static enum { UNREAD, COUNTING, REFUSING, GRANTING } state = UNREAD;
static long left;
static int in_windows, has_refused;

static void tell(const char *text, size_t length)
{
    const char *name = getenv("TOLD");
    int file = name ? open(name, O_CREAT | O_WRONLY | O_APPEND, 0600) : -1;
    if (file >= 0) {
        if (write(file, text, length) < 0)
            abort();
        close(file);
    }
}

static void count_anew(void)
{
    const char *text = getenv("REFUSE");
    left = text ? atol(text) : 0;
    state = left > 0 ? COUNTING : GRANTING;
    has_refused = 0;
}

static int refused(void)
{
    if (state == UNREAD) {
        in_windows = getenv("WINDOWS") != 0;
        if (in_windows)
            state = GRANTING;
        else
            count_anew();
    }
    if (state == COUNTING && --left == 0)
        state = REFUSING;
    if (state != REFUSING)
        return 0;
    if (!getenv("REFUSE_ON"))
        state = GRANTING;
    if (!in_windows && !has_refused)
        tell("", 0);
    has_refused = 1;
    return 1;
}

void *malloc(size_t n)
{
    if (in_windows && n == CLOSES) {
        tell(has_refused ? "r" : "g", 1);
        state = GRANTING;
    }
    if (refused())
        return 0;
    if (in_windows && n == OPENS)
        count_anew();
    return __libc_malloc(n);
}

void *realloc(void *p, size_t n)
{
    if (p && n <= malloc_usable_size(p))
        return __libc_realloc(p, n);
    return refused() ? 0 : __libc_realloc(p, n);
}
