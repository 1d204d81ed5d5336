/* Put before the C library by the loader (LD_PRELOAD): refuses allocations of the program that it is loaded with.
   REFUSE_FROM=N refuses the N-th alone, with REFUSE_ALL also all after it; REFUSE_COUNT=FILE writes to the file, as the
   program ends, how many there were; REFUSE_WATCH=FILE keeps their number in the first eight bytes of the file, while the
   program runs. Programs that it starts have neither these words nor this file. */
#define _GNU_SOURCE
#include <errno.h>
#include <fcntl.h>
#include <stdio.h>
#include <stdlib.h>
#include <sys/mman.h>
#include <unistd.h>

extern void *__libc_malloc(size_t size);
extern void *__libc_calloc(size_t number, size_t size);
extern void *__libc_realloc(void *block, size_t size);

static long seen, from, *watched = &seen;
static int all, is_begun, count = -1;

static int is_refused(void) {
    if (!is_begun)
        return 0;
    seen++;
    *watched = seen;
    if (from == 0 || seen < from || (seen > from && !all))
        return 0;
    errno = ENOMEM;
    return 1;
}

void *malloc(size_t size) { return is_refused() ? NULL : __libc_malloc(size); }

void *calloc(size_t number, size_t size) { return is_refused() ? NULL : __libc_calloc(number, size); }

void *realloc(void *block, size_t size) { return is_refused() ? NULL : __libc_realloc(block, size); }

__attribute__((constructor)) static void begin(void) {
    const char *word = getenv("REFUSE_FROM");
    from = word ? atol(word) : 0;
    all = getenv("REFUSE_ALL") != NULL;
    word = getenv("REFUSE_COUNT");
    if (word)
        count = open(word, O_WRONLY | O_CREAT | O_TRUNC | O_CLOEXEC, 0600);
    word = getenv("REFUSE_WATCH");
    if (word) {
        int file = open(word, O_RDWR | O_CLOEXEC);
        void *place = mmap(NULL, sizeof seen, PROT_READ | PROT_WRITE, MAP_SHARED, file, 0);
        if (place == MAP_FAILED)
            _exit(70);
        watched = place;
        close(file);
    }
    unsetenv("REFUSE_FROM");
    unsetenv("REFUSE_ALL");
    unsetenv("REFUSE_COUNT");
    unsetenv("REFUSE_WATCH");
    unsetenv("LD_PRELOAD");
    is_begun = 1;
}

__attribute__((destructor)) static void end(void) {
    char text[24];
    if (count >= 0 && write(count, text, snprintf(text, sizeof text, "%ld\n", seen)) < 0)
        _exit(70);
}
