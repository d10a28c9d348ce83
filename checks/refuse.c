/* Linked with the tests of a crate, of which each runs in a process of its own. For a test whose name has the word `growths_`
   or `starved_`, memory is a room of so many bytes. The first kind runs once for each growth of memory that it asks for, with
   that one refused, and then once with none refused. The first run that fails is shown, and the test fails. */
#include <errno.h>
#include <fcntl.h>
#include <stdint.h>
#include <stdio.h>
#include <stdlib.h>
#include <string.h>
#include <sys/mman.h>
#include <sys/wait.h>
#include <unistd.h>

/* What `malloc`, `realloc` and `free` call in a program that is tried. By this name without the first line below, it can be
   put in place of its own, which has that line. */
void *___interceptor_malloc(size_t size);
void *___interceptor_realloc(void *block, size_t size);
void ___interceptor_free(void *block);
size_t __sanitizer_get_allocated_size(const void *block);
int __sanitizer_get_ownership(const void *block);

static size_t room = SIZE_MAX;
static size_t held = 0;
static long refused_one = 0;
static long *asked = NULL;

static size_t size_of(const void *block) {
    return block && __sanitizer_get_ownership(block) ? __sanitizer_get_allocated_size(block) : 0;
}

/* Counts a growth by at most so many bytes, and answers whether it is refused. */
static int is_refused(size_t bytes) {
    if (asked) *asked += 1;
    if (bytes <= room - held && !(asked && *asked == refused_one)) return 0;
    errno = ENOMEM;
    return 1;
}

void *__interceptor_malloc(size_t size) {
    if (room == SIZE_MAX) return ___interceptor_malloc(size);
    void *block = is_refused(size) ? NULL : ___interceptor_malloc(size);
    held += size_of(block);
    return block;
}

void *__interceptor_realloc(void *block, size_t size) {
    if (room == SIZE_MAX) return ___interceptor_realloc(block, size);
    size_t before = size_of(block);
    void *moved = is_refused(size > before ? size - before : 0) ? NULL : ___interceptor_realloc(block, size);
    if (moved) held += size_of(moved) - before;
    return moved;
}

void __interceptor_free(void *block) {
    if (room != SIZE_MAX) held -= size_of(block);
    ___interceptor_free(block);
}

/* Runs the test with this growth refused. Answers -1 in the run itself, and outside of it how it ended. */
static int run(long number, long *shared, int is_shown) {
    int status = 0, nothing;
    pid_t child;
    *shared = 0;
    child = fork();
    if (child < 0) return 99;
    if (child > 0) return waitpid(child, &status, 0) == child ? status : 99;
    nothing = is_shown ? -1 : open("/dev/null", O_WRONLY);
    if (nothing >= 0) {
        dup2(nothing, 1);
        dup2(nothing, 2);
    }
    refused_one = number;
    asked = shared;
    return -1;
}

__attribute__((constructor)) static void sweep(int argc, char **argv) {
    long *shared, number = 0;
    int at, status, is_swept = 0;
    for (at = 1; at < argc; at++) {
        is_swept = is_swept || strstr(argv[at], "growths_");
        if (is_swept || strstr(argv[at], "starved_")) room = 8 << 20;
    }
    if (!is_swept) return;
    shared = mmap(NULL, sizeof *shared, PROT_READ | PROT_WRITE, MAP_SHARED | MAP_ANONYMOUS, -1, 0);
    if (shared == MAP_FAILED) _exit(99);
    do {
        status = run(++number, shared, 0);
        if (status == -1) return;
        if (status != 0) {
            fprintf(stderr, "growths: fails where growth %ld is refused\n", number);
            if (run(number, shared, 1) == -1) return;
            _exit(1);
        }
    } while (*shared >= number);
    fprintf(stderr, "growths: %ld refused in turn\n", number - 1);
}
