/* Preloaded into the program: refuses allocations by their number.
 *
 * The file named by REFUSE_CONTROL has four numbers: the count of allocations requested since a test set it to 0, the
 * first and the last number to refuse (0: refuse nothing), and the count of those refused. A test writes it between two
 * commands. */
#define _GNU_SOURCE
#include <dlfcn.h>
#include <fcntl.h>
#include <stdint.h>
#include <stdlib.h>
#include <sys/mman.h>
#include <unistd.h>

struct control {
    volatile uint64_t requested, first, last, refused;
};

static struct control *control;
static void *(*real_malloc)(size_t);
static void *(*real_realloc)(void *, size_t);

__attribute__((constructor)) static void begin(void) {
    real_malloc = dlsym(RTLD_NEXT, "malloc");
    real_realloc = dlsym(RTLD_NEXT, "realloc");
    const char *path = getenv("REFUSE_CONTROL");
    int file = path ? open(path, O_RDWR) : -1;
    if (file >= 0) {
        void *found = mmap(NULL, sizeof *control, PROT_READ | PROT_WRITE, MAP_SHARED, file, 0);
        control = found == MAP_FAILED ? NULL : found;
        close(file);
    }
}

static int is_refused(void) {
    if (!control) return 0;
    uint64_t number = ++control->requested;
    if (!control->first || number < control->first || control->last < number) return 0;
    control->refused++;
    return 1;
}

void *malloc(size_t size) {
    if (!real_malloc) begin();
    return is_refused() ? NULL : real_malloc(size);
}

void *realloc(void *old, size_t size) {
    if (!real_realloc) begin();
    return is_refused() ? NULL : real_realloc(old, size);
}
