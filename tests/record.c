/* Preloaded into the program: appends the names of the calls that fill, store and rename files, in order, to the file
   named by RECORD. Calls of one name after each other are recorded once. Writes to the standard streams are not. */
#define _GNU_SOURCE
#include <dlfcn.h>
#include <fcntl.h>
#include <stdlib.h>
#include <string.h>
#include <sys/stat.h>
#include <unistd.h>

static ssize_t real_write(int file, const void *bytes, size_t count) {
    return ((ssize_t (*)(int, const void *, size_t))dlsym(RTLD_NEXT, "write"))(file, bytes, count);
}

static void record(const char *call) {
    static const char *last = "";
    const char *path = getenv("RECORD");
    int file = path && strcmp(call, last) ? open(path, O_WRONLY | O_APPEND) : -1;
    last = call;
    if (file >= 0) {
        if (real_write(file, call, strlen(call)) < 0) abort();
        close(file);
    }
}

ssize_t write(int file, const void *bytes, size_t count) {
    if (file > STDERR_FILENO) record("write\n");
    return real_write(file, bytes, count);
}

int fchmod(int file, mode_t mode) {
    record("fchmod\n");
    return ((int (*)(int, mode_t))dlsym(RTLD_NEXT, "fchmod"))(file, mode);
}

int fsync(int file) {
    record("fsync\n");
    return ((int (*)(int))dlsym(RTLD_NEXT, "fsync"))(file);
}

int rename(const char *from, const char *to) {
    record("rename\n");
    return ((int (*)(const char *, const char *))dlsym(RTLD_NEXT, "rename"))(from, to);
}
