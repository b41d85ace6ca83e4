// A disk for journals that fails by lot. It is loaded before the C library's own calls (LD_PRELOAD), and is no part of the program.
//
// FAULTS_PER_MILLE of 1 000 calls on a file *.journal fail: a write with EIO, ENOSPC or EINTR, or after half of its bytes; a sync with EIO, or
// after a delay; a truncation with EIO. FAULTS_SEED begins the lots. After each sync that succeeds, FAULTS_FOLDER/NAME.journal has the length
// that is safe on the disk: a crash of the machine may lose all bytes after it.
#define _GNU_SOURCE
#include <dlfcn.h>
#include <errno.h>
#include <fcntl.h>
#include <stdint.h>
#include <stdio.h>
#include <stdlib.h>
#include <string.h>
#include <sys/stat.h>
#include <time.h>
#include <unistd.h>

static uint64_t state;
static unsigned per_mille;

__attribute__((constructor)) static void begin(void) {
    const char *seed = getenv("FAULTS_SEED"), *rate = getenv("FAULTS_PER_MILLE");
    state = seed ? strtoull(seed, NULL, 10) : 1;
    per_mille = rate ? atoi(rate) : 0;
}

static uint32_t lot(uint32_t below) {
    uint64_t it = __atomic_add_fetch(&state, 0x9E3779B97F4A7C15u, __ATOMIC_SEQ_CST);
    it = (it ^ (it >> 30)) * 0xBF58476D1CE4E5B9u;
    it = (it ^ (it >> 27)) * 0x94D049BB133111EBu;
    return (uint32_t)((it ^ (it >> 31)) % below);
}

// The path of a journal; NULL for any other file.
static const char *journal(int fd, char *path, size_t size) {
    char link[40];
    snprintf(link, sizeof link, "/proc/self/fd/%d", fd);
    ssize_t n = readlink(link, path, size - 1);
    if (n < 8) return NULL;
    path[n] = 0;
    return strcmp(path + n - 8, ".journal") ? NULL : path;
}

static int fails(int fd) {
    char path[4096];
    return per_mille && journal(fd, path, sizeof path) && lot(1000) < per_mille;
}

static ssize_t refused(int error) {
    errno = error;
    return -1;
}

#define REAL(name, type) static type real; if (!real) real = (type)dlsym(RTLD_NEXT, #name)

ssize_t write(int fd, const void *bytes, size_t count) {
    typedef ssize_t (*type)(int, const void *, size_t);
    REAL(write, type);
    if (!fails(fd)) return real(fd, bytes, count);
    static const int errors[] = {EIO, ENOSPC, EINTR};
    uint32_t kind = lot(4);
    return kind < 3 || count < 2 ? refused(errors[kind % 3]) : real(fd, bytes, count / 2);
}

static int sync_by(int (*real)(int), int fd) {
    char path[4096], note[4400];
    const char *folder = getenv("FAULTS_FOLDER"), *file = journal(fd, path, sizeof path);
    struct stat before;
    int is_known = file && folder && fstat(fd, &before) == 0;
    if (fails(fd)) {
        if (lot(2)) return (int)refused(EIO);
        struct timespec rest = {0, (long)lot(300) * 1000000};
        nanosleep(&rest, NULL);
    }
    int result = real(fd);
    if (result == 0 && is_known) {
        snprintf(note, sizeof note, "%s%s", folder, strrchr(path, '/'));
        int to = open(note, O_WRONLY | O_CREAT, 0600);
        char text[24];
        int n = snprintf(text, sizeof text, "%20lld\n", (long long)before.st_size);
        if (to >= 0 && pwrite(to, text, n, 0) == n) close(to);
    }
    return result;
}

int fdatasync(int fd) {
    typedef int (*type)(int);
    REAL(fdatasync, type);
    return sync_by(real, fd);
}

int fsync(int fd) {
    typedef int (*type)(int);
    REAL(fsync, type);
    return sync_by(real, fd);
}

int ftruncate(int fd, off_t length) {
    typedef int (*type)(int, off_t);
    REAL(ftruncate, type);
    return fails(fd) ? (int)refused(EIO) : real(fd, length);
}
