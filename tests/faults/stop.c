/* Loaded before the program by stopped-disks and failing-disks: a write to its files that stops it,
   or that fails. WRITES names a file with the count of writes, STOPPED says which of them. Then the
   program is killed; where FAILING has an error's number, the write fails with it instead, that one
   alone, or with LASTING each from there on. With TORN half of the bytes are written first. */
#define _GNU_SOURCE
#include <errno.h>
#include <fcntl.h>
#include <signal.h>
#include <stdlib.h>
#include <sys/mman.h>
#include <sys/syscall.h>
#include <unistd.h>
static long *writes, stopped, torn, failing, lasting;
static long word(const char *name) {
    const char *text = getenv(name);
    return text ? atol(text) : 0;
}
__attribute__((constructor)) static void start(void) {
    const char *path = getenv("WRITES");
    int file = path ? open(path, O_RDWR) : -1;
    if (file < 0) return;
    void *count = mmap(0, sizeof *writes, PROT_READ | PROT_WRITE, MAP_SHARED, file, 0);
    if (count == MAP_FAILED) return;
    stopped = word("STOPPED");
    torn = word("TORN");
    failing = word("FAILING");
    lasting = word("LASTING");
    writes = count;
}
static int is_first;
static int is_stopped(void) {
    if (!writes) return 0;
    long at = ++*writes;
    is_first = at == stopped;
    return is_first || (lasting && stopped && at > stopped);
}
static int stop(void) {
    if (!failing) kill(getpid(), SIGKILL);
    errno = failing;
    return -1;
}
ssize_t pwrite(int file, const void *bytes, size_t size, off_t at) {
    if (is_stopped()) {
        ssize_t done = torn && is_first ? syscall(SYS_pwrite64, file, bytes, size / 2, at) : 0;
        return failing && done > 0 ? done : stop();
    }
    return syscall(SYS_pwrite64, file, bytes, size, at);
}
ssize_t write(int file, const void *bytes, size_t size) {
    if (file > 2 && is_stopped()) {
        ssize_t done = torn && is_first ? syscall(SYS_write, file, bytes, size / 2) : 0;
        return failing && done > 0 ? done : stop();
    }
    return syscall(SYS_write, file, bytes, size);
}
int ftruncate(int file, off_t size) {
    return is_stopped() ? stop() : syscall(SYS_ftruncate, file, size);
}
int fsync(int file) {
    return is_stopped() ? stop() : syscall(SYS_fsync, file);
}
int fdatasync(int file) {
    return is_stopped() ? stop() : syscall(SYS_fdatasync, file);
}
