/* Loaded before the program under callgrind: once the file BEGIN is there, the instructions that
   the program runs from one read of standard input to the next are dumped for themselves. Its lines
   are given one at a time, so each dump is of one line. */
#define _GNU_SOURCE
#include <stdlib.h>
#include <sys/syscall.h>
#include <unistd.h>
#include <valgrind/callgrind.h>

ssize_t read(int file, void *bytes, size_t size) {
    static int has_begun;
    if (file == 0 && has_begun) {
        CALLGRIND_DUMP_STATS;
    } else if (file == 0 && access(getenv("BEGIN"), F_OK) == 0) {
        has_begun = 1;
        CALLGRIND_START_INSTRUMENTATION;
    }
    return syscall(SYS_read, file, bytes, size);
}
