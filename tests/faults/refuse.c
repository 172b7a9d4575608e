/* Loaded before a program by refused-growths: a malloc that refuses one growth of memory. GROWTHS
   names a file with the count of growths, and REFUSED says which of them is refused.

   With TURNS the program jpa makes one run, and forks where a growth is to be refused: a child goes
   on from there without it, while the program waits, and then goes on with it. TURNS is a socket to
   refused_runs.py, which is told how a child ended, and looks at it; where another child came to
   just the same, it isn't told again. CHOSEN is a file with the growths; of those whose child ended
   before it asked for a line the number is made negative. The lines are those of the file CALLS, one
   by one; a line that is answered with WANT is made again, once. What is written goes to the file
   BOARD, that of a child apart, from what had been written before it. The files of the store, STORE,
   are put back after each child. Random bytes are always the same ones. */
#define _GNU_SOURCE
#include <errno.h>
#include <fcntl.h>
#include <stdarg.h>
#include <stdlib.h>
#include <string.h>
#include <sys/mman.h>
#include <sys/socket.h>
#include <sys/stat.h>
#include <sys/syscall.h>
#include <sys/time.h>
#include <sys/wait.h>
#include <unistd.h>
#include "slots.h"
#define MOST (1 << 20)
#define WANT "{\"error\":{\"name\":\"OutOfMemory\",\"no\":1},\"events\":[]}\n"
enum { STUCK = 97, TOO_MUCH, LEFT_ALONE, FILES = 4 };

typedef struct { long size; char text[MOST]; } Written;
static struct {
    long growths, of_opening, tried, ended, is_changed, is_asked;
    Written replies[2], said[2];
} *board;
static long *growths, refused, at;
static long *next, *last;
static int turns = -1, is_child, is_again;
static const char *line, *given, *line_end, *end;
static long reply;

static void *mapped(const char *name, int flags, int protection, size_t *size) {
    const char *path = getenv(name);
    int file = path ? syscall(SYS_open, path, flags) : -1;
    struct stat kind;
    if (file < 0 || fstat(file, &kind) || !kind.st_size) return 0;
    void *found = mmap(0, *size = kind.st_size, protection, MAP_SHARED, file, 0);
    syscall(SYS_close, file);
    return found == MAP_FAILED ? 0 : found;
}
/* A minute of the processor, whichever share of it there is. */
static void end_after_a_minute(void) {
    struct itimerval minute = {{0, 0}, {60, 0}};
    setitimer(ITIMER_PROF, &minute, 0);
}
static void take(const char *from) {
    const char *stop = from < end ? memchr(from, '\n', end - from) : 0;
    line = given = from;
    line_end = stop ? stop + 1 : end;
    is_again = 0;
}
__attribute__((constructor)) static void start(void) {
    const char *number = getenv("REFUSED"), *socket = getenv("TURNS");
    size_t size = 0;
    if (!socket) {
        refused = number ? atol(number) : 0;
        growths = mapped("GROWTHS", O_RDWR, PROT_READ | PROT_WRITE, &size);
        return;
    }
    board = mapped("BOARD", O_RDWR, PROT_READ | PROT_WRITE, &size);
    const char *calls = mapped("CALLS", O_RDONLY, PROT_READ, &size);
    end = calls ? calls + size : 0;
    take(calls);
    next = mapped("CHOSEN", O_RDWR, PROT_READ | PROT_WRITE, &size);
    last = next ? next + size / sizeof *next : 0;
    make_slots();
    end_after_a_minute();
    turns = atoi(socket);
}

/* The files of the store, as they were before a child, or as one left them. */
typedef struct { char *text; long size, room; } Bytes;
static Bytes kept[FILES], left[FILES];
static void make_room(Bytes *bytes, long size) {
    if (size <= bytes->room) return;
    if (bytes->text) munmap(bytes->text, bytes->room);
    bytes->room = size * 2 + 4096;
    bytes->text = anonymous(bytes->room);
}
static const char *path_of(int which) {
    static char path[4096];
    static const char *ends[FILES] = {"", "-wal", "-journal", "-shm"};
    strcpy(path, getenv("STORE"));
    return strcat(path, ends[which]);
}
static void look(Bytes *files) {
    for (int which = 0; which < FILES; which++) {
        int file = syscall(SYS_open, path_of(which), O_RDONLY);
        struct stat kind;
        files[which].size = -1;
        if (file < 0) continue;
        if (fstat(file, &kind)) abort();
        make_room(files + which, kind.st_size);
        files[which].size = syscall(SYS_pread64, file, files[which].text, kind.st_size, 0);
        if (files[which].size != kind.st_size) abort();
        syscall(SYS_close, file);
    }
}
static void put_back(void) {
    for (int which = 0; which < FILES; which++) {
        const Bytes *was = kept + which;
        if (was->size < 0) {
            unlink(path_of(which));
            continue;
        }
        int file = syscall(SYS_open, path_of(which), O_WRONLY);
        if (file < 0 || syscall(SYS_pwrite64, file, was->text, was->size, 0) != was->size) abort();
        if (syscall(SYS_ftruncate, file, was->size)) abort();
        syscall(SYS_close, file);
    }
}

/* What children came to: status, what was written, and the files. */
typedef struct Outcome Outcome;
struct Outcome { Outcome *other; unsigned long sum; long size; char text[]; };
static Outcome *seen;
static Bytes outcome;
static char *put(char *to, long size, const char *text) {
    memcpy(to, &size, sizeof size);
    to += sizeof size;
    return size > 0 ? mempcpy(to, text, size) : to;
}
static void tell_outcome(long status, const Bytes *files) {
    long size = 128 + board->replies[1].size + board->said[1].size;
    for (int which = 0; which < FILES; which++) size += files[which].size + 1;
    make_room(&outcome, size);
    char *to = put(outcome.text, sizeof status, (char *)&status);
    to = put(to, board->replies[1].size, board->replies[1].text);
    to = put(to, board->said[1].size, board->said[1].text);
    for (int which = 0; which < FILES; which++) to = put(to, files[which].size, files[which].text);
    outcome.size = to - outcome.text;
}
static int is_new(void) {
    unsigned long sum = outcome.size, word;
    for (long byte = 0; byte + 8 <= outcome.size; byte += 8) {
        memcpy(&word, outcome.text + byte, 8);
        sum = (sum ^ word) * 0x9e3779b97f4a7c15 + (sum >> 29);
    }
    for (Outcome *one = seen; one; one = one->other) {
        if (one->sum != sum || one->size != outcome.size) continue;
        if (!memcmp(one->text, outcome.text, one->size)) return 0;
    }
    Outcome *one = anonymous(sizeof *one + outcome.size);
    *one = (Outcome){seen, sum, outcome.size};
    memcpy(one->text, outcome.text, outcome.size);
    seen = one;
    return 1;
}

/* A growth that is to be refused: in a child it is. */
static void copy(Written *boards) {
    memcpy(boards + 1, boards, sizeof(long) + boards->size);
}
static int is_turn(void) {
    int error = errno, status = -1;
    if (board->is_changed || !board->tried) look(kept);
    board->is_changed = 0;
    board->is_asked = board->of_opening != 0;
    pid_t child = fork();
    if (!child) {
        is_child = 1;
        end_after_a_minute();
        copy(board->replies);
        copy(board->said);
        return 1;
    }
    while (child > 0 && waitpid(child, &status, 0) < 0 && errno == EINTR) continue;
    if (board->is_changed) look(left);
    tell_outcome(status, board->is_changed ? left : kept);
    if (is_new()) {
        long words[2] = {at, status};
        if (send(turns, words, sizeof words, MSG_NOSIGNAL) != sizeof words) _exit(LEFT_ALONE);
        if (recv(turns, words, sizeof *words, MSG_WAITALL) != sizeof *words) _exit(LEFT_ALONE);
    }
    if (board->is_changed) put_back();
    board->is_changed = 0;
    if (!board->is_asked) *next = -at;
    next++;
    board->tried++;
    board->ended += status != 0;
    errno = error;
    return 0;
}
static int is_refused(void) {
    if (growths) return ++*growths == refused;
    if (turns < 0 || is_child) return 0;
    board->growths = ++at;
    return next < last && at == *next && is_turn();
}
void *malloc(size_t size) { return is_refused() ? 0 : slot(size); }
void *realloc(void *old, size_t size) { return is_refused() ? 0 : slot_again(old, size); }
void free(void *old) { free_slot(old); }

ssize_t read(int file, void *bytes, size_t size) {
    if (file != 0 || turns < 0) return syscall(SYS_read, file, bytes, size);
    board->is_asked = 1;
    if (!is_child && !board->of_opening) board->of_opening = at;
    if (line == end) return 0;
    if (given == line_end) _exit(STUCK);
    size_t some = line_end - given < (long)size ? line_end - given : (long)size;
    memcpy(bytes, given, some);
    given += some;
    return some;
}

/* A reply that ends: the next line is made, or this one once more. */
static void answered(Written *replies) {
    long size = replies->size - reply;
    int is_want = size == sizeof WANT - 1 && !memcmp(replies->text + reply, WANT, size);
    if (is_want && !is_again && line < end) {
        replies->size = reply;
        given = line;
        is_again = 1;
    } else {
        reply = replies->size;
        if (line < end) take(line_end);
    }
}
static void changed(void) {
    if (board) board->is_changed = 1;
}
ssize_t write(int file, const void *bytes, size_t size) {
    if (file != 1 && file != 2) changed();
    if ((file != 1 && file != 2) || turns < 0) return syscall(SYS_write, file, bytes, size);
    Written *here = (file == 1 ? board->replies : board->said) + is_child;
    for (const char *byte = bytes; byte < (const char *)bytes + size; byte++) {
        if (here->size == MOST) _exit(TOO_MUCH);
        here->text[here->size++] = *byte;
        if (file == 1 && *byte == '\n') answered(here);
    }
    return size;
}
ssize_t __write(int file, const void *bytes, size_t size) { return write(file, bytes, size); }
ssize_t pwrite(int file, const void *bytes, size_t size, off_t from) {
    changed();
    return syscall(SYS_pwrite64, file, bytes, size, from);
}
int ftruncate(int file, off_t size) {
    changed();
    return syscall(SYS_ftruncate, file, size);
}
int open(const char *path, int flags, ...) {
    va_list others;
    va_start(others, flags);
    int mode = flags & O_CREAT ? va_arg(others, int) : 0;
    va_end(others);
    if (flags & (O_CREAT | O_TRUNC)) changed();
    return syscall(SYS_open, path, flags, mode);
}
int getentropy(void *bytes, size_t size) {
    static unsigned char byte;
    if (turns < 0) return syscall(SYS_getrandom, bytes, size, 0) == (long)size ? 0 : -1;
    for (size_t each = 0; each < size; each++) ((unsigned char *)bytes)[each] = byte += 83;
    return 0;
}
