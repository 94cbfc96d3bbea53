/* Lets one call of a program fail. It is preloaded (LD_PRELOAD), and reads the variable FAULT: "CALL N HOW".
 *
 * CALL is `allocate` (malloc and realloc), `read` or `write`, of a file, `receive` or `send`, of a stream, `accept`, `connect`,
 * `wait` (epoll_wait), `watch` (epoll_ctl), `waker` (epoll_create1 and eventfd), `option` (setsockopt), `end` (shutdown) or
 * `look-up` (getaddrinfo). The Nth such call that the program itself makes fails so:
 *
 *   refused      there is no memory (of `allocate`)
 *   failed       an input or output fault
 *   reset        the peer has reset the stream
 *   portless     no port is left (of `connect`)
 *   short        one byte is moved, where more was asked for; that more can be received is told anew
 *   interrupted  a signal came before anything was moved
 *   lasting      an input or output fault, and so does each such call of the same thread from then on
 *   often        an input or output fault, and so do nine of ten such calls of a thread from then on; it sleeps no more
 *   hasty        it does not wait, and tells of nothing (each other `wait`, whatever N)
 *
 * Where the variable FAULT_WHEN names a file, calls are counted from when that is there.
 *
 * As it fails, a byte is written to the descriptor that the variable FAULT_TOLD names, if it is set. Calls that libraries
 * make are left alone, so that N does not depend on them. It is for glibc alone. */
#define _GNU_SOURCE
#include <dlfcn.h>
#include <errno.h>
#include <link.h>
#include <netdb.h>
#include <stdio.h>
#include <stdlib.h>
#include <string.h>
#include <sys/epoll.h>
#include <sys/eventfd.h>
#include <sys/socket.h>
#include <sys/syscall.h>
#include <time.h>
#include <unistd.h>

extern void *__libc_malloc(size_t size);
extern void *__libc_realloc(void *old, size_t size);

static char call[16], how[16];
static const char *when;
static long countdown = -1;
static int told = -1;
static char *code_start, *code_end;

/* Whether the calls of this thread fail from now on. */
static __thread int lasts;

/* Whether nine of ten calls of a thread fail from now on, and how many this one has made since. */
static int is_often;
static __thread unsigned turn;

/* The program itself is the first that is listed. */
static int note_program(struct dl_phdr_info *info, size_t size, void *data) {
    for (int i = 0; i < info->dlpi_phnum; i++) {
        if (info->dlpi_phdr[i].p_type == PT_LOAD && (info->dlpi_phdr[i].p_flags & PF_X)) {
            code_start = (char *)info->dlpi_addr + info->dlpi_phdr[i].p_vaddr;
            code_end = code_start + info->dlpi_phdr[i].p_memsz;
        }
    }
    return 1;
}

__attribute__((constructor)) static void begin(void) {
    const char *fault = getenv("FAULT"), *descriptor = getenv("FAULT_TOLD");
    when = getenv("FAULT_WHEN");
    dl_iterate_phdr(note_program, NULL);
    told = descriptor ? atoi(descriptor) : -1;
    if (fault && sscanf(fault, "%15s %ld %15s", call, &countdown, how) != 3) {
        _exit(120);
    }
}

/* Tells that a call fails. */
static int tell(void) {
    if (told >= 0) {
        syscall(SYS_write, told, "!", 1);
    }
    return 1;
}

/* Whether it is this call that fails. */
static int fails(const char *name, void *caller) {
    if ((char *)caller < code_start || code_end <= (char *)caller || strcmp(name, call) != 0) {
        return 0;
    }
    if (lasts) {
        return 1;
    }
    if (is_often) {
        return ++turn % 10 ? tell() : 0;
    }
    if (countdown < 0) {
        return 0;
    }
    if (when && access(when, F_OK) != 0) {
        return 0;
    }
    if (__atomic_sub_fetch(&countdown, 1, __ATOMIC_SEQ_CST) != 0) {
        return 0;
    }
    lasts = strcmp(how, "lasting") == 0;
    is_often = strcmp(how, "often") == 0;
    return tell();
}

#define FAILS(name) fails(name, __builtin_return_address(0))

static int is(const char *word) { return strcmp(how, word) == 0; }

/* Sets the fault of a call that moves nothing. */
static int faulty(void) {
    errno = is("interrupted") ? EINTR : is("reset") ? ECONNRESET : is("refused") ? ENOMEM : is("portless") ? EADDRNOTAVAIL : EIO;
    return -1;
}

/* The function of that name and type which stands behind this file's. */
#define NEXT(type, name, ...) ((type(*)(__VA_ARGS__))dlsym(RTLD_NEXT, name))

void *malloc(size_t size) {
    if (FAILS("allocate")) {
        faulty();
        return NULL;
    }
    return __libc_malloc(size);
}

void *realloc(void *old, size_t size) {
    if (FAILS("allocate")) {
        faulty();
        return NULL;
    }
    return __libc_realloc(old, size);
}

/* The rest of a call that moves bytes: none, one or as many as were asked for. */
#define MOVE(name, count, next)        \
    if (FAILS(name)) {                 \
        if (!is("short")) {            \
            return faulty();           \
        }                              \
        (count) = (count) ? 1 : 0;     \
    }                                  \
    return next

ssize_t read(int file, void *to, size_t most) {
    MOVE("read", most, NEXT(ssize_t, "read", int, void *, size_t)(file, to, most));
}

/* By its descriptor, how a socket is watched. */
static struct { int poll; struct epoll_event event; } watched[65536];

static int control(int poll, int how, int file, struct epoll_event *event) {
    return NEXT(int, "epoll_ctl", int, int, int, struct epoll_event *)(poll, how, file, event);
}

/* To who reads less than there is, the rest must look as if it came later. */
static ssize_t told_anew(int file, int is_short, ssize_t count) {
    if (is_short && 0 <= file && file < 65536 && watched[file].poll) {
        control(watched[file].poll, EPOLL_CTL_MOD, file, &watched[file].event);
    }
    return count;
}

ssize_t recv(int file, void *to, size_t most, int flags) {
    size_t all = most;
    MOVE("receive", most, told_anew(file, most < all, NEXT(ssize_t, "recv", int, void *, size_t, int)(file, to, most, flags)));
}

ssize_t write(int file, const void *from, size_t most) {
    MOVE("write", most, NEXT(ssize_t, "write", int, const void *, size_t)(file, from, most));
}

ssize_t send(int file, const void *from, size_t most, int flags) {
    MOVE("send", most, NEXT(ssize_t, "send", int, const void *, size_t, int)(file, from, most, flags));
}

int accept4(int file, struct sockaddr *from, socklen_t *length, int flags) {
    return FAILS("accept") ? faulty() : NEXT(int, "accept4", int, struct sockaddr *, socklen_t *, int)(file, from, length, flags);
}

int connect(int file, const struct sockaddr *to, socklen_t length) {
    return FAILS("connect") ? faulty() : NEXT(int, "connect", int, const struct sockaddr *, socklen_t)(file, to, length);
}

int setsockopt(int file, int level, int name, const void *value, socklen_t length) {
    return FAILS("option") ? faulty() : NEXT(int, "setsockopt", int, int, int, const void *, socklen_t)(file, level, name, value, length);
}

int nanosleep(const struct timespec *time, struct timespec *left) {
    return is_often ? 0 : NEXT(int, "nanosleep", const struct timespec *, struct timespec *)(time, left);
}

int shutdown(int file, int side) {
    return FAILS("end") ? faulty() : NEXT(int, "shutdown", int, int)(file, side);
}

int epoll_create1(int flags) {
    return FAILS("waker") ? faulty() : NEXT(int, "epoll_create1", int)(flags);
}

int eventfd(unsigned int count, int flags) {
    return FAILS("waker") ? faulty() : NEXT(int, "eventfd", unsigned int, int)(count, flags);
}

int epoll_ctl(int poll, int how, int file, struct epoll_event *event) {
    if (FAILS("watch")) {
        return faulty();
    }
    if (event && 0 <= file && file < 65536) {
        watched[file].poll = poll;
        watched[file].event = *event;
    }
    return control(poll, how, file, event);
}

int epoll_wait(int poll, struct epoll_event *events, int most, int time) {
    static __thread unsigned count;
    if (is("hasty") && strcmp("wait", call) == 0 && ++count % 2 == 0) {
        return 0;
    }
    return FAILS("wait") ? faulty() : NEXT(int, "epoll_wait", int, struct epoll_event *, int, int)(poll, events, most, time);
}

int getaddrinfo(const char *host, const char *service, const struct addrinfo *wanted, struct addrinfo **found) {
    return FAILS("look-up") ? EAI_AGAIN
                            : NEXT(int, "getaddrinfo", const char *, const char *, const struct addrinfo *, struct addrinfo **)(
                                  host, service, wanted, found);
}
