/* Loaded before the C library, so that a program's calls on its standard input and output, and its syncing and renaming of files, go
   wrong as FAULT says. None of the former moves more than a hundred bytes. */
#define _GNU_SOURCE
#include <errno.h>
#include <fcntl.h>
#include <signal.h>
#include <stdio.h>
#include <stdlib.h>
#include <string.h>
#include <sys/syscall.h>
#include <unistd.h>

enum { PIECE = 100 };
static const char *fault = "";
static unsigned long reads, writes, renames;

__attribute__((constructor)) static void begin(void) {
    const char *given = getenv("FAULT");
    if (given) {
        fault = given;
    }
}

static int is(const char *name) {
    return strcmp(fault, name) == 0;
}

static ssize_t fail(int error) {
    errno = error;
    return -1;
}

static size_t piece(size_t count) {
    return count < PIECE ? count : PIECE;
}

ssize_t read(int fd, void *buf, size_t count) {
    if (fd == STDIN_FILENO) {
        reads++;
        if (is("second read fails") && reads == 2) {
            return fail(EIO);
        }
        if (is("interrupted") && reads % 2 == 1) {
            return fail(EINTR);
        }
        count = piece(count);
    }
    return syscall(SYS_read, fd, buf, count);
}

ssize_t write(int fd, const void *buf, size_t count) {
    if (fd == STDOUT_FILENO) {
        writes++;
        if (is("never ready")) {
            return fail(EAGAIN);
        }
        if (is("takes nothing")) {
            return 0;
        }
        if (is("second write fails") && writes == 2) {
            return fail(EIO);
        }
        if (is("interrupted") && writes % 2 == 1) {
            return fail(EINTR);
        }
        count = piece(count);
    }
    return syscall(SYS_write, fd, buf, count);
}

int fdatasync(int fd) {
    long synced = syscall(SYS_fdatasync, fd);
    return is("sync fails") ? (int)fail(ENOSPC) : (int)synced;
}

int fsync(int fd) {
    long synced = syscall(SYS_fsync, fd);
    return is("sync fails") ? (int)fail(ENOSPC) : (int)synced;
}

int linkat(int from_folder, const char *from, int to_folder, const char *to, int flags) {
    if (is("no second names")) {
        return (int)fail(EPERM);
    }
    return (int)syscall(SYS_linkat, from_folder, from, to_folder, to, flags);
}

int rename(const char *from, const char *to) {
    renames++;
    if ((is("second rename fails") || is("no second names")) && renames == 2) {
        return (int)fail(EPERM);
    }
    if (is("signals at the second rename") && renames == 2) {
        const int signals[] = {SIGHUP, SIGINT, SIGTERM};
        for (int i = 0; i < 3; i++) {
            raise(signals[i]);
        }
    }
    return (int)syscall(SYS_renameat2, AT_FDCWD, from, AT_FDCWD, to, 0);
}

/* Not waiting: only how often it is called counts. */
int sched_yield(void) {
    return 0;
}
