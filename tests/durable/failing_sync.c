// Loaded before the C library, it makes one fsync or fdatasync fail as a disk does that can't write:
// the call whose number FAILED_SYNC gives, from 1 on. Each call is noted in the file that SYNCS
// names. tests/durable/syncs.py compiles it.
#define _GNU_SOURCE
#include <dlfcn.h>
#include <errno.h>
#include <fcntl.h>
#include <stdlib.h>
#include <unistd.h>

static unsigned long made;

static int fails(void) {
    const char *at = getenv("FAILED_SYNC"), *to = getenv("SYNCS");
    int file = to ? open(to, O_WRONLY | O_CREAT | O_APPEND, 0600) : -1;
    made++;
    if (file >= 0) {
        ssize_t written = write(file, ".", 1);
        (void)written;
        close(file);
    }
    if (!at || made != strtoul(at, 0, 10))
        return 0;
    errno = EIO;
    return 1;
}

static int really(const char *name, int file) {
    int (*call)(int) = (int (*)(int))dlsym(RTLD_NEXT, name);
    return call(file);
}

int fsync(int file) { return fails() ? -1 : really("fsync", file); }
int fdatasync(int file) { return fails() ? -1 : really("fdatasync", file); }
