/* Makes a program's input and its standard output weak: they move little at a time, and fail.
 *
 *     cc -shared -fPIC -O1 -o weak_devices.so weak_devices.c -ldl
 *     DEVICE_LOG=calls DEVICE_MOST=16 DEVICE_READ=3:fails \
 *         LD_PRELOAD=$PWD/weak_devices.so PROGRAM WORD..
 *
 * Loaded before the C library, it looks at the calls of read on standard input, or on the file that
 * DEVICE_LIST names once it is opened, and at those of write on standard output. Each moves at most
 * DEVICE_MOST bytes; where that is absent or 0, as many as it would. So do those of read on a
 * second input, the file that DEVICE_SECOND names, which never fails. DEVICE_READ and DEVICE_WRITE
 * are K:HOW, for the K-th such call from 1 on: `fails` makes this call and all later ones fail with
 * EIO, `none` makes them move no byte, `once` makes this one fail and lets the later ones go
 * through, and `interrupted` makes this one fail with EINTR. DEVICE_LOG names a file that gets a
 * line for each of these calls: `r` or `w`, or `s` for the second input, how many bytes were asked
 * for, and what was answered, -1 where it failed. For one thread.
 */
#define _GNU_SOURCE
#include <dlfcn.h>
#include <errno.h>
#include <fcntl.h>
#include <stdarg.h>
#include <stdio.h>
#include <stdlib.h>
#include <string.h>
#include <unistd.h>

struct device {
    const char *variable;
    int descriptor;
    long calls;
    long broken_at;
    char how[16];
};

static struct device input = {"DEVICE_READ", 0, 0, 0, ""};
static struct device output = {"DEVICE_WRITE", 1, 0, 0, ""};
static size_t most;
static const char *list;
static const char *second;
static int second_descriptor = -1;
static int log_file = -1;
static ssize_t (*next_read)(int, void *, size_t);
static ssize_t (*next_write)(int, const void *, size_t);
static int (*next_open)(const char *, int, ...);

static void find_break(struct device *device) {
    const char *text = getenv(device->variable);
    if (text && sscanf(text, "%ld:%15s", &device->broken_at, device->how) != 2) abort();
}

static void begin(void) {
    const char *number = getenv("DEVICE_MOST"), *path = getenv("DEVICE_LOG");
    if (next_open) return;
    next_read = (ssize_t(*)(int, void *, size_t))dlsym(RTLD_NEXT, "read");
    next_write = (ssize_t(*)(int, const void *, size_t))dlsym(RTLD_NEXT, "write");
    next_open = (int (*)(const char *, int, ...))dlsym(RTLD_NEXT, "open");
    most = number ? (size_t)atol(number) : 0;
    list = getenv("DEVICE_LIST");
    second = getenv("DEVICE_SECOND");
    if (list) input.descriptor = -1;
    find_break(&input);
    find_break(&output);
    if (path) log_file = next_open(path, O_WRONLY | O_CREAT | O_TRUNC | O_CLOEXEC, 0600);
    if (path && log_file < 0) abort();
}

static void tell(char kind, size_t asked, ssize_t answer) {
    char line[64];
    int length = snprintf(line, sizeof line, "%c %zu %zd\n", kind, asked, answer);
    int kept = errno;
    if (log_file >= 0 && next_write(log_file, line, (size_t)length) != length) abort();
    errno = kept;
}

/* Whether this call is broken; its answer is then left in `answer`. */
static int is_broken(struct device *device, ssize_t *answer) {
    int is_at = ++device->calls == device->broken_at;
    int is_late = device->broken_at > 0 && device->calls > device->broken_at;
    int stays = !strcmp(device->how, "fails") || !strcmp(device->how, "none");
    if (!is_at && !(is_late && stays)) return 0;
    *answer = strcmp(device->how, "none") ? -1 : 0;
    errno = strcmp(device->how, "interrupted") ? EIO : EINTR;
    return 1;
}

static size_t at_most(size_t asked) { return most && asked > most ? most : asked; }

ssize_t read(int descriptor, void *bytes, size_t asked) {
    ssize_t answer;
    begin();
    if (descriptor >= 0 && descriptor == second_descriptor) {
        answer = next_read(descriptor, bytes, at_most(asked));
        tell('s', asked, answer);
        return answer;
    }
    if (descriptor != input.descriptor) return next_read(descriptor, bytes, asked);
    if (!is_broken(&input, &answer)) answer = next_read(descriptor, bytes, at_most(asked));
    tell('r', asked, answer);
    return answer;
}

ssize_t write(int descriptor, const void *bytes, size_t asked) {
    ssize_t answer;
    begin();
    if (descriptor != output.descriptor) return next_write(descriptor, bytes, asked);
    if (!is_broken(&output, &answer)) answer = next_write(descriptor, bytes, at_most(asked));
    tell('w', asked, answer);
    return answer;
}

int open(const char *path, int flags, ...) {
    va_list more;
    int descriptor;
    begin();
    va_start(more, flags);
    descriptor = next_open(path, flags, va_arg(more, int));
    va_end(more);
    if (list && !strcmp(path, list)) input.descriptor = descriptor;
    if (second && !strcmp(path, second)) second_descriptor = descriptor;
    return descriptor;
}
