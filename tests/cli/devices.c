/* Makes what a program asks of the system fail, before which it is loaded (LD_PRELOAD). The environment says what:

     DEVICE_READ="DESCRIPTOR BYTE KIND TIMES"     reads of this descriptor
     DEVICE_WRITE="DESCRIPTOR BYTE KIND TIMES"    writes of this one
     REFUSE_AT=NUMBER                             the allocation with this number, from 1

   Where BYTE bytes have moved in all, the next TIMES calls (all, where it is left out) answer at once an error (KIND is
   `error`), an interruption (`interrupt`) or 0 (`end`); or they move at most so many bytes (KIND is a number). A call
   before that is cut at BYTE. Behind DESCRIPTOR all may be left out.

   In the end the file that DEVICE_RECORD names says how often the two were asked. The file that REFUSE_MARK names is
   there from the first allocation on that is refused, here or by the system. The programs ask for no aligned memory. */
#define _GNU_SOURCE
#include <dlfcn.h>
#include <errno.h>
#include <fcntl.h>
#include <stdio.h>
#include <stdlib.h>
#include <string.h>
#include <unistd.h>

struct device {
    int descriptor;
    size_t at; /* the byte from which the fault is given, */
    char kind[16];
    unsigned long left; /* and how often it still is */
    size_t moved;
    unsigned long asked;
};

static struct device input = {-1, -1, "", -1}, output = {-1, -1, "", -1};

/* How many bytes a call for `size` may move; or -1, with the number of the error in errno. */
static ssize_t allow(struct device *device, size_t size) {
    size_t most = device->moved < device->at ? device->at - device->moved : size;
    if (device->moved >= device->at && device->left > 0) {
        device->left--;
        errno = strcmp(device->kind, "error") == 0 ? EIO : strcmp(device->kind, "interrupt") == 0 ? EINTR : 0;
        if (errno != 0)
            return -1;
        most = strtoul(device->kind, NULL, 10); /* 0 of `end` */
    }
    return size < most ? size : most;
}

/* Calls the next function of this name. Of the device's descriptor it moves at most what its fault allows. */
static ssize_t move(struct device *device, const char *name, int descriptor, void *bytes, size_t size) {
    ssize_t (*real)(int, void *, size_t) = (ssize_t (*)(int, void *, size_t))dlsym(RTLD_NEXT, name);
    ssize_t count;
    if (descriptor != device->descriptor)
        return real(descriptor, bytes, size);
    device->asked++;
    count = allow(device, size);
    if (count > 0)
        count = real(descriptor, bytes, count);
    device->moved += count > 0 ? count : 0;
    return count;
}

ssize_t read(int descriptor, void *bytes, size_t size) {
    return move(&input, "read", descriptor, bytes, size);
}

ssize_t write(int descriptor, const void *bytes, size_t size) {
    return move(&output, "write", descriptor, (void *)bytes, size);
}

static void begin(struct device *device, const char *plan) {
    if (plan != NULL)
        sscanf(plan, "%d %zu %15s %lu", &device->descriptor, &device->at, device->kind, &device->left);
}

__attribute__((constructor)) static void begin_both(void) {
    begin(&input, getenv("DEVICE_READ"));
    begin(&output, getenv("DEVICE_WRITE"));
}

__attribute__((destructor)) static void record(void) {
    const char *path = getenv("DEVICE_RECORD");
    FILE *file = path == NULL ? NULL : fopen(path, "w");
    if (file == NULL)
        return;
    fprintf(file, "%lu reads, %lu writes\n", input.asked, output.asked);
    fclose(file);
}

static int is_refused(void) {
    static unsigned long count;
    const char *at = getenv("REFUSE_AT");

    return at != NULL && ++count == strtoul(at, NULL, 10);
}

static void mark(void) {
    const char *path = getenv("REFUSE_MARK");
    int file = path == NULL ? -1 : open(path, O_WRONLY | O_CREAT, 0600);
    if (file < 0)
        abort();
    close(file);
    errno = ENOMEM;
}

/* The function of this name after this one, with these arguments; or NULL, which is marked, where that is refused. */
#define REFUSABLE(name, arguments, ...)                                     \
    static void *(*real)arguments;                                          \
    if (real == NULL)                                                       \
        real = (void *(*)arguments)dlsym(RTLD_NEXT, name);                  \
    void *block = is_refused() ? NULL : real(__VA_ARGS__);                  \
    if (block == NULL)                                                      \
        mark();                                                             \
    return block

void *malloc(size_t size) {
    REFUSABLE("malloc", (size_t), size);
}

void *realloc(void *block_before, size_t size) {
    REFUSABLE("realloc", (void *, size_t), block_before, size);
}

void *calloc(size_t number, size_t size) {
    REFUSABLE("calloc", (size_t, size_t), number, size);
}
