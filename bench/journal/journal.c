/* The peer of the journal: the same file by the same calls of the system.
 *
 *   journal append FILE COUNT BYTES   appends COUNT records of BYTES bytes: pwrite, fsync, pwrite, fsync for each
 *   journal make FILE COUNT BYTES     writes a journal of COUNT records at once
 *   journal read FILE                 reads a file into memory
 *
 * It prints the microseconds that this took. */
#define _GNU_SOURCE
#include <fcntl.h>
#include <stdint.h>
#include <stdio.h>
#include <stdlib.h>
#include <string.h>
#include <sys/stat.h>
#include <time.h>
#include <unistd.h>

static void fail(const char *what) {
    perror(what);
    exit(1);
}

static double now(void) {
    struct timespec t;
    clock_gettime(CLOCK_MONOTONIC, &t);
    return t.tv_sec * 1e6 + t.tv_nsec / 1e3;
}

static void put(int fd, const void *bytes, size_t n, off_t at) {
    if (pwrite(fd, bytes, n, at) != (ssize_t)n) fail("pwrite");
}

static size_t record(unsigned char *into, uint32_t n) {
    for (int i = 0; i < 4; i++) into[i] = n >> (8 * i);
    memset(into + 4, 'x', n);
    into[4 + n] = 0;
    return 5 + n;
}

static void append(const char *name, long count, uint32_t n) {
    int fd = open(name, O_RDWR | O_CREAT | O_EXCL, 0666);
    unsigned char *bytes = malloc(5 + n), open_gate = 1;
    off_t end = 0;
    if (fd < 0 || !bytes) fail(name);
    put(fd, "", 1, 0);
    if (fsync(fd)) fail("fsync");
    for (long i = 0; i < count; i++) {
        size_t size = record(bytes, n);
        put(fd, bytes, size, end + 1);
        if (fsync(fd)) fail("fsync");
        put(fd, &open_gate, 1, end);
        if (fsync(fd)) fail("fsync");
        end += size;
    }
}

static void make(const char *name, long count, uint32_t n) {
    FILE *file = fopen(name, "w");
    unsigned char *bytes = malloc(6 + n);
    if (!file || !bytes) fail(name);
    bytes[0] = 1;
    for (long i = 0; i < count; i++) fwrite(bytes, 1, record(bytes + 1, n), file);
    fputc(0, file);
    if (fclose(file)) fail(name);
}

static void read_whole(const char *name) {
    int fd = open(name, O_RDONLY);
    struct stat s;
    if (fd < 0 || fstat(fd, &s)) fail(name);
    char *bytes = malloc(s.st_size);
    for (off_t at = 0; at < s.st_size;) {
        ssize_t n = pread(fd, bytes + at, s.st_size - at, at);
        if (n <= 0) fail("pread");
        at += n;
    }
    free(bytes);
}

int main(int argc, char **argv) {
    double start = now();
    if (argc == 5 && !strcmp(argv[1], "append")) append(argv[2], atol(argv[3]), atol(argv[4]));
    else if (argc == 5 && !strcmp(argv[1], "make")) make(argv[2], atol(argv[3]), atol(argv[4]));
    else if (argc == 3 && !strcmp(argv[1], "read")) read_whole(argv[2]);
    else return 2;
    printf("%.0f\n", now() - start);
    return 0;
}
