/* How many commits a second the disk takes: the bytes of a commit written to a file whose places are there already, and then
   forced. Nothing is computed. */
#define _GNU_SOURCE
#include <fcntl.h>
#include <stdio.h>
#include <stdlib.h>
#include <string.h>
#include <time.h>
#include <unistd.h>

enum { ROOM = 64 * 1024 * 1024, MOST_BYTES = 1 << 20 };

static char bytes[MOST_BYTES];

static void must(int is_well) {
    if (!is_well) {
        perror("sync");
        exit(1);
    }
}

static double now(void) {
    struct timespec time;
    clock_gettime(CLOCK_MONOTONIC, &time);
    return time.tv_sec + time.tv_nsec / 1e9;
}

/* A file of zeros, so that no later write makes it longer. */
static int file_with_room(const char *path) {
    int file = open(path, O_RDWR | O_CREAT | O_EXCL, 0600);
    must(file >= 0);
    for (off_t at = 0; at < ROOM; at += sizeof bytes) {
        must(pwrite(file, bytes, sizeof bytes, at) == sizeof bytes);
    }
    must(fsync(file) == 0);
    return file;
}

int main(int count, char **words) {
    if (count != 5) {
        fprintf(stderr, "sync PATH COMMITS WRITES BYTES: "
                        "commits of so many bytes in so many writes\n");
        return 2;
    }
    int commits = atoi(words[2]), writes = atoi(words[3]), size = atoi(words[4]);
    if (commits < 1 || writes < 1 || size < writes || size > MOST_BYTES) return 2;
    int file = file_with_room(words[1]);
    memset(bytes, 7, sizeof bytes);
    off_t at = 0;
    double start = now();
    for (int commit = 0; commit < commits; commit++) {
        if (at + size > ROOM) at = 0;
        for (int write = 0, done = 0; write < writes; write++) {
            int part = write + 1 < writes ? size / writes : size - done;
            must(pwrite(file, bytes + done, part, at + done) == part);
            done += part;
        }
        at += size;
        must(fdatasync(file) == 0);
    }
    printf("%.0f\n", commits / (now() - start));
    must(close(file) == 0 && unlink(words[1]) == 0);
    return 0;
}
