// Stands before the C library (LD_PRELOAD) and makes a folder a small disk, for tools/test-pages. It is said in the environment:
//
//     FULL_FOLDER    the folder, whose files take room
//     FULL_SIZE      how many bytes they may have together; a write that finds no room fails with ENOSPC
#define _GNU_SOURCE
#include <dirent.h>
#include <errno.h>
#include <fcntl.h>
#include <limits.h>
#include <stdio.h>
#include <stdlib.h>
#include <string.h>
#include <sys/stat.h>
#include <sys/syscall.h>
#include <unistd.h>

// Whether the descriptor is of a file right in the folder.
static int is_inside(int file, const char *folder) {
    char link[64], name[PATH_MAX];
    snprintf(link, sizeof link, "/proc/self/fd/%d", file);
    ssize_t length = readlink(link, name, sizeof name - 1);
    size_t front = strlen(folder);
    return length > (ssize_t)front && !strncmp(name, folder, front) && name[front] == '/';
}

// How many bytes the folder's files have.
static size_t taken(const char *folder) {
    size_t sum = 0;
    DIR *opened = opendir(folder);
    if (!opened) return 0;
    for (struct dirent *entry = readdir(opened); entry; entry = readdir(opened)) {
        struct stat state;
        if (!fstatat(dirfd(opened), entry->d_name, &state, AT_SYMLINK_NOFOLLOW) && S_ISREG(state.st_mode)) sum += state.st_size;
    }
    closedir(opened);
    return sum;
}

ssize_t write(int file, const void *from, size_t count) {
    const char *folder = getenv("FULL_FOLDER"), *size = getenv("FULL_SIZE");
    if (folder && size && count > 0 && is_inside(file, folder)) {
        size_t most = strtoull(size, NULL, 10), there = taken(folder);
        if (there >= most) {
            errno = ENOSPC;
            return -1;
        }
        if (count > most - there) count = most - there;
    }
    return syscall(SYS_write, file, from, count);
}
