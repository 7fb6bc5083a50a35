// Stands before the C library (LD_PRELOAD) for tools/fuzz: where a program first reads standard input, it waits there and makes a copy of
// the process for each input, which is cheaper than a start. The inputs come from memory that tools/fuzz shares (FUZZ_ROOM, with requests
// on FUZZ_ASK and answers on FUZZ_ANSWER), or from AFL++ by the descriptors of its fork server. AFL++ wants to know which parts of a
// program ran; what it is told in their place is how the run ended: the status, the line, and how many lines the document has.
#define _GNU_SOURCE
#include <stdint.h>
#include <stdlib.h>
#include <string.h>
#include <sys/mman.h>
#include <sys/shm.h>
#include <sys/syscall.h>
#include <sys/wait.h>
#include <unistd.h>

enum { PATIENCE = 20, MAP = 65536, ASKED_BY_AFL = 198, ANSWERED_TO_AFL = 199 };

// One input, and what came of it. `out` has the front of standard output, and `tail` its end.
struct slot {
    uint32_t length, status, out_length, told_length;
    char told[112], out[16384], tail[32];
    char input[20480 - 16 - 112 - 16384 - 32];
};

static struct slot own, *slot = &own;
static uint32_t taken, lines;
static int is_child, has_room;
static uint8_t *map;

static int file_of(const char *name) {
    const char *text = getenv(name);
    return text ? atoi(text) : -1;
}

static uint32_t hash_of(uint32_t hash, const char *from, size_t count) {
    for (size_t at = 0; at < count; at++) hash = (hash ^ (uint8_t)from[at]) * 16777619;
    return hash;
}

// Tells AFL++ how the run ended, and lets a run crash that ended as none may.
static void end(int status, void *unused) {
    (void)unused;
    if (!is_child || has_room) return;
    int whole = status == 0 && slot->out_length > 0 && slot->told_length == 0;
    int refused = (status == 3 && !strncmp(slot->told, "bad page: ", 10)) || (status == 4 && !strncmp(slot->told, "limit: ", 7));
    int one_line = slot->told_length > 0 && memchr(slot->told, '\n', sizeof slot->told) == slot->told + slot->told_length - 1;
    if (!whole && !(refused && one_line && slot->out_length == 0)) abort();
    uint32_t text = hash_of(2166136261u + (uint32_t)status, slot->told, slot->told_length);
    if (map) map[text % MAP] = map[hash_of(lines, "lines", 5) % MAP] = 1;
}

__attribute__((constructor)) static void begin(void) { on_exit(end, NULL); }

static void be_child(struct slot *given) {
    is_child = 1;
    slot = given;
    alarm(PATIENCE);
}

// Answers in the child alone.
static void serve_slots(void) {
    int asked = file_of("FUZZ_ASK"), answered = file_of("FUZZ_ANSWER");
    uint8_t count;
    struct slot *room = mmap(NULL, 256 * sizeof *room, PROT_READ | PROT_WRITE, MAP_SHARED, file_of("FUZZ_ROOM"), 0);
    if (room == MAP_FAILED) _exit(126);
    while (syscall(SYS_read, asked, &count, 1) == 1) {
        for (int at = 0; at <= count; at++) {
            int status = 0;
            pid_t child = fork();
            if (child == 0) return be_child(&room[at]);
            if (child < 0 || waitpid(child, &status, 0) < 0) _exit(125);
            room[at].status = (uint32_t)status;
        }
        if (syscall(SYS_write, answered, &count, 1) != 1) _exit(124);
    }
    _exit(0);
}

// The protocol of AFL++ for a fork server: hello; then for each run a word that asks, the child's number, and its status.
static void serve_afl(void) {
    uint32_t word = 0;
    void *place = shmat(atoi(getenv("__AFL_SHM_ID")), NULL, 0);
    if (place == (void *)-1) _exit(126);
    map = place;
    if (write(ANSWERED_TO_AFL, &word, 4) != 4) _exit(124);
    while (syscall(SYS_read, ASKED_BY_AFL, &word, 4) == 4) {
        int status = 0;
        pid_t child = fork();
        map[0] = 1;
        if (child == 0) {
            close(ASKED_BY_AFL);
            close(ANSWERED_TO_AFL);
            return be_child(&own);
        }
        if (child < 0 || write(ANSWERED_TO_AFL, &child, 4) != 4 || waitpid(child, &status, 0) < 0) _exit(125);
        if (write(ANSWERED_TO_AFL, &status, 4) != 4) _exit(124);
    }
    _exit(0);
}

ssize_t read(int file, void *to, size_t count) {
    if (file == STDIN_FILENO && !is_child) {
        has_room = file_of("FUZZ_ROOM") >= 0;
        if (has_room) serve_slots();
        else if (getenv("__AFL_SHM_ID")) serve_afl();
    }
    if (file != STDIN_FILENO || !is_child || !has_room) return syscall(SYS_read, file, to, count);
    if (count > slot->length - taken) count = slot->length - taken;
    memcpy(to, slot->input + taken, count);
    taken += count;
    return count;
}

static void keep(char *to, size_t room, uint32_t held, const char *from, size_t count) {
    if (held < room) memcpy(to + held, from, count < room - held ? count : room - held);
}

ssize_t write(int file, const void *from, size_t count) {
    if (!is_child || (file != STDOUT_FILENO && file != STDERR_FILENO)) return syscall(SYS_write, file, from, count);
    if (file == STDERR_FILENO) {
        keep(slot->told, sizeof slot->told, slot->told_length, from, count);
        slot->told_length += count;
        return count;
    }
    keep(slot->out, sizeof slot->out, slot->out_length, from, count);
    size_t size = sizeof slot->tail, fresh = count < size ? count : size;
    memmove(slot->tail, slot->tail + fresh, size - fresh);
    memcpy(slot->tail + size - fresh, (const char *)from + count - fresh, fresh);
    for (size_t at = 0; at < count; at++) lines += ((const char *)from)[at] == '\n';
    slot->out_length += count;
    return count;
}

ssize_t __write(int file, const void *from, size_t count) { return write(file, from, count); }
