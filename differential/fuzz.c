// libFuzzer's harness around a program of this repository that answers a run of cases.
//
// The program's `main`, `read` and `write` are renamed to the three below. It runs on a stack of its own and is entered once: whenever
// it reads standard input and has answered all that it was given, the fuzzer goes on, and comes back with the next case. What it
// prints is dropped; the cases that are kept are answered again by the program as it is built, and by the Rust original.
#include <errno.h>
#include <fcntl.h>
#include <stdint.h>
#include <stdio.h>
#include <stdlib.h>
#include <string.h>
#include <sys/mman.h>
#include <sys/types.h>
#include <ucontext.h>
#include <unistd.h>

#define STACK ((size_t)64 << 20)

int program_main(int argc, char **argv);

static ucontext_t fuzzer, program;
static char line[32];
static const uint8_t *parts[2];
static size_t left[2];

// The case's length, LF and its bytes, part by part.
ssize_t program_read(int fd, void *room, size_t size) {
    if (fd != 0) return read(fd, room, size);
    if (left[0] == 0 && left[1] == 0) swapcontext(&program, &fuzzer);
    int k = left[0] == 0;
    size_t n = left[k] < size ? left[k] : size;
    memcpy(room, parts[k], n);
    parts[k] += n;
    left[k] -= n;
    return (ssize_t)n;
}

ssize_t program_write(int fd, const void *bytes, size_t size) {
    (void)bytes;
    return fd == 1 ? (ssize_t)size : write(fd, bytes, size);
}

static void begin(void) {
    static char *words[] = {"program", NULL};
    program_main(1, words);
    fputs("fuzz.c: the program ended\n", stderr);
    abort();
}

// What the kit's library `os` asks of the system: there are no arguments.
int rattle_open_to_read(const char *path) { return open(path, O_RDONLY | O_CLOEXEC); }
int rattle_errno(void) { return errno; }
void rattle_set_errno(int e) { errno = e; }
size_t rattle_arg_count(void) { return 1; }
ssize_t rattle_arg(size_t i, uint8_t *room, size_t size) {
    (void)i, (void)room, (void)size;
    return -1;
}

int LLVMFuzzerInitialize(int *argc, char ***argv) {
    (void)argc, (void)argv;
    void *stack = mmap(NULL, STACK, PROT_READ | PROT_WRITE, MAP_PRIVATE | MAP_ANONYMOUS, -1, 0);
    if (stack == MAP_FAILED || getcontext(&program) != 0) abort();
    program.uc_stack.ss_sp = stack;
    program.uc_stack.ss_size = STACK;
    program.uc_link = NULL;
    makecontext(&program, begin, 0);
    swapcontext(&fuzzer, &program);
    return 0;
}

int LLVMFuzzerTestOneInput(const uint8_t *bytes, size_t size) {
    left[0] = (size_t)snprintf(line, sizeof line, "%zu\n", size);
    parts[0] = (const uint8_t *)line;
    left[1] = size;
    parts[1] = bytes;
    swapcontext(&fuzzer, &program);
    return 0;
}
