/* Runs the program that this is loaded before once for each call of malloc or realloc that it makes: in the first run the first call is
 * refused, in the second the second, and so on, up to the first run that ends before its call. Of each run, standard output gets a line
 * with its status, whether its call was refused, and how many bytes it wrote, and these bytes. With glibc. */
#define _GNU_SOURCE
#include "../../bindings/c/failing.h"
#include <stdio.h>
#include <sys/mman.h>
#include <sys/wait.h>
#include <unistd.h>

/* The most bytes that a run may write, and the most seconds that it may take. */
#define ROOM 1048576
#define SECONDS 60

static int *is_refused;
static char output[ROOM];

static void need(int is_so) {
    if (!is_so)
        _exit(125);
}

static void write_whole(const char *bytes, size_t length) {
    while (length > 0) {
        ssize_t written = write(1, bytes, length);
        need(written > 0);
        bytes += written;
        length -= (size_t)written;
    }
}

/* Waits for a run to end, and tells what came of it. */
static void tell(pid_t child, int reads) {
    char line[64];
    size_t length = 0;
    ssize_t more;
    int status;
    while ((more = read(reads, output + length, ROOM - length)) > 0)
        length += (size_t)more;
    need(more == 0 && length < ROOM && waitpid(child, &status, 0) == child);
    status = WIFEXITED(status) ? WEXITSTATUS(status) : 128 + WTERMSIG(status);
    write_whole(line, (size_t)snprintf(line, sizeof line, "%d %d %zu\n", status, *is_refused, length));
    write_whole(output, length);
}

__attribute__((constructor)) static void begin(void) {
    is_refused = mmap(NULL, sizeof *is_refused, PROT_READ | PROT_WRITE, MAP_SHARED | MAP_ANONYMOUS, -1, 0);
    need(is_refused != MAP_FAILED);
    for (long number = 0;; number++) {
        int ends[2];
        *is_refused = 0;
        need(pipe(ends) == 0);
        pid_t child = fork();
        need(child >= 0);
        if (child == 0) {
            need(dup2(ends[1], 1) == 1 && close(ends[0]) == 0 && close(ends[1]) == 0);
            alarm(SECONDS);
            left = number;
            return;
        }
        close(ends[1]);
        tell(child, ends[0]);
        close(ends[0]);
        if (!*is_refused)
            _exit(0);
    }
}

__attribute__((destructor)) static void end(void) {
    *is_refused = left < 0;
}
