/* What calls cost, for scripts/embed --costs. Use: costs FOLDER CALL COUNT, where FOLDER holds a program of one class that takes six steps;
 * it makes the call so many times, and prints how many nanoseconds they took. What they need is made before, whatever the count is. */
#define _GNU_SOURCE
#include "folder.h"

#include <time.h>

#define GUESTS 64

static struct folder folder;

static double now(void) {
    struct timespec at;
    clock_gettime(CLOCK_MONOTONIC, &at);
    return at.tv_sec * 1e9 + at.tv_nsec;
}

/* What a call needs, and where its answers go. */
static jvhost_t host;
static jvhost_guest guest;
static jvhost_seen seen;
static jvhost_verdict_t verdict;
static uint8_t output[64];
static uint32_t id;
static uint64_t taken;

/* Each makes its call for the i-th time. */
static uint32_t new_host(uint32_t i) {
    return i == 0 ? jvhost_new(&host) : JVHOST_HAS_HOST;
}

static uint32_t admit(uint32_t i) {
    (void)i;
    return jvhost_admit(&host, &guest, &id);
}

static uint32_t turn(uint32_t i) {
    return jvhost_turn(&host, i % GUESTS, 1, &taken);
}

static uint32_t observe(uint32_t i) {
    return jvhost_observe(&host, i % GUESTS, &seen);
}

static uint32_t judge(uint32_t i) {
    (void)i;
    return jvhost_judge(&guest, 1000000, &seen, output, sizeof output);
}

static uint32_t judge_beside(uint32_t i) {
    (void)i;
    return jvhost_judge_beside(&host, &guest, 1000000, &seen, output, sizeof output);
}

static uint32_t check(uint32_t i) {
    (void)i;
    return jvhost_check(guest.files, guest.file_count, &verdict, 1);
}

static uint32_t check_beside(uint32_t i) {
    (void)i;
    return jvhost_check_beside(&host, guest.files, guest.file_count, &verdict, 1);
}

/* Calls by name, and how many guests the host has before. */
static const struct {
    const char *name;
    uint32_t (*call)(uint32_t);
    uint32_t guests;
} calls[] = {{"new", new_host, 0}, {"admit", admit, 0}, {"turn", turn, GUESTS}, {"observe", observe, GUESTS},
             {"judge", judge, 0}, {"judge_beside", judge_beside, 0}, {"check", check, 0}, {"check_beside", check_beside, 0}};

int main(int argc, char **argv) {
    size_t which = 0;
    uint32_t i;
    while (argc == 4 && which < sizeof calls / sizeof *calls && strcmp(calls[which].name, argv[2]) != 0)
        which++;
    if (argc != 4 || which == sizeof calls / sizeof *calls)
        return 2;
    uint32_t count = (uint32_t)strtoul(argv[3], NULL, 10);
    read_folder(argv[1], &folder);
    guest = jvhost_guest_of(folder.files, folder.count, folder.main, folder.input.bytes, folder.input.length);
    seen.size = sizeof seen;
    if (calls[which].call != new_host)
        want_ok("new", jvhost_new_seeded(&host, 1, 2));
    for (i = 0; i < calls[which].guests; i++)
        want_ok("admit", admit(i));
    double begun = now();
    for (i = 0; i < count; i++)
        want_ok(argv[2], calls[which].call(i));
    printf("%.0f\n", now() - begun);
    jvhost_free(&host);
    free_folder(&folder);
    return 0;
}
