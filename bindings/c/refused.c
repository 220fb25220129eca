/* Refused memory: each call of malloc or realloc fails once, in turn, while two guests are admitted, fed and run, and others judged beside
 * them. After a refusal both show what they showed; the call is made again, and in the end they show what they show where nothing fails.
 * Use: refused FOLDER [LIBRARY], where FOLDER holds Echo.class; with the class files of a library the host stands on it, and of the calls
 * each 997th fails. With glibc. */
#define _GNU_SOURCE
#include "check.h"
#include "failing.h"
#include "folder.h"

#define GUESTS 2
#define ROOM 64

/* What a guest shows. */
struct shown {
    jvhost_seen seen;
    size_t length;
    uint8_t output[ROOM];
    jvhost_verdict_t verdict;
};

static struct folder echo, library;
static uint32_t admitted;
static unsigned long refused;

/* Looks at the guests; no allocation of it fails. */
static void look(const jvhost_t *host, struct shown *shown) {
    long failing = left;
    left = -1;
    memset(shown, 0, GUESTS * sizeof *shown);
    for (uint32_t id = 0; id < admitted; id++) {
        shown[id].seen.size = sizeof(jvhost_seen);
        want_ok("observe", jvhost_observe((jvhost_t *)host, id, &shown[id].seen));
        want_ok("output", jvhost_output((jvhost_t *)host, id, 0, shown[id].output, ROOM, &shown[id].length));
        want_ok("verdict", jvhost_verdict((jvhost_t *)host, id, 0, &shown[id].verdict));
    }
    left = failing;
}

static int show_alike(const struct shown *one, const struct shown *other) {
    return memcmp(one, other, GUESTS * sizeof *one) == 0;
}

/* Makes a call, and makes it again where it was refused, with the guests as they were. */
#define DO(call)                                             \
    do {                                                     \
        struct shown before[GUESTS], after[GUESTS];          \
        look(&host, before);                                 \
        uint32_t code = (call);                              \
        if (code == JVHOST_HOST_MEMORY) {                    \
            refused++;                                       \
            look(&host, after);                              \
            CHECK(show_alike(before, after));                \
            code = (call);                                   \
        }                                                    \
        CHECK(code == JVHOST_OK);                            \
    } while (0)

static uint32_t begin(jvhost_t *host) {
    jvhost_library_fault fault = {sizeof fault, 0, 0};
    if (library.count == 0)
        return jvhost_new_seeded(host, 1, 2);
    return jvhost_new_with_library_seeded(host, 1, 2, library.files, library.count, &fault);
}

/* What the guests show when both have echoed what they were fed. */
static void live(struct shown *end) {
    static const char *const lines[] = {"one, ", "eins, ", "two", "zwei", ".", "."};
    jvhost_t host = {{NULL, NULL, 0}, NULL};
    jvhost_guest guest = jvhost_guest_of(echo.files, echo.count, "Echo", NULL, 0);
    jvhost_verdict_t verdict = {7, 7, 7, 7};
    jvhost_seen seen;
    uint8_t room[ROOM];
    uint32_t id, rounds;
    uint64_t taken;
    seen.size = sizeof seen;
    admitted = 0;
    uint32_t code = begin(&host);
    if (code == JVHOST_HOST_MEMORY) {
        refused++;
        code = begin(&host);
    }
    CHECK(code == JVHOST_OK);
    DO(jvhost_admit(&host, &guest, &id));
    admitted = 1;
    DO(jvhost_turn(&host, 0, 3, &taken));
    CHECK(taken == 3);
    DO(jvhost_admit_copy(&host, &guest, &id));
    admitted = 2;
    for (size_t i = 0; i < sizeof lines / sizeof *lines; i++) {
        DO(jvhost_feed(&host, i % 2, (const uint8_t *)lines[i], strlen(lines[i])));
        DO(jvhost_run(&host, 1000, 1, &rounds));
    }
    DO(jvhost_check_seeded(1, 2, echo.files, echo.count, &verdict, 1));
    CHECK(verdict.kind == JVHOST_VERDICT_ACCEPTED);
    verdict.kind = 7;
    DO(jvhost_check_beside(&host, echo.files, echo.count, &verdict, 1));
    CHECK(verdict.kind == JVHOST_VERDICT_ACCEPTED);
    guest.input = jvhost_bytes_of("three.", 6);
    DO(jvhost_judge_beside(&host, &guest, 1000, &seen, room, ROOM));
    CHECK(seen.output == 5 && memcmp(room, "three", 5) == 0 && seen.end == JVHOST_END_RETURNED);
    look(&host, end);
    jvhost_free(&host);
}

int main(int argc, char **argv) {
    struct shown whole[GUESTS], end[GUESTS];
    if (argc != 2 && argc != 3)
        return 2;
    read_folder(argv[1], &echo);
    if (argc == 3)
        read_folder(argv[2], &library);
    if (echo.count != 1 || (argc == 3 && library.count == 0))
        return 2;
    live(whole);
    CHECK(whole[0].length == 8 && memcmp(whole[0].output, "one, two", 8) == 0);
    CHECK(whole[1].length == 10 && memcmp(whole[1].output, "eins, zwei", 10) == 0);
    CHECK(whole[0].seen.end == JVHOST_END_RETURNED && whole[1].seen.end == JVHOST_END_RETURNED);
    unsigned long places = 0;
    unsigned long stride = library.count == 0 ? 1 : 997;
    for (int failed = 1; failed; places += failed ? stride : 0) {
        left = (long)places;
        live(end);
        failed = left < 0;
        left = -1;
        CHECK(show_alike(whole, end));
    }
    printf("%lu places where memory is asked for, %lu calls refused, %d wrong\n", places, refused, wrong);
    free_folder(&echo);
    free_folder(&library);
    return wrong != 0;
}
