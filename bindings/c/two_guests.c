/* A plugin host: two guests in one host, which are fed and run by turns. Use: two_guests FOLDER, where FOLDER holds Echo.class, which
 * writes what it reads, up to a full stop. */
#include "folder.h"

/* Prints what a guest has written since it was shown last. */
static void show(jvhost_t *host, uint32_t id, size_t *shown) {
    uint8_t room[256];
    size_t copied;
    want_ok("output", jvhost_output(host, id, *shown, room, sizeof room, &copied));
    *shown += copied;
    jvhost_seen seen;
    seen.size = sizeof seen;
    want_ok("observe", jvhost_observe(host, id, &seen));
    printf("guest %u wrote \"%.*s\"%s\n", (unsigned)id, (int)copied, room, seen.end == JVHOST_END_RUNNING ? "" : ", and has ended");
}

int main(int argc, char **argv) {
    static struct folder folder;
    static const char *const lines[] = {"one, ", "eins, ", "two", "zwei", ".", "."};
    jvhost_t host = {{NULL, NULL, 0}, NULL};
    uint32_t ids[2], rounds;
    size_t shown[2] = {0, 0};
    if (argc != 2)
        return 2;
    read_folder(argv[1], &folder);
    jvhost_guest guest = jvhost_guest_of(folder.files, folder.count, "Echo", NULL, 0);
    want_ok("new", jvhost_new(&host));
    for (int i = 0; i < 2; i++)
        want_ok("admit_copy", jvhost_admit_copy(&host, &guest, &ids[i]));
    free_folder(&folder); /* the host has copies */

    for (size_t i = 0; i < sizeof lines / sizeof *lines; i++) {
        uint32_t id = ids[i % 2];
        want_ok("feed", jvhost_feed(&host, id, (const uint8_t *)lines[i], strlen(lines[i])));
        want_ok("run", jvhost_run(&host, 1000, 1, &rounds)); /* a round: each guest takes at most 1,000 steps */
        show(&host, id, &shown[i % 2]);
    }
    jvhost_free(&host);
    return 0;
}
