/* A judge of ordinary Java: a host is made once, on a library for guests, and folders are judged beside it, one after the other; each is
 * alone, and the host keeps none. Use: judge_library LIBRARY FOLDER.. */
#include "folder.h"

static struct folder library, folder;

/* Reads the library into a host without a guest. */
static void begin(jvhost_t *host, const char *path) {
    jvhost_library_fault fault;
    fault.size = sizeof fault;
    read_folder(path, &library);
    uint32_t code = jvhost_new_with_library(host, library.files, library.count, &fault);
    if (code == JVHOST_NO_LIBRARY)
        fprintf(stderr, "%s: fault %u\n", library.names[fault.file], (unsigned)fault.kind);
    want_ok("new_with_library", code);
    free_folder(&library); /* the host has copies */
}

/* What is found of a folder's files, and what the program does with its input in ten million steps. */
static void judge(jvhost_t *host) {
    static jvhost_verdict_t verdicts[MOST_FILES];
    static uint8_t output[65536];
    jvhost_guest guest = jvhost_guest_of(folder.files, folder.count, folder.main, folder.input.bytes, folder.input.length);
    jvhost_seen seen;
    size_t accepted = 0;
    seen.size = sizeof seen;
    guest.cells = 1048576;
    want_ok("check_beside", jvhost_check_beside(host, folder.files, folder.count, verdicts, MOST_FILES));
    for (size_t i = 0; i < folder.count; i++)
        accepted += verdicts[i].kind == JVHOST_VERDICT_ACCEPTED;
    want_ok("judge_beside", jvhost_judge_beside(host, &guest, 10000000, &seen, output, sizeof output));
    printf("%s: %u of %u accepted, steps %llu, end %u\n", folder.main, (unsigned)accepted, (unsigned)folder.count,
           (unsigned long long)seen.steps, (unsigned)seen.end);
    fwrite(output, 1, seen.output, stdout);
}

int main(int argc, char **argv) {
    jvhost_t host = {{NULL, NULL, 0}, NULL};
    if (argc < 3)
        return 2;
    begin(&host, argv[1]);
    for (int i = 2; i < argc; i++) {
        read_folder(argv[i], &folder);
        judge(&host);
        free_folder(&folder);
    }
    jvhost_free(&host);
    return 0;
}
