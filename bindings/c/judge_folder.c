/* A judge: the verdict on each class file of a folder, then what the program does with its input. Use: judge_folder FOLDER */
#include "folder.h"

int main(int argc, char **argv) {
    static struct folder folder;
    static jvhost_verdict_t verdicts[MOST_FILES];
    static uint8_t output[65536];
    if (argc != 2)
        return 2;
    read_folder(argv[1], &folder);

    /* The verdicts alone: nothing runs. */
    want_ok("check", jvhost_check(folder.files, folder.count, verdicts, MOST_FILES));
    for (size_t i = 0; i < folder.count; i++) {
        uint8_t text[64];
        size_t length;
        want_ok("verdict_text", jvhost_verdict_text(&verdicts[i], text, sizeof text, &length));
        printf("%s: %.*s\n", folder.names[i], (int)length, text);
    }

    /* One guest in one call, for at most ten million steps. */
    jvhost_guest guest = jvhost_guest_of(folder.files, folder.count, folder.main, folder.input.bytes, folder.input.length);
    jvhost_seen seen;
    seen.size = sizeof seen;
    want_ok("judge", jvhost_judge(&guest, 10000000, &seen, output, sizeof output));
    printf("steps %llu, throws %llu, end %u\n", (unsigned long long)seen.steps, (unsigned long long)seen.throws, (unsigned)seen.end);
    fwrite(output, 1, seen.output, stdout);
    free_folder(&folder);
    return 0;
}
