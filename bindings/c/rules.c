/* A rule engine: one program over a thousand inputs, each alone in a host of its own. Use: rules FOLDER, where FOLDER holds the calculator
 * of examples/java, which prints the result of each line. */
#include "folder.h"

int main(int argc, char **argv) {
    static struct folder folder;
    uint8_t output[64];
    unsigned right = 0;
    unsigned long long steps = 0;
    if (argc != 2)
        return 2;
    read_folder(argv[1], &folder);
    for (unsigned i = 0; i < 1000; i++) {
        char input[32], wanted[64];
        snprintf(input, sizeof input, "%u*%u+1\n", i, i);
        snprintf(wanted, sizeof wanted, "%u\n1 lines, 0 faults\n", i * i + 1);
        jvhost_guest guest = jvhost_guest_of(folder.files, folder.count, folder.main, input, strlen(input));
        jvhost_seen seen;
        seen.size = sizeof seen;
        want_ok("judge", jvhost_judge(&guest, 1000000, &seen, output, sizeof output));
        right += seen.end == JVHOST_END_RETURNED && seen.output == strlen(wanted) && memcmp(output, wanted, seen.output) == 0;
        steps += seen.steps;
    }
    printf("1000 inputs, %u as they should be, %llu steps\n", right, steps);
    free_folder(&folder);
    return right != 1000;
}
