/* The part of libjvhost that no proof covers: texts, the seed for hashing, the processor, and copies of what guests bring. Everything else
 * is the crate libjvhost, whose functions these call. */
#define _GNU_SOURCE
#include "jvhost.h"

#include <cpuid.h>
#include <errno.h>
#include <stdlib.h>
#include <sys/random.h>

/* Ends the host of a handle, if it holds one: of the crate. */
void jvhost_end(jvhost_t *host);

/* ---- texts */

static const char *const code_texts[] = {
    "done",
    "the handle holds no host",
    "the handle holds a host already",
    "no guest has this number",
    "the guest has no file with this number",
    "there are no class files",
    "there are more than 1,024 class files",
    "a class file has more than 4,194,304 bytes",
    "the input has more than 16,777,216 bytes",
    "a number of the budget is out of its range",
    "the host holds 64 guests",
    "memory was refused",
    "a size field is not that of the struct",
    "there is room for fewer verdicts than there are files",
    "no verdict is told by these numbers",
    "a pointer to bytes is null",
    "the system gave no random bytes",
    "the processor is older than x86-64-v2",
    "a class of the library is not accepted beside the guest's files",
    "the files are no library",
    "no place of a throw can be told",
};

const char *jvhost_code_text(uint32_t code) {
    return code < sizeof code_texts / sizeof *code_texts ? code_texts[code] : "no code of this library";
}

const char *jvhost_version(void) {
    return JVHOST_VERSION;
}

/* ---- what a first call needs */

/* x86-64-v2, for which the crate is compiled (System V ABI for x86-64, 3.1.1): SSE3, SSSE3, CMPXCHG16B, SSE4.1, SSE4.2, POPCNT and LAHF. */
static int is_old_processor(void) {
    const unsigned of_leaf_1 = bit_SSE3 | bit_SSSE3 | bit_CMPXCHG16B | bit_SSE4_1 | bit_SSE4_2 | bit_POPCNT;
    unsigned a, b, c, d;
    if (!__get_cpuid(1, &a, &b, &c, &d) || (c & of_leaf_1) != of_leaf_1)
        return 1;
    return !__get_cpuid(0x80000001, &a, &b, &c, &d) || !(c & bit_LAHF_LM);
}

/* A seed that strangers don't know. */
static uint32_t seed_of(uint64_t seed[2]) {
    ssize_t got;
    if (is_old_processor())
        return JVHOST_OLD_PROCESSOR;
    do
        got = getrandom(seed, 2 * sizeof *seed, 0);
    while (got < 0 && errno == EINTR);
    return got == (ssize_t)(2 * sizeof *seed) ? JVHOST_OK : JVHOST_NO_RANDOM;
}

uint32_t jvhost_new(jvhost_t *host) {
    uint64_t seed[2];
    uint32_t code = seed_of(seed);
    return code == JVHOST_OK ? jvhost_new_seeded(host, seed[0], seed[1]) : code;
}

uint32_t jvhost_new_with_library(jvhost_t *host, const jvhost_bytes *files, size_t file_count, jvhost_library_fault *fault) {
    uint64_t seed[2];
    uint32_t code = seed_of(seed);
    return code == JVHOST_OK ? jvhost_new_with_library_seeded(host, seed[0], seed[1], files, file_count, fault) : code;
}

uint32_t jvhost_check(const jvhost_bytes *files, size_t file_count, jvhost_verdict_t *verdicts, size_t room) {
    uint64_t seed[2];
    uint32_t code = seed_of(seed);
    return code == JVHOST_OK ? jvhost_check_seeded(seed[0], seed[1], files, file_count, verdicts, room) : code;
}

uint32_t jvhost_judge(const jvhost_guest *guest, uint32_t steps, jvhost_seen *seen, uint8_t *output, size_t output_length) {
    uint64_t seed[2];
    uint32_t code = seed_of(seed);
    return code == JVHOST_OK ? jvhost_judge_seeded(seed[0], seed[1], guest, steps, seen, output, output_length) : code;
}

/* ---- copies */

/* A block that a host holds: the one before it, then the list of files, then all bytes. */
struct copy {
    struct copy *before;
    jvhost_bytes files[];
};

static int is_null(jvhost_bytes bytes) {
    return bytes.bytes == NULL && bytes.length != 0;
}

static int has_null(const jvhost_guest *guest) {
    int found = is_null(guest->main) || is_null(guest->input) || (guest->files == NULL && guest->file_count != 0);
    for (size_t i = 0; !found && i < guest->file_count; i++)
        found = is_null(guest->files[i]);
    return found;
}

/* The bytes of a guest in all, or 0 where they are more than a process can have. */
static size_t bytes_in_all(const jvhost_guest *guest) {
    size_t all = sizeof(struct copy);
    if (__builtin_add_overflow(all, guest->main.length, &all) || __builtin_add_overflow(all, guest->input.length, &all))
        return 0;
    for (size_t i = 0; i < guest->file_count; i++)
        if (__builtin_add_overflow(all, sizeof(jvhost_bytes), &all) || __builtin_add_overflow(all, guest->files[i].length, &all))
            return 0;
    return all;
}

static jvhost_bytes copied(uint8_t **to, jvhost_bytes bytes) {
    jvhost_bytes made = {*to, bytes.length};
    if (bytes.length != 0)
        memcpy(*to, bytes.bytes, bytes.length);
    *to += bytes.length;
    return made;
}

/* Whether the host refuses these files by their number or their lengths, so that no copy is made for nothing: jvhost_admit says why. */
static int are_refused(const jvhost_guest *guest) {
    int refused = guest->file_count == 0 || guest->file_count > 1024 || guest->input.length > 16777216;
    for (size_t i = 0; !refused && i < guest->file_count; i++)
        refused = guest->files[i].length > 4194304;
    return refused;
}

uint32_t jvhost_admit_copy(jvhost_t *host, const jvhost_guest *guest, uint32_t *id) {
    if (guest->size != sizeof(jvhost_guest))
        return JVHOST_WRONG_SIZE;
    if (!host->host.holds)
        return JVHOST_NO_HOST;
    if (has_null(guest))
        return JVHOST_NULL_BYTES;
    jvhost_guest own = *guest;
    if (are_refused(guest)) {
        own.main = own.input = jvhost_bytes_of(NULL, 0);
        own.input.length = guest->input.length;
        if (guest->file_count == 0)
            own.files = &own.main;
        return jvhost_admit(host, &own, id);
    }
    size_t size = bytes_in_all(guest);
    struct copy *copy = size != 0 ? malloc(size) : NULL;
    if (copy == NULL)
        return JVHOST_HOST_MEMORY;
    uint8_t *to = (uint8_t *)&copy->files[guest->file_count];
    for (size_t i = 0; i < guest->file_count; i++)
        copy->files[i] = copied(&to, guest->files[i]);
    own.files = copy->files;
    own.main = copied(&to, guest->main);
    own.input = copied(&to, guest->input);
    uint32_t code = jvhost_admit(host, &own, id);
    if (code != JVHOST_OK) {
        free(copy);
        return code;
    }
    copy->before = host->copies;
    host->copies = copy;
    return JVHOST_OK;
}

void jvhost_free(jvhost_t *host) {
    jvhost_end(host);
    struct copy *copy = host->copies;
    while (copy != NULL) {
        struct copy *before = copy->before;
        free(copy);
        copy = before;
    }
    memset(host, 0, sizeof *host);
}
