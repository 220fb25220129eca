/* jvhost: judges and runs strangers' Java class files, each guest counted to the step. C99 and C++.
 *
 * A host holds up to 64 guests that do not trust each other. A guest is its class files, the name of its main class, its input, and a
 * budget. It runs only while a call lets it take steps; no call waits for a guest, and none starts a thread. What a guest shows is what
 * its own files, input, feeds and budget give alone, whatever other guests there are.
 *
 *     jvhost_t host = {0};
 *     if (jvhost_new(&host) != JVHOST_OK) ...
 *     uint32_t guest, rounds;
 *     jvhost_guest brings = jvhost_guest_of(files, count, "Main", input, length);
 *     if (jvhost_admit_copy(&host, &brings, &guest) != JVHOST_OK) ...
 *     jvhost_run(&host, 1000, 10000, &rounds);
 *     ...
 *     jvhost_free(&host);
 *
 * Link with -ljvhost; the library needs the C library alone.
 *
 * WHAT EACH CALL ANSWERS: an enum jvhost_code, except where it says otherwise. With JVHOST_OK it has done what stands at the call, and
 * written what its out pointers are for. With any other code it has changed nothing, neither the host nor what an out pointer leads to.
 *
 * WHAT A CALLER OWES, at each call, and nothing checks:
 *   - No pointer is null, but where the call says so. A pointer to bytes may not be null even where there are none of them:
 *     jvhost_bytes_of makes such a null a pointer to nothing.
 *   - Bytes that a call reads do not change while it runs. What an out pointer leads to is the caller's alone, and overlaps nothing else
 *     that is passed.
 *   - A jvhost_t begins as {0}. It is changed by these calls alone, it is not copied and used twice, and one call at a time uses it. It
 *     may go from thread to thread, in order, as by a lock or a join; so may a host with guests of either form of admission. Threads with
 *     a host each need no lock.
 *   - malloc, realloc and free are of one allocator, whose blocks are aligned to 16 bytes.
 *   - No call is made from a signal handler, nor in the child of a fork of a process with several threads.
 */
#ifndef JVHOST_H
#define JVHOST_H

#include <stddef.h>
#include <stdint.h>
#include <string.h>

#ifdef __cplusplus
extern "C" {
#endif

/* The version that this header is of; jvhost_version() is that of the library, and they are to be the same. */
#define JVHOST_VERSION "0.1.0"

/* ---- answers */

enum jvhost_code {
    JVHOST_OK = 0,                   /* it is done */
    JVHOST_NO_HOST = 1,              /* the handle holds no host: it is {0}, or was freed */
    JVHOST_HAS_HOST = 2,             /* jvhost_new: the handle holds a host already */
    JVHOST_NO_GUEST = 3,             /* no guest of the host has this number */
    JVHOST_NO_FILE = 4,              /* the guest has no file with this number */
    JVHOST_NO_FILES = 5,             /* a guest brings at least one file */
    JVHOST_TOO_MANY_FILES = 6,       /* a guest brings at most 1,024 files */
    JVHOST_FILE_TOO_LONG = 7,        /* a file has at most 4,194,304 bytes */
    JVHOST_INPUT_TOO_LONG = 8,       /* the input and all feeds have at most 16,777,216 bytes together */
    JVHOST_BUDGET_OUT_OF_RANGE = 9,  /* cells 64 to 16,777,216, words 64 to 1,048,576, output at most 1,048,576 */
    JVHOST_TOO_MANY_GUESTS = 10,     /* a host holds at most 64 guests */
    JVHOST_HOST_MEMORY = 11,         /* malloc or realloc refused */
    JVHOST_WRONG_SIZE = 12,          /* a field `size` is not that of the struct: header and library are of different versions */
    JVHOST_NO_ROOM = 13,             /* jvhost_check, .._beside: there is room for fewer verdicts than there are files */
    JVHOST_WRONG_VERDICT = 14,       /* jvhost_verdict_text: no call of this library tells such a verdict */
    JVHOST_NULL_BYTES = 15,          /* jvhost_admit_copy: a null pointer to bytes of some length */
    JVHOST_NO_RANDOM = 16,           /* the system gave no random bytes for hashing (getrandom) */
    JVHOST_OLD_PROCESSOR = 17,       /* the processor lacks what the library was compiled for: x86-64-v2 (SSE4.2, POPCNT, SSSE3) */
    JVHOST_LIBRARY_BROKEN = 18,      /* jvhost_admit, .._beside: a class of the library is not accepted beside the guest's files */
    JVHOST_NO_LIBRARY = 19,          /* jvhost_new_with_library: the files are no library; the fault says why */
    JVHOST_NO_PLACE = 20             /* jvhost_place: nothing was thrown, or where no instruction of a method can be told */
};

/* A text for a code, in English, with no full stop. It is static. For a number that is no code it says so. */
const char *jvhost_code_text(uint32_t code);

/* The version of the library. It is static. */
const char *jvhost_version(void);

/* ---- what a guest brings */

typedef struct {
    const uint8_t *bytes;
    size_t length;
} jvhost_bytes;

typedef struct {
    size_t size;               /* sizeof(jvhost_guest) */
    const jvhost_bytes *files; /* the class files, file_count of them */
    size_t file_count;
    jvhost_bytes main;         /* the name of the main class, as "game/Main" */
    jvhost_bytes input;        /* what it can read at once; more may come by jvhost_feed */
    uint32_t cells;            /* cells for objects; an object takes one for each word of its fields, an array two and its components */
    uint32_t words;            /* words for frames; a frame takes max_locals, max_stack and 4 */
    uint32_t output;           /* bytes that it may write */
} jvhost_guest;

static const uint8_t jvhost_nothing[1] = {0};

/* Bytes at a pointer, which may be null where there are none. */
static inline jvhost_bytes jvhost_bytes_of(const void *bytes, size_t length) {
    jvhost_bytes of;
    of.bytes = bytes == NULL && length == 0 ? jvhost_nothing : (const uint8_t *)bytes;
    of.length = length;
    return of;
}

/* A guest with the budget that the program `jvhost run` gives: 65,536 of each. `main` ends with a NUL; `input` may be null where it is
 * empty. What the pointers lead to is not copied. */
static inline jvhost_guest jvhost_guest_of(const jvhost_bytes *files, size_t file_count, const char *main, const void *input,
                                           size_t input_length) {
    jvhost_guest guest;
    guest.size = sizeof(jvhost_guest);
    guest.files = files;
    guest.file_count = file_count;
    guest.main = jvhost_bytes_of(main, strlen(main));
    guest.input = jvhost_bytes_of(input, input_length);
    guest.cells = guest.words = guest.output = 65536;
    return guest;
}

/* ---- what is told of a guest */

enum jvhost_end {
    JVHOST_END_RUNNING = 0,  /* it takes steps */
    JVHOST_END_RETURNED = 1, /* main returned */
    JVHOST_END_THREW = 2,    /* an object was thrown and not caught; jvhost_end_class has its class */
    JVHOST_END_NO_MAIN = 3   /* there is no main method, or its class's file is one that cannot be loaded */
};

typedef struct {
    size_t size;     /* the caller sets it: sizeof(jvhost_seen) */
    uint64_t steps;  /* the steps that it took */
    uint64_t throws; /* how many objects were thrown */
    size_t output;   /* the bytes that it wrote so far */
    size_t verdicts; /* how many verdicts there are: one for each of its files */
    uint32_t end;    /* enum jvhost_end */
} jvhost_seen;

enum jvhost_verdict_kind {
    JVHOST_VERDICT_ACCEPTED = 0,     /* each method with code is type safe */
    JVHOST_VERDICT_VERIFY = 1,       /* a method is not: `method`, `offset` and `rule` say which rule it breaks, and where */
    JVHOST_VERDICT_VERSION = 2,      /* the bytes begin like a class file of a version other than 50.0, 51.0 and 52.0 */
    JVHOST_VERDICT_FORMAT = 3,       /* the bytes are no class file */
    JVHOST_VERDICT_UNSUPPORTED = 4,  /* a class file with more than the host's profile has */
    JVHOST_VERDICT_RESERVED = 5,     /* the class has a name that is the system's */
    JVHOST_VERDICT_DUPLICATE = 6,    /* the class has the name of an earlier file's class */
    JVHOST_VERDICT_CIRCULAR = 7,     /* the class is among its own superclasses and superinterfaces */
    JVHOST_VERDICT_NO_SUPER = 8,     /* a direct super is not there, or cannot be loaded */
    JVHOST_VERDICT_WRONG_KIND = 9,   /* the superclass is an interface, or a direct superinterface is none */
    JVHOST_VERDICT_NO_ACCESS = 10,   /* a direct super is not open to the class */
    JVHOST_VERDICT_FINAL_BROKEN = 11 /* the superclass is final, or a method overrides a final one */
};

/* Where an object was thrown: how long the names are, and the offset. */
typedef struct {
    size_t size;       /* the caller sets it: sizeof(jvhost_place_t) */
    size_t class_name; /* the bytes of the class's name, as "java/lang/String" */
    size_t method;     /* those of the method's name */
    size_t descriptor; /* those of its descriptor, as "(I)J" */
    uint32_t offset;   /* of the instruction, in the method's code, in bytes */
} jvhost_place_t;

/* The verdict on a file. With a kind other than JVHOST_VERDICT_VERIFY the other three are 0. */
typedef struct {
    uint32_t kind;   /* enum jvhost_verdict_kind */
    uint32_t method; /* the method's place in the file, the first at 0 */
    uint32_t offset; /* the offset in its code, in bytes */
    uint32_t rule;   /* 1 to 8, as docs/RULES.md counts them */
} jvhost_verdict_t;

/* ---- hosts */

/* A handle. Its fields are the library's: the caller writes {0} to begin with, and nothing else. */
typedef struct {
    struct {
        void *kept, *owned;
        uint32_t holds;
    } host;
    void *copies;
} jvhost_t;

/* A host without a guest. JVHOST_HAS_HOST, JVHOST_HOST_MEMORY, JVHOST_NO_RANDOM, JVHOST_OLD_PROCESSOR. It asks the system for random bytes,
 * as jvhost_check and jvhost_judge do, which may wait in the first moments after the system has started, and only then. */
uint32_t jvhost_new(jvhost_t *host);

/* The same with a seed for the host's hash tables, for tests. Strangers who know the seed can make the tables slow, and nothing else.
 * JVHOST_HAS_HOST, JVHOST_HOST_MEMORY. The processor is not asked. */
uint32_t jvhost_new_seeded(jvhost_t *host, uint64_t seed, uint64_t more_seed);

/* What is wrong with files that are no library. */
enum jvhost_library_fault_kind {
    JVHOST_LIBRARY_VERSION = 0,          /* the bytes begin like a class file of a version other than 50.0, 51.0 and 52.0 */
    JVHOST_LIBRARY_FORMAT = 1,           /* the bytes are no class file */
    JVHOST_LIBRARY_UNSUPPORTED = 2,      /* a class file with more than the host's profile has */
    JVHOST_LIBRARY_RESERVED = 3,         /* a class below host/ */
    JVHOST_LIBRARY_DUPLICATE = 4,        /* the class has the name of an earlier file's class */
    JVHOST_LIBRARY_MAIN = 5,             /* the class has a main([String)V, which is the guest's */
    JVHOST_LIBRARY_HEADER = 6,           /* a class of the system's name with other flags, supers or fields */
    JVHOST_LIBRARY_INITIALIZER = 7,      /* a class of the system's name with a <clinit> */
    JVHOST_LIBRARY_ABOVE_ARRAYS = 8,     /* java/lang/Cloneable or java/io/Serializable with methods */
    JVHOST_LIBRARY_NO_STRING = 9,        /* java/lang/String is missing */
    JVHOST_LIBRARY_NO_COMPARABLE = 10,   /* java/lang/Comparable is missing */
    JVHOST_LIBRARY_NO_CHAR_SEQUENCE = 11 /* java/lang/CharSequence is missing */
};

typedef struct {
    size_t size;   /* the caller sets it: sizeof(jvhost_library_fault) */
    size_t file;   /* the file that has it, the first at 0; 0 where none has */
    uint32_t kind; /* enum jvhost_library_fault_kind */
} jvhost_library_fault;

/* A host without a guest, whose guests all stand on a library: class files that stand in front of each guest's own, and lend the system's
 * classes methods (docs/LIBRARY.md). The files are copied. They are judged with each guest's, which is refused where one of them is not
 * accepted: JVHOST_LIBRARY_BROKEN. Refused by the first of JVHOST_WRONG_SIZE, JVHOST_HAS_HOST, JVHOST_NO_FILES, JVHOST_TOO_MANY_FILES,
 * JVHOST_FILE_TOO_LONG and JVHOST_NO_LIBRARY that applies, and for JVHOST_HOST_MEMORY; JVHOST_NO_RANDOM and JVHOST_OLD_PROCESSOR come before
 * these. With JVHOST_NO_LIBRARY *fault says why, and it is else as it was. */
uint32_t jvhost_new_with_library(jvhost_t *host, const jvhost_bytes *files, size_t file_count, jvhost_library_fault *fault);
uint32_t jvhost_new_with_library_seeded(jvhost_t *host, uint64_t seed, uint64_t more_seed, const jvhost_bytes *files, size_t file_count,
                                        jvhost_library_fault *fault);

/* Ends a host, with its guests and all copies. What jvhost_admit was given is the caller's again. The handle is {0} then, and may hold a
 * new host. For a handle of {0} it does nothing. */
void jvhost_free(jvhost_t *host);

/* ---- guests */

/* Judges a guest's files and admits it, at its start; *id is its number, the first is 0. A file that is not accepted is no reason to
 * refuse: its verdict says so, and what uses its class throws. Refused by the first of JVHOST_WRONG_SIZE, JVHOST_NO_HOST, JVHOST_NO_FILES,
 * JVHOST_TOO_MANY_FILES, JVHOST_FILE_TOO_LONG, JVHOST_INPUT_TOO_LONG, JVHOST_BUDGET_OUT_OF_RANGE, JVHOST_TOO_MANY_GUESTS,
 * JVHOST_LIBRARY_BROKEN and JVHOST_HOST_MEMORY that applies.
 *
 * Owed: the array of files, the bytes of each, main and input stay where they are, unchanged, until jvhost_free of this host returns.
 * `guest` itself need not. */
uint32_t jvhost_admit(jvhost_t *host, const jvhost_guest *guest, uint32_t *id);

/* The same with a copy of all bytes, which is the host's: nothing has to stay. Null pointers to no bytes are taken; JVHOST_NULL_BYTES for
 * others. Where the copy lacks memory, JVHOST_HOST_MEMORY comes before the reasons behind JVHOST_FILE_TOO_LONG. */
uint32_t jvhost_admit_copy(jvhost_t *host, const jvhost_guest *guest, uint32_t *id);

/* A guest takes at most so many steps; *taken is how many: fewer only where it has ended, or has taken 2^64 - 1. JVHOST_NO_HOST,
 * JVHOST_NO_GUEST. */
uint32_t jvhost_turn(jvhost_t *host, uint32_t id, uint32_t steps, uint64_t *taken);

/* At most so many rounds, in each of which each guest takes at most so many steps, in order of admission; *taken is how many rounds: fewer
 * only where all guests have ended. JVHOST_NO_HOST. */
uint32_t jvhost_run(jvhost_t *host, uint32_t steps, uint32_t rounds, uint32_t *taken);

/* The bytes join behind the guest's input: it can read them from its next step on. They are copied, once; no bytes are no feed. Refused by
 * the first of JVHOST_NO_HOST, JVHOST_NO_GUEST, JVHOST_INPUT_TOO_LONG and JVHOST_HOST_MEMORY that applies. */
uint32_t jvhost_feed(jvhost_t *host, uint32_t id, const uint8_t *bytes, size_t length);

/* ---- what a guest shows */

/* JVHOST_WRONG_SIZE, JVHOST_NO_HOST, JVHOST_NO_GUEST. Takes no memory. */
uint32_t jvhost_observe(jvhost_t *host, uint32_t id, jvhost_seen *seen);

/* The bytes that it wrote, from a place on, as many as there are and as fit; *copied is how many. JVHOST_NO_HOST, JVHOST_NO_GUEST,
 * JVHOST_HOST_MEMORY. */
uint32_t jvhost_output(jvhost_t *host, uint32_t id, size_t from, uint8_t *room, size_t room_length, size_t *copied);

/* The name of the class of the last object that was thrown, as "java/lang/VerifyError": its front, as much as fits, with no NUL;
 * *length is that of the whole name, 0 where nothing was thrown. A name has at most 65,535 bytes. JVHOST_NO_HOST, JVHOST_NO_GUEST,
 * JVHOST_HOST_MEMORY. */
uint32_t jvhost_last(jvhost_t *host, uint32_t id, uint8_t *room, size_t room_length, size_t *length);

/* The same of the class of the object by which the guest ended, with the length 0 where its end is not JVHOST_END_THREW. */
uint32_t jvhost_end_class(jvhost_t *host, uint32_t id, uint8_t *room, size_t room_length, size_t *length);

/* Where the last object was thrown, caught or not: at an instruction of this method. The names stand in `room` one behind the other, that of
 * the class, that of the method, and its descriptor, with nothing between them and no NUL: their front, as much as fits; *place has the
 * lengths of the whole names. Each has at most 65,535 bytes. JVHOST_WRONG_SIZE, JVHOST_NO_HOST, JVHOST_NO_GUEST, JVHOST_NO_PLACE,
 * JVHOST_HOST_MEMORY. */
uint32_t jvhost_place(jvhost_t *host, uint32_t id, jvhost_place_t *place, uint8_t *room, size_t room_length);

/* The verdict on one of its files, the first at 0. JVHOST_NO_HOST, JVHOST_NO_GUEST, JVHOST_NO_FILE. Takes no memory. */
uint32_t jvhost_verdict(jvhost_t *host, uint32_t id, size_t file, jvhost_verdict_t *verdict);

/* ---- a guest that is judged and not kept, on the library of a host; the host is as it was */

/* Judges files as those of one guest of the host, and runs nothing: verdicts[i] is that on file i, beside the host's library, if it has one.
 * The host's guests are not looked at. `room` is how many verdicts there is room for. Refused by the first of JVHOST_NO_HOST,
 * JVHOST_NO_FILES, JVHOST_TOO_MANY_FILES, JVHOST_FILE_TOO_LONG, JVHOST_NO_ROOM, JVHOST_LIBRARY_BROKEN and JVHOST_HOST_MEMORY that
 * applies. */
uint32_t jvhost_check_beside(jvhost_t *host, const jvhost_bytes *files, size_t file_count, jvhost_verdict_t *verdicts, size_t room);

/* One guest in one call, on the library of the host: it is admitted to a host of its own, so that it takes none of the 64 places, takes at
 * most so many steps, and is seen; `output` has the front of what it wrote, as much as fits. What `guest` leads to has to stay for this
 * call alone. Refused as by jvhost_admit, and for jvhost_seen's size. */
uint32_t jvhost_judge_beside(jvhost_t *host, const jvhost_guest *guest, uint32_t steps, jvhost_seen *seen, uint8_t *output,
                             size_t output_length);

/* ---- without a host: any thread, at any time */

/* A verdict as `jvhost check` prints it, as "Verify method 0 offset 3 rule 6": its front, as much as fits, with no NUL; *length is that
 * of the whole text, at most 64. JVHOST_WRONG_VERDICT, JVHOST_HOST_MEMORY. */
uint32_t jvhost_verdict_text(const jvhost_verdict_t *verdict, uint8_t *room, size_t room_length, size_t *length);

/* Judges files as those of one guest, and runs nothing: verdicts[i] is that on file i. `room` is how many verdicts there is room for.
 * Refused by the first of JVHOST_NO_FILES, JVHOST_TOO_MANY_FILES, JVHOST_FILE_TOO_LONG, JVHOST_NO_ROOM and JVHOST_HOST_MEMORY that
 * applies; JVHOST_NO_RANDOM and JVHOST_OLD_PROCESSOR before these. */
uint32_t jvhost_check(const jvhost_bytes *files, size_t file_count, jvhost_verdict_t *verdicts, size_t room);
uint32_t jvhost_check_seeded(uint64_t seed, uint64_t more_seed, const jvhost_bytes *files, size_t file_count, jvhost_verdict_t *verdicts,
                             size_t room);

/* One guest in one call: it is admitted to a host of its own, takes at most so many steps, and is seen; `output` has the front of what it
 * wrote, as much as fits. Refused as by jvhost_admit, and for jvhost_seen's size, but that JVHOST_HOST_MEMORY may come before all but
 * JVHOST_WRONG_SIZE; JVHOST_NO_RANDOM and JVHOST_OLD_PROCESSOR come before these. */
uint32_t jvhost_judge(const jvhost_guest *guest, uint32_t steps, jvhost_seen *seen, uint8_t *output, size_t output_length);
uint32_t jvhost_judge_seeded(uint64_t seed, uint64_t more_seed, const jvhost_guest *guest, uint32_t steps, jvhost_seen *seen,
                             uint8_t *output, size_t output_length);

#ifdef __cplusplus
}
#endif
#endif
