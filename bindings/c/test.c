/* A test of each function of jvhost.h, and of each misuse that a call can see. Use: test FOLDER [LIBRARY PROGRAM], where FOLDER holds
 * Hi.class, and PROGRAM holds a program that runs on the library of the class files in LIBRARY. */
#include "check.h"
#include "folder.h"

static struct folder hi, library, program;

static jvhost_guest hi_guest(void) {
    return jvhost_guest_of(hi.files, hi.count, "Hi", NULL, 0);
}

static jvhost_seen unseen(void) {
    jvhost_seen seen;
    memset(&seen, 0x55, sizeof seen);
    seen.size = sizeof seen;
    return seen;
}

static void texts(void) {
    CHECK(strcmp(jvhost_version(), JVHOST_VERSION) == 0);
    CHECK(strcmp(jvhost_code_text(JVHOST_OK), "done") == 0);
    CHECK(strcmp(jvhost_code_text(99), "no code of this library") == 0);
    for (uint32_t code = JVHOST_OK; code <= JVHOST_NO_PLACE; code++)
        for (uint32_t other = JVHOST_OK; other < code; other++)
            CHECK(strcmp(jvhost_code_text(code), jvhost_code_text(other)) != 0);
    CHECK(sizeof(jvhost_guest) == 72);
    CHECK(sizeof(jvhost_seen) == 48);
    CHECK(sizeof(jvhost_library_fault) == 24);
    CHECK(sizeof(jvhost_place_t) == 40);
}

static jvhost_place_t nowhere(void) {
    jvhost_place_t place = {sizeof(jvhost_place_t), 7, 7, 7, 7};
    return place;
}

static void one_guest(void) {
    jvhost_t host = {{NULL, NULL, 0}, NULL};
    uint32_t id = 7, rounds = 7;
    uint64_t taken = 7;
    size_t count = 7;
    uint8_t room[16];
    jvhost_seen seen = unseen();
    jvhost_verdict_t verdict = {7, 7, 7, 7};
    jvhost_place_t place = nowhere();
    jvhost_guest guest = hi_guest();
    CHECK(jvhost_new(&host) == JVHOST_OK);
    CHECK(jvhost_admit(&host, &guest, &id) == JVHOST_OK && id == 0);
    CHECK(jvhost_admit_copy(&host, &guest, &id) == JVHOST_OK && id == 1);
    CHECK(jvhost_observe(&host, 0, &seen) == JVHOST_OK);
    CHECK(seen.size == sizeof seen && seen.steps == 0 && seen.throws == 0 && seen.output == 0 && seen.verdicts == 1);
    CHECK(seen.end == JVHOST_END_RUNNING);
    CHECK(jvhost_turn(&host, 0, 2, &taken) == JVHOST_OK && taken == 2);
    CHECK(jvhost_turn(&host, 0, 1000, &taken) == JVHOST_OK && taken == 4);
    CHECK(jvhost_turn(&host, 0, 1000, &taken) == JVHOST_OK && taken == 0);
    CHECK(jvhost_run(&host, 1, 100, &rounds) == JVHOST_OK && rounds == 6);
    CHECK(jvhost_run(&host, 1, 100, &rounds) == JVHOST_OK && rounds == 0);
    for (id = 0; id < 2; id++) {
        CHECK(jvhost_observe(&host, id, &seen) == JVHOST_OK);
        CHECK(seen.steps == 6 && seen.throws == 0 && seen.output == 2 && seen.verdicts == 1 && seen.end == JVHOST_END_RETURNED);
        memset(room, 'x', sizeof room);
        CHECK(jvhost_output(&host, id, 0, room, sizeof room, &count) == JVHOST_OK && count == 2 && memcmp(room, "Hixx", 4) == 0);
        CHECK(jvhost_output(&host, id, 1, room, 1, &count) == JVHOST_OK && count == 1 && memcmp(room, "iixx", 4) == 0);
        CHECK(jvhost_output(&host, id, 0, room, 0, &count) == JVHOST_OK && count == 0);
        CHECK(jvhost_output(&host, id, 3, room, sizeof room, &count) == JVHOST_OK && count == 0);
        CHECK(jvhost_output(&host, id, SIZE_MAX, room, sizeof room, &count) == JVHOST_OK && count == 0);
        CHECK(jvhost_last(&host, id, room, sizeof room, &count) == JVHOST_OK && count == 0);
        CHECK(jvhost_end_class(&host, id, room, sizeof room, &count) == JVHOST_OK && count == 0);
        CHECK(jvhost_place(&host, id, &place, room, sizeof room) == JVHOST_NO_PLACE && place.offset == 7 && room[0] == 'i');
        CHECK(jvhost_verdict(&host, id, 0, &verdict) == JVHOST_OK);
        CHECK(verdict.kind == JVHOST_VERDICT_ACCEPTED && verdict.method == 0 && verdict.offset == 0 && verdict.rule == 0);
    }
    CHECK(jvhost_feed(&host, 0, room, 0) == JVHOST_OK);
    CHECK(jvhost_feed(&host, 0, room, sizeof room) == JVHOST_OK);
    jvhost_free(&host);
    CHECK(host.host.kept == NULL && host.host.owned == NULL && host.host.holds == 0 && host.copies == NULL);
    jvhost_free(&host);
    CHECK(jvhost_new_seeded(&host, 1, 2) == JVHOST_OK);
    jvhost_free(&host);
}

/* Hi with a main that calls before it has pushed what it passes: its bipush, two bytes, is made two nops. */
static size_t broken_hi(uint8_t *to) {
    static const uint8_t code[] = {0x10, 'H', 0xb8};
    memcpy(to, hi.files[0].bytes, hi.files[0].length);
    for (size_t i = 0; i + sizeof code <= hi.files[0].length; i++)
        if (memcmp(to + i, code, sizeof code) == 0)
            to[i] = to[i + 1] = 0;
    return hi.files[0].length;
}

static void verdicts_and_throws(void) {
    static uint8_t bytes[4096];
    uint8_t text[80];
    uint8_t name[80];
    size_t count = 0;
    jvhost_verdict_t verdicts[3];
    jvhost_bytes files[3];
    files[0] = hi.files[0];
    files[1] = jvhost_bytes_of(bytes, broken_hi(bytes));
    files[2] = jvhost_bytes_of(NULL, 0);
    CHECK(jvhost_check(files, 1, verdicts, 3) == JVHOST_OK && verdicts[0].kind == JVHOST_VERDICT_ACCEPTED);
    CHECK(jvhost_check(files, 3, verdicts, 3) == JVHOST_OK);
    CHECK(verdicts[0].kind == JVHOST_VERDICT_ACCEPTED && verdicts[1].kind == JVHOST_VERDICT_DUPLICATE);
    CHECK(verdicts[2].kind == JVHOST_VERDICT_FORMAT);
    CHECK(jvhost_check_seeded(1, 2, files + 1, 1, verdicts, 1) == JVHOST_OK);
    CHECK(verdicts[0].kind == JVHOST_VERDICT_VERIFY && verdicts[0].method == 0 && verdicts[0].offset == 2 && verdicts[0].rule == 6);
    CHECK(jvhost_verdict_text(&verdicts[0], text, sizeof text, &count) == JVHOST_OK);
    CHECK(count == 31 && memcmp(text, "Verify method 0 offset 2 rule 6", 31) == 0);

    jvhost_t host = {{NULL, NULL, 0}, NULL};
    uint32_t id = 7, rounds = 7;
    jvhost_seen seen = unseen();
    jvhost_verdict_t verdict = {7, 7, 7, 7};
    jvhost_guest guest = jvhost_guest_of(files + 1, 1, "Hi", NULL, 0);
    CHECK(jvhost_new(&host) == JVHOST_OK);
    CHECK(jvhost_admit(&host, &guest, &id) == JVHOST_OK && id == 0);
    CHECK(jvhost_verdict(&host, 0, 0, &verdict) == JVHOST_OK && memcmp(&verdict, &verdicts[0], sizeof verdict) == 0);
    CHECK(jvhost_run(&host, 1000, 10, &rounds) == JVHOST_OK);
    CHECK(jvhost_observe(&host, 0, &seen) == JVHOST_OK && seen.end == JVHOST_END_THREW && seen.throws == 1);
    jvhost_place_t place = nowhere();
    CHECK(jvhost_place(&host, 0, &place, name, sizeof name) == JVHOST_NO_PLACE && place.method == 7);
    jvhost_free(&host);
    guest.files = files;
    guest.output = 1;
    CHECK(jvhost_new(&host) == JVHOST_OK && jvhost_admit(&host, &guest, &id) == JVHOST_OK);
    CHECK(jvhost_run(&host, 1000, 10, &rounds) == JVHOST_OK);
    memset(name, 'x', sizeof name);
    CHECK(jvhost_place(&host, 0, &place, name, sizeof name) == JVHOST_OK && place.size == sizeof place);
    CHECK(place.class_name == 2 && place.method == 4 && place.descriptor == 22 && place.offset == 7);
    CHECK(memcmp(name, "Himain([Ljava/lang/String;)Vx", 29) == 0);
    memset(name, 'x', sizeof name);
    place = nowhere();
    CHECK(jvhost_place(&host, 0, &place, name, 3) == JVHOST_OK && place.descriptor == 22 && memcmp(name, "Himx", 4) == 0);
    place.size--;
    CHECK(jvhost_place(&host, 0, &place, name, 3) == JVHOST_WRONG_SIZE);
    jvhost_free(&host);
    guest = jvhost_guest_of(files + 1, 1, "Hi", NULL, 0);
    CHECK(jvhost_new(&host) == JVHOST_OK && jvhost_admit(&host, &guest, &id) == JVHOST_OK);
    CHECK(jvhost_run(&host, 1000, 10, &rounds) == JVHOST_OK);
    CHECK(jvhost_last(&host, 0, name, sizeof name, &count) == JVHOST_OK);
    CHECK(count == 21 && memcmp(name, "java/lang/VerifyError", 21) == 0);
    memset(name, 'x', sizeof name);
    CHECK(jvhost_end_class(&host, 0, name, 4, &count) == JVHOST_OK && count == 21 && memcmp(name, "javax", 5) == 0);
    CHECK(jvhost_end_class(&host, 0, name, 0, &count) == JVHOST_OK && count == 21);
    jvhost_free(&host);
    guest.main = jvhost_bytes_of("None", 4);
    seen = unseen();
    CHECK(jvhost_judge(&guest, 10, &seen, name, sizeof name) == JVHOST_OK && seen.end == JVHOST_END_NO_MAIN && seen.steps == 0);
}

static void all_verdict_texts(void) {
    static const char *const names[] = {"Accepted", "Verify method 65535 offset 4294967295 rule 8", "Version", "Format", "Unsupported",
        "Reserved", "Duplicate", "Circular", "NoSuper", "WrongKind", "NoAccess", "FinalBroken"};
    uint8_t text[80];
    size_t count = 0;
    for (uint32_t kind = 0; kind < 12; kind++) {
        jvhost_verdict_t verdict = {kind, 0, 0, 0};
        if (kind == JVHOST_VERDICT_VERIFY) {
            verdict.method = 65535;
            verdict.offset = 4294967295u;
            verdict.rule = 8;
        }
        memset(text, 'x', sizeof text);
        CHECK(jvhost_verdict_text(&verdict, text, sizeof text, &count) == JVHOST_OK);
        CHECK(count == strlen(names[kind]) && memcmp(text, names[kind], count) == 0 && text[count] == 'x');
        CHECK(jvhost_verdict_text(&verdict, text, 3, &count) == JVHOST_OK && count == strlen(names[kind]));
    }
    const jvhost_verdict_t none[] = {{12, 0, 0, 0}, {0, 1, 0, 0}, {5, 0, 1, 0}, {5, 0, 0, 1}, {1, 0, 0, 0}, {1, 0, 0, 9}, {1, 65536, 0, 1}};
    for (size_t i = 0; i < sizeof none / sizeof *none; i++) {
        count = 7;
        CHECK(jvhost_verdict_text(&none[i], text, sizeof text, &count) == JVHOST_WRONG_VERDICT && count == 7);
    }
}

static void alone(void) {
    jvhost_guest guest = hi_guest();
    jvhost_seen seen = unseen();
    uint8_t room[4] = "xxx";
    CHECK(jvhost_judge(&guest, 1000, &seen, room, 3) == JVHOST_OK);
    CHECK(seen.steps == 6 && seen.end == JVHOST_END_RETURNED && seen.output == 2 && memcmp(room, "Hix", 3) == 0);
    CHECK(jvhost_judge_seeded(1, 2, &guest, 3, &seen, room, 0) == JVHOST_OK && seen.steps == 3 && seen.end == JVHOST_END_RUNNING);
    guest.size--;
    seen = unseen();
    jvhost_seen before = seen;
    CHECK(jvhost_judge(&guest, 1000, &seen, room, 3) == JVHOST_WRONG_SIZE && memcmp(&seen, &before, sizeof seen) == 0);
    guest = hi_guest();
    guest.file_count = 0;
    CHECK(jvhost_judge(&guest, 1000, &seen, room, 3) == JVHOST_NO_FILES && memcmp(&seen, &before, sizeof seen) == 0);
    guest = hi_guest();
    seen.size = 0;
    CHECK(jvhost_judge(&guest, 1000, &seen, room, 3) == JVHOST_WRONG_SIZE && seen.size == 0);
}

/* A guest that is judged beside a host's library, and not kept: without a library as without a host; and each misuse. */
static void beside(void) {
    static const uint8_t one[1] = {0};
    static uint8_t bytes[4096];
    static jvhost_bytes many[1025];
    jvhost_t host = {{NULL, NULL, 0}, NULL};
    jvhost_guest guest = hi_guest();
    jvhost_seen seen = unseen(), before = seen, kept = seen;
    uint8_t room[4] = "xxx";
    uint32_t id;
    uint64_t taken;
    jvhost_verdict_t verdicts[3] = {{7, 7, 7, 7}, {7, 7, 7, 7}, {7, 7, 7, 7}};
    jvhost_bytes files[3], longer = {one, 4194305};
    files[0] = hi.files[0];
    files[1] = jvhost_bytes_of(bytes, broken_hi(bytes));
    files[2] = jvhost_bytes_of(NULL, 0);
    for (size_t i = 0; i < 1025; i++)
        many[i] = hi.files[0];

    /* a handle that holds no host */
    CHECK(jvhost_check_beside(&host, files, 3, verdicts, 3) == JVHOST_NO_HOST && verdicts[0].kind == 7);
    CHECK(jvhost_check_beside(&host, files, 0, verdicts, 0) == JVHOST_NO_HOST);
    CHECK(jvhost_judge_beside(&host, &guest, 1000, &seen, room, 3) == JVHOST_NO_HOST);
    guest.size = 0;
    CHECK(jvhost_judge_beside(&host, &guest, 1000, &seen, room, 3) == JVHOST_WRONG_SIZE);
    guest = hi_guest();
    CHECK(memcmp(&seen, &before, sizeof seen) == 0 && memcmp(room, "xxx", 3) == 0);

    /* a full host: what is judged takes no place, and its guests are as they were */
    CHECK(jvhost_new(&host) == JVHOST_OK);
    for (int i = 0; i < 64; i++)
        CHECK(jvhost_admit(&host, &guest, &id) == JVHOST_OK);
    CHECK(jvhost_turn(&host, 63, 2, &taken) == JVHOST_OK && jvhost_observe(&host, 63, &kept) == JVHOST_OK);
    CHECK(jvhost_check_beside(&host, files, 3, verdicts, 3) == JVHOST_OK);
    CHECK(verdicts[0].kind == JVHOST_VERDICT_ACCEPTED && verdicts[1].kind == JVHOST_VERDICT_DUPLICATE);
    CHECK(verdicts[2].kind == JVHOST_VERDICT_FORMAT);
    CHECK(jvhost_check_beside(&host, files + 1, 1, verdicts, 3) == JVHOST_OK && verdicts[1].kind == JVHOST_VERDICT_DUPLICATE);
    CHECK(verdicts[0].kind == JVHOST_VERDICT_VERIFY && verdicts[0].method == 0 && verdicts[0].offset == 2 && verdicts[0].rule == 6);
    CHECK(jvhost_judge_beside(&host, &guest, 1000, &seen, room, 3) == JVHOST_OK && memcmp(room, "Hix", 3) == 0);
    CHECK(seen.size == sizeof seen && seen.steps == 6 && seen.throws == 0 && seen.output == 2 && seen.verdicts == 1);
    CHECK(seen.end == JVHOST_END_RETURNED);
    CHECK(jvhost_judge_beside(&host, &guest, 3, &seen, room, 0) == JVHOST_OK && seen.steps == 3 && seen.end == JVHOST_END_RUNNING);
    CHECK(jvhost_judge_beside(&host, &guest, 1000, &seen, room, 1) == JVHOST_OK && seen.output == 2 && memcmp(room, "Hix", 3) == 0);

    /* what is refused, the first reason first */
    verdicts[0].kind = 7;
    CHECK(jvhost_check_beside(&host, many, 0, verdicts, 1) == JVHOST_NO_FILES);
    CHECK(jvhost_check_beside(&host, many, 1025, verdicts, 1) == JVHOST_TOO_MANY_FILES);
    CHECK(jvhost_check_beside(&host, &longer, 1, verdicts, 0) == JVHOST_FILE_TOO_LONG);
    CHECK(jvhost_check_beside(&host, many, 2, verdicts, 1) == JVHOST_NO_ROOM && verdicts[0].kind == 7);
    seen = before;
    guest.size++;
    CHECK(jvhost_judge_beside(&host, &guest, 1000, &seen, room, 3) == JVHOST_WRONG_SIZE);
    guest = hi_guest();
    seen.size = 0;
    CHECK(jvhost_judge_beside(&host, &guest, 1000, &seen, room, 3) == JVHOST_WRONG_SIZE && seen.size == 0);
    seen = before;
    guest.file_count = 0;
    CHECK(jvhost_judge_beside(&host, &guest, 1000, &seen, room, 3) == JVHOST_NO_FILES);
    guest.files = many;
    guest.file_count = 1025;
    CHECK(jvhost_judge_beside(&host, &guest, 1000, &seen, room, 3) == JVHOST_TOO_MANY_FILES);
    guest.files = &longer;
    guest.file_count = 1;
    CHECK(jvhost_judge_beside(&host, &guest, 1000, &seen, room, 3) == JVHOST_FILE_TOO_LONG);
    guest = hi_guest();
    guest.input.length = 16777217;
    CHECK(jvhost_judge_beside(&host, &guest, 1000, &seen, room, 3) == JVHOST_INPUT_TOO_LONG);
    guest = hi_guest();
    guest.cells = 63;
    CHECK(jvhost_judge_beside(&host, &guest, 1000, &seen, room, 3) == JVHOST_BUDGET_OUT_OF_RANGE);
    CHECK(memcmp(&seen, &before, sizeof seen) == 0 && memcmp(room, "Hix", 3) == 0);
    CHECK(jvhost_observe(&host, 63, &seen) == JVHOST_OK && memcmp(&seen, &kept, sizeof seen) == 0);
    jvhost_free(&host);
    verdicts[0].kind = 7;
    CHECK(jvhost_check_beside(&host, files, 1, verdicts, 1) == JVHOST_NO_HOST && verdicts[0].kind == 7);
}

/* Verdicts and a judge beside a library: as of a guest of the same host; and a library that doesn't stand. */
static void beside_library(void) {
    jvhost_t host = {{NULL, NULL, 0}, NULL};
    jvhost_library_fault fault = {sizeof fault, 7, 7};
    jvhost_seen seen = unseen(), other = unseen();
    static uint8_t room[65536], other_room[65536];
    uint32_t id, rounds;
    size_t count = 0;
    jvhost_verdict_t verdict = {7, 7, 7, 7};
    jvhost_guest guest = jvhost_guest_of(program.files, program.count, program.main, program.input.bytes, program.input.length);
    CHECK(jvhost_new_with_library(&host, library.files, library.count, &fault) == JVHOST_OK);
    CHECK(jvhost_check(program.files, 1, &verdict, 1) == JVHOST_OK && verdict.kind != JVHOST_VERDICT_ACCEPTED);
    CHECK(jvhost_check_beside(&host, program.files, 1, &verdict, 1) == JVHOST_OK && verdict.kind == JVHOST_VERDICT_ACCEPTED);
    CHECK(jvhost_judge_beside(&host, &guest, 10000000, &seen, room, sizeof room) == JVHOST_OK && seen.end == JVHOST_END_RETURNED);
    CHECK(jvhost_admit(&host, &guest, &id) == JVHOST_OK && id == 0 && jvhost_run(&host, 10000000, 1, &rounds) == JVHOST_OK);
    CHECK(jvhost_observe(&host, 0, &other) == JVHOST_OK && other.steps == seen.steps && other.throws == seen.throws);
    CHECK(other.output == seen.output && other.verdicts == seen.verdicts && other.end == seen.end && seen.output > 0);
    CHECK(jvhost_output(&host, 0, 0, other_room, sizeof other_room, &count) == JVHOST_OK && count == seen.output);
    CHECK(memcmp(room, other_room, count) == 0);
    CHECK(jvhost_judge(&guest, 10000000, &other, room, 0) == JVHOST_OK && other.steps != seen.steps);
    jvhost_free(&host);

    /* without a class that others stand on */
    struct folder *fewer = (struct folder *)calloc(1, sizeof *fewer);
    if (fewer == NULL)
        return;
    for (size_t i = 0; i < library.count; i++)
        if (strncmp(library.names[i], "java.util.AbstractMap", 21) != 0)
            fewer->files[fewer->count++] = library.files[i];
    CHECK(fewer->count < library.count);
    CHECK(jvhost_new_with_library(&host, fewer->files, fewer->count, &fault) == JVHOST_OK);
    verdict.kind = 7;
    seen = other = unseen();
    guest = hi_guest();
    CHECK(jvhost_check_beside(&host, hi.files, 1, &verdict, 1) == JVHOST_LIBRARY_BROKEN && verdict.kind == 7);
    CHECK(jvhost_check_beside(&host, hi.files, 1, &verdict, 0) == JVHOST_NO_ROOM);
    CHECK(jvhost_judge_beside(&host, &guest, 10, &seen, room, 1) == JVHOST_LIBRARY_BROKEN && memcmp(&seen, &other, sizeof seen) == 0);
    guest.cells = 1;
    CHECK(jvhost_judge_beside(&host, &guest, 10, &seen, room, 1) == JVHOST_BUDGET_OUT_OF_RANGE);
    guest = hi_guest();
    CHECK(jvhost_admit(&host, &guest, &id) == JVHOST_LIBRARY_BROKEN);
    jvhost_free(&host);
    free(fewer);
}

/* Each misuse of a call on a handle gives its code, and nothing is written. */
static void no_host(void) {
    jvhost_t host = {{NULL, NULL, 0}, NULL};
    uint32_t id = 7, rounds = 7;
    uint64_t taken = 7;
    size_t count = 7;
    uint8_t room[4] = "xxx";
    jvhost_seen seen = unseen(), before = seen;
    jvhost_place_t place = nowhere();
    jvhost_verdict_t verdict = {7, 7, 7, 7};
    jvhost_guest guest = hi_guest();
    CHECK(jvhost_admit(&host, &guest, &id) == JVHOST_NO_HOST && id == 7);
    CHECK(jvhost_admit_copy(&host, &guest, &id) == JVHOST_NO_HOST && id == 7);
    CHECK(jvhost_turn(&host, 0, 1, &taken) == JVHOST_NO_HOST && taken == 7);
    CHECK(jvhost_run(&host, 1, 1, &rounds) == JVHOST_NO_HOST && rounds == 7);
    CHECK(jvhost_feed(&host, 0, room, 3) == JVHOST_NO_HOST);
    CHECK(jvhost_observe(&host, 0, &seen) == JVHOST_NO_HOST && memcmp(&seen, &before, sizeof seen) == 0);
    CHECK(jvhost_output(&host, 0, 0, room, 3, &count) == JVHOST_NO_HOST && count == 7 && memcmp(room, "xxx", 3) == 0);
    CHECK(jvhost_last(&host, 0, room, 3, &count) == JVHOST_NO_HOST && count == 7);
    CHECK(jvhost_end_class(&host, 0, room, 3, &count) == JVHOST_NO_HOST && count == 7);
    CHECK(jvhost_place(&host, 0, &place, room, 3) == JVHOST_NO_HOST && place.offset == 7);
    CHECK(jvhost_verdict(&host, 0, 0, &verdict) == JVHOST_NO_HOST && verdict.kind == 7);
    jvhost_free(&host);
    CHECK(host.host.holds == 0);
}

static void misuses(void) {
    jvhost_t host = {{NULL, NULL, 0}, NULL};
    uint32_t id = 7, i;
    uint64_t taken = 7;
    size_t count = 7;
    uint8_t room[4] = "xxx";
    jvhost_seen seen = unseen(), before = seen;
    jvhost_place_t place = nowhere();
    jvhost_verdict_t verdict = {7, 7, 7, 7};
    jvhost_guest guest = hi_guest();
    CHECK(jvhost_new(&host) == JVHOST_OK);
    CHECK(jvhost_new(&host) == JVHOST_HAS_HOST);
    CHECK(jvhost_new_seeded(&host, 1, 2) == JVHOST_HAS_HOST);

    /* a number beyond the guests */
    CHECK(jvhost_turn(&host, 0, 1, &taken) == JVHOST_NO_GUEST && taken == 7);
    CHECK(jvhost_feed(&host, 4294967295u, room, 3) == JVHOST_NO_GUEST);
    CHECK(jvhost_feed(&host, 0, room, 0) == JVHOST_NO_GUEST);
    CHECK(jvhost_observe(&host, 0, &seen) == JVHOST_NO_GUEST && memcmp(&seen, &before, sizeof seen) == 0);
    CHECK(jvhost_output(&host, 0, 0, room, 3, &count) == JVHOST_NO_GUEST && count == 7 && memcmp(room, "xxx", 3) == 0);
    CHECK(jvhost_last(&host, 0, room, 3, &count) == JVHOST_NO_GUEST && count == 7);
    CHECK(jvhost_end_class(&host, 0, room, 3, &count) == JVHOST_NO_GUEST && count == 7);
    CHECK(jvhost_place(&host, 0, &place, room, 3) == JVHOST_NO_GUEST && place.offset == 7);
    CHECK(jvhost_verdict(&host, 0, 0, &verdict) == JVHOST_NO_GUEST && verdict.kind == 7);

    /* a struct of another version */
    guest.size = sizeof guest + 8;
    CHECK(jvhost_admit(&host, &guest, &id) == JVHOST_WRONG_SIZE && id == 7);
    CHECK(jvhost_admit_copy(&host, &guest, &id) == JVHOST_WRONG_SIZE && id == 7);

    /* limits, at each form of admission; of a file that is too long the length alone is read */
    static const uint8_t one[1] = {0};
    static jvhost_bytes many[1025];
    for (i = 0; i < 1025; i++)
        many[i] = hi.files[0];
    uint32_t (*const admit[])(jvhost_t *, const jvhost_guest *, uint32_t *) = {jvhost_admit, jvhost_admit_copy};
    for (i = 0; i < 2; i++) {
        guest = hi_guest();
        guest.file_count = 0;
        CHECK(admit[i](&host, &guest, &id) == JVHOST_NO_FILES && id == 7);
        guest.files = many;
        guest.file_count = 1025;
        CHECK(admit[i](&host, &guest, &id) == JVHOST_TOO_MANY_FILES && id == 7);
        jvhost_bytes longer = {one, 4194305};
        guest.files = &longer;
        guest.file_count = 1;
        CHECK(admit[i](&host, &guest, &id) == JVHOST_FILE_TOO_LONG && id == 7);
        guest = hi_guest();
        guest.input.length = 16777217;
        CHECK(admit[i](&host, &guest, &id) == JVHOST_INPUT_TOO_LONG && id == 7);
        guest = hi_guest();
        guest.cells = 63;
        CHECK(admit[i](&host, &guest, &id) == JVHOST_BUDGET_OUT_OF_RANGE && id == 7);
        guest = hi_guest();
        guest.words = 1048577;
        CHECK(admit[i](&host, &guest, &id) == JVHOST_BUDGET_OUT_OF_RANGE && id == 7);
        guest = hi_guest();
        guest.output = 1048577;
        CHECK(admit[i](&host, &guest, &id) == JVHOST_BUDGET_OUT_OF_RANGE && id == 7);
    }

    /* null pointers to bytes, which only the copying form looks for */
    jvhost_bytes null = {NULL, 1};
    guest = hi_guest();
    guest.files = &null;
    CHECK(jvhost_admit_copy(&host, &guest, &id) == JVHOST_NULL_BYTES && id == 7);
    guest.files = NULL;
    CHECK(jvhost_admit_copy(&host, &guest, &id) == JVHOST_NULL_BYTES && id == 7);
    guest = hi_guest();
    guest.main = null;
    CHECK(jvhost_admit_copy(&host, &guest, &id) == JVHOST_NULL_BYTES && id == 7);
    guest = hi_guest();
    guest.input = null;
    CHECK(jvhost_admit_copy(&host, &guest, &id) == JVHOST_NULL_BYTES && id == 7);
    guest.input.length = 0;
    null.length = 0;
    guest.main = null;
    guest.files = &null;
    CHECK(jvhost_admit_copy(&host, &guest, &id) == JVHOST_OK && id == 0);

    /* the guest of no bytes that was admitted has one verdict, and no file behind it */
    CHECK(jvhost_verdict(&host, 0, 0, &verdict) == JVHOST_OK && verdict.kind == JVHOST_VERDICT_FORMAT);
    verdict.kind = 7;
    CHECK(jvhost_verdict(&host, 0, 1, &verdict) == JVHOST_NO_FILE && verdict.kind == 7);
    CHECK(jvhost_verdict(&host, 0, SIZE_MAX, &verdict) == JVHOST_NO_FILE && verdict.kind == 7);
    seen.size = 40;
    CHECK(jvhost_observe(&host, 0, &seen) == JVHOST_WRONG_SIZE && seen.steps == before.steps);

    /* more guests than a host holds, and more bytes than an input has */
    guest = hi_guest();
    for (i = 1; i < 64; i++)
        CHECK(jvhost_admit(&host, &guest, &id) == JVHOST_OK && id == i);
    CHECK(jvhost_admit(&host, &guest, &id) == JVHOST_TOO_MANY_GUESTS && id == 63);
    CHECK(jvhost_admit_copy(&host, &guest, &id) == JVHOST_TOO_MANY_GUESTS && id == 63);
    uint8_t *much = (uint8_t *)calloc(16777216, 1);
    if (much != NULL) {
        CHECK(jvhost_feed(&host, 1, much, 16777216) == JVHOST_OK);
        CHECK(jvhost_feed(&host, 1, much, 1) == JVHOST_INPUT_TOO_LONG);
        CHECK(jvhost_feed(&host, 1, much, 0) == JVHOST_OK);
        free(much);
    }
    jvhost_free(&host);

    /* files for verdicts alone */
    jvhost_verdict_t verdicts[1] = {{7, 7, 7, 7}};
    CHECK(jvhost_check(many, 0, verdicts, 1) == JVHOST_NO_FILES);
    CHECK(jvhost_check(many, 1025, verdicts, 1) == JVHOST_TOO_MANY_FILES);
    CHECK(jvhost_check(many, 2, verdicts, 1) == JVHOST_NO_ROOM);
    jvhost_bytes longer = {one, 4194305};
    CHECK(jvhost_check(&longer, 1, verdicts, 0) == JVHOST_FILE_TOO_LONG);
    CHECK(verdicts[0].kind == 7);
}

/* What is no library, and what is wrong with it. */
static void no_library(void) {
    jvhost_t host = {{NULL, NULL, 0}, NULL};
    jvhost_library_fault fault = {8, 7, 7};
    jvhost_bytes files[2] = {hi.files[0], {jvhost_nothing, 0}};
    static jvhost_bytes many[1025];
    CHECK(jvhost_new_with_library(&host, files, 1, &fault) == JVHOST_WRONG_SIZE && fault.kind == 7);
    fault.size = sizeof fault;
    CHECK(jvhost_new_with_library(&host, files, 0, &fault) == JVHOST_NO_FILES && fault.kind == 7);
    CHECK(jvhost_new_with_library(&host, many, 1025, &fault) == JVHOST_TOO_MANY_FILES && fault.kind == 7);
    CHECK(jvhost_new_with_library(&host, files, 1, &fault) == JVHOST_NO_LIBRARY);
    CHECK(fault.kind == JVHOST_LIBRARY_MAIN && fault.file == 0 && fault.size == sizeof fault);
    CHECK(jvhost_new_with_library_seeded(&host, 1, 2, files + 1, 1, &fault) == JVHOST_NO_LIBRARY);
    CHECK(fault.kind == JVHOST_LIBRARY_FORMAT && fault.file == 0);
    CHECK(jvhost_new(&host) == JVHOST_OK);
    CHECK(jvhost_new_with_library(&host, files, 1, &fault) == JVHOST_HAS_HOST && fault.kind == JVHOST_LIBRARY_FORMAT);
    jvhost_free(&host);
}

int main(int argc, char **argv) {
    if (argc == 2 || argc == 4)
        read_folder(argv[1], &hi);
    if (argc == 4) {
        read_folder(argv[2], &library);
        read_folder(argv[3], &program);
    }
    if (hi.count != 1 || (argc == 4 && (library.count == 0 || program.count != 1))) {
        fprintf(stderr, "use: %s FOLDER [LIBRARY PROGRAM], where FOLDER holds Hi.class, and PROGRAM one class file\n", argv[0]);
        return 2;
    }
    texts();
    one_guest();
    verdicts_and_throws();
    all_verdict_texts();
    alone();
    no_host();
    misuses();
    no_library();
    beside();
    if (argc == 4)
        beside_library();
    free_folder(&hi);
    free_folder(&library);
    free_folder(&program);
    printf("%d wrong\n", wrong);
    return wrong != 0;
}
