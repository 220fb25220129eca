/* Hard use: many hosts one after the other, two threads with a host each, and a malloc that fails at each call in turn.
 * Use: hard FOLDER [HOSTS], where FOLDER holds Hi.class. With glibc. */
#define _GNU_SOURCE
#include "check.h"
#include "failing.h"
#include "folder.h"

#include <malloc.h>
#include <pthread.h>

static struct folder hi;

/* Each call once; whether all were done. Where one is refused it is for want of memory, and what it was to write is as it was. */
static int whole_life(uint32_t *refused) {
    jvhost_t host = {{NULL, NULL, 0}, NULL};
    uint32_t id = 77, rounds = 77;
    uint64_t taken = 77;
    size_t count = 77;
    uint8_t room[64];
    jvhost_seen seen = {sizeof(jvhost_seen), 0, 0, 0, 0, 77};
    jvhost_verdict_t verdict = {0, 0, 0, 0};
    jvhost_place_t place = {sizeof(jvhost_place_t), 0, 0, 0, 0};
    jvhost_guest guest = jvhost_guest_of(hi.files, hi.count, "Hi", NULL, 0);
    uint32_t code = jvhost_new_seeded(&host, 1, 2);
    if (code == JVHOST_OK)
        code = jvhost_admit(&host, &guest, &id);
    if (code == JVHOST_OK)
        code = jvhost_admit_copy(&host, &guest, &id);
    if (code == JVHOST_OK)
        code = jvhost_feed(&host, 0, (const uint8_t *)"abc", 3);
    if (code == JVHOST_OK) {
        CHECK(jvhost_turn(&host, 0, 3, &taken) == JVHOST_OK && taken == 3);
        CHECK(jvhost_run(&host, 1000, 10, &rounds) == JVHOST_OK && rounds == 1);
        CHECK(jvhost_observe(&host, 1, &seen) == JVHOST_OK && seen.steps == 6 && seen.end == JVHOST_END_RETURNED);
        CHECK(jvhost_verdict(&host, 1, 0, &verdict) == JVHOST_OK);
        code = jvhost_output(&host, 0, 0, room, sizeof room, &count);
    }
    if (code == JVHOST_OK) {
        CHECK(count == 2 && memcmp(room, "Hi", 2) == 0);
        code = jvhost_last(&host, 0, room, sizeof room, &count);
    }
    if (code == JVHOST_OK)
        CHECK(jvhost_place(&host, 0, &place, room, sizeof room) == JVHOST_NO_PLACE);
    if (code == JVHOST_OK)
        code = jvhost_verdict_text(&verdict, room, sizeof room, &count);
    if (code == JVHOST_OK)
        code = jvhost_check_seeded(1, 2, hi.files, hi.count, &verdict, 1);
    if (code == JVHOST_OK)
        code = jvhost_judge_seeded(1, 2, &guest, 100, &seen, room, sizeof room);
    if (code == JVHOST_OK)
        code = jvhost_check_beside(&host, hi.files, hi.count, &verdict, 1);
    if (code == JVHOST_OK)
        code = jvhost_judge_beside(&host, &guest, 100, &seen, room, sizeof room);
    jvhost_free(&host);
    CHECK(host.host.holds == 0 && host.copies == NULL);
    *refused = code;
    return code == JVHOST_OK;
}

static void *in_thread(void *count) {
    uint32_t code;
    for (long i = 0; i < *(long *)count; i++)
        CHECK(whole_life(&code));
    return NULL;
}

int main(int argc, char **argv) {
    if (argc < 2)
        return 2;
    long hosts = argc > 2 ? strtol(argv[2], NULL, 10) : 1000;
    uint32_t code;
    read_folder(argv[1], &hi);
    if (hi.count != 1)
        return 2;

    /* So many hosts: what is in use does not grow, once the C library has what it keeps for the next call. */
    for (long i = 0; i < 50; i++)
        CHECK(whole_life(&code));
    struct mallinfo2 before = mallinfo2();
    for (long i = 0; i < hosts; i++)
        CHECK(whole_life(&code));
    struct mallinfo2 after = mallinfo2();
    CHECK(after.uordblks <= before.uordblks);

    /* Two threads with a host each. */
    pthread_t one, other;
    long half = hosts / 2;
    CHECK(pthread_create(&one, NULL, in_thread, &half) == 0);
    CHECK(pthread_create(&other, NULL, in_thread, &half) == 0);
    pthread_join(one, NULL);
    pthread_join(other, NULL);

    /* Each call of malloc or realloc fails once. */
    unsigned long at = 0, refused = 0;
    for (;; at += hosts < 1000 ? 97 : 1) {
        left = (long)at;
        int whole = whole_life(&code);
        int failed = left < 0;
        left = -1;
        CHECK(whole || code == JVHOST_HOST_MEMORY);
        CHECK(whole || failed);
        refused += !whole;
        if (!failed)
            break;
    }
    printf("%ld hosts, %lu places where malloc failed, %lu calls refused, %d wrong\n", hosts, at, refused, wrong);
    free_folder(&hi);
    return wrong != 0;
}
