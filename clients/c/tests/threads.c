/* Threads that share a mount by a mutex, each by a client of its own. */
#include "frames.h"
#include "tests.h"

#include <pthread.h>
#include <time.h>

#define THREADS 8

static ovl_mount mount = OVL_NONE;
static pthread_mutex_t lock = PTHREAD_MUTEX_INITIALIZER;

struct worker {
    pthread_t thread;
    unsigned number, wrong, rounds;
    time_t last;   /* the second in which it ends; 0 where it makes so many rounds */
};

/* The status of the reply to a request by op and path, 255 where there is none. */
static unsigned ask(uint64_t client, int op, const char *path, uint8_t *reply)
{
    uint8_t request[64] = {0};
    size_t at = 4, length = 0;
    request[at++] = (uint8_t)op;
    if (op == 9) {
        memcpy(request + at, "\0\0\1\355", 4);
        at += 4;
    }
    request[at + 1] = (uint8_t)strlen(path);
    memcpy(request + at + 2, path, strlen(path));
    at += 2 + strlen(path);
    request[3] = (uint8_t)(at - 4);
    pthread_mutex_lock(&lock);
    int32_t status = ovl_call(&mount, client, request, at, reply, 64, &length);
    pthread_mutex_unlock(&lock);
    return status == OVL_OK ? reply[4] : 255;
}

static void *work(void *it)
{
    struct worker *worker = it;
    uint64_t client = 0, place = 0;
    uint8_t reply[64];
    char own[8] = "/own-0";
    own[5] = (char)('0' + worker->number);
    pthread_mutex_lock(&lock);
    worker->wrong += ovl_attach(&mount, &client) != OVL_OK;
    pthread_mutex_unlock(&lock);
    unsigned most = worker->rounds;
    worker->rounds = 0;
    while (worker->last ? time(NULL) < worker->last : worker->rounds < most) {
        worker->rounds++;
        worker->wrong += ask(client, 9, own, reply) != 0;
        worker->wrong += ask(client, 1, own, reply) != 0 || reply[13] != 1;
        worker->wrong += ask(client, 13, own, reply) != 0;
        worker->wrong += ask(client, 1, own, reply) != 1;
    }
    pthread_mutex_lock(&lock);
    worker->wrong += ovl_detach(&mount, client, &place) != OVL_OK;
    pthread_mutex_unlock(&lock);
    return NULL;
}

void shared_by_threads(int rounds, int seconds)
{
    struct worker workers[THREADS] = {0};
    uint64_t client, place, made = 0;
    CHECK(mount_text(&mount, "layer = [{}, {}]") == OVL_OK);
    for (unsigned i = 0; i < THREADS; i++) {
        workers[i].number = i;
        workers[i].rounds = (unsigned)rounds;
        workers[i].last = seconds ? time(NULL) + seconds : 0;
        CHECK(pthread_create(&workers[i].thread, NULL, work, &workers[i]) == 0);
    }
    for (unsigned i = 0; i < THREADS; i++) {
        CHECK(pthread_join(workers[i].thread, NULL) == 0);
        CHECK(workers[i].wrong == 0 && workers[i].rounds > 0);
        made += workers[i].rounds;
    }
    /* Each attach, each call and each detach has a place, whatever their order. */
    CHECK(ovl_attach(&mount, &client) == OVL_OK && client == THREADS);
    CHECK(ovl_detach(&mount, client, &place) == OVL_OK);
    CHECK(place == 4 * made + 2 * THREADS + 1);
    ovl_unmount(&mount);
}
