/* Several threads that read one opened store at once. */
#include <pthread.h>
#include <stdlib.h>

#include "clock.h"
#include "memory.h"
#include "workloads.h"

enum { MOST_THREADS = 64 };

struct thread {
    pthread_t id;
    const struct work *work;
    void *store;
    uint32_t *numbers;
    pthread_barrier_t *ready;
    struct check check;
    uint64_t start, end;
};

/* Walks over the documents, so that they are mapped; waits for the others; and then gets. */
static void *run(void *given) {
    struct thread *thread = given;
    const struct work *work = thread->work;
    struct check walk = {0, 0};
    void *reader = work->side->begin(thread->store);
    work->side->iterate(reader, &walk);
    pthread_barrier_wait(thread->ready);
    thread->start = clock_now();
    for (size_t at = 0; at < work->questions; at++) {
        check_add(&thread->check, work->side->get(reader, thread->numbers[at]));
    }
    thread->end = clock_now();
    work->side->end(reader);
    return NULL;
}

static void start_all(struct thread *threads, const struct work *work, void *store, pthread_barrier_t *ready) {
    for (unsigned at = 0; at < work->settings.threads; at++) {
        threads[at] = (struct thread){.work = work, .store = store, .ready = ready};
        threads[at].numbers = numbers_of(work->order, work->questions, work->settings.count, work->hot, at);
        require(pthread_create(&threads[at].id, NULL, run, &threads[at]) == 0, "threads", "a thread can't be started");
    }
}

/* From the first start to the last end; the sum of the checks, since no thread is before another. */
static struct told joined(struct thread *threads, unsigned count) {
    struct told told = {0};
    uint64_t start = UINT64_MAX, end = 0;
    for (unsigned at = 0; at < count; at++) {
        pthread_join(threads[at].id, NULL);
        free(threads[at].numbers);
        start = threads[at].start < start ? threads[at].start : start;
        end = threads[at].end > end ? threads[at].end : end;
        told.count += threads[at].check.count;
        told.check += threads[at].check.value;
    }
    told.nanoseconds = end - start;
    return told;
}

struct told work_threads(const struct work *work) {
    struct thread threads[MOST_THREADS];
    pthread_barrier_t ready;
    require(work->settings.threads > 0 && work->settings.threads <= MOST_THREADS, "threads", "from 1 to 64");
    require(pthread_barrier_init(&ready, NULL, work->settings.threads) == 0, "threads", "no barrier");
    void *store = work->side->open(work->path, &work->settings);
    start_all(threads, work, store, &ready);
    struct told told = joined(threads, work->settings.threads);
    told.peak_bytes = peak_memory();
    work->side->close(store);
    pthread_barrier_destroy(&ready);
    return told;
}
