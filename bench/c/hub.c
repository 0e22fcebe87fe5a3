/* `lanes` in the shape of the hub: the calling thread reads records and hands each row to workers by a queue of 64; they answer it and hand it back
 * by another. It puts lines in order by the number of their row. A worker polls 100 times before it sleeps, the calling thread 5,000 times. */
#include <pthread.h>
#include <stdatomic.h>

enum { PLACES = 64, LOOKS = 100, CALLER_LOOKS = 5000, WAKE_FOR = 32, MOST_WORKERS = 16, JOBS = 2 * PLACES + MOST_WORKERS + 1, WINDOW = 256 };

struct job { unsigned number; size_t length; struct row row; char answer[LINE]; };

/* A bounded queue of any number of threads at either end: a place's turn says who may use it next. */
struct queue {
    _Alignas(128) atomic_uint pushed;
    _Alignas(128) atomic_uint popped;
    _Alignas(128) struct { atomic_uint turn; struct job *job; } places[PLACES];
};

static struct queue jobs, results;
static pthread_mutex_t lock = PTHREAD_MUTEX_INITIALIZER;
static pthread_cond_t came = PTHREAD_COND_INITIALIZER;
static atomic_int sleepers, ended;

static void look_again(void) {
#if defined(__x86_64__)
    __builtin_ia32_pause();
#endif
}

static int push(struct queue *q, struct job *job) {
    for (unsigned at = atomic_load_explicit(&q->pushed, memory_order_relaxed);;) {
        int ahead = (int)(atomic_load_explicit(&q->places[at % PLACES].turn, memory_order_acquire) - at);
        if (ahead < 0) return 0;
        if (ahead > 0) at = atomic_load_explicit(&q->pushed, memory_order_relaxed);
        else if (atomic_compare_exchange_weak_explicit(&q->pushed, &at, at + 1, memory_order_relaxed, memory_order_relaxed)) {
            q->places[at % PLACES].job = job;
            return atomic_store_explicit(&q->places[at % PLACES].turn, at + 1, memory_order_release), 1;
        }
    }
}

static struct job *pop(struct queue *q) {
    for (unsigned at = atomic_load_explicit(&q->popped, memory_order_relaxed);;) {
        int ahead = (int)(atomic_load_explicit(&q->places[at % PLACES].turn, memory_order_acquire) - (at + 1));
        if (ahead < 0) return NULL;
        if (ahead > 0) at = atomic_load_explicit(&q->popped, memory_order_relaxed);
        else if (atomic_compare_exchange_weak_explicit(&q->popped, &at, at + 1, memory_order_relaxed, memory_order_relaxed)) {
            struct job *job = q->places[at % PLACES].job;
            return atomic_store_explicit(&q->places[at % PLACES].turn, at + PLACES, memory_order_release), job;
        }
    }
}

static int is_empty(struct queue *q) { return atomic_load(&q->pushed) == atomic_load(&q->popped); }

static void *work(void *none) {
    for (int looks = 0; !atomic_load_explicit(&ended, memory_order_relaxed);) {
        struct job *job = pop(&jobs);
        if (job) {
            job->length = (size_t)(put_answer(job->answer, job->row.widths, job->row.count, job->row.dots) - job->answer);
            while (!push(&results, job)) look_again();
            looks = 0;
        } else if (++looks == LOOKS) {
            pthread_mutex_lock(&lock);
            atomic_fetch_add(&sleepers, 1);
            if (is_empty(&jobs) && !atomic_load(&ended)) pthread_cond_wait(&came, &lock);
            atomic_fetch_sub(&sleepers, 1);
            pthread_mutex_unlock(&lock);
            looks = 0;
        } else look_again();
    }
    return none;
}

/* Wakes a worker if more than this many sleep, or all at the end. */
static void wake(int awake) {
    atomic_thread_fence(memory_order_seq_cst);
    if (atomic_load_explicit(&sleepers, memory_order_relaxed) <= awake) return;
    pthread_mutex_lock(&lock);
    if (atomic_load(&ended)) pthread_cond_broadcast(&came); else pthread_cond_signal(&came);
    pthread_mutex_unlock(&lock);
}

static struct text texts[16];
static struct job *early[16][WINDOW], *unused[JOBS];
static unsigned next[16];
static int free_count, collected;

/* Takes what workers have answered, and puts the lines that are their lane's next. */
static int collect(void) {
    struct job *job = pop(&results);
    if (!job) return 0;
    int lane = job->row.lane;
    early[lane][job->number % WINDOW] = job;
    for (; (job = early[lane][next[lane] % WINDOW]); early[lane][next[lane]++ % WINDOW] = NULL, collected++) {
        char *from = room_in(&texts[lane], LINE), *out = put_number(put_number(from, (unsigned)lane, ' '), job->number, ' ');
        out = mempcpy(out, job->answer, job->length), *out++ = '\n';
        texts[lane].length += (size_t)(out - from), unused[free_count++] = job;
    }
    return 1;
}

static void wait_for_result(void) {
    for (int looks = 0; !collect(); looks++)
        if (looks < CALLER_LOOKS) look_again();
        else wake(0), usleep(50), looks = 0;
}

static void answer_by_hub(int lanes, int workers) {
    static char input[16 * PIECE];
    static struct job all[JOBS];
    pthread_t threads[MOST_WORKERS];
    unsigned numbers[16] = {0};
    int untold = 0, given = 0, fault;
    for (unsigned i = 0; i < PLACES; i++) atomic_init(&jobs.places[i].turn, i), atomic_init(&results.places[i].turn, i);
    for (int i = 0; i < JOBS; i++) unused[free_count++] = &all[i];
    for (int i = 0; i < workers; i++) if (pthread_create(&threads[i], NULL, work, NULL)) exit(1);
    for (size_t left = 0, whole; (whole = read_lines(input, &left, sizeof input)) || left;) {
        const char *p = input, *end = input + whole;
        while (p < end) {
            if (*p == '\n') { p++; continue; }
            while (!free_count) wait_for_result();
            struct job *job = unused[--free_count];
            p = read_record(p, lanes, &job->row, &fault);
            if (fault) stop(fault, -1);
            job->number = numbers[job->row.lane]++, given++;
            while (!push(&jobs, job)) wake(0), wait_for_result();
            if (++untold >= WAKE_FOR) untold = 0, wake(workers - 1);
            collect();
        }
        memmove(input, end, left -= whole);
    }
    for (wake(workers - 1); collected < given;) wait_for_result();
    atomic_store(&ended, 1);
    wake(0);
    for (int i = 0; i < workers; i++) pthread_join(threads[i], NULL);
    for (int i = 0; i < 16; i++) write_text(&texts[i]);
}
