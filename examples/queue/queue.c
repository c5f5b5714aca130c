/* A thread makes numbers and puts them into a queue; the main thread takes them out and adds them up. */
#include <pthread.h>
#include <stdio.h>

enum { ROOM = 16 };

struct queue {
    pthread_mutex_t lock;
    pthread_cond_t not_empty;
    pthread_cond_t not_full;
    unsigned numbers[ROOM];
    unsigned first;
    unsigned count;
};

static struct queue queue = { PTHREAD_MUTEX_INITIALIZER, PTHREAD_COND_INITIALIZER, PTHREAD_COND_INITIALIZER, { 0 }, 0, 0 };

static void put(unsigned number)
{
    pthread_mutex_lock(&queue.lock);
    while (queue.count == ROOM)
        pthread_cond_wait(&queue.not_full, &queue.lock);
    queue.numbers[(queue.first + queue.count) % ROOM] = number;
    queue.count++;
    pthread_cond_signal(&queue.not_empty);
    pthread_mutex_unlock(&queue.lock);
}

static unsigned take(void)
{
    pthread_mutex_lock(&queue.lock);
    while (queue.count == 0)
        pthread_cond_wait(&queue.not_empty, &queue.lock);
    unsigned number = queue.numbers[queue.first];
    queue.first = (queue.first + 1) % ROOM;
    queue.count--;
    pthread_cond_signal(&queue.not_full);
    pthread_mutex_unlock(&queue.lock);
    return number;
}

/* The sum of the next numbers: its input comes from the other thread. */
static unsigned add_up(unsigned count)
{
    unsigned sum = 0;
    for (unsigned i = 0; i < count; i++)
        sum += take();
    return sum;
}

enum { FEWEST = 4, MOST = 256 };

static void *make_numbers(void *unused)
{
    (void)unused;
    for (unsigned count = FEWEST; count <= MOST; count *= 2)
        for (unsigned i = 0; i < count; i++)
            put(i);
    return 0;
}

int main(void)
{
    pthread_t maker;
    if (pthread_create(&maker, 0, make_numbers, 0))
        return 1;
    for (unsigned count = FEWEST; count <= MOST; count *= 2)
        printf("%u numbers, %u in all\n", count, add_up(count));
    pthread_join(maker, 0);
    return 0;
}
