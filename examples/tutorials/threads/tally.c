/* Counts how often each kind of event occurs in files, each file by two threads: an event is a byte, and its kind a part of
 * it. The threads share one table behind a lock; built with -DOWN_TABLES=1 each has its own. */
#include <pthread.h>
#include <stdio.h>

#ifndef OWN_TABLES
#define OWN_TABLES 0
#endif

enum { KINDS = 64, THREADS = 2, ROOM = 65536 };

struct part {
    const unsigned char *events;
    size_t count;
    unsigned *table;
};

static unsigned char events[ROOM];
static pthread_mutex_t lock = PTHREAD_MUTEX_INITIALIZER;

static void count_event(unsigned *table, unsigned kind)
{
    if (!OWN_TABLES)
        pthread_mutex_lock(&lock);
    table[kind]++;
    if (!OWN_TABLES)
        pthread_mutex_unlock(&lock);
}

static void count_part(const struct part *part)
{
    for (size_t i = 0; i < part->count; i++)
        count_event(part->table, part->events[i] % KINDS);
}

static void *work(void *part)
{
    count_part(part);
    return 0;
}

static void add_table(unsigned *totals, const unsigned *table)
{
    for (unsigned kind = 0; kind < KINDS; kind++)
        totals[kind] += table[kind];
}

static void tally(size_t count, unsigned *totals)
{
    unsigned tables[THREADS][KINDS] = { { 0 } };
    struct part parts[THREADS];
    pthread_t threads[THREADS];
    for (unsigned i = 0; i < THREADS; i++) {
        size_t first = count * i / THREADS, end = count * (i + 1) / THREADS;
        parts[i] = (struct part){ events + first, end - first, tables[OWN_TABLES ? i : 0] };
        pthread_create(&threads[i], 0, work, &parts[i]);
    }
    for (unsigned i = 0; i < THREADS; i++) {
        pthread_join(threads[i], 0);
        add_table(totals, tables[i]);
    }
}

int main(int argc, char **argv)
{
    for (int i = 1; i < argc; i++) {
        unsigned totals[KINDS] = { 0 }, most = 0;
        FILE *file = fopen(argv[i], "r");
        if (!file)
            return 1;
        size_t count = fread(events, 1, ROOM, file);
        fclose(file);
        tally(count, totals);
        for (unsigned kind = 1; kind < KINDS; kind++)
            if (totals[kind] > totals[most])
                most = kind;
        printf("%s: %zu events, most often kind %u: %u\n", argv[i], count, most, totals[most]);
    }
    return 0;
}
