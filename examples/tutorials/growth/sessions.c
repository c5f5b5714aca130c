/* Reads a web server's log and tells how the visitors behaved: how many sessions there were, how long they lasted, how many
 * requests and bytes they took, and which paths were asked for most often. A line of the log is
 *
 *     SECONDS CLIENT METHOD PATH STATUS BYTES
 *
 * in order of time. A session is a client's requests with no pause of half an hour or more between them. */
#include <errno.h>
#include <stdio.h>
#include <stdlib.h>
#include <string.h>

enum { PAUSE = 1800, CLIENT_SLOTS = 1024, PATH_SLOTS = 64, LONGEST = 512, PATHS_SHOWN = 3 };

struct request {
    unsigned time;
    char *client;
    char *path;
    unsigned status;
    unsigned bytes;
};

/* A client's session that has not ended yet: in a slot by the client's name, and in the list of all. */
struct session {
    struct session *next_in_slot;
    struct session *older;
    struct session *newer;
    unsigned first;
    unsigned last;
    unsigned requests;
    unsigned bytes;
    char client[];
};

struct path {
    struct path *next_in_slot;
    unsigned requests;
    char name[];
};

struct totals {
    unsigned lines;
    unsigned bad_lines;
    unsigned errors;
    unsigned sessions;
    unsigned seconds;
    unsigned requests;
    unsigned bytes;
};

static struct session *clients[CLIENT_SLOTS];
static struct session *oldest, *newest;
static struct path *paths[PATH_SLOTS];
static unsigned path_count;
static struct totals totals;

static void *get_memory(size_t size)
{
    void *memory = malloc(size);
    if (!memory) {
        fputs("sessions: out of memory\n", stderr);
        exit(2);
    }
    return memory;
}

static unsigned hash(const char *text)
{
    unsigned sum = 2166136261u;
    while (*text)
        sum = (sum ^ (unsigned char)*text++) * 16777619u;
    return sum ^ sum >> 15;
}

static struct session **slot_of(const char *client)
{
    return &clients[hash(client) % CLIENT_SLOTS];
}

static struct session *find_session(const char *client)
{
    for (struct session *session = *slot_of(client); session; session = session->next_in_slot)
        if (strcmp(session->client, client) == 0)
            return session;
    return 0;
}

static void put_newest(struct session *session)
{
    session->older = newest;
    session->newer = 0;
    *(newest ? &newest->newer : &oldest) = session;
    newest = session;
}

static void take_out(struct session *session)
{
    *(session->older ? &session->older->newer : &oldest) = session->newer;
    *(session->newer ? &session->newer->older : &newest) = session->older;
}

static struct session *begin_session(const char *client, unsigned time)
{
    struct session *session = get_memory(sizeof *session + strlen(client) + 1);
    struct session **slot = slot_of(client);
    strcpy(session->client, client);
    session->first = session->last = time;
    session->requests = session->bytes = 0;
    session->next_in_slot = *slot;
    *slot = session;
    put_newest(session);
    return session;
}

static void end_session(struct session *session)
{
    struct session **place = slot_of(session->client);
    while (*place != session)
        place = &(*place)->next_in_slot;
    *place = session->next_in_slot;
    take_out(session);
    totals.sessions++;
    totals.seconds += session->last - session->first;
    totals.requests += session->requests;
    totals.bytes += session->bytes;
    free(session);
}

/* Ends each session whose client has been silent for too long. */
static void end_idle_sessions(unsigned now)
{
    for (struct session *session = oldest, *next; session; session = next) {
        next = session->newer;
        if (now - session->last >= PAUSE)
            end_session(session);
    }
}

static void count_path(const char *name)
{
    struct path **slot = &paths[hash(name) % PATH_SLOTS];
    for (struct path *path = *slot; path; path = path->next_in_slot)
        if (strcmp(path->name, name) == 0) {
            path->requests++;
            return;
        }
    struct path *path = get_memory(sizeof *path + strlen(name) + 1);
    strcpy(path->name, name);
    path->requests = 1;
    path->next_in_slot = *slot;
    *slot = path;
    path_count++;
}

/* Splits the line in place. */
static int parse_line(char *line, struct request *request)
{
    char *fields[6], *rest = line;
    for (int i = 0; i < 6; i++) {
        fields[i] = rest;
        rest += strcspn(rest, " \n");
        if (rest == fields[i])
            return 0;
        if (*rest)
            *rest++ = 0;
    }
    request->time = (unsigned)strtoul(fields[0], 0, 10);
    request->client = fields[1];
    request->path = fields[3];
    request->status = (unsigned)strtoul(fields[4], 0, 10);
    request->bytes = (unsigned)strtoul(fields[5], 0, 10);
    return request->time > 0;
}

static void take_request(const struct request *request)
{
    end_idle_sessions(request->time);
    struct session *session = find_session(request->client);
    if (!session)
        session = begin_session(request->client, request->time);
    session->last = request->time;
    session->requests++;
    session->bytes += request->bytes;
    if (request->status >= 400)
        totals.errors++;
    count_path(request->path);
}

static void read_log(FILE *log)
{
    char line[LONGEST];
    struct request request;
    while (fgets(line, sizeof line, log)) {
        totals.lines++;
        if (parse_line(line, &request))
            take_request(&request);
        else
            totals.bad_lines++;
    }
    end_idle_sessions(-1u);
}

static int by_requests(const void *left, const void *right)
{
    const struct path *a = *(struct path *const *)left, *b = *(struct path *const *)right;
    return a->requests != b->requests ? (a->requests < b->requests) - (a->requests > b->requests) : strcmp(a->name, b->name);
}

static void put_paths(void)
{
    struct path **sorted = get_memory((path_count + 1) * sizeof *sorted);
    unsigned count = 0;
    for (unsigned slot = 0; slot < PATH_SLOTS; slot++)
        for (struct path *path = paths[slot]; path; path = path->next_in_slot)
            sorted[count++] = path;
    qsort(sorted, count, sizeof *sorted, by_requests);
    for (unsigned i = 0; i < count && i < PATHS_SHOWN; i++)
        printf("%6u %s\n", sorted[i]->requests, sorted[i]->name);
    free(sorted);
}

int main(int argc, char **argv)
{
    FILE *log = argc == 2 ? fopen(argv[1], "r") : 0;
    if (!log) {
        fprintf(stderr, argc == 2 ? "sessions: %s: %s\n" : "usage: sessions LOG\n", argv[1], strerror(errno));
        return 2;
    }
    read_log(log);
    fclose(log);
    printf("%u lines, %u bad, %u errors\n", totals.lines, totals.bad_lines, totals.errors);
    printf("%u sessions, %u requests and %u seconds each\n", totals.sessions,
           totals.sessions ? totals.requests / totals.sessions : 0, totals.sessions ? totals.seconds / totals.sessions : 0);
    put_paths();
    return 0;
}
