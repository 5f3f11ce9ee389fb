/* Loads a NATS server and prints what it measured, for bench/serve: loader PORT TASK SIZE RECEIVERS COUNT WINDOW [SUBJECTS]
 *
 * TASK is `all` (every receiver gets each of COUNT messages), `stream` (the same, with receivers in another account, that of
 * the user `importer`, which has the publisher's subjects under the prefix `from`), `mapped` (the same as `all`, where the
 * publisher's account maps its subject to some below `mapped`), `listed` (the same as `all`, where the user `listed` publishes
 * on `orders.1000.new`, `orders.1001.new` and so on in turn), `hot` (the same as `all`, on `hot.1000`, `hot.1001` and so on in
 * turn, where every receiver has a subscription to each), `queue` (the receivers are one queue group), `pairs` (each receiver
 * has a publisher and a subject of its own, and gets COUNT messages), `several` (RECEIVERS publishers send COUNT messages each
 * to one receiver), `ask` (RECEIVERS requesters, each with an inbox of its own, ask COUNT times in turn each, and one answers)
 * or `service` (the same, with requesters in another account, that of the user `importer`, which imports `ask` as a service).
 * `listed` and `hot` take SUBJECTS subjects in turn, one if it is left out. A message has SIZE bytes. A publisher writes up to
 * 64 KiB at once, and is no more than WINDOW messages before the slowest of its receivers, or before the group. A requester
 * has one request under way. It prints for `ask` and `service` of one requester the median and the 99th percentile of the
 * microseconds from a request to its answer, of several the answers a second; and else the deliveries a second; where
 * RECEIVERS is 0, the messages a second until the PING behind them is answered. It fails if a receiver misses a message, if an
 * answer is missing, or if a requester gets one that it doesn't wait for: another's, or its own once more.
 * Each connection has a thread of its own, with blocking reads and writes. */
#include <arpa/inet.h>
#include <limits.h>
#include <netinet/tcp.h>
#include <pthread.h>
#include <stdatomic.h>
#include <stdio.h>
#include <stdlib.h>
#include <string.h>
#include <sys/socket.h>
#include <sys/time.h>
#include <time.h>
#include <unistd.h>

/* Subjects are numbered from FIRST, so that up to MOST_SUBJECTS have names of one length. */
enum { PIECE = 65536, MOST = 1024, FIRST = 1000, MOST_SUBJECTS = 9000, LONGEST = 8192 };

/* A requester's inbox, by its number, and an answer's subject, by the request's too: as long as clients make them. */
#define INBOX "_INBOX.requester%013d"
#define REPLY INBOX ".%08ld"

/* At the first of the receivers that publishers share, `sent` counts what these have sent or send next. */
typedef struct {
    int socket;
    _Atomic long received, sent;
    char padding[64];
} Receiver;

/* A task in which one publishes to all receivers, or in which requesters publish to one. A subject's number stands for %d; a
 * wish that has it is sent for each. */
typedef struct {
    const char *name, *publisher, *subject, *receiver, *wish;
} Task;

static const Task tasks[] = {
    {"all", "demo", "load", "demo", "SUB load 1\r\n"},
    {"stream", "demo", "load", "importer", "SUB from.load 1\r\n"},
    {"mapped", "demo", "load", "demo", "SUB mapped.* 1\r\n"},
    {"listed", "listed", "orders.%d.new", "demo", "SUB orders.> 1\r\n"},
    {"hot", "demo", "hot.%d", "demo", "SUB hot.%1$d %1$d\r\n"},
    {"queue", "demo", "load", "demo", "SUB load group 1\r\n"},
    {"ask", "demo", "ask", "demo", "SUB ask 1\r\n"},
    {"service", "importer", "ask", "demo", "SUB ask 1\r\n"},
};

static Receiver receivers[MOST];
static int port, size, count_of_receivers, subjects = 1;
static long count, window;
static _Atomic int all_received;
static int is_queue;

static void die(const char *why)
{
    fprintf(stderr, "loader: %s\n", why);
    exit(1);
}

static double now(void)
{
    struct timespec it;
    clock_gettime(CLOCK_MONOTONIC, &it);
    return it.tv_sec + it.tv_nsec / 1e9;
}

static void send_all(int socket, const char *data, size_t left)
{
    while (left > 0) {
        ssize_t sent = send(socket, data, left, MSG_NOSIGNAL);
        if (sent <= 0)
            die("the server has closed a connection that writes");
        data += sent;
        left -= sent;
    }
}

/* Reads a line, byte by byte: for what isn't measured. */
static void read_line(int socket, char *line, size_t most)
{
    size_t at = 0;
    do {
        if (at + 1 >= most || recv(socket, line + at, 1, 0) != 1)
            die("no line came");
    } while (line[at++] != '\n');
    line[at] = 0;
}

static void read_pong(int socket)
{
    char line[4096];
    do {
        read_line(socket, line, sizeof line);
        if (line[0] == '-')
            die(line);
    } while (strncmp(line, "PONG", 4));
}

static int connected(const char *user)
{
    int it = socket(AF_INET, SOCK_STREAM, 0), on = 1;
    struct sockaddr_in to = {.sin_family = AF_INET, .sin_port = htons(port), .sin_addr.s_addr = htonl(INADDR_LOOPBACK)};
    char hello[256];
    int length = snprintf(hello, sizeof hello,
        "CONNECT {\"user\":\"%s\",\"pass\":\"%s\",\"verbose\":false,\"pedantic\":false}\r\nPING\r\n", user, user);
    if (it < 0 || connect(it, (struct sockaddr *)&to, sizeof to))
        die("no connection");
    setsockopt(it, IPPROTO_TCP, TCP_NODELAY, &on, sizeof on);
    send_all(it, hello, length);
    read_pong(it);
    return it;
}

/* Returns once the server has done all that it was sent. */
static void ping(int socket)
{
    send_all(socket, "PING\r\n", 6);
    read_pong(socket);
}

/* Sends a SUB for each of some subjects. */
static void subscribe(int socket, const char *wish, int first, int wishes)
{
    for (int i = 0; i < wishes; i++) {
        char line[64];
        send_all(socket, line, snprintf(line, sizeof line, wish, first + i));
    }
    ping(socket);
}

/* Counts the messages of a stream: the state between its pieces. Where `whole` is given, it is called with the line of each
 * message whose last byte has come. */
typedef struct {
    char line[4200];
    size_t held;
    long skip;
    void (*whole)(void *, const char *);
    void *closure;
} Parser;

/* Returns the number at the end of a line. */
static long last_number(const char *line, size_t length)
{
    size_t at = length - 2;
    long digits = 0, place = 1;
    while (at > 0 && line[at - 1] != ' ') {
        digits += (line[--at] - '0') * place;
        place *= 10;
    }
    return digits;
}

/* Keeps the line of a message until the message is whole. */
static void keep_line(Parser *it, const char *line, size_t length)
{
    if (length >= sizeof it->line)
        die("a line is too long");
    memmove(it->line, line, length);
    it->line[length] = 0;
}

/* Returns how many messages have ended in this piece. */
static long messages(Parser *it, const char *data, size_t left)
{
    long ended = 0;
    while (left > 0) {
        if (it->skip > 0) {
            size_t part = (size_t)it->skip < left ? (size_t)it->skip : left;
            it->skip -= part;
            data += part;
            left -= part;
            if (it->skip > 0)
                break;
            ended++;
            if (it->whole)
                it->whole(it->closure, it->line);
            continue;
        }
        const char *end = memchr(data, '\n', left);
        const char *line = data;
        size_t part = end ? (size_t)(end - data) + 1 : left, length = part;
        if (it->held || !end) {
            if (it->held + part > sizeof it->line)
                die("a line is too long");
            memcpy(it->line + it->held, data, part);
            it->held += part;
            line = it->line;
            length = it->held;
        }
        data += part;
        left -= part;
        if (!end)
            break;
        it->held = 0;
        if (line[0] == 'M') {
            it->skip = last_number(line, length) + 2;
            if (it->whole)
                keep_line(it, line, length);
        } else if (line[0] == '-') {
            fprintf(stderr, "loader: %.*s", (int)length, line);
            exit(1);
        }
    }
    return ended;
}

static void *receive(void *closure)
{
    Receiver *it = closure;
    Parser parser = {.held = 0, .skip = 0};
    char *piece = malloc(4 * PIECE);
    for (;;) {
        ssize_t got = recv(it->socket, piece, 4 * PIECE, 0);
        if (got <= 0) {
            if (atomic_load(&all_received))
                return NULL;
            die("the server has closed a receiver");
        }
        atomic_fetch_add(&it->received, messages(&parser, piece, got));
    }
}

/* How many messages are done: of these receivers the least, of a queue group the sum; without receivers any number. */
static long done(const Receiver *by, int how_many)
{
    long least = LONG_MAX, sum = 0;
    for (int i = 0; i < how_many; i++) {
        long it = atomic_load_explicit(&by[i].received, memory_order_relaxed);
        if (it < least)
            least = it;
        sum += it;
    }
    return is_queue ? sum : least;
}

/* Waits until this number of messages is done; dies if for a minute none is. */
static void wait_for(long wanted, const Receiver *by, int how_many)
{
    double last = now();
    for (long before = -1, it; (it = done(by, how_many)) < wanted; before = it) {
        if (it != before)
            last = now();
        if (now() - last > 60)
            die("messages were lost");
        usleep(20);
    }
}

/* Writes a PUB on a subject, which a reply may follow, of at most LONGEST bytes, and returns its length. */
static int write_publish(char *to, const char *subject)
{
    int head = sprintf(to, "PUB %s %d\r\n", subject, size);
    memset(to + head, 'x', size);
    memcpy(to + head + size, "\r\n", 2);
    return head + size + 2;
}

static int write_numbered(char *to, const char *subject, int number)
{
    char name[64];
    snprintf(name, sizeof name, subject, number);
    return write_publish(to, name);
}

/* The PUBs that are written at once, each of `length` bytes: whole rounds of the subjects. */
typedef struct {
    char *text;
    int each, length;
} Piece;

static Piece publishes(const char *subject, int first, int in_turn)
{
    char one[LONGEST];
    Piece it = {.length = write_numbered(one, subject, first)};
    int most = PIECE / it.length < window ? PIECE / it.length : window;
    it.each = most - most % in_turn;
    if (it.each == 0)
        die("the subjects are too many for a piece or the window");
    it.text = malloc((size_t)it.each * it.length);
    for (int i = 0; i < it.each; i++)
        write_numbered(it.text + (size_t)i * it.length, subject, first + i % in_turn);
    return it;
}

/* Publishes COUNT messages to these receivers. */
static void publish(int publisher, Piece piece, Receiver *to, int how_many)
{
    for (long sent = 0, part; sent < count; sent += part) {
        part = count - sent < piece.each ? count - sent : piece.each;
        wait_for(atomic_fetch_add(&to->sent, part) + part - window, to, how_many);
        send_all(publisher, piece.text, (size_t)part * piece.length);
    }
}

static void end_receivers(pthread_t *threads)
{
    atomic_store(&all_received, 1);
    for (int i = 0; i < count_of_receivers; i++)
        shutdown(receivers[i].socket, SHUT_RDWR);
    for (int i = 0; i < count_of_receivers; i++)
        pthread_join(threads[i], NULL);
}

static double flood(const Task *task)
{
    pthread_t threads[MOST];
    Piece piece = publishes(task->subject, FIRST, subjects);
    int wishes = strchr(task->wish, '%') ? subjects : 1;
    for (int i = 0; i < count_of_receivers; i++) {
        receivers[i].socket = connected(task->receiver);
        subscribe(receivers[i].socket, task->wish, FIRST, wishes);
        pthread_create(&threads[i], NULL, receive, &receivers[i]);
    }
    int publisher = connected(task->publisher);
    double begin = now();
    publish(publisher, piece, receivers, count_of_receivers);
    ping(publisher);
    wait_for(count, receivers, count_of_receivers);
    double passed = now() - begin;
    end_receivers(threads);
    return count * (double)(is_queue || count_of_receivers == 0 ? 1 : count_of_receivers) / passed;
}

/* Publishes to one receiver until it has all. */
static void *publish_to(void *closure)
{
    Receiver *to = closure;
    publish(connected("demo"), publishes("load.%d", to - receivers, 1), to, 1);
    wait_for(count, to, 1);
    return NULL;
}

static double pairs(void)
{
    pthread_t readers[MOST], writers[MOST];
    for (int i = 0; i < count_of_receivers; i++) {
        receivers[i].socket = connected("demo");
        subscribe(receivers[i].socket, "SUB load.%d 1\r\n", i, 1);
        pthread_create(&readers[i], NULL, receive, &receivers[i]);
    }
    double begin = now();
    for (int i = 0; i < count_of_receivers; i++)
        pthread_create(&writers[i], NULL, publish_to, &receivers[i]);
    for (int i = 0; i < count_of_receivers; i++)
        pthread_join(writers[i], NULL);
    double passed = now() - begin;
    end_receivers(readers);
    return count * (double)count_of_receivers / passed;
}

static void *publish_part(void *closure)
{
    (void)closure;
    publish(connected("demo"), publishes("load", FIRST, 1), receivers, 1);
    return NULL;
}

static double several(void)
{
    pthread_t reader, writers[MOST];
    int publishers = count_of_receivers;
    count_of_receivers = 1;
    receivers[0].socket = connected("demo");
    subscribe(receivers[0].socket, "SUB load 1\r\n", FIRST, 1);
    pthread_create(&reader, NULL, receive, &receivers[0]);
    double begin = now();
    for (int i = 0; i < publishers; i++)
        pthread_create(&writers[i], NULL, publish_part, NULL);
    wait_for(count * publishers, receivers, 1);
    double passed = now() - begin;
    for (int i = 0; i < publishers; i++)
        pthread_join(writers[i], NULL);
    end_receivers(&reader);
    return count * (double)publishers / passed;
}

/* One that answers, with the answers to the requests of a piece, which are no longer than these. */
typedef struct {
    int socket;
    size_t length;
    char answers[PIECE + LONGEST];
} Answerer;

static void add_answer(void *closure, const char *line)
{
    Answerer *it = closure;
    char reply[256];
    int bytes;
    if (sscanf(line, "MSG %*s %*s %255s %d", reply, &bytes) != 2)
        die("a request came without a reply");
    it->length += write_publish(it->answers + it->length, reply);
}

static void *answer(void *closure)
{
    Answerer *it = closure;
    Parser parser = {.whole = add_answer, .closure = it};
    char *piece = malloc(PIECE);
    for (;;) {
        ssize_t got = recv(it->socket, piece, PIECE, 0);
        if (got <= 0)
            return NULL;
        it->length = 0;
        messages(&parser, piece, got);
        send_all(it->socket, it->answers, it->length);
    }
}

/* One that asks, with the line of the answer that it waits for, and the microseconds that each of its answers took. */
typedef struct {
    int socket, number;
    const char *subject;
    char awaited[128];
    double *took;
} Requester;

static void check_answer(void *closure, const char *line)
{
    Requester *it = closure;
    if (strcmp(line, it->awaited))
        die("a requester got an answer that it doesn't wait for");
    it->awaited[0] = 0;
}

/* Asks COUNT times, each time once the last answer has come; dies if none comes for a minute. */
static void *ask_in_turn(void *closure)
{
    Requester *it = closure;
    Parser parser = {.whole = check_answer, .closure = it};
    struct timeval minute = {.tv_sec = 60};
    char piece[PIECE], out[LONGEST], name[128];
    setsockopt(it->socket, SOL_SOCKET, SO_RCVTIMEO, &minute, sizeof minute);
    for (long i = 0; i < count; i++) {
        snprintf(name, sizeof name, "%s " REPLY, it->subject, it->number, i);
        snprintf(it->awaited, sizeof it->awaited, "MSG " REPLY " 1 %d\r\n", it->number, i, size);
        int length = write_publish(out, name);
        double begin = now();
        send_all(it->socket, out, length);
        while (it->awaited[0]) {
            ssize_t got = recv(it->socket, piece, sizeof piece, 0);
            if (got <= 0)
                die(got == 0 ? "the server has closed one that asks" : "an answer is missing");
            messages(&parser, piece, got);
        }
        it->took[i] = (now() - begin) * 1e6;
    }
    return NULL;
}

static int by_value(const void *one, const void *two)
{
    double a = *(const double *)one, b = *(const double *)two;
    return a < b ? -1 : a > b;
}

static void ask(const Task *task)
{
    static Answerer answerer;
    static Requester requesters[MOST];
    pthread_t answers, asks[MOST];
    double *took = malloc(count * count_of_receivers * sizeof *took);
    answerer.socket = connected(task->receiver);
    subscribe(answerer.socket, task->wish, FIRST, 1);
    pthread_create(&answers, NULL, answer, &answerer);
    for (int i = 0; i < count_of_receivers; i++) {
        requesters[i] = (Requester){connected(task->publisher), FIRST + i, task->subject, "", took + i * count};
        subscribe(requesters[i].socket, "SUB " INBOX ".* 1\r\n", FIRST + i, 1);
    }
    double begin = now();
    for (int i = 0; i < count_of_receivers; i++)
        pthread_create(&asks[i], NULL, ask_in_turn, &requesters[i]);
    for (int i = 0; i < count_of_receivers; i++)
        pthread_join(asks[i], NULL);
    double passed = now() - begin;
    shutdown(answerer.socket, SHUT_RDWR);
    pthread_join(answers, NULL);
    if (count_of_receivers > 1) {
        printf("%.0f\n", count * (double)count_of_receivers / passed);
        return;
    }
    qsort(took, count, sizeof *took, by_value);
    printf("%.1f %.1f\n", took[count / 2], took[count * 99 / 100]);
}

static const Task *task_named(const char *name)
{
    for (size_t i = 0; i < sizeof tasks / sizeof *tasks; i++)
        if (!strcmp(tasks[i].name, name))
            return &tasks[i];
    die("no such task");
    return NULL;
}

int main(int argc, char **argv)
{
    if (argc < 7 || argc > 8)
        die("PORT TASK SIZE RECEIVERS COUNT WINDOW [SUBJECTS]");
    port = atoi(argv[1]);
    size = atoi(argv[3]);
    count_of_receivers = atoi(argv[4]);
    count = atol(argv[5]);
    window = atol(argv[6]);
    if (argc == 8)
        subjects = atoi(argv[7]);
    is_queue = !strcmp(argv[2], "queue");
    int asks = !strcmp(argv[2], "ask") || !strcmp(argv[2], "service");
    if (size < 0 || size > 4096 || count_of_receivers < asks || count_of_receivers > MOST || count < 1 || window < 1 ||
        subjects < 1 || subjects > MOST_SUBJECTS)
        die("a number is out of range");
    if (asks)
        ask(task_named(argv[2]));
    else if (!strcmp(argv[2], "several"))
        printf("%.0f\n", several());
    else if (!strcmp(argv[2], "pairs"))
        printf("%.0f\n", pairs());
    else
        printf("%.0f\n", flood(task_named(argv[2])));
    return 0;
}
