/* What a client over libnats finds at a server: libnats URL
 *
 * Its users are those of the built-in policy, docs/POLICY.md: `demo` may do everything, `limited` may publish and
 * subscribe below foo, and not on foo.bar; and those of examples/services.json: `prices` answers on price.*, for which
 * `shop` asks in another account on ask.price.*. It prints a line for each thing that it shows. Where it prints
 * `stop and start`, the server is to be ended and started again at the same address. */
#include <nats/nats.h>
#include <pthread.h>
#include <stdio.h>
#include <stdlib.h>
#include <string.h>
#include <time.h>

#define LIMIT 30000

static const char *url;
static int failed;

/* What callbacks have told. */
typedef struct {
    pthread_mutex_t lock;
    int messages, errors, reconnected, disconnected, closed, answered;
    char text[512];
    natsStatus status;
} Seen;

static void seen_new(Seen *seen)
{
    memset(seen, 0, sizeof *seen);
    pthread_mutex_init(&seen->lock, NULL);
}

static void count(Seen *seen, int *what)
{
    pthread_mutex_lock(&seen->lock);
    ++*what;
    pthread_mutex_unlock(&seen->lock);
}

static int read_count(Seen *seen, int *what)
{
    pthread_mutex_lock(&seen->lock);
    int now = *what;
    pthread_mutex_unlock(&seen->lock);
    return now;
}

/* Waits until this number was counted. */
static int reaches(Seen *seen, int *what, int wanted)
{
    for (int waited = 0; waited < LIMIT; waited += 5) {
        if (read_count(seen, what) >= wanted)
            return 1;
        nats_Sleep(5);
    }
    return 0;
}

static void on_error(natsConnection *nc, natsSubscription *sub, natsStatus status, void *closure)
{
    Seen *seen = closure;
    const char *text = NULL;
    natsConnection_GetLastError(nc, &text);
    pthread_mutex_lock(&seen->lock);
    seen->status = status;
    snprintf(seen->text, sizeof seen->text, "%s", text ? text : "");
    seen->errors++;
    pthread_mutex_unlock(&seen->lock);
}

static void on_closed(natsConnection *nc, void *closure) { count(closure, &((Seen *)closure)->closed); }
static void on_disconnected(natsConnection *nc, void *closure) { count(closure, &((Seen *)closure)->disconnected); }
static void on_reconnected(natsConnection *nc, void *closure) { count(closure, &((Seen *)closure)->reconnected); }

static void on_message(natsConnection *nc, natsSubscription *sub, natsMsg *msg, void *closure)
{
    natsMsg_Destroy(msg);
    count(closure, &((Seen *)closure)->messages);
}

/* Answers each request with its own text. */
static void on_request(natsConnection *nc, natsSubscription *sub, natsMsg *msg, void *closure)
{
    if (natsMsg_GetReply(msg))
        natsConnection_Publish(nc, natsMsg_GetReply(msg), natsMsg_GetData(msg), natsMsg_GetDataLength(msg));
    natsMsg_Destroy(msg);
    count(closure, &((Seen *)closure)->answered);
}

static natsStatus connect_as(natsConnection **nc, const char *user, const char *password, Seen *seen, bool echo)
{
    natsOptions *opts = NULL;
    natsStatus s = natsOptions_Create(&opts);
    if (s == NATS_OK) s = natsOptions_SetURL(opts, url);
    if (s == NATS_OK) s = natsOptions_SetUserInfo(opts, user, password);
    if (s == NATS_OK) s = natsOptions_SetTimeout(opts, LIMIT);
    if (s == NATS_OK) s = natsOptions_SetNoEcho(opts, !echo);
    if (s == NATS_OK) s = natsOptions_SetMaxReconnect(opts, 600);
    if (s == NATS_OK) s = natsOptions_SetReconnectWait(opts, 100);
    if (s == NATS_OK && seen) {
        s = natsOptions_SetErrorHandler(opts, on_error, seen);
        if (s == NATS_OK) s = natsOptions_SetClosedCB(opts, on_closed, seen);
        if (s == NATS_OK) s = natsOptions_SetDisconnectedCB(opts, on_disconnected, seen);
        if (s == NATS_OK) s = natsOptions_SetReconnectedCB(opts, on_reconnected, seen);
    }
    if (s == NATS_OK) s = natsConnection_Connect(nc, opts);
    natsOptions_Destroy(opts);
    return s;
}

static natsConnection *demo(Seen *seen)
{
    natsConnection *nc = NULL;
    natsStatus s = connect_as(&nc, "demo", "demo", seen, true);
    if (s != NATS_OK) {
        printf("FAILED: demo can't connect: %s\n", natsStatus_GetText(s));
        printf("0 passed, 1 failed\n");
        exit(1);
    }
    return nc;
}

/* Ends a check with what was wrong. */
#define WANT(holds) do { if (!(holds)) { \
    snprintf(why, sizeof why, "line %d: %s", __LINE__, #holds); goto end; } } while (0)
#define OK(call) do { natsStatus it = (call); if (it != NATS_OK) { \
    snprintf(why, sizeof why, "line %d: %s: %s", __LINE__, #call, natsStatus_GetText(it)); goto end; } } while (0)
#define BEGIN char why[512] = ""; natsSubscription *sub = NULL, *sub2 = NULL; natsMsg *msg = NULL; Seen seen; \
    natsConnection *nc = NULL, *nc2 = NULL; seen_new(&seen); (void)sub2; (void)msg; (void)nc2
#define END(name) end: tell(name, why); natsMsg_Destroy(msg); natsSubscription_Destroy(sub); \
    natsSubscription_Destroy(sub2); natsConnection_Destroy(nc); natsConnection_Destroy(nc2); nats_Sleep(20)

static int passed;

static void tell(const char *name, const char *why)
{
    if (*why) {
        failed++;
        printf("FAILED: %s: %s\n", name, why);
    } else {
        passed++;
        printf("passed: %s\n", name);
    }
    fflush(stdout);
}

static bool has(natsMsg *msg, const char *subject, const char *text)
{
    return !strcmp(natsMsg_GetSubject(msg), subject) && natsMsg_GetDataLength(msg) == (int)strlen(text)
        && !memcmp(natsMsg_GetData(msg), text, strlen(text));
}

static void connects(void)
{
    BEGIN;
    OK(connect_as(&nc, "demo", "demo", NULL, true));
    WANT(connect_as(&nc2, "demo", "wrong", NULL, true) == NATS_CONNECTION_AUTH_FAILED);
    WANT(connect_as(&nc2, "nobody", "demo", NULL, true) == NATS_CONNECTION_AUTH_FAILED);
    WANT(natsConnection_GetMaxPayload(nc) == 1048576);
    END("connect with user and password, a wrong one is refused");
}

static void publishes(void)
{
    static char large[1048576];
    BEGIN;
    nc = demo(NULL);
    nc2 = demo(NULL);
    OK(natsConnection_SubscribeSync(&sub, nc, "foo"));
    OK(natsConnection_FlushTimeout(nc, LIMIT));
    OK(natsConnection_PublishString(nc2, "foo", "hi"));
    OK(natsSubscription_NextMsg(&msg, sub, LIMIT));
    WANT(has(msg, "foo", "hi") && !natsMsg_GetReply(msg));
    natsMsg_Destroy(msg), msg = NULL;
    OK(natsConnection_PublishRequestString(nc2, "foo", "re", ""));
    OK(natsSubscription_NextMsg(&msg, sub, LIMIT));
    WANT(has(msg, "foo", "") && !strcmp(natsMsg_GetReply(msg), "re"));
    natsMsg_Destroy(msg), msg = NULL;
    memset(large, 'x', sizeof large);
    OK(natsConnection_Publish(nc2, "foo", large, sizeof large));
    OK(natsSubscription_NextMsg(&msg, sub, LIMIT));
    WANT(natsMsg_GetDataLength(msg) == sizeof large && !memcmp(natsMsg_GetData(msg), large, sizeof large));
    OK(natsSubscription_Unsubscribe(sub));
    OK(natsConnection_FlushTimeout(nc, LIMIT));
    END("publish and subscribe, with a reply subject, empty, and of 1 MiB");
}

static void echoes(void)
{
    BEGIN;
    OK(connect_as(&nc, "demo", "demo", NULL, false));
    OK(natsConnection_SubscribeSync(&sub, nc, "own"));
    OK(natsConnection_PublishString(nc, "own", "hi"));
    OK(natsConnection_FlushTimeout(nc, LIMIT));
    WANT(natsSubscription_NextMsg(&msg, sub, 200) == NATS_TIMEOUT);
    END("no echo where the client wants none");
}

static void wildcards(void)
{
    BEGIN;
    nc = demo(NULL);
    OK(natsConnection_SubscribeSync(&sub, nc, "a.*.c"));
    OK(natsConnection_SubscribeSync(&sub2, nc, "a.>"));
    OK(natsConnection_PublishString(nc, "a", "0"));
    OK(natsConnection_PublishString(nc, "a.b", "1"));
    OK(natsConnection_PublishString(nc, "a.b.c", "2"));
    OK(natsConnection_PublishString(nc, "a.b.c.d", "3"));
    OK(natsConnection_FlushTimeout(nc, LIMIT));
    OK(natsSubscription_NextMsg(&msg, sub, LIMIT));
    WANT(has(msg, "a.b.c", "2"));
    natsMsg_Destroy(msg), msg = NULL;
    WANT(natsSubscription_NextMsg(&msg, sub, 200) == NATS_TIMEOUT);
    const char *wanted[] = {"a.b", "1", "a.b.c", "2", "a.b.c.d", "3"};
    for (int i = 0; i < 6; i += 2) {
        OK(natsSubscription_NextMsg(&msg, sub2, LIMIT));
        WANT(has(msg, wanted[i], wanted[i + 1]));
        natsMsg_Destroy(msg), msg = NULL;
    }
    WANT(natsSubscription_NextMsg(&msg, sub2, 200) == NATS_TIMEOUT);
    END("wildcards");
}

static void queues(void)
{
    Seen other;
    seen_new(&other);
    BEGIN;
    nc = demo(NULL);
    nc2 = demo(NULL);
    OK(natsConnection_QueueSubscribe(&sub, nc, "jobs.*", "workers", on_message, &seen));
    OK(natsConnection_QueueSubscribe(&sub2, nc2, "jobs.>", "workers", on_message, &other));
    OK(natsConnection_FlushTimeout(nc, LIMIT));
    OK(natsConnection_FlushTimeout(nc2, LIMIT));
    for (int i = 0; i < 400; i++)
        OK(natsConnection_PublishString(nc, "jobs.one", "x"));
    OK(natsConnection_FlushTimeout(nc, LIMIT));
    for (int waited = 0; waited < LIMIT; waited += 5) {
        if (read_count(&seen, &seen.messages) + read_count(&other, &other.messages) >= 400)
            break;
        nats_Sleep(5);
    }
    nats_Sleep(200);
    WANT(read_count(&seen, &seen.messages) + read_count(&other, &other.messages) == 400);
    WANT(read_count(&seen, &seen.messages) > 100);
    WANT(read_count(&other, &other.messages) > 100);
    END("a queue group: each message to one member, both get some");
}

static void requests(void)
{
    BEGIN;
    nc = demo(NULL);
    nc2 = demo(NULL);
    OK(natsConnection_Subscribe(&sub, nc, "service", on_request, &seen));
    OK(natsConnection_FlushTimeout(nc, LIMIT));
    for (int i = 0; i < 200; i++) {
        char text[16];
        snprintf(text, sizeof text, "%d", i);
        OK(natsConnection_RequestString(&msg, nc2, "service", text, LIMIT));
        WANT(natsMsg_GetDataLength(msg) == (int)strlen(text) && !memcmp(natsMsg_GetData(msg), text, strlen(text)));
        natsMsg_Destroy(msg), msg = NULL;
    }
    WANT(natsConnection_RequestString(&msg, nc2, "nobody.there", "x", 300) == NATS_TIMEOUT);
    END("request and reply; where nobody listens, the client's own timeout");
}

/* Answers each request with its own subject, once it is clear that the reply is a response subject. */
static void on_priced(natsConnection *nc, natsSubscription *sub, natsMsg *msg, void *closure)
{
    const char *reply = natsMsg_GetReply(msg), *subject = natsMsg_GetSubject(msg);
    if (reply && !strncmp(reply, "_R_.", 4))
        natsConnection_PublishString(nc, reply, subject);
    natsMsg_Destroy(msg);
    count(closure, &((Seen *)closure)->answered);
}

static void services(void)
{
    BEGIN;
    OK(connect_as(&nc, "prices", "s3cret", NULL, true));
    OK(connect_as(&nc2, "shop", "w3lcome", NULL, true));
    OK(natsConnection_Subscribe(&sub, nc, "price.*", on_priced, &seen));
    OK(natsConnection_FlushTimeout(nc, LIMIT));
    for (int i = 0; i < 200; i++) {
        char asked[32], wanted[32];
        snprintf(asked, sizeof asked, "ask.price.%d", i);
        snprintf(wanted, sizeof wanted, "price.%d", i);
        OK(natsConnection_RequestString(&msg, nc2, asked, "", LIMIT));
        WANT(natsMsg_GetDataLength(msg) == (int)strlen(wanted) && !memcmp(natsMsg_GetData(msg), wanted, strlen(wanted)));
        WANT(natsMsg_GetReply(msg) == NULL);
        natsMsg_Destroy(msg), msg = NULL;
    }
    WANT(read_count(&seen, &seen.answered) == 200);
    WANT(natsConnection_RequestString(&msg, nc2, "price.tea", "", 300) == NATS_TIMEOUT);
    WANT(read_count(&seen, &seen.answered) == 200);
    END("request and reply between two accounts, each under its own subject");
}

static void headers(void)
{
    const char *value = NULL;
    BEGIN;
    nc = demo(NULL);
    OK(natsConnection_HasHeaderSupport(nc));
    OK(natsConnection_SubscribeSync(&sub, nc, "head"));
    OK(natsMsg_Create(&msg, "head", "re", "hi", 2));
    OK(natsMsgHeader_Set(msg, "Kind", "letter"));
    OK(natsMsgHeader_Add(msg, "Kind", "second"));
    OK(natsConnection_PublishMsg(nc, msg));
    natsMsg_Destroy(msg), msg = NULL;
    OK(natsSubscription_NextMsg(&msg, sub, LIMIT));
    WANT(has(msg, "head", "hi") && !strcmp(natsMsg_GetReply(msg), "re"));
    OK(natsMsgHeader_Get(msg, "Kind", &value));
    WANT(!strcmp(value, "letter"));
    END("headers");
}

static void unsubscribes(void)
{
    BEGIN;
    nc = demo(NULL);
    OK(natsConnection_SubscribeSync(&sub, nc, "five"));
    OK(natsSubscription_AutoUnsubscribe(sub, 5));
    for (int i = 0; i < 10; i++)
        OK(natsConnection_PublishString(nc, "five", "x"));
    OK(natsConnection_FlushTimeout(nc, LIMIT));
    for (int i = 0; i < 5; i++) {
        OK(natsSubscription_NextMsg(&msg, sub, LIMIT));
        natsMsg_Destroy(msg), msg = NULL;
    }
    WANT(natsSubscription_NextMsg(&msg, sub, 200) != NATS_OK);
    END("auto-unsubscribe");
}

static void drains(void)
{
    BEGIN;
    nc = demo(&seen);
    nc2 = demo(NULL);
    OK(natsConnection_Subscribe(&sub, nc, "work", on_message, &seen));
    OK(natsConnection_FlushTimeout(nc, LIMIT));
    for (int i = 0; i < 500; i++)
        OK(natsConnection_PublishString(nc2, "work", "x"));
    OK(natsConnection_FlushTimeout(nc2, LIMIT));
    OK(natsConnection_Drain(nc));
    WANT(reaches(&seen, &seen.closed, 1));
    WANT(read_count(&seen, &seen.messages) == 500);
    WANT(read_count(&seen, &seen.errors) == 0);
    END("drain: all that was published before is received, then the connection closes");
}

static void drains_own(void)
{
    BEGIN;
    nc = demo(&seen);
    OK(natsConnection_Subscribe(&sub, nc, "own", on_message, &seen));
    OK(natsConnection_FlushTimeout(nc, LIMIT));
    for (int i = 0; i < 100; i++)
        OK(natsConnection_PublishString(nc, "own", "x"));
    OK(natsConnection_Drain(nc));
    WANT(reaches(&seen, &seen.closed, 1));
    WANT(read_count(&seen, &seen.messages) == 100);
    END("drain: what the client itself has just published is received");
}

static void denials(void)
{
    BEGIN;
    OK(connect_as(&nc, "limited", "limited", &seen, true));
    OK(natsConnection_PublishString(nc, "foo.bar", "x"));
    WANT(reaches(&seen, &seen.errors, 1));
    WANT(seen.status == NATS_NOT_PERMITTED);
    WANT(strstr(seen.text, "Permissions Violation for Publish to \"foo.bar\""));
    OK(natsConnection_SubscribeSync(&sub, nc, "other.>"));
    WANT(reaches(&seen, &seen.errors, 2));
    WANT(seen.status == NATS_NOT_PERMITTED);
    WANT(strstr(seen.text, "Permissions Violation for Subscription to \"other.>\""));
    OK(natsConnection_SubscribeSync(&sub2, nc, "foo.*"));
    OK(natsConnection_PublishString(nc, "foo.baz", "hi"));
    OK(natsSubscription_NextMsg(&msg, sub2, LIMIT));
    WANT(has(msg, "foo.baz", "hi"));
    WANT(read_count(&seen, &seen.errors) == 2 && read_count(&seen, &seen.closed) == 0);
    WANT(read_count(&seen, &seen.disconnected) == 0);
    END("a denied publish and a denied subscription are told to the error callback, and the connection stays");
}

static void bad_subjects(void)
{
    BEGIN;
    nc = demo(&seen);
    OK(natsConnection_PublishString(nc, "foo..bar", "x"));
    WANT(reaches(&seen, &seen.closed, 1));
    END("a publish on a subject that is none ends this client");
}

static void reconnects(void)
{
    BEGIN;
    nc = demo(&seen);
    OK(natsConnection_SubscribeSync(&sub, nc, "again"));
    OK(natsConnection_FlushTimeout(nc, LIMIT));
    printf("stop and start\n");
    fflush(stdout);
    WANT(reaches(&seen, &seen.disconnected, 1));
    WANT(reaches(&seen, &seen.reconnected, 1));
    OK(natsConnection_PublishString(nc, "again", "hi"));
    OK(natsSubscription_NextMsg(&msg, sub, LIMIT));
    WANT(has(msg, "again", "hi"));
    WANT(read_count(&seen, &seen.closed) == 0);
    END("reconnect after the server was stopped and started, with its subscription");
}

int main(int argc, char **argv)
{
    if (argc != 2)
        return 2;
    url = argv[1];
    nats_Open(-1);
    connects();
    publishes();
    echoes();
    wildcards();
    queues();
    requests();
    services();
    headers();
    unsubscribes();
    drains();
    drains_own();
    denials();
    bad_subjects();
    reconnects();
    printf("%d passed, %d failed\n", passed, failed);
    fflush(stdout);
    nats_Close();
    return failed != 0;
}
