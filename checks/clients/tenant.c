/* A tenant's client over libnats, which connects again as libnats does by itself: tenant URL
 *
 * It subscribes to everything. It prints `connected`, and later `disconnected` and `connected` again, each time that happens;
 * and for each message its subject and its payload. Each line of standard input is published on news.x. It ends with the input,
 * or once libnats gives up, which prints `closed`. */
#include <nats/nats.h>
#include <stdio.h>
#include <stdlib.h>
#include <string.h>

static void say(const char *text)
{
    printf("%s\n", text);
    fflush(stdout);
}

static void on_disconnected(natsConnection *nc, void *closure) { say("disconnected"); }

static void on_reconnected(natsConnection *nc, void *closure) { say("connected"); }

static void on_closed(natsConnection *nc, void *closure)
{
    say("closed");
    exit(1);
}

static void on_message(natsConnection *nc, natsSubscription *sub, natsMsg *msg, void *closure)
{
    printf("%s %.*s\n", natsMsg_GetSubject(msg), natsMsg_GetDataLength(msg), natsMsg_GetData(msg));
    fflush(stdout);
    natsMsg_Destroy(msg);
}

int main(int argc, char **argv)
{
    natsOptions *options;
    natsConnection *nc;
    natsSubscription *sub;
    char line[256];
    natsOptions_Create(&options);
    natsOptions_SetURL(options, argc > 1 ? argv[1] : NULL);
    natsOptions_SetMaxReconnect(options, -1);
    natsOptions_SetDisconnectedCB(options, on_disconnected, NULL);
    natsOptions_SetReconnectedCB(options, on_reconnected, NULL);
    natsOptions_SetClosedCB(options, on_closed, NULL);
    natsStatus status = natsConnection_Connect(&nc, options);
    if (status == NATS_OK)
        status = natsConnection_Subscribe(&sub, nc, ">", on_message, NULL);
    if (status == NATS_OK)
        status = natsConnection_Flush(nc);
    if (status != NATS_OK) {
        fprintf(stderr, "%s\n", natsStatus_GetText(status));
        return 1;
    }
    say("connected");
    while (fgets(line, sizeof line, stdin)) {
        natsConnection_Publish(nc, "news.x", line, (int)strcspn(line, "\n"));
        natsConnection_Flush(nc);
    }
    /* What has come is printed first. */
    natsSubscription_Drain(sub);
    natsSubscription_WaitForDrainCompletion(sub, 5000);
    exit(0);
}
