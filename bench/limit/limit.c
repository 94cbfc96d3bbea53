/* The system calls of a fan-out gateway and nothing else, for the measurement: what a gateway that opens a connection for
   each branch can't beat by much. A thread for each client; for each call the branches of its plan are asked, so many at
   once, each by socket, connect, TCP_NODELAY, send, receive and close; then one write to the client. Nothing is checked, and
   of HTTP it knows heads that end in an empty line and Content-Length. Words: PORT PING_PORT QUOTE_PORT, where QUOTE_PORT and
   the two ports behind it are those of Quote's three branches, of which two are asked at once. */
#define _GNU_SOURCE
#include <arpa/inet.h>
#include <netinet/tcp.h>
#include <poll.h>
#include <pthread.h>
#include <signal.h>
#include <stdio.h>
#include <stdlib.h>
#include <string.h>
#include <sys/socket.h>
#include <unistd.h>

enum { MOST_BRANCHES = 3, ROOM = 1 << 16 };

struct message {
    char text[ROOM + 1];
    size_t length, head, body;
};

struct branch {
    int socket, port;
    const char *name;
    struct message reply;
};

struct client {
    int socket;
    struct message request;
    struct branch branches[MOST_BRANCHES];
};

static const int yes = 1;
static int ping_port, quote_port;

static struct sockaddr_in local(int port)
{
    struct sockaddr_in address = {.sin_family = AF_INET, .sin_port = htons(port)};
    address.sin_addr.s_addr = htonl(INADDR_LOOPBACK);
    return address;
}

/* Whether the message is whole; its head and body are then known. */
static int is_whole(struct message *m)
{
    m->text[m->length] = 0;
    char *end = strstr(m->text, "\r\n\r\n");
    if (!end)
        return 0;
    char *field = strcasestr(m->text, "\r\ncontent-length:");
    m->head = end + 4 - m->text;
    m->body = field && field < end ? strtoul(field + 17, 0, 10) : 0;
    return m->length >= m->head + m->body;
}

static int read_more(int from, struct message *m)
{
    ssize_t got = recv(from, m->text + m->length, ROOM - m->length, 0);
    if (got > 0)
        m->length += got;
    return got > 0;
}

static int ask(struct branch *b, const char *request, size_t length)
{
    struct sockaddr_in address = local(b->port);
    b->reply.length = 0;
    b->socket = socket(AF_INET, SOCK_STREAM, 0);
    return b->socket >= 0 && !connect(b->socket, (struct sockaddr *)&address, sizeof address)
        && !setsockopt(b->socket, IPPROTO_TCP, TCP_NODELAY, &yes, sizeof yes)
        && send(b->socket, request, length, MSG_NOSIGNAL) == (ssize_t)length;
}

/* Asks all branches, so many at once, and reads their replies. */
static int gather(struct branch *branches, int count, int limit, const char *request, size_t length)
{
    struct pollfd waits[MOST_BRANCHES];
    int asked = 0, done = 0;
    for (int at = 0; at < count; at++)
        waits[at] = (struct pollfd){.fd = -1, .events = POLLIN};
    while (done < count) {
        for (; asked < count && asked - done < limit; asked++) {
            if (!ask(&branches[asked], request, length))
                return 0;
            waits[asked].fd = branches[asked].socket;
        }
        if (asked - done > 1 && poll(waits, asked, 10000) <= 0)
            return 0;
        for (int at = 0, only = asked - done == 1; at < asked; at++) {
            if (waits[at].fd < 0 || (!only && !waits[at].revents))
                continue;
            if (!read_more(branches[at].socket, &branches[at].reply))
                return 0;
            if (is_whole(&branches[at].reply)) {
                close(branches[at].socket);
                waits[at].fd = -1;
                done++;
            }
        }
    }
    return 1;
}

static int answer(struct client *c)
{
    static const char *quote[] = {"flight", "hotel", "car"};
    struct message *call = &c->request;
    int is_quote = !!memmem(call->text, 64, "/Quote ", 7), count = is_quote ? 3 : 1;
    char request[4096], joined[4096], reply[8192];
    size_t length = snprintf(request, sizeof request,
        "POST /ask HTTP/1.1\r\nHost: 127.0.0.1\r\nContent-Type: application/json\r\n"
        "Content-Length: %zu\r\nConnect-Protocol-Version: 1\r\nConnection: close\r\n\r\n%.*s",
        call->body, (int)call->body, call->text + call->head);
    for (int at = 0; at < count; at++) {
        c->branches[at].port = is_quote ? quote_port + at : ping_port;
        c->branches[at].name = is_quote ? quote[at] : "pong";
    }
    if (!gather(c->branches, count, 2, request, length))
        return 0;
    size_t size = 0;
    for (int at = 0; at < count; at++) {
        struct message *m = &c->branches[at].reply;
        size += snprintf(joined + size, sizeof joined - size, "%c\"%s\":%.*s", at ? ',' : '{', c->branches[at].name,
            (int)m->body, m->text + m->head);
    }
    size = snprintf(reply, sizeof reply, "HTTP/1.1 200 OK\r\nContent-Type: application/json\r\nContent-Length: %zu\r\n\r\n%s}",
        size + 1, joined);
    return send(c->socket, reply, size, MSG_NOSIGNAL) == (ssize_t)size;
}

static void *serve(void *given)
{
    struct client *c = given;
    setsockopt(c->socket, IPPROTO_TCP, TCP_NODELAY, &yes, sizeof yes);
    for (;;) {
        while (!is_whole(&c->request))
            if (!read_more(c->socket, &c->request))
                goto end;
        if (!answer(c))
            goto end;
        size_t used = c->request.head + c->request.body;
        c->request.length -= used;
        memmove(c->request.text, c->request.text + used, c->request.length);
    }
end:
    close(c->socket);
    free(c);
    return 0;
}

int main(int count, char **words)
{
    if (count != 4)
        return 2;
    struct sockaddr_in address = local(atoi(words[1]));
    ping_port = atoi(words[2]);
    quote_port = atoi(words[3]);
    signal(SIGPIPE, SIG_IGN);
    int listener = socket(AF_INET, SOCK_STREAM, 0);
    setsockopt(listener, SOL_SOCKET, SO_REUSEADDR, &yes, sizeof yes);
    if (bind(listener, (struct sockaddr *)&address, sizeof address) || listen(listener, 128))
        return 1;
    for (;;) {
        struct client *c = calloc(1, sizeof *c);
        pthread_t thread;
        c->socket = accept(listener, 0, 0);
        if (c->socket >= 0 && !pthread_create(&thread, 0, serve, c))
            pthread_detach(thread);
        else
            free(c);
    }
}
