/* The transport over a socket: a connection is a client of the server that listens there. */
#include "bridge.h"

#include <errno.h>
#include <poll.h>
#include <string.h>
#include <sys/socket.h>
#include <sys/un.h>
#include <unistd.h>

enum { FRESH = 1 << 16 };  /* how much room a read has at least */

/* Seconds of a clock that nobody sets. */
static time_t seconds(void)
{
    struct timespec time;
    clock_gettime(CLOCK_MONOTONIC, &time);
    return time.tv_sec;
}

static void set_wait(struct bridge *bridge, struct connection *connection)
{
    struct timeval wait = {.tv_sec = bridge->wait};
    setsockopt(connection->socket, SOL_SOCKET, SO_SNDTIMEO, &wait, sizeof wait);
    setsockopt(connection->socket, SOL_SOCKET, SO_RCVTIMEO, &wait, sizeof wait);
    connection->wait = bridge->wait;
}

static int open_socket(struct bridge *bridge, struct connection *connection)
{
    struct sockaddr_un address = {.sun_family = AF_UNIX};
    size_t length = strlen(bridge->options.source);
    if (length >= sizeof address.sun_path)
        return ENAMETOOLONG;
    memcpy(address.sun_path, bridge->options.source, length + 1);
    int descriptor = socket(AF_UNIX, SOCK_STREAM | SOCK_CLOEXEC, 0);
    if (descriptor < 0)
        return errno;
    connection->socket = descriptor;
    set_wait(bridge, connection);
    if (connect(descriptor, (struct sockaddr *)&address, sizeof address) != 0) {
        int fault = errno;
        close(descriptor);
        return fault;
    }
    return 0;
}

/* Nothing may be there to be read that nobody asked for. */
static bool is_ready(struct bridge *bridge, struct connection *connection)
{
    char byte;
    (void)bridge;
    ssize_t got = recv(connection->socket, &byte, 1, MSG_PEEK | MSG_DONTWAIT);
    return got < 0 && (errno == EAGAIN || errno == EWOULDBLOCK);
}

static bool send_some(int descriptor, const struct batch *batch, size_t *sent)
{
    ssize_t count = send(descriptor, batch->out + *sent, batch->out_length - *sent,
                         MSG_NOSIGNAL | MSG_DONTWAIT);
    if (count >= 0)
        *sent += (size_t)count;
    return count >= 0 || errno == EAGAIN || errno == EINTR;
}

static bool receive_some(int descriptor, struct batch *batch, int flags)
{
    if (!batch_room(batch, FRESH))
        return false;
    ssize_t count = recv(descriptor, batch->in + batch->in_length, FRESH, flags);
    if (count > 0)
        batch->in_length += (size_t)count;
    bool later = count < 0 && (errno == EINTR || (flags && errno == EAGAIN));
    return (count > 0 || later) && batch_judge(batch);
}

/* Where it can't be sent the server may have said why before it went away. */
static bool send_or_hear(int descriptor, struct batch *batch, size_t *sent)
{
    if (send_some(descriptor, batch, sent))
        return true;
    receive_some(descriptor, batch, MSG_DONTWAIT);
    return false;
}

/* While not all is sent it reads as well, since the server may wait for that. */
static bool exchange_some(struct bridge *bridge, int descriptor, size_t *sent)
{
    struct batch *batch = &bridge->batch;
    if (*sent == batch->out_length)
        return receive_some(descriptor, batch, 0);
    struct pollfd poll_for = {.fd = descriptor, .events = POLLIN | POLLOUT};
    int ready = poll(&poll_for, 1, (int)bridge->wait * 1000);
    if (ready == 0 || (ready < 0 && errno != EINTR))
        return false;
    if (ready > 0 && (poll_for.revents & POLLOUT) && !send_or_hear(descriptor, batch, sent))
        return false;
    return !(ready > 0 && (poll_for.revents & ~POLLOUT))
        || receive_some(descriptor, batch, MSG_DONTWAIT);
}

/* Each reply has its time to come whole, so a server can't keep the mount by single bytes. */
static bool exchange(struct bridge *bridge, struct connection *connection)
{
    struct batch *batch = &bridge->batch;
    int descriptor = connection->socket;
    size_t sent = 0, seen = 0;
    time_t since = seconds();
    if (connection->wait != bridge->wait)
        set_wait(bridge, connection);
    if (!send_or_hear(descriptor, batch, &sent))
        return false;
    while (batch->answered < batch->count) {
        if (!exchange_some(bridge, descriptor, &sent))
            return false;
        if (batch->answered > seen) {
            seen = batch->answered;
            since = seconds();
        } else if (seconds() - since > (time_t)bridge->wait) {
            return false;
        }
    }
    return sent == batch->out_length && batch->judged == batch->in_length;
}

static void drop_socket(struct bridge *bridge, struct connection *connection)
{
    (void)bridge;
    close(connection->socket);
    connection->socket = -1;
}

const struct transport socket_transport = {
    .open = open_socket, .ready = is_ready, .exchange = exchange, .drop = drop_socket,
};
