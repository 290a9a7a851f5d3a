// Loaded into a program before its other libraries, this sets the smallest send buffer on each connection that it accepts.
// Otherwise the machine's buffers take a whole answer, and the program never waits for its client.
#define _GNU_SOURCE
#include <sys/socket.h>
#include <sys/syscall.h>
#include <unistd.h>

int accept4(int listener, struct sockaddr *from, socklen_t *size, int flags) {
    int taken = syscall(SYS_accept4, listener, from, size, flags);
    int least = 1;
    if (taken >= 0)
        setsockopt(taken, SOL_SOCKET, SO_SNDBUF, &least, sizeof least);
    return taken;
}
