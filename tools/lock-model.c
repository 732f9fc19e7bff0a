/* What the lock's queue costs under a load of connections: a server that answers each message with a constant, and
 * before that works for a while in a lock as the program's is: tickets served in their order, a flag for each ticket to
 * sleep on. So ways of waiting can be compared before any of them is proved.
 *
 *     cc -O2 -D_GNU_SOURCE -pthread -o lock-model tools/lock-model.c
 *     ./lock-model PORT APPROACHES AHEAD HELD OUTSIDE & wrk -t4 -c16 -d2 http://127.0.0.1:PORT/
 *
 * Who comes looks APPROACHES times whether nobody is at the lock before it draws a ticket (0: it draws one at once), the
 * first seven times with pauses that double, then letting other threads run. Who stands among the next AHEAD looks a
 * hundred times before it sleeps, and is woken once it is among them (1: the next in line alone). A message takes HELD
 * nanoseconds in the lock and OUTSIDE of it. It says each second how many turns there were, and the share of wake-ups. */
#include <arpa/inet.h>
#include <linux/futex.h>
#include <netinet/tcp.h>
#include <pthread.h>
#include <stdatomic.h>
#include <stdio.h>
#include <stdlib.h>
#include <string.h>
#include <sys/syscall.h>
#include <time.h>
#include <unistd.h>

enum { FLAGS = 128, LOOKS = 100, PAUSED = 7 };

static _Atomic unsigned long tickets, serving, wakes;
static _Atomic unsigned flags[FLAGS];
static unsigned long approaches, ahead, held, outside;

static void pause_for(unsigned times) {
    while (times--) __builtin_ia32_pause();
}

static long nanoseconds(void) {
    struct timespec now;
    clock_gettime(CLOCK_MONOTONIC, &now);
    return now.tv_sec * 1000000000L + now.tv_nsec;
}

static void work(long time) {
    for (long end = nanoseconds() + time; nanoseconds() < end;) continue;
}

static void approach(void) {
    for (unsigned long look = 0; look < approaches && tickets != serving; look++) {
        if (look < PAUSED) pause_for(1u << look);
        else sched_yield();
    }
}

static void watch(unsigned long ticket) {
    for (int look = 0; look < LOOKS && ticket - serving - 1 < ahead; look++) pause_for(1);
}

static void enter(void) {
    approach();
    unsigned long ticket = tickets++;
    _Atomic unsigned *flag = &flags[ticket % FLAGS];
    for (watch(ticket); serving != ticket; watch(ticket)) {
        *flag = 1;
        if (serving == ticket) return;
        syscall(SYS_futex, flag, FUTEX_WAIT_PRIVATE, 1, NULL, NULL, 0);
    }
}

static void see_to(unsigned long ticket) {
    _Atomic unsigned *flag = &flags[ticket % FLAGS];
    if (!*flag) return;
    *flag = 0;
    wakes++;
    syscall(SYS_futex, flag, FUTEX_WAKE_PRIVATE, 1, NULL, NULL, 0);
}

static void leave(void) {
    unsigned long next = ++serving;
    see_to(next);
    if (ahead > 1) see_to(next + ahead - 1);
}

static void *answer(void *connection) {
    static const char reply[] = "HTTP/1.1 200 OK\r\nContent-Length: 2\r\n\r\n{}";
    char bytes[8192];
    int one = 1, socket = (int)(long)connection;
    setsockopt(socket, IPPROTO_TCP, TCP_NODELAY, &one, sizeof one);
    while (read(socket, bytes, sizeof bytes) > 0) {
        work(outside);
        enter();
        work(held);
        leave();
        if (write(socket, reply, sizeof reply - 1) < 0) break;
    }
    close(socket);
    return NULL;
}

static void *tell(void *unused) {
    for (unsigned long turns = 0, woken = 0;; turns = serving, woken = wakes) {
        sleep(1);
        if (serving != turns) fprintf(stderr, "%lu turns, %.3f wake-ups each\n", serving - turns, (double)(wakes - woken) / (serving - turns));
    }
    return unused;
}

int main(int count, char **words) {
    if (count != 6) return fprintf(stderr, "lock-model PORT APPROACHES AHEAD HELD OUTSIDE\n"), 2;
    approaches = atol(words[2]), ahead = atol(words[3]), held = atol(words[4]), outside = atol(words[5]);
    struct sockaddr_in address = {.sin_family = AF_INET, .sin_port = htons(atoi(words[1])), .sin_addr.s_addr = htonl(INADDR_LOOPBACK)};
    int listener = socket(AF_INET, SOCK_STREAM, 0), one = 1;
    setsockopt(listener, SOL_SOCKET, SO_REUSEADDR, &one, sizeof one);
    if (bind(listener, (struct sockaddr *)&address, sizeof address) || listen(listener, 64)) return perror("listen"), 1;
    pthread_t thread;
    for (pthread_create(&thread, NULL, tell, NULL);; pthread_detach(thread))
        pthread_create(&thread, NULL, answer, (void *)(long)accept(listener, NULL, NULL));
}
