/* What a write costs that does nothing but its system calls: a server that answers each message of a connection with
 * one reply, and before that appends an entry to a file, syncs, writes the byte of its gate, and syncs again, one message
 * at a time.
 *
 *     cc -O2 -D_GNU_SOURCE -pthread -o two-syncs tools/two-syncs.c && ./two-syncs PORT FOLDER THREADS
 *
 * tools/rates builds it and measures the program beside it. It reads messages with a Content-Length, and checks nothing. */
#include <arpa/inet.h>
#include <fcntl.h>
#include <netinet/tcp.h>
#include <pthread.h>
#include <stdio.h>
#include <stdlib.h>
#include <string.h>
#include <unistd.h>

static const char REPLY[] = "HTTP/1.1 200 OK\r\nContent-Type: application/x-amz-json-1.1\r\nContent-Length: 2\r\n\r\n{}";
static char entry[150];
static int listener, journal;
static off_t end;
static pthread_mutex_t hold = PTHREAD_MUTEX_INITIALIZER;

static void must(int holds, const char *what) {
    if (!holds) { perror(what); exit(1); }
}

static void write_entry(void) {
    pthread_mutex_lock(&hold);
    must(pwrite(journal, entry, sizeof entry, end) == sizeof entry, "entry");
    must(fdatasync(journal) == 0, "sync");
    must(pwrite(journal, "\1", 1, end) == 1, "gate");
    must(fdatasync(journal) == 0, "sync");
    end += sizeof entry;
    pthread_mutex_unlock(&hold);
}

/* The length of the first message among so many bytes, or 0 where it isn't whole. */
static size_t message_in(const char *bytes, size_t count) {
    const char *head = memmem(bytes, count, "\r\n\r\n", 4), *field = strcasestr(bytes, "content-length:");
    if (!head) return 0;
    size_t length = head + 4 - bytes + (field && field < head ? strtoul(field + 15, NULL, 10) : 0);
    return length <= count ? length : 0;
}

static void *answer(void *unused) {
    for (;;) {
        char bytes[65537];
        size_t count = 0;
        int connection = accept(listener, NULL, NULL), one = 1;
        setsockopt(connection, IPPROTO_TCP, TCP_NODELAY, &one, sizeof one);
        for (ssize_t got; (got = read(connection, bytes + count, sizeof bytes - 1 - count)) > 0;) {
            bytes[count += got] = 0;
            for (size_t length; (length = message_in(bytes, count)); memmove(bytes, bytes + length, count -= length)) {
                write_entry();
                if (write(connection, REPLY, sizeof REPLY - 1) < 0) break;
            }
        }
        close(connection);
    }
    return unused;
}

int main(int count, char **words) {
    must(count == 4 && chdir(words[2]) == 0, "two-syncs PORT FOLDER THREADS");
    journal = open("two-syncs", O_RDWR | O_CREAT | O_TRUNC, 0600);
    must(journal >= 0, "two-syncs");
    struct sockaddr_in address = {.sin_family = AF_INET, .sin_port = htons(atoi(words[1])), .sin_addr.s_addr = htonl(INADDR_LOOPBACK)};
    int one = 1, threads = atoi(words[3]);
    listener = socket(AF_INET, SOCK_STREAM, 0);
    setsockopt(listener, SOL_SOCKET, SO_REUSEADDR, &one, sizeof one);
    must(bind(listener, (struct sockaddr *)&address, sizeof address) == 0 && listen(listener, 64) == 0, "listen");
    for (pthread_t thread; --threads > 0;) must(pthread_create(&thread, NULL, answer, NULL) == 0, "thread");
    answer(NULL);
}
