/* What measure-serve measures with: clients that place, ask or pass; the raw loop and the bare server, which make the writes of a journal again;
   and a busy process. */
#define _GNU_SOURCE
#include <arpa/inet.h>
#include <fcntl.h>
#include <netinet/in.h>
#include <netinet/tcp.h>
#include <pthread.h>
#include <stdint.h>
#include <stdio.h>
#include <stdlib.h>
#include <string.h>
#include <sys/socket.h>
#include <time.h>
#include <unistd.h>

static char in[1 << 20];
static size_t have;
static int line;

static void die(const char *why) {
    fprintf(stderr, "desk: %s\n", why);
    exit(1);
}

static uint64_t now(void) {
    struct timespec t;
    clock_gettime(CLOCK_MONOTONIC, &t);
    return (uint64_t)t.tv_sec * 1000000000u + (uint64_t)t.tv_nsec;
}

static void put(const char *text, size_t length) {
    for (size_t done = 0; done < length;) {
        ssize_t n = write(line, text + done, length - done);
        if (n <= 0) die("write");
        done += (size_t)n;
    }
}

/* Takes the next reply off the connection: its status, and the first number that its body has under this key. */
static int reply(const char *key, unsigned *number) {
    char *end, *it;
    for (;;) {
        in[have] = 0;
        if ((end = strstr(in, "\r\n\r\n"))) {
            size_t length = (size_t)atol(strstr(in, "Content-Length: ") + 16), whole = (size_t)(end + 4 - in) + length;
            if (have >= whole) {
                int code = atoi(in + 9);
                if (key && (it = strstr(end, key))) *number = (unsigned)strtoul(it + strlen(key), 0, 10);
                memmove(in, in + whole, have - whole);
                have -= whole;
                return code;
            }
        }
        ssize_t n = read(line, in + have, sizeof in - 1 - have);
        if (n <= 0) die("read");
        have += (size_t)n;
    }
}

static int post(char *into, const char *target, const char *body) {
    return sprintf(into, "POST %s HTTP/1.1\r\nHost: apron\r\nContent-Length: %zu\r\n\r\n%s", target, strlen(body), body);
}

static void dial(int port) {
    struct sockaddr_in at = {.sin_family = AF_INET, .sin_port = htons((uint16_t)port), .sin_addr = {htonl(INADDR_LOOPBACK)}};
    int one = 1;
    line = socket(AF_INET, SOCK_STREAM, 0);
    if (connect(line, (struct sockaddr *)&at, sizeof at)) die("connect");
    setsockopt(line, IPPROTO_TCP, TCP_NODELAY, &one, sizeof one);
}

/* The desk adds a visit of its own, waits for a byte, and has the visit go to and fro between two stands; it writes when it began and
   ended, and how long each reply took, in nanoseconds. */
static void place(unsigned desk, unsigned count) {
    char body[300], text[600];
    unsigned version = 0, visit = 0;
    uint64_t *took = malloc((count + 2) * sizeof *took);
    sprintf(body, "{\"name\":\"V%u\",\"type\":\"A320\",\"class\":3,\"on\":%u,\"off\":%u}", desk, 100 * desk, 100 * desk + 60);
    put(text, (size_t)post(text, "/visits", body));
    if (reply("\"visit\":", &visit) != 200) die("the visit was not added");
    put(text, (size_t)sprintf(text, "GET /version HTTP/1.1\r\n\r\n"));
    if (reply("\"version\":", &version) != 200) die("the version was not told");
    if (write(1, "\n", 1) != 1 || read(0, body, 1) != 1) die("the start");
    took[0] = now();
    for (unsigned draft = 1; draft <= count; draft++) {
        sprintf(body, "{\"desk\":\"D%u\",\"draft\":%u,\"base\":%u,\"edits\":[{\"put\":{\"visit\":%u,\"part\":1,\"stand\":\"%s\"}}]}", desk, draft, version, visit, draft % 2 ? "N1" : "N2");
        size_t length = (size_t)post(text, "/commits", body);
        uint64_t begun = now();
        put(text, length);
        if (reply("\"version\":", &version) != 200) die("a placement was not accepted");
        took[draft + 1] = now() - begun;
    }
    uint64_t ended = now();
    fwrite(&took[0], 8, 1, stdout);
    fwrite(&ended, 8, 1, stdout);
    fwrite(&took[2], 8, count, stdout);
}

/* The desk sends this many reads and commits that are refused, sixteen at a time. */
static void ask(unsigned count) {
    static char text[16 * 600];
    const char *refused[2] = {"{\"desk\":\"R\",\"draft\":1,\"base\":0,\"edits\":[{\"put\":{\"visit\":1,\"part\":1,\"stand\":\"N1\"}}]}",
                              "{\"desk\":\"R\",\"draft\":2,\"base\":4,\"edits\":[{\"put\":{\"visit\":2,\"part\":1,\"stand\":\"N1\"}}]}"};
    const char *reads[4] = {"/version", "/visits/1", "/plan/1", "/chart/1"};
    const int codes[8] = {200, 409, 200, 422, 200, 409, 200, 422};
    for (unsigned done = 0; done < count; done += 16) {
        size_t length = 0;
        for (unsigned k = 0; k < 16; k++)
            length += (size_t)(k % 2 ? post(text + length, "/commits", refused[k / 2 % 2])
                                     : sprintf(text + length, "GET %s HTTP/1.1\r\nHost: apron\r\n\r\n", reads[k / 2 % 4]));
        put(text, length);
        for (unsigned k = 0; k < 16; k++)
            if (reply(0, 0) != codes[k % 8]) die("another reply came than was owed");
    }
}

static unsigned char text[1 << 26];
static size_t length, places[300001], records, next_record;
static int disk;

/* The desk sends this many requests for a target that is not there, sixteen at a time. */
static void pass(unsigned count) {
    static char text[16 * 600];
    size_t length = 0;
    for (unsigned k = 0; k < 16; k++) length += (size_t)sprintf(text + length, "GET /nothing HTTP/1.1\r\nHost: apron\r\n\r\n");
    for (unsigned done = 0; done < count; done += 16) {
        put(text, length);
        for (unsigned k = 0; k < 16; k++)
            if (reply(0, 0) != 404) die("another reply came than was owed");
    }
}

/* Keeps a processor busy, for some minutes at most. */
static void burn(void) {
    alarm(600);
    for (volatile unsigned long turns = 0;; turns++) {}
}

/* Reads a journal, and makes a file of another path with all of it except this many records at its end. */
static void begin(const char *from, const char *to, unsigned count) {
    int file = open(from, O_RDONLY);
    ssize_t got = read(file, text, sizeof text);
    size_t at = 73;
    for (; got > 73 && text[at] == 1; at += 3u + text[at + 1] + 256u * text[at + 2]) places[records++] = at;
    if (records < count || (disk = open(to, O_RDWR | O_CREAT | O_TRUNC, 0600)) < 0) die("the journal");
    length = (size_t)got;
    places[records] = length - 1;
    next_record = records - count;
    text[places[next_record]] = 0;
    if (pwrite(disk, text, places[next_record] + 1, 0) != (ssize_t)(places[next_record] + 1) || fsync(disk)) die("the disk");
}

/* Makes the next record, as a program does that keeps one after the other. */
static void keep(void) {
    size_t at = places[next_record], behind = places[next_record + 1];
    unsigned char one = 1;
    next_record++;
    text[behind] = 0;
    if (pwrite(disk, text + at + 1, behind - at, (off_t)at + 1) < 0 || fdatasync(disk)) die("the disk");
    if (pwrite(disk, &one, 1, (off_t)at) != 1 || fdatasync(disk)) die("the disk");
}

/* The nanoseconds that this many records take, the last ones. */
static void raw(const char *from, const char *to, unsigned count) {
    begin(from, to, count);
    uint64_t begun = now();
    while (next_record < records) keep();
    printf("%llu\n", (unsigned long long)(now() - begun));
}

static pthread_mutex_t lock = PTHREAD_MUTEX_INITIALIZER;

/* Serves one connection: it keeps a record for each placement, and answers. */
static void *attend(void *socket) {
    static const char answer[] = "HTTP/1.1 200 OK\r\nContent-Type: application/json\r\nContent-Length: 23\r\nX-Version: 1\r\n\r\n{\"version\":1,\"visit\":1}";
    int mine = (int)(intptr_t)socket;
    char asked[4096], *end;
    size_t held = 0;
    for (;;) {
        asked[held] = 0;
        if ((end = strstr(asked, "\r\n\r\n"))) {
            char *told = strstr(asked, "Content-Length: ");
            size_t whole = (size_t)(end + 4 - asked) + (told ? (size_t)atol(told + 16) : 0);
            if (held >= whole) {
                if (!strncmp(asked, "POST /commits", 13)) {
                    pthread_mutex_lock(&lock);
                    keep();
                    pthread_mutex_unlock(&lock);
                }
                memmove(asked, asked + whole, held - whole);
                held -= whole;
                if (write(mine, answer, sizeof answer - 1) != sizeof answer - 1) die("an answer");
                continue;
            }
        }
        ssize_t n = read(mine, asked + held, sizeof asked - 1 - held);
        if (n <= 0) return 0;
        held += (size_t)n;
    }
}

/* Serves this many connections, each in a thread. First it prints its port. */
static void bare(const char *from, const char *to, unsigned count, unsigned desks) {
    struct sockaddr_in at = {.sin_family = AF_INET, .sin_addr = {htonl(INADDR_LOOPBACK)}};
    socklen_t size = sizeof at;
    int hearing = socket(AF_INET, SOCK_STREAM, 0), one = 1;
    pthread_t threads[64];
    begin(from, to, count);
    if (bind(hearing, (struct sockaddr *)&at, size) || listen(hearing, 64) || getsockname(hearing, (struct sockaddr *)&at, &size)) die("the port");
    printf("%d\n", ntohs(at.sin_port));
    fflush(stdout);
    for (unsigned k = 0; k < desks && k < 64; k++) {
        int mine = accept(hearing, 0, 0);
        setsockopt(mine, IPPROTO_TCP, TCP_NODELAY, &one, sizeof one);
        if (pthread_create(&threads[k], 0, attend, (void *)(intptr_t)mine)) die("a thread");
    }
    for (unsigned k = 0; k < desks && k < 64; k++) pthread_join(threads[k], 0);
}

int main(int count, char **words) {
    if (count == 5 && !strcmp(words[1], "raw")) {
        raw(words[2], words[3], (unsigned)atoi(words[4]));
    } else if (count == 5 && !strcmp(words[1], "place")) {
        dial(atoi(words[2]));
        place((unsigned)atoi(words[3]), (unsigned)atoi(words[4]));
    } else if (count == 4 && !strcmp(words[1], "ask")) {
        dial(atoi(words[2]));
        ask((unsigned)atoi(words[3]));
    } else if (count == 4 && !strcmp(words[1], "pass")) {
        dial(atoi(words[2]));
        pass((unsigned)atoi(words[3]));
    } else if (count == 2 && !strcmp(words[1], "burn")) {
        burn();
    } else if (count == 6 && !strcmp(words[1], "bare")) {
        bare(words[2], words[3], (unsigned)atoi(words[4]), (unsigned)atoi(words[5]));
    } else {
        die("place PORT DESK COUNT, ask PORT COUNT, pass PORT COUNT, burn, raw FROM TO COUNT, or bare FROM TO COUNT DESKS");
    }
    return 0;
}
