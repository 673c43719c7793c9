/* Round trips over the loopback, for bench/serving.py.
 *
 *     round_trips echo IN OUT                            answers each IN bytes by OUT bytes, at a port that it prints
 *     round_trips bare PORT IN OUT COUNT                 asks it so often
 *     round_trips client PORT PATH COUNT AHEAD AWAITED   speaks to a server of WebSockets by the commands on its input
 *
 * A command is a line METHOD PARAMS, of which the reply is awaited, or wait METHOD, which waits for an event. The last line
 * is sent COUNT times, with at most AHEAD trips under way; a trip ends with its reply, where AWAITED is `reply`, and else
 * with the next event of the method AWAITED. Replies must come in the order of their commands, none of them a refusal.
 * Both clients print COUNT, the seconds that the trips took, and in microseconds the median and the 99th percentile of one.
 */
#include <arpa/inet.h>
#include <netinet/tcp.h>
#include <stdarg.h>
#include <stdio.h>
#include <stdlib.h>
#include <string.h>
#include <sys/socket.h>
#include <time.h>
#include <unistd.h>

static void fail(const char *form, ...) {
    va_list words;
    va_start(words, form);
    vfprintf(stderr, form, words);
    fputc('\n', stderr);
    exit(1);
}

static double now(void) {
    struct timespec t;
    clock_gettime(CLOCK_MONOTONIC, &t);
    return t.tv_sec + t.tv_nsec * 1e-9;
}

/* ---- sockets */

static struct sockaddr_in here(int port) {
    struct sockaddr_in a = {.sin_family = AF_INET, .sin_port = htons(port)};
    a.sin_addr.s_addr = htonl(INADDR_LOOPBACK);
    return a;
}

static int prompt(int stream) {
    int one = 1;
    if (stream < 0 || setsockopt(stream, IPPROTO_TCP, TCP_NODELAY, &one, sizeof one)) fail("no stream");
    return stream;
}

static int dialled(int port) {
    struct sockaddr_in a = here(port);
    int stream = prompt(socket(AF_INET, SOCK_STREAM, 0));
    if (connect(stream, (struct sockaddr *)&a, sizeof a)) fail("nobody listens at %d", port);
    return stream;
}

static void put(int stream, const void *bytes, size_t count) {
    for (const char *at = bytes; count;) {
        ssize_t n = write(stream, at, count);
        if (n <= 0) fail("the peer takes nothing more");
        at += n;
        count -= n;
    }
}

/* Reads exactly so many bytes; whether they came. */
static int take(int stream, char *bytes, size_t count) {
    while (count) {
        ssize_t n = read(stream, bytes, count);
        if (n <= 0) return 0;
        bytes += n;
        count -= n;
    }
    return 1;
}

/* ---- what the trips took */

static double *trips;
static long trips_done;
static double begun;

static void begin_trips(long count) {
    trips = malloc(count * sizeof *trips);
    if (!trips) fail("no memory");
    begun = now();
}

static int by_value(const void *a, const void *b) {
    double x = *(const double *)a, y = *(const double *)b;
    return (x > y) - (x < y);
}

static void tell_trips(void) {
    double seconds = now() - begun;
    qsort(trips, trips_done, sizeof *trips, by_value);
    printf("%ld %.6f %.1f %.1f\n", trips_done, seconds, trips[trips_done / 2] * 1e6, trips[trips_done * 99 / 100] * 1e6);
}

/* ---- bare TCP */

static char bytes[1 << 16];

static void echo(size_t in, size_t out) {
    struct sockaddr_in a = here(0);
    socklen_t size = sizeof a;
    int listener = socket(AF_INET, SOCK_STREAM, 0);
    if (bind(listener, (struct sockaddr *)&a, size) || listen(listener, 1)) fail("no port");
    if (getsockname(listener, (struct sockaddr *)&a, &size)) fail("no port");
    printf("%d\n", ntohs(a.sin_port));
    fflush(stdout);
    int stream = prompt(accept(listener, NULL, NULL));
    while (take(stream, bytes, in)) put(stream, bytes, out);
}

static void bare(int port, size_t in, size_t out, long count) {
    int stream = dialled(port);
    begin_trips(count);
    while (trips_done < count) {
        double start = now();
        put(stream, bytes, in);
        if (!take(stream, bytes, out)) fail("the peer has ended");
        trips[trips_done++] = now() - start;
    }
    tell_trips();
}

/* ---- a client of WebSockets */

static int stream;
static char heard[1 << 22];
static size_t heard_from, heard_to;

/* Has at least so many bytes that were heard and not taken. */
static char *want(size_t count) {
    if (heard_from + count > sizeof heard) {
        memmove(heard, heard + heard_from, heard_to - heard_from);
        heard_to -= heard_from;
        heard_from = 0;
    }
    while (heard_to - heard_from < count) {
        ssize_t n = read(stream, heard + heard_to, sizeof heard - heard_to);
        if (n <= 0) fail("the host has ended");
        heard_to += n;
    }
    return heard + heard_from;
}

static void upgrade(int port, const char *path) {
    char head[1000];
    stream = dialled(port);
    int size = snprintf(head, sizeof head,
                        "GET %s HTTP/1.1\r\nHost: 127.0.0.1:%d\r\nUpgrade: websocket\r\nConnection: Upgrade\r\n"
                        "Sec-WebSocket-Key: dGhlIHNhbXBsZSBub25jZQ==\r\nSec-WebSocket-Version: 13\r\n\r\n",
                        path, port);
    put(stream, head, size);
    size_t count = 4;
    while (memcmp(want(count) + count - 4, "\r\n\r\n", 4)) count++;
    if (memcmp(heard + heard_from, "HTTP/1.1 101", 12)) fail("the host refuses");
    heard_from += count;
}

/* Sends a text in one frame. Its mask is fixed, which a server can't tell. */
static void say(const char *text, size_t size) {
    static unsigned char sent[1 << 16];
    const unsigned char key[4] = {1, 2, 3, 4};
    size_t at = 0;
    if (size > 65000) fail("too long a command");
    sent[at++] = 0x81;
    if (size < 126) {
        sent[at++] = 0x80 | size;
    } else {
        sent[at++] = 0x80 | 126;
        sent[at++] = size >> 8;
        sent[at++] = size & 255;
    }
    memcpy(sent + at, key, 4);
    at += 4;
    for (size_t i = 0; i < size; i++) sent[at++] = text[i] ^ key[i & 3];
    put(stream, sent, at);
}

/* The next text, of this size, up to the next call. */
static char *hear(size_t *size) {
    unsigned char *head = (unsigned char *)want(2);
    size_t length = head[1] & 127, from = 2;
    int opcode = head[0] & 15;
    if (length == 126) {
        head = (unsigned char *)want(4);
        length = head[2] << 8 | head[3];
        from = 4;
    } else if (length == 127) {
        head = (unsigned char *)want(10);
        length = 0;
        for (int i = 2; i < 10; i++) length = length << 8 | head[i];
        from = 10;
    }
    char *text = want(from + length) + from;
    heard_from += from + length;
    if (opcode == 8) fail("closed with %d", length < 2 ? 0 : (text[0] & 255) << 8 | (text[1] & 255));
    if (opcode != 1) fail("opcode %d", opcode);
    *size = length;
    return text;
}

/* ---- commands */

static long said, replied;
static char event[200];
static long events;

static void await(const char *method) {
    snprintf(event, sizeof event, "{\"method\":\"%.150s\"", method);
}

static void say_command(const char *line) {
    char text[60000];
    const char *params = strchr(line, ' ');
    int method = params ? (int)(params - line) : (int)strlen(line);
    int size = params ? snprintf(text, sizeof text, "{\"id\":%ld,\"method\":\"%.*s\",\"params\":%s}", ++said, method, line, params + 1)
                      : snprintf(text, sizeof text, "{\"id\":%ld,\"method\":\"%s\"}", ++said, line);
    say(text, size);
}

/* Hears one text: the next reply, the event that is awaited, or another event. */
static void hear_one(void) {
    char begin[40];
    size_t size;
    char *text = hear(&size);
    int length = snprintf(begin, sizeof begin, "{\"id\":%ld,\"result\":", replied + 1);
    if (size > (size_t)length && !memcmp(text, begin, length)) {
        replied++;
    } else if (*event && size >= strlen(event) && !memcmp(text, event, strlen(event))) {
        events++;
    } else if (memcmp(text, "{\"method\":", 10)) {
        fail("after %ld replies: %.*s", replied, (int)size, text);
    }
}

static void prepare(const char *line) {
    if (!strncmp(line, "wait ", 5)) {
        for (await(line + 5); !events;) hear_one();
        events = 0;
        return;
    }
    for (say_command(line); replied < said;) hear_one();
}

/* Makes the trips; `ended` counts those that are over. */
static void travel(const char *line, long count, long ahead, const char *awaited) {
    double *starts = malloc(ahead * sizeof *starts);
    int is_reply = !strcmp(awaited, "reply");
    long started = 0, before = said, *ended = is_reply ? &replied : &events;
    if (!starts) fail("no memory");
    if (!is_reply) {
        await(awaited);
        before = 0;
    }
    begin_trips(count);
    while (trips_done < count) {
        for (; started < count && started - trips_done < ahead; started++) {
            starts[started % ahead] = now();
            say_command(line);
        }
        hear_one();
        for (; trips_done < *ended - before; trips_done++) trips[trips_done] = now() - starts[trips_done % ahead];
    }
    while (replied < said) hear_one();
    tell_trips();
}

static void client(int port, const char *path, long count, long ahead, const char *awaited) {
    static char line[60000], last[60000];
    upgrade(port, path);
    while (fgets(line, sizeof line, stdin)) {
        line[strcspn(line, "\n")] = 0;
        if (*last) prepare(last);
        strcpy(last, line);
    }
    travel(last, count, ahead, awaited);
}

int main(int words, char **word) {
    if (words == 4 && !strcmp(word[1], "echo")) echo(atol(word[2]), atol(word[3]));
    else if (words == 6 && !strcmp(word[1], "bare")) bare(atoi(word[2]), atol(word[3]), atol(word[4]), atol(word[5]));
    else if (words == 7 && !strcmp(word[1], "client")) client(atoi(word[2]), word[3], atol(word[4]), atol(word[5]), word[6]);
    else fail("usage: see the head of round_trips.c");
    return 0;
}
