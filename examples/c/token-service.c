/* A web service that answers only requests with a valid token (RFC 6750):

     cc -O2 token-service.c claims.c -o token-service $(pkg-config --cflags --libs lakhdzeva jansson) -pthread
     ./token-service service.jwk 8080 login api

   The words are the file of the keys, the port, the issuer and the audience that each token must name. The file has one key, or a set of keys
   while one key replaces another. The service starts if every key of it may verify signatures. If the file changes, the service reads it again.
   If one of the new keys may not verify, it says so and keeps the old ones. So write a new file and rename it. A bad token is 401. What is not
   the sender's fault is 500. It reads no body, and closes after each answer. Put a server in front that speaks TLS. */
#define _GNU_SOURCE
#include "claims.h"

#include <arpa/inet.h>
#include <fcntl.h>
#include <lakhdzeva.h>
#include <poll.h>
#include <pthread.h>
#include <signal.h>
#include <stdbool.h>
#include <stdint.h>
#include <stdio.h>
#include <stdlib.h>
#include <string.h>
#include <strings.h>
#include <sys/socket.h>
#include <sys/stat.h>
#include <sys/time.h>
#include <time.h>
#include <unistd.h>

/* A longer header is not looked at, since the work grows with it. LEEWAY has the seconds by which the clocks may differ, and DEADLINE those in which
   the whole head of a request must come. */
enum { MOST_OCTETS = 4096, MOST_HEAD = 16384, MOST_KEYS = 1 << 20, LEEWAY = 30, DEADLINE = 10 };

/* ---- The keys in a file, which are read again when the file changes. */

struct keys {
    char *text;
    size_t length, count;
};

static const char *key_file;
static struct stat seen;
static struct keys keys;
static pthread_mutex_t lock = PTHREAD_MUTEX_INITIALIZER;

/* The number and the name of an error, such as "17 NotOpened", until the next one of this thread. */
static const char *text_of(enum lakhdzeva_status status) {
    static _Thread_local char text[32];
    snprintf(text, sizeof text, "%u %s", (unsigned)status, lakhdzeva_name(status));
    return text;
}

/* Whether it is the file that was read, unchanged. A writer can keep the length and the other time, but not the time of the last change. */
static bool was_seen(const struct stat *now) {
    return now->st_dev == seen.st_dev && now->st_ino == seen.st_ino && now->st_size == seen.st_size
        && !memcmp(&now->st_mtim, &seen.st_mtim, sizeof seen.st_mtim) && !memcmp(&now->st_ctim, &seen.st_ctim, sizeof seen.st_ctim);
}

/* Reads the text of keys, and judges it. Returns what is wrong, or NULL. A file that could not be read is tried again at the next request, and one
   with broken keys is not. */
static const char *read_keys(struct keys *found) {
    /* Without O_NONBLOCK a pipe would wait for a writer. */
    int file = open(key_file, O_RDONLY | O_NONBLOCK | O_CLOEXEC);
    struct stat now;
    unsigned char uses[64];
    static char useless[64];
    if (file < 0) return "it cannot be read";
    bool examined = !fstat(file, &now), regular = examined && S_ISREG(now.st_mode);
    ssize_t got = -1;
    if (regular && (found->text = malloc(MOST_KEYS)))
        while ((got = read(file, found->text + found->length, MOST_KEYS - found->length)) > 0) found->length += (size_t)got;
    close(file);
    if (examined && !regular) return seen = now, "it is no regular file";
    if (got < 0) return "it cannot be read";
    if (found->length == MOST_KEYS) return seen = now, "it is too long";
    enum lakhdzeva_status status = lakhdzeva_judge_keys(found->text, found->length, uses, sizeof uses, &found->count);
    if (status != LAKHDZEVA_MEMORY) seen = now;
    if (status) return text_of(status);
    for (size_t i = 0; i < found->count; i++) {
        if (uses[i] & LAKHDZEVA_MAY_VERIFY) continue;
        snprintf(useless, sizeof useless, "the key at position %zu may not verify signatures", i);
        return useless;
    }
    return NULL;
}

static void forget(struct keys *old) {
    if (old->text) explicit_bzero(old->text, old->length);
    free(old->text);
    *old = (struct keys){0};
}

/* Reads the keys again if the file is not the one that was read. Returns what is wrong, or NULL. */
static const char *look_again(void) {
    struct stat now;
    struct keys found = {0};
    if (stat(key_file, &now)) return "it cannot be found";
    if (was_seen(&now)) return NULL;
    const char *wrong = read_keys(&found);
    if (wrong) forget(&found);
    else {
        fprintf(stderr, "token-service: %s: keys: %zu\n", key_file, found.count);
        forget(&keys);
        keys = found;
    }
    return wrong;
}

/* Copies the keys that the file has now, or had before it was broken. */
static bool copy_keys(struct keys *copy) {
    pthread_mutex_lock(&lock);
    const char *wrong = look_again();
    if (wrong) fprintf(stderr, "token-service: %s is not read again: %s\n", key_file, wrong);
    copy->text = malloc(keys.length);
    copy->length = keys.length;
    if (copy->text) memcpy(copy->text, keys.text, keys.length);
    pthread_mutex_unlock(&lock);
    return copy->text != NULL;
}

/* ---- Requests */

static struct expected expected = {NULL, NULL, NULL, LEEWAY};

/* What a request gets. `claims` is not NULL if its token is valid. */
struct answer {
    int status;
    const char *why;
    json_t *claims;
};

/* The token of a header, or NULL. The scheme may be in small letters or capitals (RFC 9110 section 11.1). */
static const char *token_of(const char *header) {
    size_t scheme = strcspn(header, " ");
    if (scheme != 6 || strncasecmp(header, "bearer", 6) || strlen(header) > MOST_OCTETS) return NULL;
    return header + scheme + strspn(header + scheme, " ");
}

/* Whether an error of lakhdzeva_verify is this side's fault and not the token's: 500, and not 401. The keys were judged when they were read. */
static bool is_fault(enum lakhdzeva_status status) {
    return status <= LAKHDZEVA_RANDOM || status == LAKHDZEVA_KEY || status == LAKHDZEVA_NO_ALGORITHM || status > LAKHDZEVA_NOT_OPENED;
}

static struct answer judge(const char *header) {
    if (!*header) return (struct answer){401, "", NULL};
    const char *token = token_of(header);
    if (!token) return (struct answer){401, "form", NULL};
    struct keys copy;
    if (!copy_keys(&copy)) return (struct answer){500, "Memory", NULL};
    char payload[MOST_OCTETS];
    size_t length = 0;
    enum lakhdzeva_status status = lakhdzeva_verify(copy.text, copy.length, token, strlen(token), 0, payload, sizeof payload, &length);
    forget(&copy);
    if (status) return (struct answer){is_fault(status) ? 500 : 401, text_of(status), NULL};
    struct timespec now;
    clock_gettime(CLOCK_REALTIME, &now);
    struct answer answer = {401, NULL, NULL};
    answer.why = claims_of(token, strlen(token), payload, length, &expected, (double)now.tv_sec + (double)now.tv_nsec / 1e9, &answer.claims);
    if (!answer.why && !json_is_string(json_object_get(answer.claims, "sub"))) answer.why = "sub";
    if (!answer.why) answer.status = 200;
    else if (!strcmp(answer.why, "expected")) answer.status = 500;
    return answer;
}

static time_t seconds(void) {
    struct timespec now;
    clock_gettime(CLOCK_MONOTONIC, &now);
    return now.tv_sec;
}

/* Reads the head of the request, if it comes before the deadline, and puts the value of the header Authorization into `value`. Of several headers
   none is taken, even if one is empty. In a head with a line end that is not CRLF none is taken, since other programs may see other headers there. */
static bool read_head(int stream, char head[MOST_HEAD + 1], const char **value) {
    size_t length = 0;
    time_t ends = seconds() + DEADLINE;
    head[0] = 0;
    while (!strstr(head, "\r\n\r\n")) {
        struct pollfd peer = {.fd = stream, .events = POLLIN};
        int left = (int)(ends - seconds());
        if (left <= 0 || poll(&peer, 1, left * 1000) <= 0) return false;
        ssize_t got = length < MOST_HEAD ? read(stream, head + length, MOST_HEAD - length) : 0;
        if (got <= 0 || memchr(head + length, 0, (size_t)got)) return false;
        head[length += (size_t)got] = 0;
    }
    size_t count = 0;
    bool strange = false;
    *value = "";
    for (char *line = head, *end; (end = strstr(line, "\r\n")) && end != line; line = end + 2) {
        *end = 0;
        strange = strange || strpbrk(line, "\r\n");
        if (strncasecmp(line, "authorization:", 14)) continue;
        char *last = end;
        while (last > line && (last[-1] == ' ' || last[-1] == '\t')) *--last = 0;
        *value = line + 14 + strspn(line + 14, " \t");
        count++;
    }
    if (count > 1 || strange) *value = "several";
    return true;
}

static void respond(int stream, const struct answer *answer) {
    static const char invalid[] = "WWW-Authenticate: Bearer error=\"invalid_token\"\r\n", none[] = "WWW-Authenticate: Bearer\r\n";
    const char *status = answer->status == 200 ? "200 OK" : answer->status == 401 ? "401 Unauthorized" : "500 Internal Server Error";
    const char *challenge = answer->status != 401 ? "" : *answer->why ? invalid : none;
    const char *error = answer->status == 500 ? "the service has a fault" : challenge == none ? "no token" : "no valid token";
    json_t *object = answer->status == 200 ? json_pack("{sO}", "you", json_object_get(answer->claims, "sub")) : json_pack("{ss}", "error", error);
    char *body = object ? json_dumps(object, JSON_COMPACT) : NULL, head[512];
    if (body) {
        int length = snprintf(head, sizeof head, "HTTP/1.1 %s\r\n%sContent-Type: application/json\r\nContent-Length: %zu\r\nConnection: close\r\n\r\n",
            status, challenge, strlen(body));
        if (write(stream, head, (size_t)length) == length && write(stream, body, strlen(body)) < 0) perror("token-service");
    }
    free(body);
    json_decref(object);
}

static void *serve(void *given) {
    int stream = (int)(intptr_t)given;
    char head[MOST_HEAD + 1];
    const char *header = "";
    if (read_head(stream, head, &header)) {
        struct answer answer = judge(header);
        if (answer.status != 200 && *answer.why) fprintf(stderr, "token-service: %d: %s\n", answer.status, answer.why);
        respond(stream, &answer);
        json_decref(answer.claims);
    }
    close(stream);
    return NULL;
}

int main(int count, char **words) {
    char *end = NULL;
    long port = count == 5 ? strtol(words[2], &end, 10) : -1;
    if (port < 0 || port > 65535 || end == words[2] || *end) return fprintf(stderr, "usage: token-service KEYS PORT ISSUER AUDIENCE\n"), 1;
    /* A peer that is gone, and a log that nobody reads, make a write fail and nothing else. */
    signal(SIGPIPE, SIG_IGN);
    key_file = words[1], expected.issuer = words[3], expected.audience = words[4];
    if (!*expected.issuer || !*expected.audience) return fprintf(stderr, "token-service: the issuer and the audience must not be empty\n"), 1;
    /* Broken keys end the service here, and not at each request. */
    const char *wrong = look_again();
    if (wrong) return fprintf(stderr, "token-service: %s: %s\n", key_file, wrong), 1;
    struct sockaddr_in at = {.sin_family = AF_INET, .sin_port = htons((uint16_t)port), .sin_addr.s_addr = htonl(INADDR_LOOPBACK)};
    socklen_t length = sizeof at;
    int listener = socket(AF_INET, SOCK_STREAM, 0), yes = 1;
    setsockopt(listener, SOL_SOCKET, SO_REUSEADDR, &yes, sizeof yes);
    if (bind(listener, (struct sockaddr *)&at, sizeof at) || listen(listener, 1024) || getsockname(listener, (struct sockaddr *)&at, &length))
        return perror("token-service"), 1;
    printf("listening on port %u\n", ntohs(at.sin_port));
    fflush(stdout);
    /* A call of the library needs 256 KiB of stack, and musl gives a thread 128. */
    pthread_attr_t attributes;
    if (pthread_attr_init(&attributes) || pthread_attr_setstacksize(&attributes, 1 << 20)) return perror("token-service"), 1;
    for (;;) {
        pthread_t thread;
        int stream = accept(listener, NULL, NULL);
        struct timeval deadline = {DEADLINE, 0};
        if (stream >= 0) setsockopt(stream, SOL_SOCKET, SO_SNDTIMEO, &deadline, sizeof deadline);
        if (stream < 0 || pthread_create(&thread, &attributes, serve, (void *)(intptr_t)stream)) {
            /* Too many are open, or there is no memory for another thread. */
            perror("token-service");
            if (stream >= 0) close(stream);
            nanosleep(&(struct timespec){0, 20000000}, NULL);
        } else pthread_detach(thread);
    }
}
