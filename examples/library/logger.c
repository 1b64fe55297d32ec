/*
 * Appends each line of standard input to the log of a daemon, as logger(1) does to syslog, and keeps a receipt of each.
 *
 * usage: logger SOCKET KIND FOLDER
 *
 * SOCKET is that of the source of KIND (audit daemon --writer KIND:SOCKET), whose lines these alone are: each is in the
 * log once and in order, whatever happens to the daemon and the connection meanwhile. Once a line is on the disk, its
 * inclusion proof is asked for, and opened with the key of the acknowledgement under its commitment: so the log has this
 * line, and not only some entry. The proof is written to FOLDER/INDEX, and a line `INDEX COUNT:ROOT KEY` says the rest of
 * the receipt, as `audit check FOLDER/INDEX COUNT:ROOT --key KEY` takes it. Of a line whose acknowledgement was lost with
 * its connection there is no receipt: a dash says so.
 *
 *     cc -o logger logger.c $(pkg-config --cflags --libs auditstore)
 */
#include <audit_store.h>
#include <inttypes.h>
#include <stdio.h>
#include <stdlib.h>
#include <string.h>
#include <sys/socket.h>
#include <sys/un.h>
#include <time.h>
#include <unistd.h>

/* How often a connection is tried, ten times a second. */
enum { TRIES = 600 };

static const char *path;
static uint32_t kind;
static uint8_t frame[AUDIT_STORE_REQUEST_MAX];
static uint8_t came[AUDIT_STORE_REPLY_MAX];

static void stop(const char *what)
{
    fprintf(stderr, "logger: %s\n", what);
    exit(1);
}

static int connected(void)
{
    struct sockaddr_un name = {.sun_family = AF_UNIX};
    struct timespec pause = {0, 100000000};
    int tries, log;
    if (strlen(path) >= sizeof name.sun_path)
        stop("a name of a socket that is too long");
    strcpy(name.sun_path, path);
    for (tries = 0; tries < TRIES; tries++) {
        log = socket(AF_UNIX, SOCK_STREAM, 0);
        if (log >= 0 && connect(log, (struct sockaddr *)&name, sizeof name) == 0)
            return log;
        if (log >= 0)
            close(log);
        nanosleep(&pause, NULL);
    }
    stop("no daemon");
    return -1;
}

/* Sends the request in `frame`, and receives its reply into `came`. Whether it came before the connection was lost. */
static int ask(int log, size_t length, uint32_t tag, struct audit_store_reply *reply)
{
    size_t sent = 0, held = 0;
    uint32_t answer;
    if (length == 0)
        stop("a line that no log can have");
    while (sent < length) {
        ssize_t one = send(log, frame + sent, length - sent, MSG_NOSIGNAL);
        if (one <= 0)
            return 0;
        sent += (size_t)one;
    }
    while ((answer = audit_store_read_reply(came, held, reply)) == AUDIT_STORE_MORE) {
        ssize_t one;
        if (held == sizeof came)
            stop("a frame that is longer than any reply");
        one = recv(log, came + held, sizeof came - held, 0);
        if (one <= 0)
            return 0;
        held += (size_t)one;
    }
    if (answer != AUDIT_STORE_OK || (reply->tag != tag && reply->kind != AUDIT_STORE_REFUSED))
        stop("no reply");
    if (reply->kind == AUDIT_STORE_REFUSED) {
        fprintf(stderr, "logger: refused: %" PRIu32 "\n", reply->code);
        exit(1);
    }
    return 1;
}

/* How many lines of the kind the log has, which is the place of the next one. */
static uint64_t place_of_next(int *log)
{
    struct audit_store_reply reply;
    while (!ask(*log, audit_store_write_place(1, kind, frame, sizeof frame), 1, &reply)) {
        close(*log);
        *log = connected();
    }
    if (reply.kind != AUDIT_STORE_PLACE)
        stop("another reply");
    return reply.index;
}

/*
 * Appends a line at its place. It is sent again after each loss, always at that place, so it is never there twice.
 * Whether there is an acknowledgement of it.
 */
static int append(int *log, uint64_t place, const char *line, size_t length, struct audit_store_reply *reply)
{
    const uint8_t *payload = (const uint8_t *)line;
    while (!ask(*log, audit_store_write_placed_append(2, kind, place, payload, length, frame, sizeof frame), 2, reply)) {
        close(*log);
        *log = connected();
    }
    if (reply->kind == AUDIT_STORE_PLACED)
        return 1;
    if (reply->kind != AUDIT_STORE_PLACE || reply->index <= place)
        stop("a line that isn't appended at its place: does another source append lines of this kind?");
    return 0;
}

/* Asks for the proof of a line into `proof`, and returns its length. */
static size_t prove(int *log, uint64_t index, uint64_t count, uint8_t proof[AUDIT_STORE_PROOF_MAX])
{
    struct audit_store_reply reply;
    while (!ask(*log, audit_store_write_inclusion(3, index, count, frame, sizeof frame), 3, &reply)) {
        close(*log);
        *log = connected();
    }
    if (reply.kind != AUDIT_STORE_INCLUSION)
        stop("another reply");
    audit_store_proof_head(proof, 1, index, count);
    memcpy(proof + 17, came + 7, reply.size - 7);
    return 17 + reply.size - 7;
}

/* Keeps the receipt of a line that was acknowledged. */
static void keep(int *log, const char *folder, const char *line, size_t length, const struct audit_store_reply *done)
{
    static uint8_t proof[AUDIT_STORE_PROOF_MAX], payload[AUDIT_STORE_PAYLOAD_MAX];
    struct audit_store_commitment commitment;
    struct audit_store_event event;
    uint8_t key[32];
    char name[4096];
    size_t size;
    FILE *file;
    int at;
    memcpy(key, came + 55, 32);
    commitment.count = done->count;
    memcpy(commitment.root, done->root, sizeof commitment.root);
    size = prove(log, done->index, done->count, proof);
    if (audit_store_open_inclusion(proof, size, &commitment, key, &event, payload, sizeof payload) != AUDIT_STORE_OK
        || event.kind != kind || event.size != length || memcmp(payload, line, length) != 0)
        stop("a proof that isn't of this line");
    if (snprintf(name, sizeof name, "%s/%" PRIu64, folder, done->index) >= (int)sizeof name)
        stop("a name that is too long");
    file = fopen(name, "wb");
    if (file == NULL || fwrite(proof, 1, size, file) != size || fclose(file) != 0)
        stop("a proof that can't be written");
    printf("%" PRIu64 " %" PRIu64 ":", done->index, done->count);
    for (at = 0; at < 32; at++)
        printf("%02x", commitment.root[at]);
    putchar(' ');
    for (at = 0; at < 32; at++)
        printf("%02x", key[at]);
    putchar('\n');
}

int main(int count, char **words)
{
    char *line = NULL, *rest;
    size_t room = 0;
    ssize_t length;
    unsigned long long number;
    uint64_t place;
    int log;
    if (count != 4)
        stop("usage: logger SOCKET KIND FOLDER");
    number = strtoull(words[2], &rest, 10);
    if (strspn(words[2], "0123456789") == 0 || *rest != 0 || number >= UINT32_MAX)
        stop("KIND is a number below 4294967295");
    path = words[1];
    kind = (uint32_t)number;
    log = connected();
    place = place_of_next(&log);
    while ((length = getline(&line, &room, stdin)) >= 0) {
        struct audit_store_reply reply;
        if (length > 0 && line[length - 1] == '\n')
            length--;
        if (append(&log, place++, line, (size_t)length, &reply))
            keep(&log, words[3], line, (size_t)length, &reply);
        else
            puts("-");
        if (fflush(stdout) != 0)
            stop("a receipt that can't be printed");
    }
    if (ferror(stdin))
        stop("lines that can't be read");
    free(line);
    close(log);
    return 0;
}
