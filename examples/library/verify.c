/*
 * Verifies an export from standard input in pieces, by the first key of its log and a commitment.
 *
 * usage: verify KEYFILE COUNT:ROOT [PIECE] <EXPORT
 *
 * KEYFILE has the key, 64 hex digits: an argument would be shown to others by ps(1). ROOT has 64, too. Reads PIECE
 * bytes at a time, 65,536 unless it is given. Prints each event as `event INDEX KIND PAYLOAD`, with the payload in hex
 * digits or as a dash, and then `verified COUNT`; or says which entry is at fault, `entry INDEX: NUMBER`, and ends with
 * status 1. The events before a fault were printed by then. With PIECE 0 no event is printed, and 65,536 bytes are read
 * at a time.
 */
#include <audit_store.h>
#include <inttypes.h>
#include <stdio.h>
#include <stdlib.h>
#include <string.h>

/* Also where a compiler sees that nobody reads the bytes again. */
static void erase(void *bytes, size_t size)
{
    volatile uint8_t *place = bytes;
    while (size-- > 0)
        *place++ = 0;
}

static int bytes_of(const char *digits, uint8_t bytes[32])
{
    int at;
    unsigned byte;
    if (strlen(digits) != 64 || strspn(digits, "0123456789abcdefABCDEF") != 64)
        return 0;
    for (at = 0; at < 32; at++) {
        sscanf(digits + 2 * at, "%2x", &byte);
        bytes[at] = (uint8_t)byte;
    }
    return 1;
}

/* The key in a file. */
static int key_of(const char *path, uint8_t key[32])
{
    char digits[65] = "";
    FILE *file = fopen(path, "r");
    int is_key = file != NULL && setvbuf(file, NULL, _IONBF, 0) == 0 && fread(digits, 1, 64, file) == 64
                 && bytes_of(digits, key);
    if (file != NULL)
        fclose(file);
    erase(digits, sizeof digits);
    return is_key;
}

static void print_event(const struct audit_store_event *event, const uint8_t *payload)
{
    size_t at;
    printf("event %" PRIu64 " %" PRIu32 " ", event->index, event->kind);
    for (at = 0; at < event->size; at++)
        printf("%02x", payload[at]);
    puts(event->size ? "" : "-");
}

static int fault(const struct audit_store_verifier *verifier, uint32_t answer)
{
    fprintf(stderr, "entry %" PRIu64 ": %" PRIu32 "\n", verifier->count, answer);
    return 1;
}

/* Verifies standard input under a commitment, and prints its events. */
static int verified(struct audit_store_verifier *verifier, uint8_t *payload, size_t size, int prints,
                    const struct audit_store_commitment *commitment)
{
    static uint8_t piece[65536];
    struct audit_store_event event;
    size_t held;
    uint32_t answer;
    if (size == 0 || size > sizeof piece)
        size = sizeof piece;
    while ((held = fread(piece, 1, size, stdin)) > 0) {
        const uint8_t *rest = piece;
        while ((answer = audit_store_verify_feed(verifier, rest, held, &event, payload, AUDIT_STORE_PAYLOAD_MAX))
               == AUDIT_STORE_OK) {
            if (prints)
                print_event(&event, payload);
            rest += event.taken;
            held -= event.taken;
        }
        if (answer != AUDIT_STORE_MORE)
            return fault(verifier, answer);
    }
    answer = audit_store_verify_end(verifier, commitment);
    if (answer != AUDIT_STORE_OK)
        return fault(verifier, answer);
    printf("verified %" PRIu64 "\n", verifier->count);
    return 0;
}

int main(int count, char **words)
{
    static struct audit_store_verifier verifier;
    static uint8_t payload[AUDIT_STORE_PAYLOAD_MAX];
    struct audit_store_commitment commitment;
    uint8_t key[32];
    size_t size = 65536;
    int status;
    char *root;
    if (count < 3 || !key_of(words[1], key)) {
        fputs("usage: verify KEYFILE COUNT:ROOT [PIECE] <EXPORT\n", stderr);
        return 2;
    }
    commitment.count = strtoull(words[2], &root, 10);
    if (*root != ':' || !bytes_of(root + 1, commitment.root)) {
        fputs("verify: not a commitment\n", stderr);
        return 2;
    }
    if (count > 3)
        size = strtoul(words[3], NULL, 10);
    audit_store_verify_first(key, &verifier);
    erase(key, sizeof key);
    status = verified(&verifier, payload, size, size != 0, &commitment);
    erase(&verifier, sizeof verifier);
    erase(payload, sizeof payload);
    if (ferror(stdin) || fflush(stdout) != 0) {
        fputs("verify: standard input or output fails\n", stderr);
        return 1;
    }
    return status;
}
