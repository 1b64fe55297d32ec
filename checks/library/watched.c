/*
 * Calls libauditstore with what standard input says, in buffers of exactly the lengths that are stated, so that a tool
 * that watches memory notices a byte read or written beyond one. Prints the answer of each call.
 *
 * A record is a byte for the call and three arguments, each a length of 4 bytes, the highest first, and its bytes.
 */
#include <audit_store.h>
#include <stdio.h>
#include <stdlib.h>
#include <string.h>

struct argument {
    size_t size;
    uint8_t *bytes;
};

static void *taken(size_t size)
{
    void *place = malloc(size ? size : 1);
    if (place == NULL)
        exit(2);
    return place;
}

static struct argument argument(void)
{
    uint8_t head[4];
    struct argument found;
    if (fread(head, 1, 4, stdin) != 4)
        exit(3);
    found.size = (size_t)head[0] << 24 | (size_t)head[1] << 16 | (size_t)head[2] << 8 | head[3];
    found.bytes = taken(found.size);
    if (fread(found.bytes, 1, found.size, stdin) != found.size)
        exit(3);
    return found;
}

static struct audit_store_commitment commitment(struct argument given)
{
    struct audit_store_commitment found = {0, {0}};
    size_t at;
    if (given.size != 40)
        exit(3);
    for (at = 0; at < 8; at++)
        found.count = found.count << 8 | given.bytes[at];
    memcpy(found.root, given.bytes + 8, 32);
    return found;
}

static uint32_t verified(const uint8_t *key, struct argument export, size_t size,
                         const struct audit_store_commitment *claimed)
{
    struct audit_store_verifier *verifier = taken(sizeof *verifier);
    uint8_t *payload = taken(AUDIT_STORE_PAYLOAD_MAX);
    struct audit_store_event event;
    uint32_t answer = AUDIT_STORE_MORE;
    size_t at = 0;
    audit_store_verify_first(key, verifier);
    while (at < export.size && answer == AUDIT_STORE_MORE) {
        size_t held = size < export.size - at ? size : export.size - at, passed = 0;
        uint8_t *piece = taken(held);
        memcpy(piece, export.bytes + at, held);
        while ((answer = audit_store_verify_feed(verifier, piece + passed, held - passed, &event, payload,
                                                 AUDIT_STORE_PAYLOAD_MAX)) == AUDIT_STORE_OK)
            passed += event.taken;
        free(piece);
        at += held;
    }
    answer = audit_store_verify_end(verifier, claimed);
    free(payload);
    free(verifier);
    return answer;
}

static uint32_t resumed(struct argument text)
{
    struct audit_store_verifier *verifier = taken(sizeof *verifier);
    uint32_t answer = audit_store_verify_state(text.bytes, text.size, verifier);
    free(verifier);
    return answer;
}

static uint32_t opened(struct argument proof, const struct audit_store_commitment *claimed, const uint8_t *key)
{
    struct audit_store_event event;
    uint8_t *payload = taken(AUDIT_STORE_PAYLOAD_MAX);
    uint32_t answer = audit_store_open_inclusion(proof.bytes, proof.size, claimed, key, &event, payload,
                                                 AUDIT_STORE_PAYLOAD_MAX);
    free(payload);
    return answer;
}

/* The length of a placed append, written into a buffer of just this length, and 0 into one of a byte less. */
static uint32_t written(struct argument payload, size_t size)
{
    uint8_t *frame = taken(size);
    uint32_t answer = (uint32_t)audit_store_write_placed_append(1, 2, 3, payload.bytes, payload.size, frame, size);
    free(frame);
    return answer;
}

static uint32_t called(int call, struct argument first, struct argument second, struct argument third)
{
    struct audit_store_commitment one, other;
    struct audit_store_reply reply;
    struct audit_store_note note;
    switch (call) {
    case 1:
        one = commitment(second);
        return audit_store_check_inclusion(first.bytes, first.size, &one);
    case 2:
        one = commitment(second);
        other = commitment(third);
        return audit_store_check_consistency(first.bytes, first.size, &one, &other);
    case 3:
        one = commitment(second);
        return opened(first, &one, third.bytes);
    case 4:
        return audit_store_read_reply(first.bytes, first.size, &reply);
    case 5:
        return audit_store_read_commitment(first.bytes, first.size, &one);
    case 6:
        return audit_store_read_note(first.bytes, first.size, &note);
    case 7:
        one = commitment(second);
        return verified(third.bytes, first, 1 + first.size / 3, &one);
    case 8:
        return written(first, first.size + 19) + written(first, first.size + 18);
    case 9:
        return resumed(first);
    }
    exit(3);
}

int main(void)
{
    int call;
    while ((call = getchar()) != EOF) {
        struct argument first = argument(), second = argument(), third = argument();
        printf("%u\n", (unsigned)called(call, first, second, third));
        free(first.bytes);
        free(second.bytes);
        free(third.bytes);
    }
    return 0;
}
