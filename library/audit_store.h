/*
 * audit_store.h: what a program that logs into the store, or checks what was logged, needs of it.
 *
 * The functions are those of crates/audit_c: each is proved to do what its comment here says, which PROMISES.md in that
 * folder states clause by clause. audit_store_proof_head alone is C, in this header, and is tested. They take no
 * memory, keep no state of their own, call nothing but the C library's copying of bytes, and return on any bytes. So
 * they may be called in any thread, in a signal handler and in a forked child, as long as no two calls share a buffer
 * or a verifier that one of them writes.
 *
 * The caller owes what the types say: a pointer points at as many bytes as the length beside it says, or at one whole
 * struct, none of which is written by anything else during the call, and none overlaps another that the call writes. A
 * pointer to no bytes may be anything but NULL.
 *
 * Lengths are in bytes, counts and indices in entries. Numbers are in the machine's order; the frames and proofs have
 * their own, which docs/formats.md describes.
 */
#ifndef AUDIT_STORE_H
#define AUDIT_STORE_H

#include <stddef.h>
#include <stdint.h>

#ifdef __cplusplus
extern "C" {
#endif

/* The version of this interface: the library is libauditstore.so.1. */
#define AUDIT_STORE_VERSION 1

/* The answers. From 12 on they are the numbers that `audit` prints (docs/refusals.md). */
enum {
    AUDIT_STORE_OK = 0,                /* accepted, verified or done */
    AUDIT_STORE_NOT_ACCEPTED = 1,      /* a proof that doesn't show what is claimed */
    AUDIT_STORE_MORE = 2,              /* the bytes end early: call again with more */
    AUDIT_STORE_MISUSED = 3,           /* a struct that no call made, or a buffer that is too short */
    AUDIT_STORE_MALFORMED = 20,        /* a frame that is no reply, or a text that isn't one of its kind */
    AUDIT_STORE_BAD_PROOF = 32,        /* bytes that are no proof, or one of bytes that aren't an entry */
    AUDIT_STORE_SHORT = 40,            /* an export that ends within an entry */
    AUDIT_STORE_BAD_LENGTH = 41,       /* an entry whose length is over the limit */
    AUDIT_STORE_BAD_LINK = 42,         /* an entry that doesn't follow the one before it */
    AUDIT_STORE_BAD_MAC = 43,          /* an entry that wasn't sealed with the log's key */
    AUDIT_STORE_WRONG_COMMITMENT = 44, /* valid entries, to which the commitment isn't */
    AUDIT_STORE_BAD_CLOSE = 46         /* a closing entry with a payload, or bytes after one */
};

enum {
    AUDIT_STORE_PAYLOAD_MAX = 32696,        /* the longest payload */
    AUDIT_STORE_PLACED_PAYLOAD_MAX = 32688, /* the longest payload of a placed append */
    AUDIT_STORE_ENTRY_MAX = 32768,          /* the longest entry */
    AUDIT_STORE_PROOF_MAX = 33554,          /* the longest proof */
    AUDIT_STORE_REQUEST_MAX = 32707,        /* the longest frame of a request */
    AUDIT_STORE_REPLY_MAX = 33544,          /* the longest frame of a reply */
    AUDIT_STORE_STATE_TEXT_MAX = 2029,      /* the longest text of a saved state */
    AUDIT_STORE_NOTE_MAX = 371,             /* the longest note */
    AUDIT_STORE_NOTE_NAME = 18              /* the byte of a note at which the name of its log begins */
};

/* The kind of the event that closes a log. */
#define AUDIT_STORE_CLOSING UINT32_C(0xffffffff)

/* What a log commits to: its number of entries, and the root of the history tree over them. */
struct audit_store_commitment {
    uint64_t count;
    uint8_t root[32];
};

/*
 * Reads a commitment as a word, COUNT:ROOT, as the program prints and takes it: the count in 1 to 20 decimal digits and
 * below 2^64, a colon, and the root in 64 hex digits of either case. OK, or MALFORMED; `commitment` is then as it was.
 */
uint32_t audit_store_read_commitment(const uint8_t *word, size_t word_length,
                                     struct audit_store_commitment *commitment);

/* A note: its commitment, and the length of its log's name, which begins at byte AUDIT_STORE_NOTE_NAME of its text. */
struct audit_store_note {
    struct audit_store_commitment commitment;
    size_t name_size;
};

/*
 * Reads a note from its whole text (docs/formats.md). OK, or MALFORMED if the bytes are the text of none; `note` is
 * then as it was. A note has one text alone. Who signed it is for others to check.
 */
uint32_t audit_store_read_note(const uint8_t *text, size_t text_length, struct audit_store_note *note);

/* ---- Proofs ---- */

/*
 * Whether the bytes of an inclusion proof show that its entry is in the log of a commitment. The proof has to be of the
 * commitment's own count. OK, NOT_ACCEPTED, or BAD_PROOF if the bytes are no inclusion proof.
 */
uint32_t audit_store_check_inclusion(const uint8_t *proof, size_t proof_length,
                                     const struct audit_store_commitment *commitment);

/*
 * Whether the bytes of a consistency proof show that the log of the newer commitment extends that of the older one.
 * The proof has to be between their counts. OK, NOT_ACCEPTED, or BAD_PROOF if the bytes are no consistency proof.
 */
uint32_t audit_store_check_consistency(const uint8_t *proof, size_t proof_length,
                                       const struct audit_store_commitment *older,
                                       const struct audit_store_commitment *newer);

/* An event that was handed out: how many bytes were taken, its payload's length, its index in the log and its kind. */
struct audit_store_event {
    size_t taken;
    size_t size;
    uint64_t index;
    uint32_t kind;
};

/*
 * Checks an inclusion proof as audit_store_check_inclusion does and, if it is accepted, opens its entry with the key of
 * a receipt, which the acknowledgement of a placed append has. The payload's buffer has at least
 * AUDIT_STORE_PAYLOAD_MAX bytes.
 *
 * OK: the event that the entry reads as is in `event` and at the start of `payload`; `event->taken` is `proof_length`.
 * NOT_ACCEPTED, BAD_PROOF; also BAD_PROOF if the proof is accepted, but of bytes that aren't one entry.
 * MISUSED: the buffer is too short. With any answer but OK nothing is written.
 *
 * A wrong key isn't noticed: the entry then reads as another text. For a text of fewer than 16 bytes a key can be
 * searched for under which it reads as another text: `event->size` says how long it is.
 */
uint32_t audit_store_open_inclusion(const uint8_t *proof, size_t proof_length,
                                    const struct audit_store_commitment *commitment, const uint8_t key[32],
                                    struct audit_store_event *event, uint8_t *payload, size_t payload_length);

/* ---- Exports ---- */

/*
 * Where the verification of an export stands. It has no pointers and may be copied. It holds the log's key, with which
 * every entry from here on can be read: erase it after use. A program may read `count`, the number of valid entries so
 * far, and `closed`, which is 1 after the entry that closes the log; it writes none of the fields.
 */
struct audit_store_verifier {
    uint8_t key[32];
    uint8_t link[32];
    uint8_t nodes[25][32];
    uint64_t count;
    uint32_t closed;
    uint32_t fault;
    size_t held;
    uint8_t bytes[32768];
};

/* Begins the verification of a whole export, by the first key of its log. */
void audit_store_verify_first(const uint8_t first_key[32], struct audit_store_verifier *verifier);

/*
 * Begins the verification of the entries after a saved state, by the whole text of that, as `audit verify --save` writes
 * it (docs/formats.md): `verifier->count` and the indices go on from there. OK, or MALFORMED if the bytes are the text
 * of no state; the verifier is then as it was. A newest commitment in the text is passed over. The text has the log's
 * key, too: erase it after use.
 */
uint32_t audit_store_verify_state(const uint8_t *text, size_t text_length, struct audit_store_verifier *verifier);

/*
 * Feeds the next bytes of the export, cut anywhere. The payload's buffer has at least AUDIT_STORE_PAYLOAD_MAX bytes.
 *
 * OK: an event is in `event` and at the start of `payload`. Feed the bytes after the first `event->taken` next.
 * MORE: all bytes were taken, and the next entry isn't whole.
 * BAD_LENGTH, BAD_LINK, BAD_MAC, BAD_CLOSE: the fault of the entry `verifier->count`, whatever follows. It is final:
 * every later call returns it.
 * MISUSED: the buffer is too short, or no call made the verifier. Nothing was done.
 *
 * However an export is cut, the events and the fault are those of `audit verify` for the whole of it. Until
 * audit_store_verify_end says OK, an event is only known to be sealed with the log's key in this order: somebody may
 * have left out what follows.
 */
uint32_t audit_store_verify_feed(struct audit_store_verifier *verifier, const uint8_t *piece, size_t piece_length,
                                 struct audit_store_event *event, uint8_t *payload, size_t payload_length);

/*
 * The verdict on all bytes that were fed, under a commitment to the whole log: OK if they are verified, SHORT if they
 * end within an entry, WRONG_COMMITMENT if the commitment isn't to their entries, or the fault that was found before;
 * MISUSED says that no call made the verifier. The verifier stays as it was, so the same export may be judged again
 * after more bytes.
 */
uint32_t audit_store_verify_end(const struct audit_store_verifier *verifier,
                                const struct audit_store_commitment *commitment);

/* ---- Frames of sessions ---- */

/*
 * Each writes the frame of a request into `frame` and returns its length; the rest of the buffer is unspecified. It
 * returns 0 and writes nothing if the buffer is too short, if the kind of an event is AUDIT_STORE_CLOSING, or if its
 * payload is longer than AUDIT_STORE_PAYLOAD_MAX. The reply repeats the tag; use none twice at a time, and not 0.
 */
size_t audit_store_write_append(uint32_t tag, uint32_t kind, const uint8_t *payload, size_t payload_length,
                                uint8_t *frame, size_t frame_length);
size_t audit_store_write_commitment(uint32_t tag, uint8_t *frame, size_t frame_length);
size_t audit_store_write_inclusion(uint32_t tag, uint64_t index, uint64_t count, uint8_t *frame, size_t frame_length);
size_t audit_store_write_consistency(uint32_t tag, uint64_t older, uint64_t newer, uint8_t *frame,
                                     size_t frame_length);
size_t audit_store_write_entry(uint32_t tag, uint64_t index, uint8_t *frame, size_t frame_length);
size_t audit_store_write_close(uint32_t tag, uint8_t *frame, size_t frame_length);
size_t audit_store_write_state(uint32_t tag, uint8_t *frame, size_t frame_length);

/*
 * For a source whose kind is bound to its socket and that numbers its events, from 0 on. It asks for the place of its
 * kind, the number of its events in the log, and goes on with the event of that number. A placed append is appended if
 * its place is the number of events of its kind, and answered by PLACED. Otherwise it isn't, and the answer is PLACE:
 * if `index` is above the place, the log has the event already, from a connection that was lost; if not, `index` is the
 * event to go on with. So events that are sent again after any loss are neither lost nor doubled (docs/programming.md).
 * The payload has at most AUDIT_STORE_PLACED_PAYLOAD_MAX bytes, and the rest is as above.
 */
size_t audit_store_write_place(uint32_t tag, uint32_t kind, uint8_t *frame, size_t frame_length);
size_t audit_store_write_placed_append(uint32_t tag, uint32_t kind, uint64_t place, const uint8_t *payload,
                                       size_t payload_length, uint8_t *frame, size_t frame_length);

/* The kinds of replies. */
enum {
    AUDIT_STORE_ACKNOWLEDGEMENT = 0x81, /* index, count, root */
    AUDIT_STORE_COMMITMENT = 0x82,      /* count, root */
    AUDIT_STORE_INCLUSION = 0x83,       /* hashes, which begin at byte 8 of the frame; then the entry, to its end */
    AUDIT_STORE_CONSISTENCY = 0x84,     /* hashes, which begin at byte 8 of the frame */
    AUDIT_STORE_ENTRY = 0x85,           /* the entry, from byte 7 of the frame to its end */
    AUDIT_STORE_STATE = 0x87,           /* count, root, end, sectors, generation, version, closed */
    AUDIT_STORE_PLACE = 0x88,           /* index: the number of events of a kind; count */
    AUDIT_STORE_PLACED = 0x89,          /* index, count, root; the entry's key, from byte 55 of the frame to its end */
    AUDIT_STORE_REFUSED = 0xff          /* code: 4, 7, 8, 9, 11, 13, 16, 18 or 20 (docs/refusals.md) */
};

/* A reply: the length of its frame, its kind, the tag of its request, and the fields of its kind. The others are 0. */
struct audit_store_reply {
    size_t size;
    uint32_t kind;
    uint32_t tag;
    uint64_t index;
    uint64_t count;
    uint8_t root[32];
    uint64_t end;
    uint64_t sectors;
    uint64_t generation;
    uint32_t version;
    uint32_t closed;
    uint32_t code;
    uint32_t hashes;
};

/*
 * Reads the reply at the start of the bytes that came. OK with its fields, MORE if its frame isn't whole yet, MALFORMED
 * if the frame is that of no reply; `reply` is then as it was. The next reply starts `reply->size` bytes later.
 * A server that lies may claim a frame of up to 65,537 bytes, which is MORE until all came: if AUDIT_STORE_REPLY_MAX
 * bytes aren't enough, end the connection.
 *
 * A proof for audit_store_check_inclusion has the byte 1, the index and the count that were asked for, 8 bytes each
 * with the highest first, and the frame from byte 7 on; one for audit_store_check_consistency has the byte 2, the two
 * counts, and the frame from byte 7 on. audit_store_proof_head writes the bytes before the frame's.
 */
uint32_t audit_store_read_reply(const uint8_t *bytes, size_t bytes_length, struct audit_store_reply *reply);

/* The 17 bytes with which a proof begins: 1 for an inclusion proof or 2 for a consistency proof, and two numbers. */
static inline void audit_store_proof_head(uint8_t head[17], uint8_t mark, uint64_t first, uint64_t second)
{
    int at;
    head[0] = mark;
    for (at = 0; at < 8; at++) {
        head[1 + at] = (uint8_t)(first >> (56 - 8 * at));
        head[9 + at] = (uint8_t)(second >> (56 - 8 * at));
    }
}

#ifdef __cplusplus
}
#endif

#endif
