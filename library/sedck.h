/* sedck in C: whether a sed script always ends, and which files it touches, by the checker that is proved.
 *
 * A status 0 promises what `accepted` of the program promises, by a contract at the C name: docs/LIBRARY.md says what it is, and what the
 * caller owes. The functions keep nothing, have no state, and may be called by several threads at a time. */
#ifndef SEDCK_H
#define SEDCK_H

#include <stdbool.h>
#include <stddef.h>
#include <stdint.h>

#ifdef __cplusplus
extern "C" {
#endif

/* Statuses: those of the program, and one for a room that is too small. Only 0 is a yes. */
enum {
    SEDCK_ACCEPTED = 0, /* the script always ends, and its files are known */
    SEDCK_REJECTED = 1, /* the certificate is rejected, or a loop rules out every certificate */
    SEDCK_REFUSED = 2,  /* the bytes are no script, or no certificate */
    SEDCK_MEMORY = 4,   /* memory ran out: nothing is known */
    SEDCK_ROOM = 5      /* the text doesn't fit into the room: nothing was put there */
};

/* What is told besides the status. A field counts only at the statuses that are named with it. */
struct sedck_answer {
    /* At 0, where `bounded` is true: no run on L lines of B bytes in all, newlines not counted, has more than
     * per_byte * B + per_line * L + fixed steps. The sum may need more than 64 bits. */
    uint64_t per_byte, per_line, fixed;
    /* At 0: how many files the script reads, and how many it writes. */
    size_t reads, writes;
    /* At 2: the offset of the script's fault, or the line of the certificate's. */
    size_t place;
    /* At 2 the number of the fault; at 1, of sedck_check, that of the reason of the rejection (docs/FAULTS.md has both). */
    uint32_t fault;
    /* At 2: which text has the fault: 1 is the script, 2 the certificate. The script's fault is told where both have one. */
    uint32_t text;
    bool bounded;
};

/* Judges a certificate for a script, as `sedck check` does. */
uint32_t sedck_check(const uint8_t *script, size_t script_length, const uint8_t *certificate, size_t certificate_length,
                     struct sedck_answer *answer);

/* Searches for a certificate, as `sedck rank` does. At 0 its text is put into the room, at 1 the loop that rules out every certificate;
 * both as the program prints them, without a byte 0 behind. `*needed` is the length of the text. A room of size 0 asks for the status and
 * the length alone, so that a second call can bring enough room. */
uint32_t sedck_rank(const uint8_t *script, size_t script_length, uint8_t *room, size_t room_size, size_t *needed);

/* Judges a script without a certificate of the caller's: searches for one and checks it. At 0 the files that the script reads and writes are
 * put into the room, as `sedck files` prints them; `*needed` and a room of size 0 are as with sedck_rank. */
uint32_t sedck_judge(const uint8_t *script, size_t script_length, struct sedck_answer *answer, uint8_t *room, size_t room_size,
                     size_t *needed);

/* The functions take no null pointer, not even with the length 0. So a call by name goes through the functions below, which put some
 * byte in place of a null pointer with the length 0, and of one where no answer or no length is wanted. */
static inline uint8_t *sedck_bytes(const void *bytes, size_t length)
{
    static uint8_t none;
    return length ? (uint8_t *)bytes : &none;
}

static inline uint32_t sedck_check_any(const void *script, size_t script_length, const void *certificate, size_t certificate_length,
                                       struct sedck_answer *answer)
{
    struct sedck_answer unwanted;
    return sedck_check(sedck_bytes(script, script_length), script_length, sedck_bytes(certificate, certificate_length), certificate_length,
                       answer ? answer : &unwanted);
}

static inline uint32_t sedck_rank_any(const void *script, size_t script_length, void *room, size_t room_size, size_t *needed)
{
    size_t unwanted;
    return sedck_rank(sedck_bytes(script, script_length), script_length, sedck_bytes(room, room_size), room_size,
                      needed ? needed : &unwanted);
}

static inline uint32_t sedck_judge_any(const void *script, size_t script_length, struct sedck_answer *answer, void *room, size_t room_size,
                                       size_t *needed)
{
    struct sedck_answer unwanted;
    size_t unwanted_length;
    return sedck_judge(sedck_bytes(script, script_length), script_length, answer ? answer : &unwanted, sedck_bytes(room, room_size),
                       room_size, needed ? needed : &unwanted_length);
}

#define sedck_check(script, script_length, certificate, certificate_length, answer) \
    sedck_check_any(script, script_length, certificate, certificate_length, answer)
#define sedck_rank(script, script_length, room, room_size, needed) sedck_rank_any(script, script_length, room, room_size, needed)
#define sedck_judge(script, script_length, answer, room, room_size, needed) \
    sedck_judge_any(script, script_length, answer, room, room_size, needed)

#ifdef __cplusplus
}
#endif

#endif
