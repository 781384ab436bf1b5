/* Taxeedhuul for C and C++: a unit's memory access responder in memory that its owner lends, and the
 * gate's writers and readers. The functions are those of libcapi.a (docs/LINKING.md); their rules are
 * document 01's, and their promises stand, proved, in crates/capi/src/lib.rt.
 *
 * A result of 0 or more: it went well, and this is what there is to tell. A negative result is minus
 * document 01's number, and then nothing was touched, in the unit or in any slice. A denial is no such
 * result but an answer: respond gives its length, and read_answer its status.
 *
 * What is asked of a caller:
 * - A pointer and the length behind it are a slice: so many elements stand there. An empty slice may be
 *   NULL, 0. The slices of one call do not overlap.
 * - A unit's memory is only changed by these functions: respond and fit take what start, respond or fit
 *   left. It may be moved and copied as a whole.
 * - Two calls do not use one unit or one area at the same time.
 * - Words are aligned as their type asks, a unit is not NULL, and a bool is 0 or 1.
 * Everything else may be passed, and is refused where it is wrong.
 *
 * A tag and a password are eight octets, here a number with the first octet highest: 00 11 22 33 44 55 66 77
 * is 0x0011223344556677. Bit 63 of a tag says that it is volatile, bit 62 that the unit manages it; the six
 * bits below are ignored, and zero in a unit's answers.
 */
#ifndef TAXEEDHUUL_H
#define TAXEEDHUUL_H

#include <stdbool.h>
#include <stddef.h>
#include <stdint.h>

#ifdef __cplusplus
extern "C" {
#endif

enum {
    /* The lengths of a unit's three slices. */
    TAXEEDHUUL_HEAD_WORDS = 5,
    TAXEEDHUUL_TABLE_WORDS = 256,
    TAXEEDHUUL_MEMORY_OCTETS = 8192,
    /* The limits of a unit of the first kind. */
    TAXEEDHUUL_TAGS = 32,
    TAXEEDHUUL_AREA_OCTETS = 1024,
    TAXEEDHUUL_MESSAGE_OCTETS = 2048,
    TAXEEDHUUL_LIST_ENTRIES = 16,
    /* How many words a reader tells. */
    TAXEEDHUUL_ANSWER_WORDS = 12,
    TAXEEDHUUL_TAG_WORDS = 1,
    TAXEEDHUUL_MEMORY_DATA_WORDS = 3,
    TAXEEDHUUL_RESOURCE_WORDS = 4
};

/* Document 01's numbers: a denial's status, or minus the result of a function. */
enum taxeedhuul_number {
    TAXEEDHUUL_OTHER_VERSION = 4, /* the version differs from the unit's */
    TAXEEDHUUL_NO_ROOM = 5,       /* no tag or no memory is left */
    TAXEEDHUUL_TAG = 6,           /* registered, not registered, or managed by the other side */
    TAXEEDHUUL_LIST = 7,          /* more than 16 entries */
    TAXEEDHUUL_MODE = 8,          /* read only or write only */
    TAXEEDHUUL_SIZE = 9,          /* an area's size, or data longer than its area */
    TAXEEDHUUL_PASSWORD = 10,     /* missing, wrong, or given where the tag has none */
    TAXEEDHUUL_SPF = 11,          /* by the secure port only */
    TAXEEDHUUL_NOT_FITTED = 12,   /* an operation that is unknown, or whose option is not fitted */
    TAXEEDHUUL_MALFORMED = 16,    /* what is no message, or may not be written as one */
    TAXEEDHUUL_TOO_SHORT = 300,   /* a lent slice; or one of a unit that has not its length */
    TAXEEDHUUL_NO_VERSION = 301   /* a unit's version above 15 */
};

/* By which port a request came. */
enum taxeedhuul_port { TAXEEDHUUL_NORMAL_PORT = 0, TAXEEDHUUL_SECURE_PORT = 1 };

/* How a tag may be used. In write_allocate, 4 more where SPF is required. */
enum taxeedhuul_mode { TAXEEDHUUL_BOTH = 0, TAXEEDHUUL_WRITE_ONLY = 1, TAXEEDHUUL_READ_ONLY = 2 };

/* ---- the unit ---------------------------------------------------------------------------------- */

/* A unit: its version and options, its tags, and all that they hold. 10,280 octets. */
typedef struct {
    uint64_t head[TAXEEDHUUL_HEAD_WORDS];
    uint64_t table[TAXEEDHUUL_TABLE_WORDS];
    uint8_t memory[TAXEEDHUUL_MEMORY_OCTETS];
} taxeedhuul_unit;

/* The functions of the library, on three slices. The three below them take a unit. */
int32_t taxeedhuul_start(uint64_t *head, size_t head_length, uint64_t *table, size_t table_length, uint8_t *memory,
                         size_t memory_length, uint8_t version, bool allocation, bool passwords);
int32_t taxeedhuul_respond(uint64_t *head, size_t head_length, uint64_t *table, size_t table_length, uint8_t *memory,
                           size_t memory_length, uint8_t port, const uint8_t *request, size_t request_length,
                           uint8_t *answer, size_t answer_length);
int32_t taxeedhuul_fit(uint64_t *head, size_t head_length, uint64_t *table, size_t table_length, uint8_t *memory,
                       size_t memory_length, uint64_t tag, uint32_t size, uint8_t mode, bool spf, bool locked,
                       uint64_t password, const uint8_t *first, size_t first_length);

/* Makes a unit without tags, whatever the memory held before: 0.
 * -301 for a version above 15; then, of the three slices, if they are passed one by one: -300 where one has
 * not exactly its length. */
static inline int32_t taxeedhuul_unit_start(taxeedhuul_unit *unit, uint8_t version, bool allocation, bool passwords)
{
    return taxeedhuul_start(unit->head, TAXEEDHUUL_HEAD_WORDS, unit->table, TAXEEDHUUL_TABLE_WORDS, unit->memory,
                            TAXEEDHUUL_MEMORY_OCTETS, version, allocation, passwords);
}

/* The unit's answer to a request, a denial included: its length, at most 2,048. Octets behind it stay.
 * -16 for a port above 1, then -300 for slices of other lengths than a unit's (nothing is asked of their
 * content), then -300 for an answer area of fewer than 2,048 octets. */
static inline int32_t taxeedhuul_unit_respond(taxeedhuul_unit *unit, uint8_t port, const uint8_t *request,
                                              size_t request_length, uint8_t *answer, size_t answer_length)
{
    return taxeedhuul_respond(unit->head, TAXEEDHUUL_HEAD_WORDS, unit->table, TAXEEDHUUL_TABLE_WORDS, unit->memory,
                              TAXEEDHUUL_MEMORY_OCTETS, port, request, request_length, answer, answer_length);
}

/* Fits a unit-managed tag for the vehicle, with its first data: 0. The password counts only if locked.
 * -16 for a mode above 2, then -300 as above; -6 if the tag is not unit-managed or is registered; -12 if it
 * is locked and passwords are not fitted; -9 for a size that is not 1 to 1,024 or data longer than it; -5 if
 * there is no room. */
static inline int32_t taxeedhuul_unit_fit(taxeedhuul_unit *unit, uint64_t tag, uint32_t size, uint8_t mode, bool spf,
                                          bool locked, uint64_t password, const uint8_t *first, size_t first_length)
{
    return taxeedhuul_fit(unit->head, TAXEEDHUUL_HEAD_WORDS, unit->table, TAXEEDHUUL_TABLE_WORDS, unit->memory,
                          TAXEEDHUUL_MEMORY_OCTETS, tag, size, mode, spf, locked, password, first, first_length);
}

/* ---- the gate writes requests ------------------------------------------------------------------ */

/* Each gives the length of the request that it wrote at the start of the area; octets behind it stay.
 * -16 if the version is above 15, a mode code is not in the tables, the slices of a list do not belong
 * together, or the request would exceed 2,048 octets; then -300 if the area is too short for it.
 * Locked: with a password. If not, the password does not count, and a list is handed no passwords. */
int32_t taxeedhuul_write_resource_information(uint8_t *area, size_t area_length, uint8_t version, const uint64_t *tags,
                                              size_t tags_length);
/* The initial value travels in the request; a unit drops it, and holds nothing after an allocation. */
int32_t taxeedhuul_write_allocate(uint8_t *area, size_t area_length, uint8_t version, uint64_t tag, uint8_t mode,
                                  uint32_t size, bool locked, uint64_t password, const uint8_t *initial,
                                  size_t initial_length);
int32_t taxeedhuul_write_free(uint8_t *area, size_t area_length, uint8_t version, uint64_t tag, bool locked,
                              uint64_t password);
int32_t taxeedhuul_write_read(uint8_t *area, size_t area_length, uint8_t version, uint64_t tag, bool locked,
                              uint64_t password);
int32_t taxeedhuul_write_write(uint8_t *area, size_t area_length, uint8_t version, uint64_t tag, bool locked,
                               uint64_t password, const uint8_t *bytes, size_t bytes_length);
int32_t taxeedhuul_write_bulk_read(uint8_t *area, size_t area_length, uint8_t version, bool locked, const uint64_t *tags,
                                   size_t tags_length, const uint64_t *passwords, size_t passwords_length);
/* The data of entry i are the octets of bytes from starts[i] on, lengths[i] of them; they lie within bytes, also
 * where there are none of them. */
int32_t taxeedhuul_write_bulk_write(uint8_t *area, size_t area_length, uint8_t version, bool locked, const uint64_t *tags,
                                    size_t tags_length, const uint64_t *passwords, size_t passwords_length,
                                    const size_t *starts, size_t starts_length, const size_t *lengths,
                                    size_t lengths_length, const uint8_t *bytes, size_t bytes_length);

/* ---- the gate reads answers -------------------------------------------------------------------- */

/* The words that read_answer tells, by their places. A word that an answer does not have is 0. */
enum taxeedhuul_answer_word {
    TAXEEDHUUL_ANSWER_TYPE = 0,    /* the operation's, 128 to 134 or 193 to 198; 255 is a denial */
    TAXEEDHUUL_ANSWER_VERSION = 1,
    TAXEEDHUUL_ANSWER_STATUS = 2,  /* of a denial */
    TAXEEDHUUL_ANSWER_TAG = 3,     /* of allocate, free, read and write */
    TAXEEDHUUL_ANSWER_START = 4,   /* where in the octets the data, a denial's supplement or a list's first entry stands */
    TAXEEDHUUL_ANSWER_LENGTH = 5,  /* of the data or the supplement; of a list, how many entries */
    TAXEEDHUUL_ANSWER_LARGEST = 6, /* and the rest: of resource information, what the unit can take */
    TAXEEDHUUL_ANSWER_TAGS = 7,
    TAXEEDHUUL_ANSWER_OCTETS = 8,
    TAXEEDHUUL_ANSWER_VOLATILE_TAGS = 9,
    TAXEEDHUUL_ANSWER_VOLATILE_OCTETS = 10,
    TAXEEDHUUL_ANSWER_ENTRIES = 11
};

/* What octets answer: the type, and the words above; words behind them stay.
 * -16 if the octets are over 2,048 or are no answer and no denial; then -300 for fewer than 12 words. */
int32_t taxeedhuul_read_answer(const uint8_t *octets, size_t octets_length, uint64_t *fields, size_t fields_length);

/* An entry of a list, at a place of the answer's octets: the place of the next. The first place and the count are
 * read_answer's; it is for the caller to take the reader of the answer's type. -16 if the octets there are no such
 * entry (any eight octets are a tag) or are over 2,048 in all; then -300 for too few words. */
/* Of bulk write (134, 198): the tag. */
int32_t taxeedhuul_read_tag(const uint8_t *octets, size_t octets_length, size_t at, uint64_t *fields,
                            size_t fields_length);
/* Of bulk read (133, 197): the tag, and where in the octets its data starts and how long it is. */
int32_t taxeedhuul_read_memory_data(const uint8_t *octets, size_t octets_length, size_t at, uint64_t *fields,
                                    size_t fields_length);
/* Of resource information (128): the tag, its mode code (4 more where SPF is required), its data size (0 if it may not
 * be read) and its area size. */
int32_t taxeedhuul_read_resource(const uint8_t *octets, size_t octets_length, size_t at, uint64_t *fields,
                                 size_t fields_length);

#ifdef __cplusplus
}
#endif

#endif
