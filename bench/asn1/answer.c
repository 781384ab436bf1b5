/* Answers read by asn1c's decoder of rc004.asn1, told in the words of include/taxeedhuul.h; a start is an address.
 * The frame is read here: version, fill bits, command type, and of an operation its type, profile and length. */

#include "taxeedhuul.h"

#include "MemDataList.h"
#include "MemTagList.h"
#include "ObuDenialResponse.h"
#include "ResourceInfo.h"

#include <string.h>

/* The words, and what was decoded with its type. src/asn1c.rs declares the same. */
typedef struct {
    uint64_t words[TAXEEDHUUL_ANSWER_WORDS];
    asn_TYPE_descriptor_t *type;
    void *value;
} rc004_answer;

enum { OPERATION = 1, DENIAL = 255, PLAIN_TEXT = 0 };

/* What octets hold to their end, or NULL. */
static void *decoded(asn_TYPE_descriptor_t *type, const uint8_t *octets, size_t length)
{
    void *value = NULL;
    asn_dec_rval_t result = uper_decode_complete(NULL, type, &value, octets, length);
    if (result.code == RC_OK && result.consumed == length)
        return value;
    ASN_STRUCT_FREE(*type, value);
    return NULL;
}

static asn_TYPE_descriptor_t *body_type(uint8_t answer_type)
{
    switch (answer_type) {
    case 128:
        return &asn_DEF_ResourceInfo;
    case 129: case 130: case 132: case 193: case 194: case 196:
        return &asn_DEF_MemTag;
    case 131: case 195:
        return &asn_DEF_MemData;
    case 133: case 197:
        return &asn_DEF_MemDataList;
    case 134: case 198:
        return &asn_DEF_MemTagList;
    default:
        return NULL;
    }
}

static uint64_t number(const MemTag_t *tag)
{
    uint64_t number = 0;
    for (int place = 0; place < 8; place++)
        number = number << 8 | tag->buf[place];
    return number;
}

static void tell_data(uint64_t *start_and_length, const OCTET_STRING_t *data)
{
    start_and_length[0] = (uintptr_t)data->buf;
    start_and_length[1] = data->size;
}

static void tell_resources(uint64_t *words, const ResourceInfo_t *information)
{
    const StorageProperty_t *storage = &information->storageProperty;
    words[TAXEEDHUUL_ANSWER_LENGTH] = information->tagResourceList.list.count;
    words[TAXEEDHUUL_ANSWER_LARGEST] = information->maxCommandBodySize;
    words[TAXEEDHUUL_ANSWER_TAGS] = storage->availableNonVolatileTagNum;
    words[TAXEEDHUUL_ANSWER_OCTETS] = storage->availableNonVolatileDataCapacity;
    words[TAXEEDHUUL_ANSWER_VOLATILE_TAGS] = storage->availableVolatileTagNum;
    words[TAXEEDHUUL_ANSWER_VOLATILE_OCTETS] = storage->availableVolatileDataCapacity;
    words[TAXEEDHUUL_ANSWER_ENTRIES] = information->bulkTagNum;
}

static void tell_body(uint64_t *words, const asn_TYPE_descriptor_t *type, const void *value)
{
    if (type == &asn_DEF_ResourceInfo) {
        tell_resources(words, value);
    } else if (type == &asn_DEF_MemTag) {
        words[TAXEEDHUUL_ANSWER_TAG] = number(value);
    } else if (type == &asn_DEF_MemData) {
        const MemData_t *memory = value;
        words[TAXEEDHUUL_ANSWER_TAG] = number(&memory->memTag);
        tell_data(words + TAXEEDHUUL_ANSWER_START, &memory->data);
    } else if (type == &asn_DEF_MemDataList) {
        words[TAXEEDHUUL_ANSWER_LENGTH] = ((const MemDataList_t *)value)->list.count;
    } else {
        words[TAXEEDHUUL_ANSWER_LENGTH] = ((const MemTagList_t *)value)->list.count;
    }
}

/* Where the body stands that is exactly the rest of a message, behind its length; 0 if it is not. */
static size_t body_start(const uint8_t *octets, size_t length)
{
    if (length > 4 && octets[4] < 128)
        return octets[4] == length - 5 ? 5 : 0;
    if (length > 5 && octets[4] < 192) {
        size_t number = (octets[4] & 63u) << 8 | octets[5];
        return number > 127 && number == length - 6 ? 6 : 0;
    }
    return 0;
}

static void read_operation(rc004_answer *answer, const uint8_t *octets, size_t length)
{
    size_t start = body_start(octets, length);
    if (!start || octets[3] != PLAIN_TEXT || !(answer->type = body_type(octets[2])))
        return;
    answer->value = decoded(answer->type, octets + start, length - start);
    if (answer->value) {
        answer->words[TAXEEDHUUL_ANSWER_TYPE] = octets[2];
        tell_body(answer->words, answer->type, answer->value);
    }
}

static void read_denial(rc004_answer *answer, const uint8_t *octets, size_t length)
{
    ObuDenialResponse_t *denial = decoded(&asn_DEF_ObuDenialResponse, octets + 2, length - 2);
    if (!denial)
        return;
    answer->type = &asn_DEF_ObuDenialResponse;
    answer->value = denial;
    answer->words[TAXEEDHUUL_ANSWER_TYPE] = DENIAL;
    answer->words[TAXEEDHUUL_ANSWER_STATUS] = denial->status;
    tell_data(answer->words + TAXEEDHUUL_ANSWER_START, &denial->supplementInfo);
}

/* The answer's type, or a number below zero. What is told lasts until rc004_free, which is called in both cases. */
int32_t rc004_read(const uint8_t *octets, size_t length, rc004_answer *answer)
{
    memset(answer, 0, sizeof *answer);
    if (length < 2 || octets[0] & 15)
        return -TAXEEDHUUL_MALFORMED;
    answer->words[TAXEEDHUUL_ANSWER_VERSION] = octets[0] >> 4;
    if (octets[1] == OPERATION)
        read_operation(answer, octets, length);
    else if (octets[1] == DENIAL)
        read_denial(answer, octets, length);
    return answer->value ? (int32_t)answer->words[TAXEEDHUUL_ANSWER_TYPE] : -TAXEEDHUUL_MALFORMED;
}

void rc004_free(rc004_answer *answer)
{
    if (answer->value)
        ASN_STRUCT_FREE(*answer->type, answer->value);
}

/* An entry of a list, by its place in it. */
void rc004_tag(const rc004_answer *answer, size_t place, uint64_t *words)
{
    words[0] = number(((const MemTagList_t *)answer->value)->list.array[place]);
}

void rc004_memory_data(const rc004_answer *answer, size_t place, uint64_t *words)
{
    const MemData_t *memory = ((const MemDataList_t *)answer->value)->list.array[place];
    words[0] = number(&memory->memTag);
    tell_data(words + 1, &memory->data);
}

void rc004_resource(const rc004_answer *answer, size_t place, uint64_t *words)
{
    const TagResourceInfo_t *resource = ((const ResourceInfo_t *)answer->value)->tagResourceList.list.array[place];
    const TagAttribute_t *attribute = &resource->tagAttribute;
    const Permission_t *permission = &attribute->permission;
    words[0] = number(&resource->tag);
    words[1] = (permission->spf ? 4 : 0) | (permission->writeProtect ? 2 : 0) | (permission->readProtect ? 1 : 0);
    words[2] = attribute->tagDataSize;
    words[3] = attribute->maxMemorySize;
}
