/* A unit and a gate in one process: the vehicle fits a tag, the gate allocates one with a password, writes it,
 * writes and reads both at once, asks for resource information, and is denied without the password. Document 01's
 * rules: the vehicle's tag is read only, so that the bulk write passes it over. Then another unit, of version 2 and
 * without passwords, with a tag that is reached by the secure port only.
 * Prints each request and answer in hexadecimal, and what the answer says. */
#include <inttypes.h>
#include <stdio.h>
#include <stdlib.h>
#include <string.h>

#include "taxeedhuul.h"

enum { VERSION = 1, OTHER = 2 };

static const uint64_t SHIPMENT = 0x0011223344556677u;
static const uint64_t VEHICLE = 0x4000000000000001u;
static const uint64_t PASSWORDS[] = {0x0102030405060708u, 0x1112131415161718u};

static taxeedhuul_unit unit;
static uint8_t request[TAXEEDHUUL_MESSAGE_OCTETS];
static uint8_t answer[TAXEEDHUUL_MESSAGE_OCTETS];
static size_t answer_length;
static uint64_t fields[TAXEEDHUUL_ANSWER_WORDS];

/* A result that went well; the number of any other ends the program. */
static size_t well(int32_t result)
{
    if (result < 0) {
        printf("refused: %d\n", -result);
        exit(1);
    }
    return (size_t)result;
}

static void print_octets(const char *what, const uint8_t *octets, size_t length)
{
    printf("%s", what);
    for (size_t i = 0; i < length; i++)
        printf("%02X", octets[i]);
    printf("\n");
}

/* Sends the request of that length by a port, and reads the answer. */
static void exchange_by(uint8_t port, const char *what, int32_t request_length)
{
    size_t length = well(request_length);
    printf("%s\n", what);
    print_octets("  request ", request, length);
    answer_length = well(taxeedhuul_unit_respond(&unit, port, request, length, answer, sizeof answer));
    print_octets("  answer  ", answer, answer_length);
    if (well(taxeedhuul_read_answer(answer, answer_length, fields, TAXEEDHUUL_ANSWER_WORDS)) == 255)
        printf("  denied: %" PRIu64, fields[TAXEEDHUUL_ANSWER_STATUS]);
    else
        printf("  accepted: %" PRIu64, fields[TAXEEDHUUL_ANSWER_TYPE]);
    printf(", by version %" PRIu64 "\n", fields[TAXEEDHUUL_ANSWER_VERSION]);
}

static void exchange(const char *what, int32_t request_length)
{
    exchange_by(TAXEEDHUUL_NORMAL_PORT, what, request_length);
}

int main(void)
{
    const uint64_t tags[] = {SHIPMENT, VEHICLE};
    const size_t starts[] = {0, 9};
    const size_t lengths[] = {9, 7};
    uint64_t entry[TAXEEDHUUL_RESOURCE_WORDS];
    size_t at;

    well(taxeedhuul_unit_start(&unit, VERSION, true, true));
    printf("a unit of %zu octets is started\n", sizeof unit);
    well(taxeedhuul_unit_fit(&unit, VEHICLE, 8, TAXEEDHUUL_READ_ONLY, false, true, PASSWORDS[1],
                             (const uint8_t *)"truck 7", 7));
    printf("the vehicle fits %016" PRIX64 "\n", VEHICLE);

    exchange("allocate 16 octets with a password",
             taxeedhuul_write_allocate(request, sizeof request, VERSION, SHIPMENT, TAXEEDHUUL_BOTH, 16, true,
                                       PASSWORDS[0], NULL, 0));
    exchange("write it",
             taxeedhuul_write_write(request, sizeof request, VERSION, SHIPMENT, true, PASSWORDS[0],
                                    (const uint8_t *)"40 crates", 9));

    exchange("write both at once",
             taxeedhuul_write_bulk_write(request, sizeof request, VERSION, true, tags, 2, PASSWORDS, 2, starts, 2,
                                         lengths, 2, (const uint8_t *)"39 cratestruck 8", 16));
    at = (size_t)fields[TAXEEDHUUL_ANSWER_START];
    for (uint64_t i = 0; i < fields[TAXEEDHUUL_ANSWER_LENGTH]; i++) {
        at = well(taxeedhuul_read_tag(answer, answer_length, at, entry, TAXEEDHUUL_TAG_WORDS));
        printf("  %016" PRIX64 " is written\n", entry[0]);
    }

    exchange("read both at once",
             taxeedhuul_write_bulk_read(request, sizeof request, VERSION, true, tags, 2, PASSWORDS, 2));
    at = (size_t)fields[TAXEEDHUUL_ANSWER_START];
    for (uint64_t i = 0; i < fields[TAXEEDHUUL_ANSWER_LENGTH]; i++) {
        at = well(taxeedhuul_read_memory_data(answer, answer_length, at, entry, TAXEEDHUUL_MEMORY_DATA_WORDS));
        printf("  %016" PRIX64 " holds %.*s\n", entry[0], (int)entry[2], (const char *)answer + entry[1]);
    }

    exchange("ask for resource information",
             taxeedhuul_write_resource_information(request, sizeof request, VERSION, tags, 2));
    printf("  requests of %" PRIu64 " octets, lists of %" PRIu64 "\n", fields[TAXEEDHUUL_ANSWER_LARGEST],
           fields[TAXEEDHUUL_ANSWER_ENTRIES]);
    printf("  %" PRIu64 " tags and %" PRIu64 " octets are left, %" PRIu64 " and %" PRIu64 " of volatile memory\n",
           fields[TAXEEDHUUL_ANSWER_TAGS], fields[TAXEEDHUUL_ANSWER_OCTETS], fields[TAXEEDHUUL_ANSWER_VOLATILE_TAGS],
           fields[TAXEEDHUUL_ANSWER_VOLATILE_OCTETS]);
    at = (size_t)fields[TAXEEDHUUL_ANSWER_START];
    for (uint64_t i = 0; i < fields[TAXEEDHUUL_ANSWER_LENGTH]; i++) {
        at = well(taxeedhuul_read_resource(answer, answer_length, at, entry, TAXEEDHUUL_RESOURCE_WORDS));
        printf("  %016" PRIX64 " mode %" PRIu64 ", %" PRIu64 " of %" PRIu64 " octets\n", entry[0], entry[1], entry[2],
               entry[3]);
    }

    exchange("read it with the password",
             taxeedhuul_write_read(request, sizeof request, VERSION, SHIPMENT, true, PASSWORDS[0]));
    printf("  %016" PRIX64 " holds %.*s\n", fields[TAXEEDHUUL_ANSWER_TAG], (int)fields[TAXEEDHUUL_ANSWER_LENGTH],
           (const char *)answer + fields[TAXEEDHUUL_ANSWER_START]);
    exchange("read it without the password", taxeedhuul_write_read(request, sizeof request, VERSION, SHIPMENT, false, 0));
    printf("a short answer area: %d\n",
           taxeedhuul_unit_respond(&unit, TAXEEDHUUL_NORMAL_PORT, request, 13, answer, sizeof answer - 1));

    well(taxeedhuul_unit_start(&unit, OTHER, true, false));
    well(taxeedhuul_unit_fit(&unit, VEHICLE, 8, TAXEEDHUUL_WRITE_ONLY, true, false, 0, NULL, 0));
    printf("another unit is started, and the vehicle fits %016" PRIX64 " for the secure port\n", VEHICLE);
    exchange("allocate with a password",
             taxeedhuul_write_allocate(request, sizeof request, OTHER, SHIPMENT, TAXEEDHUUL_BOTH, 16, true,
                                       PASSWORDS[0], NULL, 0));
    exchange("allocate without",
             taxeedhuul_write_allocate(request, sizeof request, OTHER, SHIPMENT, TAXEEDHUUL_BOTH, 16, false, 0, NULL, 0));
    exchange("free it", taxeedhuul_write_free(request, sizeof request, OTHER, SHIPMENT, false, 0));
    exchange("write by the normal port",
             taxeedhuul_write_write(request, sizeof request, OTHER, VEHICLE, false, 0, (const uint8_t *)"truck 9", 7));
    exchange_by(TAXEEDHUUL_SECURE_PORT, "write by the secure port",
                taxeedhuul_write_write(request, sizeof request, OTHER, VEHICLE, false, 0, (const uint8_t *)"truck 9", 7));
    exchange_by(TAXEEDHUUL_SECURE_PORT, "read what is write only",
                taxeedhuul_write_read(request, sizeof request, OTHER, VEHICLE, false, 0));
    return 0;
}
