/* Document 01 in straightforward C: a yardstick for the proved library's speed. */

#include <stdbool.h>
#include <stddef.h>
#include <stdint.h>
#include <string.h>

enum {
    PAGE_LEN = 120,
    FILE_PAGES = 16,
    HEADER_SLOTS = 64,
    PAGE_SLOTS = 256,
    RECORD_LEN = 36,
    SLOT_LEN = 128,
    OUTCOMES_LEN = 18,
    HEADERS_LEN = RECORD_LEN * (HEADER_SLOTS + 1),
    PAGES_LEN = SLOT_LEN * PAGE_SLOTS
};

/* Where the fields stand: in the control record, in a header record, in a page slot. */
enum { NEXT_ID = 0, CLOCK = 4, SPARE = 8 };
enum { OWNER = 4, CREATED = 6, UPDATED = 10, HEADER_EXPIRES = 14, PAGE_IDS = 18 };
enum { SLOT_EXPIRES = 4, CONTENTS = 8 };

#define IN_USE 0x80000000u
#define LAST_ID 0x7fffffffu

enum {
    SUCCESS,
    BAD_CALL,
    DAMAGED,
    CLOCK_BACK,
    NO_SUCH_FILE,
    NOT_OWNER,
    NO_SUCH_PAGE,
    NO_SPACE,
    NO_IDS,
    SERVICE_ERROR,
    CUT
};

typedef struct { uint8_t number; uint32_t id; } answer;
typedef struct { uint8_t number; uint16_t owner; uint32_t created, updated, expires; } facts;
typedef struct { uint8_t number; uint32_t headers, pages; } swept;

struct header {
    uint32_t id;
    uint16_t owner;
    uint32_t created, updated, expires;
    uint16_t page_ids[FILE_PAGES];
};

/* Both tables during one request, with its time and the outcomes of the steps to come. */
struct stores {
    uint8_t *headers, *pages;
    const uint8_t *outcomes;
    uint32_t now;
};

static const uint8_t zeros[SLOT_LEN];

static uint32_t word(const uint8_t *at)
{
    return (uint32_t)at[0] << 24 | (uint32_t)at[1] << 16 | (uint32_t)at[2] << 8 | at[3];
}

static void put_word(uint8_t *at, uint32_t value)
{
    at[0] = (uint8_t)(value >> 24);
    at[1] = (uint8_t)(value >> 16);
    at[2] = (uint8_t)(value >> 8);
    at[3] = (uint8_t)value;
}

static uint16_t page_id(const uint8_t *record, unsigned number)
{
    /* Nine bits from bit 9 * number on lie within two bytes. */
    const uint8_t *at = record + PAGE_IDS + number + number / 8;
    return (uint16_t)((at[0] << 8 | at[1]) >> (7 - number % 8) & 0x1ff);
}

static void put_page_id(uint8_t *record, unsigned number, uint16_t page_id)
{
    uint8_t *at = record + PAGE_IDS + number + number / 8;
    unsigned bits = (unsigned)page_id << (7 - number % 8);
    at[0] |= (uint8_t)(bits >> 8);
    at[1] |= (uint8_t)bits;
}

static void unpack(struct header *header, const uint8_t *record)
{
    header->id = word(record) & ~IN_USE;
    header->owner = (uint16_t)(record[OWNER] << 8 | record[OWNER + 1]);
    header->created = word(record + CREATED);
    header->updated = word(record + UPDATED);
    header->expires = word(record + HEADER_EXPIRES);
    for (unsigned number = 0; number < FILE_PAGES; number++)
        header->page_ids[number] = page_id(record, number);
}

static void pack(uint8_t *record, const struct header *header)
{
    put_word(record, IN_USE | header->id);
    record[OWNER] = (uint8_t)(header->owner >> 8);
    record[OWNER + 1] = (uint8_t)header->owner;
    put_word(record + CREATED, header->created);
    put_word(record + UPDATED, header->updated);
    put_word(record + HEADER_EXPIRES, header->expires);
    memset(record + PAGE_IDS, 0, RECORD_LEN - PAGE_IDS);
    for (unsigned number = 0; number < FILE_PAGES; number++)
        put_page_id(record, number, header->page_ids[number]);
}

static bool in_use(const uint8_t *stored)
{
    return stored[0] >> 7;
}

static uint8_t *slot_of(uint8_t *pages, uint16_t page_id)
{
    return pages + (size_t)SLOT_LEN * (page_id - 1u);
}

/* S1. */
static bool control_sound(const uint8_t *headers)
{
    uint32_t next_id = word(headers + NEXT_ID);
    return next_id >= 1 && next_id <= LAST_ID + 1 &&
           memcmp(headers + SPARE, zeros, RECORD_LEN - SPARE) == 0;
}

/* S3. */
static bool slots_sound(const uint8_t *pages)
{
    for (const uint8_t *slot = pages; slot < pages + PAGES_LEN; slot += SLOT_LEN) {
        if (in_use(slot) ? word(slot) != IN_USE : memcmp(slot, zeros, SLOT_LEN) != 0)
            return false;
    }
    return true;
}

/* S4 and S5 for one live header, given the page slots seen in those before it. */
static bool pages_sound(const struct header *header, const uint8_t *pages, bool *seen)
{
    for (unsigned number = 0; number < FILE_PAGES; number++) {
        uint16_t page_id = header->page_ids[number];
        if (page_id == 0)
            continue;
        const uint8_t *slot = pages + (size_t)SLOT_LEN * (page_id - 1u);
        if (!in_use(slot) || word(slot + SLOT_EXPIRES) < header->expires || seen[page_id - 1])
            return false;
        seen[page_id - 1] = true;
    }
    return true;
}

/* S2 for one header in use, but for its id being shared with no other. */
static bool header_sound(const struct header *header, uint32_t next_id, uint32_t clock)
{
    for (unsigned number = 0; number < FILE_PAGES; number++) {
        if (header->page_ids[number] > PAGE_SLOTS)
            return false;
    }
    return header->id >= 1 && header->id < next_id && header->created <= header->updated &&
           header->updated <= clock && header->updated <= header->expires;
}

static bool among(uint32_t id, const uint32_t *ids, unsigned count)
{
    for (unsigned i = 0; i < count; i++) {
        if (ids[i] == id)
            return true;
    }
    return false;
}

/* S2, and S4 and S5 for the live headers. */
static bool headers_sound(const uint8_t *headers, const uint8_t *pages)
{
    uint32_t next_id = word(headers + NEXT_ID), clock = word(headers + CLOCK);
    uint32_t ids[HEADER_SLOTS];
    unsigned count = 0;
    bool seen[PAGE_SLOTS] = {false};
    struct header header;
    for (unsigned place = 1; place <= HEADER_SLOTS; place++) {
        const uint8_t *record = headers + (size_t)RECORD_LEN * place;
        if (!in_use(record)) {
            if (memcmp(record, zeros, RECORD_LEN) != 0)
                return false;
            continue;
        }
        unpack(&header, record);
        if (!header_sound(&header, next_id, clock) || among(header.id, ids, count))
            return false;
        ids[count++] = header.id;
        if (header.expires > clock && !pages_sound(&header, pages, seen))
            return false;
    }
    return true;
}

bool plain_c_sound(const uint8_t *headers, const uint8_t *pages)
{
    return control_sound(headers) && slots_sound(pages) && headers_sound(headers, pages);
}

/* Checks 2 and 3. */
static uint8_t tables_refusal(const uint8_t *headers, const uint8_t *pages, uint32_t time)
{
    if (!plain_c_sound(headers, pages))
        return DAMAGED;
    return time < word(headers + CLOCK) ? CLOCK_BACK : SUCCESS;
}

/* Checks 1 to 3; a request without a page number gives 0, one without a lent page its length. */
static uint8_t refusal(const uint8_t *headers, size_t headers_len, const uint8_t *pages,
                       size_t pages_len, const uint8_t *outcomes, size_t outcomes_len,
                       uint32_t time, uint8_t number, size_t page_len)
{
    if (headers_len != HEADERS_LEN || pages_len != PAGES_LEN || outcomes_len != OUTCOMES_LEN ||
        page_len != PAGE_LEN || number >= FILE_PAGES)
        return BAD_CALL;
    for (unsigned step = 0; step < OUTCOMES_LEN; step++) {
        if (outcomes[step] > 2)
            return BAD_CALL;
    }
    return tables_refusal(headers, pages, time);
}

/* Now is stored as the clock before step 1. */
static struct stores begin(uint8_t *headers, uint8_t *pages, const uint8_t *outcomes, uint32_t now)
{
    put_word(headers + CLOCK, now);
    return (struct stores){headers, pages, outcomes, now};
}

static uint8_t step(struct stores *stores)
{
    switch (*stores->outcomes++) {
    case 0:
        return SUCCESS;
    case 1:
        return SERVICE_ERROR;
    default:
        return CUT;
    }
}

/* Where the record of the live header with this id begins, or 0: there is the control record. */
static size_t find(const uint8_t *headers, uint32_t id, uint32_t now)
{
    for (size_t at = RECORD_LEN; at < HEADERS_LEN; at += RECORD_LEN) {
        const uint8_t *record = headers + at;
        if ((word(record) & ~IN_USE) == id && in_use(record) &&
            word(record + HEADER_EXPIRES) > now)
            return at;
    }
    return 0;
}

/* A step: reads the header with this id, and tells its record. */
static uint8_t read_header(struct stores *stores, uint32_t id, uint8_t **record,
                           struct header *header)
{
    uint8_t refused = step(stores);
    if (refused)
        return refused;
    size_t at = find(stores->headers, id, stores->now);
    if (at == 0)
        return NO_SUCH_FILE;
    *record = stores->headers + at;
    unpack(header, *record);
    return SUCCESS;
}

/* A step and the owner check after it. */
static uint8_t read_own_header(struct stores *stores, uint16_t client, uint32_t id,
                               uint8_t **record, struct header *header)
{
    uint8_t refused = read_header(stores, id, record, header);
    if (refused)
        return refused;
    return header->owner == client ? SUCCESS : NOT_OWNER;
}

/* The lowest free record or slot among these, or NULL. */
static uint8_t *lowest_free(uint8_t *stored, size_t len, unsigned count, size_t expires,
                            uint32_t now)
{
    for (unsigned i = 0; i < count; i++, stored += len) {
        if (!in_use(stored) || word(stored + expires) <= now)
            return stored;
    }
    return NULL;
}

/* A step: creates a page in the lowest free slot. */
static uint8_t create_page(struct stores *stores, uint32_t expires, const uint8_t *page,
                           uint16_t *page_id)
{
    uint8_t refused = step(stores);
    if (refused)
        return refused;
    uint8_t *slot = lowest_free(stores->pages, SLOT_LEN, PAGE_SLOTS, SLOT_EXPIRES, stores->now);
    if (!slot)
        return NO_SPACE;
    put_word(slot, IN_USE);
    put_word(slot + SLOT_EXPIRES, expires);
    memcpy(slot + CONTENTS, page, PAGE_LEN);
    *page_id = (uint16_t)((slot - stores->pages) / SLOT_LEN + 1);
    return SUCCESS;
}

/* Issues the next id and raises it in the same step as the header is written. */
static uint8_t put_under_next_id(struct stores *stores, uint8_t *record, struct header *header)
{
    uint32_t id = word(stores->headers + NEXT_ID);
    if (id > LAST_ID)
        return NO_IDS;
    put_word(stores->headers + NEXT_ID, id + 1);
    header->id = id;
    pack(record, header);
    return SUCCESS;
}

/* A step: creates a header in the lowest free slot under the next id. */
static uint8_t create_header(struct stores *stores, struct header *header)
{
    uint8_t refused = step(stores);
    if (refused)
        return refused;
    uint8_t *record = lowest_free(stores->headers + RECORD_LEN, RECORD_LEN, HEADER_SLOTS,
                                  HEADER_EXPIRES, stores->now);
    return record ? put_under_next_id(stores, record, header) : NO_SPACE;
}

/* A step: replaces the header in this record by one under the next id. */
static uint8_t replace_header(struct stores *stores, uint8_t *record, struct header *header)
{
    uint8_t refused = step(stores);
    return refused ? refused : put_under_next_id(stores, record, header);
}

/* A step that is passed over when refused: destroys a page, if there is one. */
static uint8_t destroy_page(struct stores *stores, uint16_t page_id)
{
    if (page_id == 0)
        return SUCCESS;
    uint8_t refused = step(stores);
    if (!refused)
        memset(slot_of(stores->pages, page_id), 0, SLOT_LEN);
    return refused == CUT ? CUT : SUCCESS;
}

/* A step for each page: sets its expiry; a refusal ends the request unless it is passed over. */
static uint8_t set_pages(struct stores *stores, const struct header *header, bool passed_over)
{
    for (unsigned number = 0; number < FILE_PAGES; number++) {
        uint16_t page_id = header->page_ids[number];
        if (page_id == 0)
            continue;
        uint8_t refused = step(stores);
        if (!refused)
            put_word(slot_of(stores->pages, page_id) + SLOT_EXPIRES, header->expires);
        else if (refused == CUT || !passed_over)
            return refused;
    }
    return SUCCESS;
}

static answer refused_answer(uint8_t number)
{
    return (answer){number, 0};
}

uint8_t plain_c_format(uint8_t *headers, size_t headers_len, uint8_t *pages, size_t pages_len)
{
    if (headers_len != HEADERS_LEN || pages_len != PAGES_LEN)
        return BAD_CALL;
    memset(headers, 0, HEADERS_LEN);
    memset(pages, 0, PAGES_LEN);
    put_word(headers + NEXT_ID, 1);
    return SUCCESS;
}

answer plain_c_create_sound(uint8_t *headers, uint8_t *pages, const uint8_t *outcomes,
                            uint32_t time, uint16_t client, uint8_t number, const uint8_t *page,
                            uint32_t expires)
{
    struct stores stores = begin(headers, pages, outcomes, time);
    uint32_t e = expires > time ? expires : time;
    struct header header = {
        .owner = client, .created = time, .updated = time, .expires = e};
    uint8_t refused = create_page(&stores, e, page, &header.page_ids[number]);
    if (!refused)
        refused = create_header(&stores, &header);
    return refused ? refused_answer(refused) : (answer){SUCCESS, header.id};
}

answer plain_c_create(uint8_t *headers, size_t headers_len, uint8_t *pages, size_t pages_len,
                      const uint8_t *outcomes, size_t outcomes_len, uint32_t time,
                      uint16_t client, uint8_t number, const uint8_t *page, size_t page_len,
                      uint32_t expires)
{
    uint8_t refused = refusal(headers, headers_len, pages, pages_len, outcomes, outcomes_len,
                              time, number, page_len);
    if (refused)
        return refused_answer(refused);
    return plain_c_create_sound(headers, pages, outcomes, time, client, number, page, expires);
}

answer plain_c_write_sound(uint8_t *headers, uint8_t *pages, const uint8_t *outcomes,
                           uint32_t time, uint16_t client, uint32_t id, uint8_t number,
                           const uint8_t *page)
{
    struct stores stores = begin(headers, pages, outcomes, time);
    struct header header;
    uint8_t *record;
    uint16_t created;
    uint8_t refused = read_own_header(&stores, client, id, &record, &header);
    if (!refused)
        refused = create_page(&stores, header.expires, page, &created);
    if (refused)
        return refused_answer(refused);
    uint16_t former = header.page_ids[number];
    header.page_ids[number] = created;
    header.updated = time;
    refused = replace_header(&stores, record, &header);
    if (!refused)
        refused = destroy_page(&stores, former);
    return refused ? refused_answer(refused) : (answer){SUCCESS, header.id};
}

answer plain_c_write(uint8_t *headers, size_t headers_len, uint8_t *pages, size_t pages_len,
                     const uint8_t *outcomes, size_t outcomes_len, uint32_t time,
                     uint16_t client, uint32_t id, uint8_t number, const uint8_t *page,
                     size_t page_len)
{
    uint8_t refused = refusal(headers, headers_len, pages, pages_len, outcomes, outcomes_len,
                              time, number, page_len);
    if (refused)
        return refused_answer(refused);
    return plain_c_write_sound(headers, pages, outcomes, time, client, id, number, page);
}

answer plain_c_read_sound(uint8_t *headers, uint8_t *pages, const uint8_t *outcomes,
                          uint32_t time, uint32_t id, uint8_t number, uint8_t *page)
{
    struct stores stores = begin(headers, pages, outcomes, time);
    struct header header;
    uint8_t *record;
    uint8_t refused = read_header(&stores, id, &record, &header);
    if (!refused && header.page_ids[number] == 0)
        refused = NO_SUCH_PAGE;
    if (!refused)
        refused = step(&stores);
    if (!refused)
        memcpy(page, slot_of(pages, header.page_ids[number]) + CONTENTS, PAGE_LEN);
    return refused_answer(refused);
}

answer plain_c_read(uint8_t *headers, size_t headers_len, uint8_t *pages, size_t pages_len,
                    const uint8_t *outcomes, size_t outcomes_len, uint32_t time, uint32_t id,
                    uint8_t number, uint8_t *page, size_t page_len)
{
    uint8_t refused = refusal(headers, headers_len, pages, pages_len, outcomes, outcomes_len,
                              time, number, page_len);
    if (refused)
        return refused_answer(refused);
    return plain_c_read_sound(headers, pages, outcomes, time, id, number, page);
}

facts plain_c_info_sound(uint8_t *headers, uint8_t *pages, const uint8_t *outcomes, uint32_t time,
                         uint32_t id)
{
    struct stores stores = begin(headers, pages, outcomes, time);
    struct header header;
    uint8_t *record;
    uint8_t refused = read_header(&stores, id, &record, &header);
    if (refused)
        return (facts){.number = refused};
    return (facts){SUCCESS, header.owner, header.created, header.updated, header.expires};
}

facts plain_c_info(uint8_t *headers, size_t headers_len, uint8_t *pages, size_t pages_len,
                   const uint8_t *outcomes, size_t outcomes_len, uint32_t time, uint32_t id)
{
    uint8_t refused = refusal(headers, headers_len, pages, pages_len, outcomes, outcomes_len,
                              time, 0, PAGE_LEN);
    if (refused)
        return (facts){.number = refused};
    return plain_c_info_sound(headers, pages, outcomes, time, id);
}

answer plain_c_destroy_sound(uint8_t *headers, uint8_t *pages, const uint8_t *outcomes,
                             uint32_t time, uint16_t client, uint32_t id)
{
    struct stores stores = begin(headers, pages, outcomes, time);
    struct header header;
    uint8_t *record;
    uint8_t refused = read_own_header(&stores, client, id, &record, &header);
    if (!refused)
        refused = step(&stores);
    if (refused)
        return refused_answer(refused);
    memset(record, 0, RECORD_LEN);
    for (unsigned number = 0; number < FILE_PAGES && !refused; number++)
        refused = destroy_page(&stores, header.page_ids[number]);
    return refused_answer(refused);
}

answer plain_c_destroy(uint8_t *headers, size_t headers_len, uint8_t *pages, size_t pages_len,
                       const uint8_t *outcomes, size_t outcomes_len, uint32_t time,
                       uint16_t client, uint32_t id)
{
    uint8_t refused = refusal(headers, headers_len, pages, pages_len, outcomes, outcomes_len,
                              time, 0, PAGE_LEN);
    if (refused)
        return refused_answer(refused);
    return plain_c_destroy_sound(headers, pages, outcomes, time, client, id);
}

answer plain_c_set_expiry_sound(uint8_t *headers, uint8_t *pages, const uint8_t *outcomes,
                                uint32_t time, uint16_t client, uint32_t id, uint32_t expires)
{
    struct stores stores = begin(headers, pages, outcomes, time);
    struct header header;
    uint8_t *record;
    uint8_t refused = read_own_header(&stores, client, id, &record, &header);
    if (refused)
        return refused_answer(refused);
    uint32_t former = header.expires;
    header.expires = expires > time ? expires : time;
    header.updated = time;
    /* A page must never expire before a live header that names it, wherever the request stops. */
    if (header.expires >= former) {
        refused = set_pages(&stores, &header, false);
        if (!refused)
            refused = replace_header(&stores, record, &header);
    } else {
        refused = replace_header(&stores, record, &header);
        if (!refused)
            refused = set_pages(&stores, &header, true);
    }
    return refused ? refused_answer(refused) : (answer){SUCCESS, header.id};
}

answer plain_c_set_expiry(uint8_t *headers, size_t headers_len, uint8_t *pages, size_t pages_len,
                          const uint8_t *outcomes, size_t outcomes_len, uint32_t time,
                          uint16_t client, uint32_t id, uint32_t expires)
{
    uint8_t refused = refusal(headers, headers_len, pages, pages_len, outcomes, outcomes_len,
                              time, 0, PAGE_LEN);
    if (refused)
        return refused_answer(refused);
    return plain_c_set_expiry_sound(headers, pages, outcomes, time, client, id, expires);
}

/* Zeroes every expired record or slot among these and counts them. */
static uint32_t zero_expired(uint8_t *stored, size_t len, unsigned count, size_t expires,
                             uint32_t now)
{
    uint32_t zeroed = 0;
    for (unsigned i = 0; i < count; i++, stored += len) {
        if (in_use(stored) && word(stored + expires) <= now) {
            memset(stored, 0, len);
            zeroed++;
        }
    }
    return zeroed;
}

swept plain_c_scavenge_sound(uint8_t *headers, uint8_t *pages, const uint8_t *outcomes,
                             uint32_t time)
{
    struct stores stores = begin(headers, pages, outcomes, time);
    swept result = {SUCCESS, 0, 0};
    result.number = step(&stores);
    if (!result.number) {
        result.headers =
            zero_expired(headers + RECORD_LEN, RECORD_LEN, HEADER_SLOTS, HEADER_EXPIRES, time);
        result.number = step(&stores);
    }
    if (result.number)
        return (swept){result.number, 0, 0};
    result.pages = zero_expired(pages, SLOT_LEN, PAGE_SLOTS, SLOT_EXPIRES, time);
    return result;
}

swept plain_c_scavenge(uint8_t *headers, size_t headers_len, uint8_t *pages, size_t pages_len,
                       const uint8_t *outcomes, size_t outcomes_len, uint32_t time)
{
    uint8_t refused = refusal(headers, headers_len, pages, pages_len, outcomes, outcomes_len,
                              time, 0, PAGE_LEN);
    if (refused)
        return (swept){refused, 0, 0};
    return plain_c_scavenge_sound(headers, pages, outcomes, time);
}

uint16_t plain_c_look_sound(const uint8_t *headers, uint32_t time, uint32_t id, uint8_t number)
{
    size_t at = find(headers, id, time);
    return at ? page_id(headers + at, number) : 0;
}

uint16_t plain_c_look(const uint8_t *headers, size_t headers_len, const uint8_t *pages,
                      size_t pages_len, uint32_t time, uint32_t id, uint8_t number)
{
    if (headers_len != HEADERS_LEN || pages_len != PAGES_LEN || number >= FILE_PAGES ||
        tables_refusal(headers, pages, time))
        return 0;
    return plain_c_look_sound(headers, time, id, number);
}

/* Not of the document: passes over both tables, which soundness is measured by. */
uint8_t plain_c_pass(const uint8_t *headers, const uint8_t *pages)
{
    uint8_t bits = 0;
    for (size_t at = 0; at < HEADERS_LEN; at++)
        bits |= headers[at];
    for (size_t at = 0; at < PAGES_LEN; at++)
        bits |= pages[at];
    return bits;
}

/* gcc vectorises both, and unrolls none of itself. */
uint8_t plain_c_pass_unrolled(const uint8_t *headers, const uint8_t *pages)
{
    uint8_t bits = 0;
#pragma GCC unroll 4
    for (size_t at = 0; at < HEADERS_LEN; at++)
        bits |= headers[at];
#pragma GCC unroll 4
    for (size_t at = 0; at < PAGES_LEN; at++)
        bits |= pages[at];
    return bits;
}
