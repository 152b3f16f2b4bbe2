/*
 * The proved PageFile service. Link with libpagefile.a, which `./library` writes to target/staticlib/.
 *
 * All memory is the caller's: each buffer is a pointer and its length, buffers of one call must not overlap, and
 * nothing beyond them is touched. The tables may hold any bytes: what is not sound is answered Damaged and left alone.
 * The rules are those of the scope document; each request's steps are named beside it.
 */
#ifndef PAGEFILE_H
#define PAGEFILE_H

#include <stddef.h>
#include <stdint.h>

#ifdef __cplusplus
extern "C" {
#endif

#define PAGEFILE_HEADERS_LEN 2340    /**< Bytes of the header table. */
#define PAGEFILE_PAGES_LEN 32768     /**< Bytes of the page table. */
#define PAGEFILE_PAGE_LEN 120        /**< Bytes of one page's contents. */
#define PAGEFILE_OUTCOMES_LEN 18     /**< Bytes of an outcome list; step k takes outcomes[k - 1]. */
#define PAGEFILE_PAGE_NUMBER_FIRST 0 /**< The lowest page number of a file. */
#define PAGEFILE_PAGE_NUMBER_LAST 15 /**< The highest page number of a file. */
#define PAGEFILE_SLOT_LEN 128        /**< Bytes of one page slot in the page table; slots are numbered 1 to 256. */
#define PAGEFILE_CONTENTS_AT 8       /**< Where in its slot a page's contents begin. */
#define PAGEFILE_NULL_ID 0           /**< The file id that is never issued; ids run from 1 to 2147483647. */

/** What befalls a step: the bytes of an outcome list. */
enum pagefile_outcome {
    PAGEFILE_STEP_THROUGH = 0, /**< The step goes through. */
    PAGEFILE_STEP_REFUSED = 1, /**< The store refuses the step, which changes nothing. */
    PAGEFILE_STEP_CUT = 2      /**< Power is lost before the step; nothing more is done. */
};

/** The numbers of the answers; 1, 2 and 3 are checked in that order before all else and change nothing. */
enum pagefile_answer_number {
    PAGEFILE_SUCCESS = 0,       /**< The request was carried out. */
    PAGEFILE_BAD_CALL = 1,      /**< A wrong length, an outcome byte above 2 or a page number above 15. */
    PAGEFILE_DAMAGED = 2,       /**< The tables are not sound. */
    PAGEFILE_CLOCK_BACK = 3,    /**< The time is below the tables' clock. */
    PAGEFILE_NO_SUCH_FILE = 4,  /**< No live header has the id. */
    PAGEFILE_NOT_OWNER = 5,     /**< The client is not the file's owner. */
    PAGEFILE_NO_SUCH_PAGE = 6,  /**< The file has no page at that number. */
    PAGEFILE_NO_SPACE = 7,      /**< No slot is free for the page or the header to be created. */
    PAGEFILE_NO_IDS = 8,        /**< All file ids have been issued. */
    PAGEFILE_SERVICE_ERROR = 9, /**< A store refused a step that is not passed over. */
    PAGEFILE_CUT = 10           /**< Power was lost before a step. */
};

/** An answer's number, and the id that it issued (0 for none, and for all but Success). */
typedef struct { uint8_t number; uint32_t id; } pagefile_answer;

/** Info's answer: its number, and on Success the file's owner and three times (else 0). */
typedef struct { uint8_t number; uint16_t owner; uint32_t created, updated, expires; } pagefile_facts;

/** Scavenge's answer: its number, and on Success how many header and page slots it zeroed (else 0). */
typedef struct { uint8_t number; uint32_t headers, pages; } pagefile_swept;

/** Makes tables of any contents fresh: no files, clock 0, next id 1. Gives Success or BadCall. */
uint8_t pagefile_format(uint8_t *headers, size_t headers_len, uint8_t *pages, size_t pages_len);

/** Makes a file of one page that lives until expires and gives its id. Steps: 1 create page, 2 create header. */
pagefile_answer pagefile_create(uint8_t *headers, size_t headers_len, uint8_t *pages, size_t pages_len,
                                const uint8_t *outcomes, size_t outcomes_len, uint32_t time,
                                uint16_t client, uint8_t number, const uint8_t *page, size_t page_len,
                                uint32_t expires);

/** Puts a page into the owner's file and gives its new id. Steps: 1 read header, 2 create page, 3 replace header, 4 destroy the former page. */
pagefile_answer pagefile_write(uint8_t *headers, size_t headers_len, uint8_t *pages, size_t pages_len,
                               const uint8_t *outcomes, size_t outcomes_len, uint32_t time,
                               uint16_t client, uint32_t id, uint8_t number, const uint8_t *page, size_t page_len);

/** Copies a page of any client's file into page, which only a Success changes. Steps: 1 read header, 2 read page. */
pagefile_answer pagefile_read(uint8_t *headers, size_t headers_len, uint8_t *pages, size_t pages_len,
                              const uint8_t *outcomes, size_t outcomes_len, uint32_t time,
                              uint32_t id, uint8_t number, uint8_t *page, size_t page_len);

/** Gives a file's owner and times. Step: 1 read header. */
pagefile_facts pagefile_info(uint8_t *headers, size_t headers_len, uint8_t *pages, size_t pages_len,
                             const uint8_t *outcomes, size_t outcomes_len, uint32_t time, uint32_t id);

/** Destroys the owner's file. Steps: 1 read header, 2 destroy header, then destroy each page by rising number. */
pagefile_answer pagefile_destroy(uint8_t *headers, size_t headers_len, uint8_t *pages, size_t pages_len,
                                 const uint8_t *outcomes, size_t outcomes_len, uint32_t time,
                                 uint16_t client, uint32_t id);

/** Sets the expiry of the owner's file and gives its new id. Steps: 1 read header, then each page and the header (the header first if it shortens). */
pagefile_answer pagefile_set_expiry(uint8_t *headers, size_t headers_len, uint8_t *pages, size_t pages_len,
                                    const uint8_t *outcomes, size_t outcomes_len, uint32_t time,
                                    uint16_t client, uint32_t id, uint32_t expires);

/** Zeroes every slot whose expiry has come and gives both counts. Steps: 1 the headers, 2 the page slots. */
pagefile_swept pagefile_scavenge(uint8_t *headers, size_t headers_len, uint8_t *pages, size_t pages_len,
                                 const uint8_t *outcomes, size_t outcomes_len, uint32_t time);

/** Gives the page slot (1 to 256) whose contents Read would copy, or 0 where Read would refuse; changes nothing. */
uint16_t pagefile_look(const uint8_t *headers, size_t headers_len, const uint8_t *pages, size_t pages_len,
                       uint32_t time, uint32_t id, uint8_t number);

/** Points at the PAGEFILE_PAGE_LEN bytes in the page table of a slot that pagefile_look gave; NULL for 0. */
static inline const uint8_t *pagefile_contents(const uint8_t *pages, uint16_t slot)
{
    return slot == 0 ? NULL : pages + (slot - 1) * PAGEFILE_SLOT_LEN + PAGEFILE_CONTENTS_AT;
}

#ifdef __cplusplus
}
#endif

#endif
