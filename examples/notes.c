/* One note on the proved PageFile service: no refused step loses it. Valid as C11 and as C++11. */
#include <pagefile.h>

#include <stdio.h>
#include <string.h>

enum { CLIENT = 7, NUMBER = PAGEFILE_PAGE_NUMBER_FIRST, EXPIRES = 100 };

static uint8_t headers[PAGEFILE_HEADERS_LEN];
static uint8_t pages[PAGEFILE_PAGES_LEN];
static const uint8_t all_through[PAGEFILE_OUTCOMES_LEN] = {0};
static int surprises = 0;

static const char *name_of(uint8_t number)
{
    static const char *const names[] = {"Success",    "BadCall", "Damaged", "ClockBack",    "NoSuchFile", "NotOwner",
                                        "NoSuchPage", "NoSpace", "NoIds",   "ServiceError", "Cut"};
    return number <= PAGEFILE_CUT ? names[number] : "an answer that does not exist";
}

static void expect(int as_expected, const char *what)
{
    if (!as_expected) {
        printf("  not as expected: %s\n", what);
        surprises++;
    }
}

/* A page holds 120 bytes of any kind; a shorter text is followed by zeros. */
static void fill(uint8_t page[PAGEFILE_PAGE_LEN], const char *text)
{
    size_t length = strlen(text);
    memset(page, 0, PAGEFILE_PAGE_LEN);
    memcpy(page, text, length < PAGEFILE_PAGE_LEN ? length : PAGEFILE_PAGE_LEN);
}

static uint32_t create_note(uint32_t time, const char *text)
{
    uint8_t page[PAGEFILE_PAGE_LEN];
    fill(page, text);
    pagefile_answer answer = pagefile_create(headers, sizeof headers, pages, sizeof pages, all_through, sizeof all_through,
                                             time, CLIENT, NUMBER, page, sizeof page, EXPIRES);
    printf("create \"%s\": %s, file %u\n", text, name_of(answer.number), (unsigned)answer.id);
    expect(answer.number == PAGEFILE_SUCCESS, "the answer");
    return answer.id;
}

static pagefile_answer write_note(uint32_t time, uint32_t id, const char *text, const uint8_t *outcomes)
{
    uint8_t page[PAGEFILE_PAGE_LEN];
    fill(page, text);
    pagefile_answer answer = pagefile_write(headers, sizeof headers, pages, sizeof pages, outcomes, PAGEFILE_OUTCOMES_LEN,
                                            time, CLIENT, id, NUMBER, page, sizeof page);
    printf("write \"%s\": %s\n", text, name_of(answer.number));
    return answer;
}

static void read_note(uint32_t time, uint32_t id, uint8_t number, const char *text)
{
    uint8_t page[PAGEFILE_PAGE_LEN] = {0};
    pagefile_answer answer = pagefile_read(headers, sizeof headers, pages, sizeof pages, all_through, sizeof all_through,
                                           time, id, NUMBER, page, sizeof page);
    printf("read file %u at %u: %s\n", (unsigned)id, (unsigned)time, name_of(answer.number));
    expect(answer.number == number, "the answer");
    if (answer.number == PAGEFILE_SUCCESS) {
        printf("  \"%.*s\"\n", PAGEFILE_PAGE_LEN, (const char *)page);
        expect(strncmp((const char *)page, text, sizeof page) == 0, "the page");
    }
}

static void look_at_note(uint32_t time, uint32_t id, const char *text)
{
    uint16_t slot = pagefile_look(headers, sizeof headers, pages, sizeof pages, time, id, NUMBER);
    const uint8_t *contents = pagefile_contents(pages, slot);
    printf("look at file %u at %u: page slot %u\n", (unsigned)id, (unsigned)time, (unsigned)slot);
    expect((contents != NULL) == (text != NULL), "whether a page is there");
    if (contents != NULL && text != NULL) {
        printf("  \"%.*s\"\n", PAGEFILE_PAGE_LEN, (const char *)contents);
        expect(strncmp((const char *)contents, text, PAGEFILE_PAGE_LEN) == 0, "the page");
    }
}

int main(void)
{
    static const char *const first = "Lock 4 opens at nine.";
    static const char *const second = "Lock 4 opens at ten.";

    uint8_t number = pagefile_format(headers, sizeof headers, pages, sizeof pages);
    printf("format: %s\n", name_of(number));
    expect(number == PAGEFILE_SUCCESS, "the answer");

    uint32_t old_id = create_note(10, first);

    /* Step 3 of a Write replaces the header: refused there, the old note stands under its old id. */
    uint8_t header_refused[PAGEFILE_OUTCOMES_LEN] = {0};
    header_refused[3 - 1] = PAGEFILE_STEP_REFUSED;
    expect(write_note(20, old_id, second, header_refused).number == PAGEFILE_SERVICE_ERROR, "the answer");
    read_note(20, old_id, PAGEFILE_SUCCESS, first);

    /* Gone through, the new note has a new id and the old id names nothing. */
    pagefile_answer written = write_note(30, old_id, second, all_through);
    expect(written.number == PAGEFILE_SUCCESS && written.id != old_id, "the answer and a new id");
    read_note(30, old_id, PAGEFILE_NO_SUCH_FILE, NULL);
    read_note(30, written.id, PAGEFILE_SUCCESS, second);

    look_at_note(30, written.id, second);
    look_at_note(EXPIRES, written.id, NULL);
    return surprises == 0 ? 0 : 1;
}
