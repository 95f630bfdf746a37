/* uefi_driver.c on a SPI NOR part that is played, whose power fails and whose bytes die. Every value is compared with a book, which is kept from the calls alone.
 *
 * - Power cuts after each store of a set, an append, a delete and a compaction, and inside each: the variable has its old value up to one store and its new one from there
 *   on, every other variable has its value, and names are listed exactly. Some start-ups are cut too.
 * - Random calls, with cuts at random.
 * - Dead bytes: a set then succeeds or not, wholly; where the driver cannot go on, the same bytes on another part start up.
 * - What the specification says of buffers, names, deletes, locks and run time, worked out by hand.
 *
 * tools/examples-test builds it for pages of 16 bytes and of other widths. Exit status 0 if all is as it should be.
 */
#include <setjmp.h>
#include <stdio.h>
#include <stdlib.h>
#include <string.h>

#include "uefi_driver.c" /* not linked, so that the driver's memory can be lost with the power */

static unsigned long calls, cuts_after, cuts_inside, cuts_of_start_ups, compared, wrong;

static void demand(int holds, const char *what, int line)
{
    if (!holds) {
        printf("uefi_driver_test: line %d: %s\n", line, what);
        if (++wrong == 5) {
            exit(1);
        }
    }
}

#define DEMAND(holds) demand((holds), #holds, __LINE__)

static uint64_t seed = 1;

static uint64_t number(void)
{
    seed = seed * 6364136223846793005u + 1442695040888963407u;
    return (seed >> 33) ^ (seed >> 47);
}

static uint64_t below(uint64_t end) { return number() % end; }

/* ---- the part */

static const uint64_t forever = UINT64_MAX;

static struct {
    uint8_t bytes[DRIVER_SIZE];
    uint64_t stores; /* that were completed */
    uint64_t power;  /* stores until it fails */
    int inside;      /* whether inside the next store, or before it begins */
    size_t dead[3];  /* bytes that no longer clear */
    size_t deaths;   /* of them in use */
} part = {.power = UINT64_MAX};

static jmp_buf off; /* where the processor goes on when the power is back */

/* The store that is to be made next: whether it is made wholly. */
static int powered(void)
{
    if (part.power > 0) {
        part.power -= part.power != forever;
        part.stores++;
        return 1;
    }
    return 0;
}

static int is_dead(size_t at)
{
    for (size_t i = 0; i < part.deaths; i++) {
        if (part.dead[i] == at) {
            return 1;
        }
    }
    return 0;
}

int spi_nor_read(size_t at, uint8_t *bytes, size_t len)
{
    DEMAND(at <= DRIVER_SIZE && len <= DRIVER_SIZE - at);
    memcpy(bytes, part.bytes + at, len);
    return 1;
}

/* Bits only fall. Where the power fails inside it, some of those that were to fall have. */
int spi_nor_program(size_t at, const uint8_t *bytes, size_t len)
{
    DEMAND(len > 0 && at < DRIVER_SIZE && len <= SPI_NOR_PAGE - at % SPI_NOR_PAGE);
    int whole = powered();
    for (size_t i = 0; i < len; i++) {
        uint8_t *byte = &part.bytes[at + i], falls = (uint8_t)(*byte & ~bytes[i]);
        DEMAND((bytes[i] & ~*byte) == 0); /* nothing is asked to rise */
        if (!is_dead(at + i)) {
            *byte ^= whole ? falls : part.inside ? (uint8_t)(falls & number()) : 0;
        }
    }
    if (!whole) {
        longjmp(off, 1);
    }
    return 1;
}

/* Where the power fails inside it, its block may hold anything. */
int spi_nor_erase(size_t block)
{
    DEMAND(block < DRIVER_SIZE / SPI_NOR_BLOCK);
    uint8_t *bytes = part.bytes + SPI_NOR_BLOCK * block;
    int whole = powered();
    for (size_t i = 0; i < SPI_NOR_BLOCK; i++) {
        bytes[i] = whole ? 0xFF : part.inside ? (uint8_t)number() : bytes[i];
    }
    if (!whole) {
        longjmp(off, 1);
    }
    return 1;
}

/* ---- the book */

enum { VALUES = 40, NAME = 16, PLAIN = VS_NV | VS_BOOT_ACCESS | VS_RUNTIME_ACCESS, BOOT_ONLY = VS_NV | VS_BOOT_ACCESS };

typedef struct {
    uint16_t name[NAME]; /* empty if there is no value */
    uint32_t attributes;
    uint64_t size;
    uint8_t data[VS_LARGEST_DATA];
} value;

static value book[VALUES];
static const uint8_t vendor[16] = {0x01, 0x02, 0x03, 0x04, 0x05, 0x06, 0x07, 0x08, 0x09, 0x0A, 0x0B, 0x0C, 0x0D, 0x0E, 0x0F, 0x10};
static vs_setup setup = {.share = DRIVER_SHARE};

static void spell(const char *text, uint16_t name[NAME])
{
    memset(name, 0, NAME * sizeof name[0]);
    for (size_t i = 0; text[i] != 0; i++) {
        name[i] = (uint16_t)text[i];
    }
}

/* The value of a name, or a free place. */
static value *entry_of(const uint16_t name[NAME])
{
    value *place = NULL;
    for (value *v = book; v < book + VALUES; v++) {
        if (memcmp(v->name, name, sizeof v->name) == 0) {
            return v;
        }
        place = place == NULL && v->name[0] == 0 ? v : place;
    }
    return place;
}

/* What a call is to do, in the same form: attributes may be 0 or have VS_APPEND, and the data are the call's. */
typedef value change;

/* What is in the book when it is done. */
static value after(const change *c)
{
    value v = *entry_of(c->name);
    int stands = v.name[0] != 0;
    if (c->attributes == 0 || (c->size == 0 && !(c->attributes & VS_APPEND))) {
        memset(&v, 0, sizeof v);
    } else if (c->attributes & VS_APPEND) {
        if (c->size > 0) {
            memcpy(v.data + (stands ? v.size : 0), c->data, c->size);
            v.size = (stands ? v.size : 0) + c->size;
            v.attributes = c->attributes & ~VS_APPEND;
            memcpy(v.name, c->name, sizeof v.name);
        }
    } else {
        v = *c;
    }
    return v;
}

static int is_same(const value *one, const value *other)
{
    return one->name[0] == other->name[0] && (one->name[0] == 0 || (one->attributes == other->attributes && one->size == other->size && memcmp(one->data, other->data, one->size) == 0));
}

/* What the driver says of a name. */
static value found(const uint16_t name[NAME])
{
    value v = {.size = sizeof v.data};
    memcpy(v.name, name, sizeof v.name);
    compared++;
    if (driver_get_variable(name, vendor, &v.attributes, &v.size, v.data) != VS_EFI_SUCCESS) {
        memset(&v, 0, sizeof v);
    }
    return v;
}

/* Every value is the book's, and the list of names has each once, and no other. */
static void compare(void)
{
    unsigned listed = 0, held = 0;
    for (value *v = book; v < book + VALUES; v++) {
        if (v->name[0] != 0) {
            value got = found(v->name);
            held++;
            DEMAND(is_same(&got, v));
        }
    }
    uint16_t name[NAME] = {0};
    uint8_t of[16] = {0};
    uint64_t size = sizeof name, status;
    while ((status = driver_get_next_variable_name(&size, name, of)) == VS_EFI_SUCCESS) {
        memset((uint8_t *)name + size, 0, sizeof name - size);
        value *v = entry_of(name);
        DEMAND(v != NULL && v->name[0] != 0 && memcmp(of, vendor, 16) == 0);
        listed++;
        size = sizeof name;
    }
    DEMAND(status == VS_EFI_NOT_FOUND && listed == held);
}

/* ---- calls and cuts */

static uint64_t call(const change *c)
{
    calls++;
    return driver_set_variable(c->name, vendor, c->attributes, c->size, c->size == 0 ? NULL : c->data);
}

/* The power is back: nothing is left in memory. */
static uint64_t power_on(uint64_t power)
{
    memset(&driver, 0xA5, sizeof driver);
    part.power = power;
    return driver_power_on(&setup);
}

/* The call with the power failing; then start-ups, of which the first may be cut too. Returns the call's status, or that of no call if it did not return. */
static uint64_t cut_call(const change *c, uint64_t complete, int inside, int again)
{
    static volatile uint64_t status;
    static volatile int turn;
    status = UINT64_MAX;
    part.power = complete;
    part.inside = inside;
    turn = 0;
    if (setjmp(off) != 0) {
        turn++;
    }
    if (turn == 0) {
        status = call(c);
        part.power = forever;
        return status;
    }
    cuts_after += turn == 1 && !inside;
    cuts_inside += turn == 1 && inside;
    cuts_of_start_ups += turn == 2;
    part.inside = (int)below(2);
    DEMAND(power_on(turn == 1 && again ? below(VS_BLOCK * DRIVER_BLOCKS / SPI_NOR_PAGE) : forever) == VS_EFI_SUCCESS);
    part.power = forever;
    return status;
}

/* Which of the two the variable has; every other is as in the book. Then the book has what was found. */
static int is_new(const change *c, const value *changed)
{
    value *place = entry_of(c->name), before = *place, got = found(c->name);
    int new = is_same(&got, changed);
    DEMAND(new || is_same(&got, &before));
    *place = new ? *changed : before;
    compare();
    *place = before;
    return new;
}

/* A call is cut after each of its stores, and inside each. */
static void cut_everywhere(const char *what, const change *c, uint64_t least)
{
    static uint8_t before[DRIVER_SIZE];
    value changed = after(c);
    memcpy(before, part.bytes, DRIVER_SIZE);
    part.stores = 0;
    DEMAND(call(c) == VS_EFI_SUCCESS);
    uint64_t stores = part.stores, switched = stores;
    DEMAND(stores >= least && is_new(c, &changed));
    for (int inside = 0; inside < 2; inside++) {
        int was_new = 0;
        for (uint64_t complete = 0; complete < stores; complete++) {
            memcpy(part.bytes, before, DRIVER_SIZE);
            DEMAND(power_on(forever) == VS_EFI_SUCCESS);
            DEMAND(cut_call(c, complete, inside, complete % 3 == 0) == UINT64_MAX);
            int new = is_new(c, &changed);
            DEMAND(new || !was_new);
            /* inside the deciding store it may be either; before and after it is as after it or before it */
            DEMAND(inside ? (complete + 1 < switched ? !new : complete < switched || new) : 1);
            switched = !inside && new && !was_new ? complete : switched;
            was_new = new;
        }
    }
    printf("%s: %llu stores, cut after and inside each; from number %llu on it is done\n", what, (unsigned long long)stores, (unsigned long long)switched);
    memcpy(part.bytes, before, DRIVER_SIZE);
    DEMAND(power_on(forever) == VS_EFI_SUCCESS && call(c) == VS_EFI_SUCCESS);
    *entry_of(c->name) = changed;
    compare();
}

static change made(const char *text, uint32_t attributes, uint64_t size)
{
    change c = {.attributes = attributes, .size = size};
    spell(text, c.name);
    for (uint64_t i = 0; i < size; i++) {
        c.data[i] = (uint8_t)number();
    }
    return c;
}

static void set(const char *text, uint32_t attributes, uint64_t size)
{
    change c = made(text, attributes, size);
    value changed = after(&c);
    DEMAND(call(&c) == VS_EFI_SUCCESS);
    *entry_of(c.name) = changed;
}

static void begin(void)
{
    memset(book, 0, sizeof book);
    memset(part.bytes, 0x5A, DRIVER_SIZE);
    part.deaths = 0;
    DEMAND(power_on(forever) == VS_EFI_DEVICE_ERROR && driver_set_variable(book[0].name, vendor, PLAIN, 1, "x") == VS_EFI_DEVICE_ERROR);
    DEMAND(driver_format() == VS_EFI_SUCCESS && power_on(forever) == VS_EFI_SUCCESS);
    compare();
}

static uint32_t tail(void) { return vs_check(driver.image, DRIVER_SIZE).tail; }

static void cut_sets(void)
{
    begin();
    for (unsigned i = 0; i < 12; i++) {
        char text[NAME];
        snprintf(text, sizeof text, "Setting%u", i);
        set(text, i % 3 == 0 ? BOOT_ONLY : PLAIN, 1 + 17 * i);
        set(text, i % 3 == 0 ? BOOT_ONLY : PLAIN, 200);
    }
    set("Setting3", 0, 0);
    compare();
    change c = made("RATE", PLAIN, 4);
    cut_everywhere("a first value", &c, 8);
    c = made("RATE", PLAIN, 4);
    cut_everywhere("a new value", &c, 10);
    c = made("RATE", PLAIN | VS_APPEND, 90);
    cut_everywhere("an append", &c, 12);
    c = made("Setting5", PLAIN, 0);
    cut_everywhere("a delete", &c, 1);
    while (tail() + 2048 < VS_BLOCK * DRIVER_BLOCKS) {
        set("Setting7", PLAIN, 1900);
    }
    c = made("Setting7", PLAIN, 2048);
    cut_everywhere("a compaction", &c, 2 * VS_BLOCK * DRIVER_BLOCKS / SPI_NOR_PAGE);
}

/* A change of any kind; deletes of what is not there, and values for which there is no room, are among them. */
static change any(void)
{
    char text[NAME];
    snprintf(text, sizeof text, "V%u", (unsigned)below(24));
    uint32_t attributes = (text[1] == '1' ? BOOT_ONLY : PLAIN) | (below(4) == 0 ? VS_APPEND : 0);
    return made(text, attributes, below(6) == 0 ? 0 : below(below(9) == 0 ? 2000 : 120));
}

/* The status that a change has: by the book, where it can be told from it. */
static void told(const change *c, const value *changed, uint64_t status)
{
    value *place = entry_of(c->name);
    if (status == VS_EFI_NOT_FOUND) {
        DEMAND(place->name[0] == 0 && c->size == 0 && !(c->attributes & VS_APPEND));
    } else if (status == VS_EFI_INVALID_PARAMETER) {
        DEMAND(changed->size > VS_LARGEST_DATA);
    } else if (status != VS_EFI_OUT_OF_RESOURCES) {
        DEMAND(status == VS_EFI_SUCCESS);
        *place = *changed;
    }
}

/* Data that an append would make too long do not fit into the book's value: the size alone is known. */
static value outcome(const change *c)
{
    value *place = entry_of(c->name);
    if (c->attributes & VS_APPEND && place->name[0] != 0 && place->size + c->size > VS_LARGEST_DATA) {
        return (value){.size = VS_LARGEST_DATA + 1};
    }
    return after(c);
}

static void cut_at_random(unsigned rounds)
{
    begin();
    for (unsigned round = 0; round < rounds; round++) {
        change c = any();
        value changed = outcome(&c);
        uint64_t complete = below(3) == 0 ? below(17600 / SPI_NOR_PAGE) : below(2) == 0 ? below(20) : forever;
        int inside = (int)below(2), again = (int)below(2);
        uint64_t status = cut_call(&c, complete, inside, again);
        if (status != UINT64_MAX) {
            told(&c, &changed, status);
        } else {
            value *place = entry_of(c.name);
            int new = is_new(&c, &changed);
            *place = new ? changed : *place;
        }
        if (round % 8 == 0) {
            compare();
        }
    }
    compare();
}

/* Up to three bytes die on the way. A set that meets one is wholly done or not at all. */
static void with_dead_bytes(unsigned parts)
{
    unsigned failed = 0, moved = 0;
    for (unsigned turn = 0; turn < parts; turn++) {
        begin();
        for (unsigned round = 0; round < 60; round++) {
            if (round % 20 == 9 && part.deaths < 3) {
                /* mostly near where the next entry will be, or at the start of the spare */
                part.dead[part.deaths++] = below(3) == 0 ? below(DRIVER_SIZE) : below(3) == 0 ? VS_BLOCK * (DRIVER_BLOCKS + 1) + below(200) : tail() + below(100);
            }
            change c = any();
            value changed = outcome(&c);
            uint64_t status = call(&c);
            if (status != VS_EFI_DEVICE_ERROR) {
                told(&c, &changed, status);
                continue;
            }
            failed++;
            if (driver.lost) {
                /* this part is of no use any more; what it holds is whole */
                moved++;
                part.deaths = 0;
                DEMAND(power_on(forever) == VS_EFI_SUCCESS);
            }
            value *place = entry_of(c.name);
            int new = is_new(&c, &changed);
            *place = new ? changed : *place;
        }
        compare();
    }
    printf("dead bytes: %u sets failed, %u parts were given up, and no value was lost\n", failed, moved);
    DEMAND(failed > 0 && moved > 0);
}

/* ---- what the specification says, by hand */

static const uint16_t rate[] = {'R', 'A', 'T', 'E', 0}, none[] = {'N', 'O', 'N', 'E', 0}, empty[] = {0};

static void services(void)
{
    static const uint8_t others[16] = {2}, zeros[16] = {0};
    uint8_t data[8] = {0}, of[16];
    uint16_t name[64] = {0}, longest[65];
    uint32_t attributes = 0;
    uint64_t size = 0;
    begin();
    DEMAND(driver_set_variable(rate, vendor, PLAIN, 4, "\x64\0\0\0") == VS_EFI_SUCCESS);
    DEMAND(driver_set_variable(none, vendor, BOOT_ONLY, 2, "ab") == VS_EFI_SUCCESS);
    /* room: of 8,192 bytes the header takes 28, RATE 76 and NONE 72; the largest name and data are 128 and 2,048 */
    uint64_t storage = 0, remaining = 0, largest = 0;
    DEMAND(driver_query_variable_info(PLAIN, &storage, &remaining, &largest) == VS_EFI_SUCCESS && storage == 8164 && remaining == 8016 && largest == 2176);
    DEMAND(driver_query_variable_info(PLAIN | VS_ERROR_RECORD, &storage, &remaining, &largest) == VS_EFI_SUCCESS && storage == 0 && remaining == 0 && largest == 0);
    DEMAND(driver_query_variable_info(0, &storage, &remaining, &largest) == VS_EFI_INVALID_PARAMETER && driver_query_variable_info(PLAIN, &storage, NULL, &largest) == VS_EFI_INVALID_PARAMETER);
    /* buffers: attributes come with EFI_BUFFER_TOO_SMALL too */
    DEMAND(driver_get_variable(rate, vendor, &attributes, &size, NULL) == VS_EFI_BUFFER_TOO_SMALL && size == 4 && attributes == PLAIN);
    DEMAND(driver_get_variable(rate, vendor, NULL, &size, data) == VS_EFI_SUCCESS && size == 4 && data[0] == 0x64);
    DEMAND(driver_get_variable(rate, vendor, NULL, &size, NULL) == VS_EFI_INVALID_PARAMETER);
    DEMAND(driver_get_variable(rate, vendor, NULL, NULL, data) == VS_EFI_INVALID_PARAMETER);
    DEMAND(driver_get_variable(NULL, vendor, NULL, &size, data) == VS_EFI_INVALID_PARAMETER);
    DEMAND(driver_get_variable(rate, others, NULL, &size, data) == VS_EFI_NOT_FOUND);
    /* a setup whose modem is left at zeros: so are the names that are the modem's */
    DEMAND(driver_get_variable(rate, zeros, NULL, &size, data) == VS_EFI_ACCESS_DENIED);
    /* names: the empty one begins, and one that does not exist is no place to go on from */
    size = 2;
    DEMAND(driver_get_next_variable_name(&size, name, of) == VS_EFI_BUFFER_TOO_SMALL && size == 10 && name[0] == 0);
    size = sizeof name;
    DEMAND(driver_get_next_variable_name(&size, name, of) == VS_EFI_SUCCESS && size == 10 && memcmp(name, rate, 10) == 0 && memcmp(of, vendor, 16) == 0);
    size = sizeof name;
    DEMAND(driver_get_next_variable_name(&size, name, of) == VS_EFI_SUCCESS && memcmp(name, none, 10) == 0);
    size = sizeof name;
    DEMAND(driver_get_next_variable_name(&size, name, of) == VS_EFI_NOT_FOUND && size == sizeof name);
    name[0] = 'M';
    DEMAND(driver_get_next_variable_name(&size, name, of) == VS_EFI_INVALID_PARAMETER);
    memcpy(name, rate, sizeof rate);
    size = 6; /* no zero character in so many bytes */
    DEMAND(driver_get_next_variable_name(&size, name, of) == VS_EFI_INVALID_PARAMETER);
    for (size_t i = 0; i < 65; i++) {
        longest[i] = i < 64 ? 'N' : 0;
    }
    DEMAND(driver_set_variable(longest, vendor, PLAIN, 1, "a") == VS_EFI_INVALID_PARAMETER);
    DEMAND(driver_set_variable(longest + 1, vendor, PLAIN, 1, "a") == VS_EFI_SUCCESS);
    DEMAND(driver_set_variable(empty, vendor, PLAIN, 1, "a") == VS_EFI_INVALID_PARAMETER);
    /* deletes */
    DEMAND(driver_set_variable(longest + 1, vendor, PLAIN, 0, NULL) == VS_EFI_SUCCESS);
    DEMAND(driver_set_variable(longest + 1, vendor, 0, 0, NULL) == VS_EFI_NOT_FOUND);
    DEMAND(driver_set_variable(rate, vendor, PLAIN, 1, NULL) == VS_EFI_INVALID_PARAMETER);
    /* other attributes than the variable has, and a signature that nobody checked */
    DEMAND(driver_set_variable(rate, vendor, BOOT_ONLY, 1, "a") == VS_EFI_INVALID_PARAMETER);
    DEMAND(driver_set_variable(rate, vendor, PLAIN | VS_TIME_BASED, 1, "a") != VS_EFI_SUCCESS);
    /* a lock acts from EndOfDxe on; no lock is taken then */
    DEMAND(driver_request_to_lock(rate, vendor) == VS_EFI_SUCCESS && driver_set_variable(rate, vendor, PLAIN, 4, "\x65\0\0\0") == VS_EFI_SUCCESS);
    driver_end_of_dxe();
    DEMAND(driver_set_variable(rate, vendor, PLAIN, 4, "\x66\0\0\0") == VS_EFI_WRITE_PROTECTED && driver_request_to_lock(none, vendor) == VS_EFI_WRITE_PROTECTED);
    /* at run time what has no run-time access is absent, and cannot be set */
    size = sizeof data;
    DEMAND(driver_get_variable(none, vendor, NULL, &size, data) == VS_EFI_SUCCESS);
    driver_exit_boot_services();
    DEMAND(driver_get_variable(none, vendor, NULL, &size, data) == VS_EFI_NOT_FOUND && driver_set_variable(none, vendor, BOOT_ONLY, 1, "a") == VS_EFI_INVALID_PARAMETER);
    size = sizeof name;
    memset(name, 0, sizeof name);
    DEMAND(driver_get_next_variable_name(&size, name, of) == VS_EFI_SUCCESS && name[0] == 'R');
    size = sizeof name;
    DEMAND(driver_get_next_variable_name(&size, name, of) == VS_EFI_NOT_FOUND);
    /* the next power-on has neither lock nor run time */
    DEMAND(power_on(forever) == VS_EFI_SUCCESS && driver_set_variable(rate, vendor, PLAIN, 4, "\x66\0\0\0") == VS_EFI_SUCCESS);
    /* a rule for a setting, and a read-only one */
    setup.rules = 2;
    setup.settings[0] = (vs_setting){.size = 10, .least = 4, .most = 4, .width = 4, .ranged = 1, .low = 1, .high = 200, .name = {'R', 0, 'A', 0, 'T', 0, 'E'}};
    setup.settings[1] = (vs_setting){.size = 10, .most = 2048, .fixed = 1, .width = 1, .ranged = 1, .high = 255, .name = {'N', 0, 'O', 0, 'N', 0, 'E'}};
    memcpy(setup.settings[0].vendor, vendor, 16);
    memcpy(setup.settings[1].vendor, vendor, 16);
    DEMAND(power_on(forever) == VS_EFI_SUCCESS);
    DEMAND(driver_set_variable(rate, vendor, PLAIN, 4, "\0\0\0\0") == VS_EFI_INVALID_PARAMETER);
    DEMAND(driver_set_variable(rate, vendor, PLAIN, 4, "\xC8\0\0\0") == VS_EFI_SUCCESS);
    DEMAND(driver_set_variable(none, vendor, BOOT_ONLY, 2, "ab") == VS_EFI_WRITE_PROTECTED && driver_set_variable(none, vendor, 0, 0, NULL) == VS_EFI_WRITE_PROTECTED);
    setup.rules = 0;
}

/* A modem whose names are those under another GUID: our services do not show them, and its share comes off ours. */
static void beside_a_modem(void)
{
    static const uint8_t modem[16] = {'M', 'O', 'D', 'E', 'M'};
    static const vs_context modems = {.limit = VS_NO_LIMIT, .side = VS_MODEM};
    uint8_t data[8], of[16];
    uint16_t name[64] = {0};
    uint64_t size = sizeof data, storage = 0, remaining = 0, largest = 0;
    setup.share = DRIVER_SHARE - 1000;
    setup.modem.share = 1000;
    memcpy(setup.modem.vendor, modem, sizeof modem);
    begin();
    DEMAND(driver_set_variable(rate, vendor, PLAIN, 4, "\x64\0\0\0") == VS_EFI_SUCCESS);
    vs_plan plan = vs_plan_set_lent(&driver.session, VS_MODEM, driver.image, DRIVER_SIZE, (const uint8_t *)rate, sizeof rate, modem, PLAIN, data, 0, 0, VS_BY_NONE, driver.content);
    DEMAND(plan.rule == VS_ABSENT);
    plan = vs_plan_set_lent(&driver.session, VS_MODEM, driver.image, DRIVER_SIZE, (const uint8_t *)rate, sizeof rate, modem, PLAIN, (const uint8_t *)"m", 1, 0, VS_BY_NONE, driver.content);
    DEMAND(plan.rule == 0 && carry_out(&plan));
    DEMAND(vs_get_lent(modems, &driver.session, driver.image, DRIVER_SIZE, (const uint8_t *)rate, sizeof rate, modem, data, sizeof data).size == 1 && data[0] == 'm');
    /* our services name it in vain */
    DEMAND(driver_get_variable(rate, modem, NULL, &size, data) == VS_EFI_ACCESS_DENIED && driver_set_variable(rate, modem, 0, 0, NULL) == VS_EFI_ACCESS_DENIED);
    DEMAND(driver_request_to_lock(rate, modem) == VS_EFI_ACCESS_DENIED);
    size = sizeof name;
    DEMAND(driver_get_next_variable_name(&size, name, of) == VS_EFI_SUCCESS && memcmp(of, vendor, 16) == 0);
    size = sizeof name;
    DEMAND(driver_get_next_variable_name(&size, name, of) == VS_EFI_NOT_FOUND);
    DEMAND(driver_query_variable_info(PLAIN, &storage, &remaining, &largest) == VS_EFI_SUCCESS && storage == 7164 && remaining == 7088 && largest == 2176);
    /* shares that do not fit, and a modem's that its 72 bytes do not keep to; then as they were */
    setup.modem.share = 1001;
    DEMAND(power_on(forever) == VS_EFI_INVALID_PARAMETER && driver_get_variable(rate, vendor, NULL, &size, data) == VS_EFI_DEVICE_ERROR);
    setup.modem.share = 71;
    DEMAND(power_on(forever) == VS_EFI_INVALID_PARAMETER);
    setup.modem.share = 72;
    size = sizeof data;
    DEMAND(power_on(forever) == VS_EFI_SUCCESS && driver_get_variable(rate, vendor, NULL, &size, data) == VS_EFI_SUCCESS && size == 4);
    setup = (vs_setup){.share = DRIVER_SHARE};
}

int main(void)
{
    services();
    beside_a_modem();
    cut_sets();
    cut_at_random(1500);
    with_dead_bytes(40);
    printf("%lu calls; %lu power cuts after a store, %lu inside one, %lu in a start-up; %lu values compared with the book; %lu wrong\n", calls, cuts_after, cuts_inside,
           cuts_of_start_ups, compared, wrong);
    return wrong != 0 || cuts_after < 1000 || cuts_inside < 1000 || cuts_of_start_ups < 100;
}
