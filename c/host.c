/* A host of the variable store.
 *
 *   host         a small flash part: set, append, delete, power cuts in a compaction, a byte that dies, pages, hardware error records, settings that
 *                must make sense, are read in one call and changed together, a modem in the same image, and modes of the platform
 *   host IMAGE   lists the variables of an image file
 *
 * It shows how a firmware's variable driver is built on varstore.h: start up at every power-on, keep the session, ask with an empty buffer first, and carry
 * out on the part what a call has planned.
 */
#include <stdio.h>
#include <stdlib.h>
#include <string.h>

#include "varstore_uefi.h"

#if VS_INTERFACE != 11
#error "this host knows the operations of interface 11"
#endif

enum { BLOCK = VS_BLOCK, PART = BLOCK * 3, PLAIN = VS_NV | VS_BOOT_ACCESS | VS_RUNTIME_ACCESS };

/* No custom mode, no reserve, and all that there is for variables ours. Bytes for error records, rules for settings and a modem's share where the story comes to
 * them. */
#define ALL_OURS {.share = VS_WHOLE_SHARE(PART)}
static vs_setup setup = ALL_OURS;

/* What a call of a side takes besides its own arguments. */
static vs_context by(uint32_t side) { return (vs_context){.limit = VS_NO_LIMIT, .side = side}; }

static int told(const char *what, vs_answer answer)
{
    if (answer.kind == VS_DONE) {
        return 0;
    }
    if (answer.kind == VS_STOPPED) {
        printf("%s: stopped\n", what);
    } else {
        printf("%s: refused %u, %s\n", what, (unsigned)answer.rule, vs_uefi_text(answer.rule));
    }
    return 1;
}

/* The characters of a name that are ASCII; a question mark for any other. */
static void print_name(const uint8_t *name, size_t size)
{
    for (size_t i = 0; i + 2 < size; i += 2) {
        putchar(name[i + 1] == 0 && name[i] >= 0x20 && name[i] < 0x7F ? name[i] : '?');
    }
}

/* As UEFI hosts do: the size is asked for with an empty buffer, then the data are fetched. */
static int print_value(uint32_t side, const vs_session *session, const uint8_t *image, size_t length, const uint8_t *named, size_t size)
{
    uint8_t data[VS_LARGEST_DATA];
    vs_reply asked = vs_get_lent(by(side), session, image, length, named + 16, size - 16, named, data, 0);
    if (asked.answer.kind != VS_REFUSED || asked.answer.rule != VS_BUFFER) {
        return told("size", asked.answer) | 1;
    }
    vs_reply got = vs_get_lent(by(side), session, image, length, named + 16, size - 16, named, data, asked.needed);
    if (told("get", got.answer)) {
        return 1;
    }
    print_name(named + 16, size - 16);
    printf(" %02X", (unsigned)got.attributes);
    for (uint32_t i = 0; i < got.size; i++) {
        printf("%s%02X", i == 0 ? " " : "", (unsigned)data[i]);
    }
    putchar('\n');
    return 0;
}

/* The name alone, after a space. */
static int print_named(uint32_t side, const vs_session *session, const uint8_t *image, size_t length, const uint8_t *named, size_t size)
{
    (void)side, (void)session, (void)image, (void)length;
    putchar(' ');
    print_name(named + 16, size - 16);
    return 0;
}

typedef int printing(uint32_t side, const vs_session *session, const uint8_t *image, size_t length, const uint8_t *named, size_t size);

/* A side's variables of a vendor, or with NULL all of them, in flash order. The other side's are not shown. */
static int list_by(printing *print, uint32_t side, const uint8_t *vendor, const vs_session *session, const uint8_t *image, size_t length)
{
    /* a vendor GUID and a name; the empty name begins */
    uint8_t named[VS_LARGEST_NAMED] = {0};
    size_t size = 16 + 2;
    for (;;) {
        uint8_t next[VS_LARGEST_NAMED];
        vs_reply reply = vs_next_name_lent(by(side), session, image, length, named + 16, size - 16, named, next, sizeof next);
        if (reply.answer.kind == VS_REFUSED && reply.answer.rule == VS_ABSENT) {
            return 0;
        }
        if (told("next name", reply.answer)) {
            return 1;
        }
        size = reply.size;
        memcpy(named, next, size);
        if ((vendor == NULL || memcmp(named, vendor, 16) == 0) && print(side, session, image, length, named, size)) {
            return 1;
        }
    }
}

static int list_of(const uint8_t *vendor, const vs_session *session, const uint8_t *image, size_t length)
{
    return list_by(print_value, VS_OURS, vendor, session, image, length);
}

static int list(const vs_session *session, const uint8_t *image, size_t length) { return list_of(NULL, session, image, length); }

static int list_file(const char *path)
{
    static uint8_t image[VS_LARGEST_IMAGE + 1];
    FILE *file = fopen(path, "rb");
    if (file == NULL) {
        perror(path);
        return 1;
    }
    size_t length = fread(image, 1, sizeof image, file);
    fclose(file);
    vs_checked checked = vs_check(image, length);
    if (told(path, checked.answer)) {
        return 1;
    }
    printf("%u block%s, free from %u\n", (unsigned)checked.blocks, checked.blocks == 1 ? "" : "s", (unsigned)checked.tail);
    static vs_session session;
    session.setup = setup;
    memset(session.setup.modem.vendor, 0xFF, sizeof session.setup.modem.vendor); /* nobody's, so that every variable of the file is ours */
    vs_session_fresh(&session);
    return list(&session, image, length);
}

/* ---- a flash part
 *
 * In a driver `program` and `erase` are commands to the part. They return when it has completed them, and tell whether it has.
 * This part is played: its power fails when so many stores are complete, before the next one begins or inside it; and one of its bytes may have died, which
 * it does not tell: bits that are to fall there stay. A program stores up to `width` bytes within one page, and counts as one store.
 */

static struct {
    uint8_t bytes[PART];
    uint64_t programs, erases; /* that are complete */
    uint64_t power;            /* stores until the power fails */
    int inside;                /* whether it fails inside a store */
    size_t dead;               /* a byte that no longer clears; PART if there is none */
    size_t width;              /* bytes that it stores at a time */
} part = {.power = UINT64_MAX, .dead = PART, .width = 1};

/* Bits only fall. A store that has begun has left one or more of them: here the lowest that was to fall of each byte. */
static int program(size_t at, const uint8_t *bytes, size_t len)
{
    for (size_t i = 0; i < len; i++) {
        uint8_t to_fall = at + i == part.dead ? 0 : part.bytes[at + i] & (uint8_t)~bytes[i];
        uint8_t lowest = to_fall & (uint8_t)-to_fall;
        part.bytes[at + i] ^= part.power > 0 ? to_fall : part.inside ? to_fall ^ lowest : 0;
    }
    if (part.power == 0) {
        return 0;
    }
    part.programs++;
    part.power--;
    return 1;
}

/* An erase that has begun may have left anything in its block. */
static int erase(size_t block)
{
    uint8_t *bytes = part.bytes + BLOCK * block;
    if (part.power == 0) {
        for (size_t i = 0; part.inside && i < BLOCK; i++) {
            bytes[i] ^= (uint8_t)(37 * i);
        }
        return 0;
    }
    memset(bytes, 0xFF, BLOCK);
    part.erases++;
    part.power--;
    return 1;
}

/* ---- the driver: a copy of the part in memory, on which calls are planned, and plans carried out
 *
 * The copy is what the library is lent; the part itself it never sees. Each store is complete on the part before it is made on the copy, so that the two
 * are the same when the plan is carried out. Where a store fails, the copy is of no use any more: the part is read again and a start-up carried out, as at
 * power-on. Every byte programmed is read back: one that has kept a bit which was to fall is dead, and its store has failed. The host remembers it; a host whose
 * calls store into memory would give it to them in their context.
 */

static uint8_t image[PART], content[VS_CONTENT];
static vs_context known = {.limit = VS_NO_LIMIT}; /* the dead bytes found so far */

static void remember(size_t at)
{
    for (uint32_t i = 0; i < known.count; i++) {
        if (known.dead[i] == at) {
            return;
        }
    }
    if (known.count < sizeof known.dead / sizeof known.dead[0]) {
        known.dead[known.count++] = (uint32_t)at;
    }
}

/* Whether a plan was carried out: its next store was made, the power failed, or the byte is dead. */
enum stored { FAILED, MADE, WORN };

/* Bytes within one page. */
static enum stored store_page(size_t at, const uint8_t *bytes, size_t len)
{
    if (!program(at, bytes, len)) {
        return FAILED;
    }
    for (size_t i = 0; i < len; i++) {
        uint8_t wanted = image[at + i] & bytes[i];
        if (part.bytes[at + i] != wanted) {
            remember(at + i);
            return WORN;
        }
        image[at + i] = wanted;
    }
    return MADE;
}

/* Bytes of the content, or one that marks a state, in rising order, cut at page ends. */
static enum stored store(size_t at, const uint8_t *bytes, size_t len)
{
    for (size_t i = 0; i < len;) {
        size_t room = part.width - (at + i) % part.width, n = len - i < room ? len - i : room;
        enum stored stored = store_page(at + i, bytes + i, n);
        if (stored != MADE) {
            return stored;
        }
        i += n;
    }
    return MADE;
}

static enum stored erase_blocks(size_t first, size_t count)
{
    for (size_t block = first; block < first + count; block++) {
        if (!erase(block)) {
            return FAILED;
        }
        memset(image + BLOCK * block, 0xFF, BLOCK);
    }
    return MADE;
}

static enum stored header(size_t at, const uint8_t *bytes, size_t len)
{
    /* the third byte is the state: byte by byte it is left out, and in pages it is FF */
    if (part.width > 1) {
        return store(at, bytes, len);
    }
    enum stored before = store(at, bytes, 2);
    return before == MADE ? store(at + 3, bytes + 3, len - 3) : before;
}

static enum stored operate(const vs_operation *o)
{
    const uint8_t value = (uint8_t)o->from, *bytes = content + o->from;
    switch (o->kind) {
    case VS_NOTHING:
        return MADE;
    case VS_MARK:
        return store(o->at, &value, 1);
    case VS_ERASE:
        return erase_blocks(o->at, o->len);
    case VS_PROGRAM:
        return store(o->at, bytes, o->len);
    case VS_HEADER:
        return header(o->at, bytes, o->len);
    default:
        return FAILED;
    }
}

/* A planned call is carried out. Done is told when its last store is complete; the values in the content are then cleared. Where a byte has died the caller
 * learns what the library itself would answer, VS_WORN. */
static vs_answer carry_out(const vs_plan *plan)
{
    if (plan->rule != 0) {
        return (vs_answer){VS_REFUSED, plan->rule, 0};
    }
    uint64_t before = part.programs + part.erases;
    for (size_t i = 0; i < VS_OPERATIONS; i++) {
        enum stored stored = operate(&plan->operations[i]);
        if (stored != MADE) {
            return stored == WORN ? (vs_answer){VS_REFUSED, VS_WORN, 0} : (vs_answer){VS_STOPPED, 0, 0};
        }
    }
    memset(content, 0, sizeof content);
    return (vs_answer){VS_DONE, 0, part.programs + part.erases - before};
}

/* Once, when the device is made. */
static vs_answer format(void)
{
    vs_plan plan = vs_plan_format(image, PART, content);
    return carry_out(&plan);
}

/* At every power-on, before anything else: the part is read, what a power cut has left is finished, and the session is a new one. */
static vs_answer power_on(vs_session *session)
{
    memcpy(image, part.bytes, PART);
    session->setup = setup;
    vs_session_fresh(session);
    vs_plan plan = vs_plan_start_up_lent(session, image, PART, content);
    return carry_out(&plan);
}

static const uint8_t our_vendor[16] = {0x01, 0x02, 0x03, 0x04, 0x05, 0x06, 0x07, 0x08, 0x09, 0x0A, 0x0B, 0x0C, 0x0D, 0x0E, 0x0F, 0x10};
static const uint8_t record_vendor[16] = {0xDD, 0x6B, 0x4E, 0x41, 0x7B, 0xE4, 0xCC, 0x47, 0xB2, 0x44, 0xBB, 0x61, 0x02, 0x0C, 0xF5, 0x16};

static size_t utf16(const char *text, uint8_t *name)
{
    size_t size = 0;
    for (const char *c = text;; c++) {
        name[size++] = (uint8_t)*c;
        name[size++] = 0;
        if (*c == 0) {
            return size;
        }
    }
}

/* A variable, its name in ASCII, set by a side. */
static vs_answer set_by(uint32_t side, const uint8_t *vendor, const vs_session *session, const char *text, uint32_t attributes, const void *data, size_t size)
{
    uint8_t name[VS_LARGEST_NAME];
    size_t name_size = utf16(text, name);
    vs_plan plan = vs_plan_set_lent(session, side, image, PART, name, name_size, vendor, attributes, data, size, 0, VS_BY_NONE, content);
    return carry_out(&plan);
}

static vs_answer set(const vs_session *session, const char *text, uint32_t attributes, const void *data, size_t size)
{
    return set_by(VS_OURS, our_vendor, session, text, attributes, data, size);
}

/* ---- a small story */

static void print_answer(const char *what, vs_answer answer)
{
    if (!told(what, answer)) {
        printf("%s: done, stores %llu\n", what, (unsigned long long)answer.stores);
    }
}

/* The sample rate, the first byte of RATE. */
static int rate(const vs_session *session)
{
    uint8_t name[VS_LARGEST_NAME], data[4];
    size_t name_size = utf16("RATE", name);
    vs_reply got = vs_get_lent(by(VS_OURS), session, image, PART, name, name_size, our_vendor, data, sizeof data);
    return got.answer.kind == VS_DONE ? data[0] : -1;
}

/* The calls of a variable driver, on a part that is formatted when the recorder is made, and never again. */
static void first_calls(vs_session *session)
{
    static const uint8_t old_rate[4] = {100}, note[] = {1, 2, 3};
    print_answer("format", format());
    print_answer("start-up", power_on(session));
    print_answer("set RATE", set(session, "RATE", PLAIN, old_rate, sizeof old_rate));
    print_answer("set RATE to the same", set(session, "RATE", PLAIN, old_rate, sizeof old_rate));
    print_answer("append to NOTE", set(session, "NOTE", PLAIN | VS_APPEND, note, sizeof note));
    print_answer("append to NOTE", set(session, "NOTE", PLAIN | VS_APPEND, note, sizeof note));
    list(session, image, PART);
    print_answer("delete NOTE", set(session, "NOTE", 0, note, 0));
    print_answer("delete NOTE", set(session, "NOTE", 0, note, 0));
}

/* Entries until the free part of the region is too short for one more RATE: the next set must compact. */
static void fill(const vs_session *session)
{
    uint8_t data[40];
    memset(data, 0xA5, sizeof data);
    unsigned count = 0;
    while (vs_check(image, PART).tail + 76 <= BLOCK) {
        char text[8];
        snprintf(text, sizeof text, "T%03u", count++);
        if (told(text, set(session, text, PLAIN, data, sizeof data))) {
            return;
        }
    }
    printf("%u more variables: free from %u\n", count, (unsigned)vs_check(image, PART).tail);
}

/* RATE is set to 200 on the part as it was, and the power fails when so many stores are complete, or inside the next one; then it comes back. */
static void cut(const uint8_t *before, uint64_t complete, int inside)
{
    static const uint8_t new_rate[4] = {200};
    static vs_session session;
    memcpy(part.bytes, before, PART);
    power_on(&session);
    part.power = complete;
    part.inside = inside;
    vs_answer answer = set(&session, "RATE", PLAIN, new_rate, sizeof new_rate);
    part.power = UINT64_MAX;
    if (answer.kind == VS_REFUSED) {
        told("set RATE", answer);
        return;
    }
    vs_answer started = power_on(&session);
    printf("power fails %s store %llu of the set (%s): stores of the start-up %llu, RATE is %d\n", inside ? "in" : "after",
           (unsigned long long)(complete + (inside ? 1 : 0)), answer.kind == VS_STOPPED ? "stopped" : "done", (unsigned long long)started.stores,
           rate(&session));
}

/* A set tried on a copy in memory, with the dead bytes that are known: whether it would fail, before the part is touched. */
static vs_answer tried(const vs_session *session, const char *text, const void *data, size_t size)
{
    static uint8_t copy[PART];
    uint8_t name[VS_LARGEST_NAME];
    size_t name_size = utf16(text, name);
    memcpy(copy, image, PART);
    return vs_set_lent(known, session, copy, PART, name, name_size, our_vendor, PLAIN, data, size, 0, VS_BY_NONE, content);
}

/* A byte dies where the next entry would begin: sets in the tail are refused, and what stands remains. */
static void worn_tail(vs_session *session)
{
    static const uint8_t old_rate[4] = {100}, new_rate[4] = {200}, note[] = {1, 2, 3};
    format();
    power_on(session);
    set(session, "RATE", PLAIN, old_rate, sizeof old_rate);
    part.dead = vs_check(image, PART).tail;
    printf("a byte dies at %zu, where the next entry begins\n", part.dead);
    print_answer("set NOTE", set(session, "NOTE", PLAIN, note, sizeof note));
    print_answer("start-up", power_on(session));
    print_answer("set RATE", set(session, "RATE", PLAIN, new_rate, sizeof new_rate));
    print_answer("start-up", power_on(session));
    print_answer("set RATE, tried on a copy", tried(session, "RATE", new_rate, sizeof new_rate));
    printf("RATE is %d\n", rate(session));
}

/* A byte dies under a value that a compaction copies: the copy fails there, behind the store that decides, and so does every start-up. What stands in the spare is
 * whole: brought onto a part that has no such byte, it starts up with the new value. */
static void worn_region(vs_session *session, const uint8_t *before)
{
    static const uint8_t new_rate[4] = {200};
    memcpy(part.bytes, before, PART);
    power_on(session);
    part.dead = 2000;
    printf("a byte dies at %zu, under a value that a compaction copies\n", part.dead);
    print_answer("set RATE", set(session, "RATE", PLAIN, new_rate, sizeof new_rate));
    print_answer("start-up", power_on(session));
    memcpy(image, part.bytes, PART);
    print_answer("check", vs_check(image, PART).answer);
    part.dead = PART;
    printf("the same bytes on another part\n");
    print_answer("start-up", power_on(session));
    printf("RATE is %d\n", rate(session));
}

/* The same calls on a part that stores sixteen bytes at a time. A set over a standing RATE makes twelve stores, and number 11 decides; the power fails in the first and
 * the last page of the header, and in the last two marks. */
static void pages(vs_session *session)
{
    static const uint8_t old_rate[4] = {100};
    static const uint64_t in[] = {2, 6, 11, 12};
    static uint8_t kept[PART];
    part.width = 16;
    printf("a part that stores %zu bytes at a time\n", part.width);
    print_answer("format", format());
    print_answer("start-up", power_on(session));
    print_answer("set RATE", set(session, "RATE", PLAIN, old_rate, sizeof old_rate));
    memcpy(kept, part.bytes, PART);
    for (size_t i = 0; i < sizeof in / sizeof in[0]; i++) {
        cut(kept, in[i] - 1, 1);
    }
    print_answer("set RATE", set(session, "RATE", PLAIN, old_rate, sizeof old_rate));
}

/* A memory fault is logged as a hardware error record: here its address, the bits that were wrong, and the number of the record. With a name of 26 bytes and
 * 12 of data it takes 60 + 26 + 12 = 98, rounded 100. */
static vs_answer log_fault(const vs_session *session, unsigned number)
{
    char text[16];
    const uint8_t fault[12] = {0x00, 0x10, 0x32, 0x54, 0x76, 0x00, 0x00, 0x00, 0x40, 0x00, 0x00, (uint8_t)number};
    snprintf(text, sizeof text, "HwErrRec%04X", number % 0x10000);
    return set_by(VS_OURS, record_vendor, session, text, PLAIN | VS_ERROR_RECORD, fault, sizeof fault);
}

static vs_answer log_asked(const vs_session *session, const void *number) { return log_fault(session, *(const unsigned *)number); }

/* A call with what it is asked. */
typedef vs_answer asking(const vs_session *session, const void *asked);

/* The power fails in the compaction that a call makes on the part as it was, when so many stores are complete, or inside the next one; then it comes back, and the
 * variables of a vendor are read. */
static void cut_call(const uint8_t *before, asking *call, const void *asked, const uint8_t *vendor, uint64_t complete, int inside)
{
    static vs_session session;
    memcpy(part.bytes, before, PART);
    power_on(&session);
    part.power = complete;
    part.inside = inside;
    vs_answer answer = call(&session, asked);
    part.power = UINT64_MAX;
    vs_answer started = power_on(&session);
    printf("power fails %s store %llu of it (%s): stores of the start-up %llu\n", inside ? "in" : "after", (unsigned long long)(complete + (inside ? 1 : 0)),
           answer.kind == VS_STOPPED ? "stopped" : "not stopped", (unsigned long long)started.stores);
    list_of(vendor, &session, image, PART);
}

/* Two records of 100 bytes take all that there is for them; our share is the rest of the region, 4,096 - 28 - 200 = 3,868 bytes: TRACE takes 2,120 and NOTES with
 * 1,677 bytes 1,752, together 3,872, which is more, and with a byte less 3,868, which is not. What is logged is there when the station is opened after
 * its death; tools/records reads it from a dump. */
static void records(vs_session *session)
{
    static const uint8_t trace[2048] = {1}, notes[1677] = {2};
    static const unsigned second = 2;
    static uint8_t kept[PART];
    part.width = 1;
    setup.records = 200;
    setup.share = VS_WHOLE_SHARE(PART) - setup.records;
    printf("%u bytes for hardware error records\n", (unsigned)setup.records);
    print_answer("format", format());
    print_answer("start-up", power_on(session));
    print_answer("set TRACE", set(session, "TRACE", PLAIN, trace, sizeof trace));
    print_answer("set NOTES", set(session, "NOTES", PLAIN, notes, sizeof notes));
    print_answer("set NOTES, one byte less", set(session, "NOTES", PLAIN, notes, sizeof notes - 1));
    print_answer("log fault 0", log_fault(session, 0));
    print_answer("log fault 1", log_fault(session, 1));
    printf("free from %u\n", (unsigned)vs_check(image, PART).tail);
    print_answer("log fault 2", log_fault(session, 2));
    print_answer("set HwErrRec0002 as a setting", set_by(VS_OURS, record_vendor, session, "HwErrRec0002", PLAIN, notes, 12));
    list_of(record_vendor, session, image, PART);
    print_answer("delete HwErrRec0000", set_by(VS_OURS, record_vendor, session, "HwErrRec0000", 0, notes, 0));
    memcpy(kept, part.bytes, PART);
    print_answer("log fault 2", log_fault(session, 2));
    cut_call(kept, log_asked, &second, record_vendor, 4097, 1);
    cut_call(kept, log_asked, &second, record_vendor, 4098, 0);
}

/* The rules for this recorder's settings, as tools/settings writes them from host.rules: a rate that it can sample at, a flag, and the number that the factory gives
 * it, which nobody changes afterwards. */
static const vs_setup with_rules = {
    .rules = 3,
    .settings = {
        {.size = 22, .least = 4, .most = 4, .at = 0, .width = 4, .count = 5, .numbers = {1, 10, 50, 100, 200},
         .name = {'S', 0, 'a', 0, 'm', 0, 'p', 0, 'l', 0, 'e', 0, 'R', 0, 'a', 0, 't', 0, 'e', 0},
         .vendor = {0x01, 0x02, 0x03, 0x04, 0x05, 0x06, 0x07, 0x08, 0x09, 0x0A, 0x0B, 0x0C, 0x0D, 0x0E, 0x0F, 0x10}},
        {.size = 22, .least = 1, .most = 1, .at = 0, .width = 1, .count = 2, .numbers = {0, 1},
         .name = {'C', 0, 'o', 0, 'm', 0, 'p', 0, 'r', 0, 'e', 0, 's', 0, 's', 0, 'e', 0, 'd', 0},
         .vendor = {0x01, 0x02, 0x03, 0x04, 0x05, 0x06, 0x07, 0x08, 0x09, 0x0A, 0x0B, 0x0C, 0x0D, 0x0E, 0x0F, 0x10}},
        {.size = 26, .least = 8, .most = 8, .fixed = 1, .at = 0, .width = 1, .ranged = 1, .low = 0, .high = 255,
         .name = {'S', 0, 'e', 0, 'r', 0, 'i', 0, 'a', 0, 'l', 0, 'N', 0, 'u', 0, 'm', 0, 'b', 0, 'e', 0, 'r', 0},
         .vendor = {0x01, 0x02, 0x03, 0x04, 0x05, 0x06, 0x07, 0x08, 0x09, 0x0A, 0x0B, 0x0C, 0x0D, 0x0E, 0x0F, 0x10}},
    },
};

/* A setting of our own, and of a refused one the EFI_STATUS that a UEFI host would return. */
static void change(const vs_session *session, const char *what, const char *text, uint32_t attributes, const void *data, size_t size)
{
    uint8_t name[VS_LARGEST_NAME];
    size_t name_size = utf16(text, name);
    vs_answer answer = set(session, text, attributes, data, size);
    print_answer(what, answer);
    if (answer.kind == VS_REFUSED && answer.rule == VS_SETTING) {
        printf("  %s\n", vs_uefi_read_only(&setup, name, name_size, our_vendor) ? "EFI_WRITE_PROTECTED" : "EFI_INVALID_PARAMETER");
    }
}

/* The factory stores the serial number, and a mistyped script of old has stored a rate of 0, when there were no rules. From the first start-up with them on the
 * rate stands as it is, and only what makes sense takes its place. */
static void settings(vs_session *session)
{
    static const uint8_t serial[8] = {'G', 'T', '-', '0', '0', '4', '1', '7'};
    static const uint8_t stopped[4] = {0}, slow[4] = {10}, fast[4] = {200}, between[4] = {60}, yes = 1, maybe = 2;
    setup = (vs_setup)ALL_OURS;
    printf("settings that must make sense\n");
    print_answer("format", format());
    print_answer("start-up without rules", power_on(session));
    print_answer("set SerialNumber", set(session, "SerialNumber", PLAIN, serial, sizeof serial));
    print_answer("set SampleRate to 0", set(session, "SampleRate", PLAIN, stopped, sizeof stopped));
    setup = with_rules;
    setup.share = VS_WHOLE_SHARE(PART);
    print_answer("start-up with rules", power_on(session));
    list(session, image, PART);
    change(session, "set SampleRate to 0", "SampleRate", PLAIN, stopped, sizeof stopped);
    change(session, "set SampleRate to 200", "SampleRate", PLAIN, fast, sizeof fast);
    change(session, "set SampleRate to 0", "SampleRate", PLAIN, stopped, sizeof stopped);
    change(session, "set SampleRate to 60", "SampleRate", PLAIN, between, sizeof between);
    change(session, "set SampleRate to 10, one byte", "SampleRate", PLAIN, slow, 1);
    change(session, "append to SampleRate", "SampleRate", PLAIN | VS_APPEND, slow, sizeof slow);
    change(session, "set SampleRate to 10", "SampleRate", PLAIN, slow, sizeof slow);
    change(session, "set Compressed to 2", "Compressed", PLAIN, &maybe, 1);
    change(session, "set Compressed to 1", "Compressed", PLAIN, &yes, 1);
    change(session, "delete Compressed", "Compressed", 0, &yes, 0);
    change(session, "set SerialNumber to the same", "SerialNumber", PLAIN, serial, sizeof serial);
    change(session, "delete SerialNumber", "SerialNumber", 0, serial, 0);
    list(session, image, PART);
}

/* ---- acquisition starts, and reads its settings in one call, which checks the image once */

/* The place of one name: the GUID, then the name. Its size is that of both. */
static uint32_t key(const uint8_t *vendor, const char *text, uint8_t place[VS_KEY])
{
    memcpy(place, vendor, 16);
    return (uint32_t)(16 + utf16(text, place + 16));
}

/* The data are one after another in the buffer, and each item tells how long its own are. For a setting that is refused acquisition uses a default. */
static void read_settings(const vs_session *session, uint8_t *data, size_t size)
{
    static const char *const wanted[] = {"SampleRate", "Compressed", "SerialNumber"};
    enum { WANTED = sizeof wanted / sizeof wanted[0] };
    static uint8_t keys[WANTED * VS_KEY];
    static uint32_t sizes[WANTED];
    static vs_item items[VS_NAMES];
    for (size_t i = 0; i < WANTED; i++) {
        sizes[i] = key(our_vendor, wanted[i], keys + VS_KEY * i);
    }
    vs_answer answer = vs_get_many_lent(by(VS_OURS), session, image, PART, keys, sizeof keys, sizes, WANTED, items, data, size);
    if (told("settings", answer)) {
        return;
    }
    for (size_t i = 0; i < WANTED; data += items[i++].size) {
        printf("  %s", wanted[i]);
        if (items[i].rule != 0) {
            printf(": refused %u, %s", (unsigned)items[i].rule, vs_uefi_text(items[i].rule));
        } else {
            printf(" %02X ", (unsigned)items[i].attributes);
        }
        for (uint32_t at = 0; at < items[i].size; at++) {
            printf("%02X", (unsigned)data[at]);
        }
        putchar('\n');
    }
}

static void acquisition(vs_session *session)
{
    static uint8_t data[VS_LARGEST_DATA];
    print_answer("start-up", power_on(session));
    printf("acquisition reads its settings in one call\n");
    read_settings(session, data, sizeof data);
    printf("the same into 11 bytes, one less than they take\n");
    read_settings(session, data, 11);
}

/* ---- a station profile: settings that belong together, in one change
 *
 * With the new rate and the old trigger level a station records rubbish. Between two sets the power may fail; in a profile it leaves all settings as they were, or all
 * as they shall be. A host gets the file from elsewhere, or writes it as here.
 */

typedef struct {
    const char *name;
    const void *data;
    size_t size; /* with 0 the setting is deleted */
} setting;

typedef struct {
    uint8_t bytes[512];
    size_t size;
} profile;

static void add(profile *file, const void *bytes, size_t size)
{
    memcpy(file->bytes + file->size, bytes, size);
    file->size += size;
}

/* Seven bits to a byte, the low ones first, and the top bit where another byte follows. */
static void add_number(profile *file, size_t number)
{
    for (; number > 0x7F; number >>= 7) {
        file->bytes[file->size++] = (uint8_t)(number | 0x80);
    }
    file->bytes[file->size++] = (uint8_t)number;
}

/* Up to eight settings of our own. They are small; a host that is given them from elsewhere looks at the room first. */
static profile profile_of(const setting *settings, size_t count)
{
    profile file = {.size = 0};
    add_number(&file, count);
    for (const setting *s = settings; s < settings + count; s++) {
        uint8_t name[VS_LARGEST_NAME];
        size_t name_size = utf16(s->name, name);
        add_number(&file, PLAIN);
        add_number(&file, name_size);
        add_number(&file, s->size);
        add(&file, our_vendor, sizeof our_vendor);
        add(&file, name, name_size);
        add(&file, s->data, s->size);
    }
    return file;
}

static vs_answer apply(const vs_session *session, const void *asked)
{
    const profile *file = asked;
    vs_plan plan = vs_plan_profile_lent(session, VS_OURS, image, PART, file->bytes, file->size, content);
    return carry_out(&plan);
}

/* It has the rules for settings in force. The compaction makes 8,197 stores, and number 4,098 decides for all settings of the file. What the file changes stands last,
 * as the file has it: 28 + 96 (SerialNumber) + 84 + 88 + 88 = 384. */
static void profiles(vs_session *session)
{
    static const uint8_t yes = 1, no = 0, fast[4] = {200}, between[4] = {60}, low[2] = {5}, high[2] = {9};
    static uint8_t kept[PART];
    static profile wanted, forbidden, doubled;
    wanted = profile_of((const setting[]){{"Compressed", &yes, 1}, {"SampleRate", fast, 4}, {"TriggerLevel", low, 2}}, 3);
    forbidden = profile_of((const setting[]){{"Compressed", &no, 1}, {"SampleRate", between, 4}, {"TriggerLevel", high, 2}}, 3);
    doubled = profile_of((const setting[]){{"TriggerLevel", high, 2}, {"SampleRate", fast, 4}, {"TriggerLevel", low, 2}}, 3);
    printf("a station profile: Compressed, SampleRate and a new setting in one change\n");
    memcpy(kept, part.bytes, PART);
    cut_call(kept, apply, &wanted, our_vendor, 4096, 1);
    cut_call(kept, apply, &wanted, our_vendor, 4097, 1);
    cut_call(kept, apply, &wanted, our_vendor, 4098, 0);
    memcpy(part.bytes, kept, PART);
    print_answer("start-up", power_on(session));
    print_answer("profile", apply(session, &wanted));
    print_answer("the same profile", apply(session, &wanted));
    print_answer("profile with SampleRate 60", apply(session, &forbidden));
    print_answer("profile with TriggerLevel twice", apply(session, &doubled));
    wanted.size--;
    print_answer("profile whose last byte is missing", apply(session, &wanted));
    list(session, image, PART);
    printf("free from %u\n", (unsigned)vs_check(image, PART).tail);
}

/* ---- a modem in the same image
 *
 * Names under its GUID are the modem's, and of the region's 4,096 bytes 1,000 are for them, 200 for hardware error records, and the rest ours. What the modem asks the
 * host carries out as its own calls, but with the modem's side.
 */

static const uint8_t modem_vendor[16] = {0x4D, 0x4F, 0x44, 0x45, 0x4D};

/* The setup with these shares, and ours the rest. */
static vs_setup shared(uint32_t modem_share, uint32_t records)
{
    vs_setup with = {.share = VS_WHOLE_SHARE(PART) - modem_share - records, .records = records, .modem = {.share = modem_share}};
    memcpy(with.modem.vendor, modem_vendor, sizeof modem_vendor);
    return with;
}

static vs_answer modem_sets(const vs_session *session, const char *text, const void *data, size_t size)
{
    return set_by(VS_MODEM, modem_vendor, session, text, PLAIN, data, size);
}

static vs_answer lock_by(uint32_t side, const uint8_t *vendor, vs_session *session, const char *text)
{
    uint8_t name[VS_LARGEST_NAME];
    size_t name_size = utf16(text, name);
    return vs_lock_lent(session, side, name, name_size, vendor);
}

static vs_answer get_by(uint32_t side, const uint8_t *vendor, const vs_session *session, const char *text)
{
    uint8_t name[VS_LARGEST_NAME], data[VS_LARGEST_DATA];
    size_t name_size = utf16(text, name);
    return vs_get_lent(by(side), session, image, PART, name, name_size, vendor, data, sizeof data).answer;
}

static void print_room(const char *whose, uint32_t side, const vs_session *session)
{
    vs_room room = vs_query_lent(by(side), session, image, PART, PLAIN);
    printf("%s room: %u bytes of %u\n", whose, (unsigned)room.remaining, (unsigned)room.storage);
}

/* A log of the modem: with a name of 12 bytes and 128 of data it takes 60 + 12 + 128 = 200, so five take its share. The log that is one too many is refused, and
 * what the modem has stored alters nothing for us. */
static void fills_its_share(vs_session *session)
{
    static const uint8_t log[128] = {3}, rate_data[4] = {50}, note[600] = {4};
    print_answer("set RATE", set(session, "RATE", PLAIN, rate_data, sizeof rate_data));
    print_room("our", VS_OURS, session);
    for (unsigned i = 0; i < 6; i++) {
        char text[8], what[32];
        snprintf(text, sizeof text, "LOG%02u", i);
        snprintf(what, sizeof what, "the modem sets %s", text);
        print_answer(what, modem_sets(session, text, log, sizeof log));
    }
    print_room("the modem's", VS_MODEM, session);
    print_room("our", VS_OURS, session);
    print_answer("set NOTE", set(session, "NOTE", PLAIN, note, sizeof note));
    print_answer("log fault 0", log_fault(session, 0));
}

/* Neither side reads, changes or locks what is the other's, and next-name shows each its own. */
static void names_the_others(vs_session *session)
{
    static const uint8_t none[1];
    print_answer("the modem gets RATE", get_by(VS_MODEM, our_vendor, session, "RATE"));
    print_answer("the modem deletes RATE", set_by(VS_MODEM, our_vendor, session, "RATE", 0, none, 0));
    print_answer("the modem deletes HwErrRec0000", set_by(VS_MODEM, record_vendor, session, "HwErrRec0000", 0, none, 0));
    print_answer("the modem locks RATE", lock_by(VS_MODEM, our_vendor, session, "RATE"));
    print_answer("delete LOG00", set_by(VS_OURS, modem_vendor, session, "LOG00", 0, none, 0));
    printf("names that we are shown:");
    list_by(print_named, VS_OURS, NULL, session, image, PART);
    printf("\nnames that the modem is shown:");
    list_by(print_named, VS_MODEM, NULL, session, image, PART);
    putchar('\n');
}

/* Each side has eight locks. */
static void locks_its_own(vs_session *session)
{
    unsigned taken = 0;
    char text[8];
    do {
        snprintf(text, sizeof text, "KEY%u", taken);
    } while (lock_by(VS_MODEM, modem_vendor, session, text).kind == VS_DONE && ++taken < 16);
    printf("locks that the modem has: %u; ", taken);
    print_answer("one more", lock_by(VS_MODEM, modem_vendor, session, text));
    print_answer("lock RATE", lock_by(VS_OURS, our_vendor, session, "RATE"));
}

/* A start-up with new shares. Refused VS_SIDE nothing has been stored, and the host goes on with the shares that it had, which the values keep to; whoever changed them
 * is told. */
static void share_anew(vs_session *session, const char *what, uint32_t modem_share, uint32_t records)
{
    vs_setup before = setup;
    setup = shared(modem_share, records);
    vs_answer answer = power_on(session);
    print_answer(what, answer);
    if (answer.kind == VS_REFUSED && answer.rule == VS_SIDE) {
        setup = before;
        print_answer("  start-up with the shares as before", power_on(session));
    }
}

static void tenant(vs_session *session)
{
    static const uint8_t none[1];
    setup = shared(1000, 200);
    printf("a modem in the same image: %u bytes are its, %u for error records, %u ours\n", (unsigned)setup.modem.share, (unsigned)setup.records, (unsigned)setup.share);
    print_answer("format", format());
    print_answer("start-up", power_on(session));
    fills_its_share(session);
    names_the_others(session);
    locks_its_own(session);
    setup.modem.share = 1001;
    print_answer("start-up, a byte more for the modem and none less for us", power_on(session));
    setup.modem.share = 1000;
    share_anew(session, "start-up, 600 bytes for the modem, whose logs take 1,000", 600, 200);
    print_answer("the modem deletes LOG00", modem_sets(session, "LOG00", none, 0));
    print_answer("the modem deletes LOG01", modem_sets(session, "LOG01", none, 0));
    share_anew(session, "start-up, 600 bytes for the modem", 600, 200);
    print_room("the modem's", VS_MODEM, session);
    print_room("our", VS_OURS, session);
}

/* ---- modes of the platform
 *
 * A station leaves the workshop in audit mode, gets its platform key in the field, and is deployed from that store on. Mode and key are two variables, PlatMode and PK;
 * where both change it is one compaction, so that no power cut leaves the one without the other.
 */

static const uint8_t global_vendor[16] = {0x61, 0xDF, 0xE4, 0x8B, 0xCA, 0x93, 0xD2, 0x11, 0xAA, 0x0D, 0x00, 0xE0, 0x98, 0x03, 0x2B, 0x8C};

/* What UEFI's three variables would hold. */
static void print_mode(void)
{
    static const char *const names[] = {"setup", "user", "audit", "deployed"};
    vs_platform now = vs_present_mode(image, PART);
    if (!told("mode", now.answer)) {
        printf("%s mode: SetupMode %u, AuditMode %u, DeployedMode %u\n", names[now.mode], (unsigned)vs_uefi_setup_mode(now.mode), (unsigned)vs_uefi_audit_mode(now.mode),
               (unsigned)vs_uefi_deployed_mode(now.mode));
    }
}

static vs_answer request_by(uint32_t side, const vs_session *session, uint32_t mode)
{
    vs_plan plan = vs_plan_mode_lent(session, side, image, PART, mode, content);
    return carry_out(&plan);
}

static void request(const vs_session *session, const char *what, uint32_t mode) { print_answer(what, request_by(VS_OURS, session, mode)); }

typedef struct {
    uint8_t day;                /* of January 2026: its time stamp */
    size_t size;                /* bytes of the key; with 0 PK is deleted */
    uint32_t presence, verdict; /* which the host has found */
} key_change;

/* The descriptor has no signature here: a host checks it before, and gives its verdict. */
static vs_answer change_pk(const vs_session *session, const void *asked)
{
    const key_change *change = asked;
    const uint8_t data[44] = {0xEA, 0x07, 1, change->day, [16] = 24, 0, 0, 0, 0x00, 0x02, 0xF1, 0x0E, 0x9D, 0xD2, 0xAF, 0x4A, 0xDF, 0x68, 0xEE, 0x49,
                              0x8A, 0xA9, 0x34, 0x7D, 0x37, 0x56, 0x65, 0xA7, 'P', 'K', '0', '1'};
    uint8_t name[VS_LARGEST_NAME];
    size_t name_size = utf16("PK", name);
    vs_plan plan = vs_plan_set_lent(session, VS_OURS, image, PART, name, name_size, global_vendor, PLAIN | VS_TIME_BASED, data, 40 + change->size, change->presence,
                                    change->verdict, content);
    return carry_out(&plan);
}

static void key_changed(const vs_session *session, const char *what, key_change change) { print_answer(what, change_pk(session, &change)); }

/* PlatMode occupies 80 bytes, 60 + 18 + 1 rounded, and takes 80 stores in the tail. PK occupies 72. Once both are stored the free part begins at 28 + 72 + 80. */
static void enrolled_in_audit(vs_session *session)
{
    static const key_change first = {1, 4, 0, VS_BY_PAYLOAD};
    static const uint8_t three = 3;
    static uint8_t kept[PART];
    print_mode();
    request(session, "to deployed mode", VS_DEPLOYED_MODE);
    print_answer("set PlatMode to 3", set_by(VS_OURS, global_vendor, session, "PlatMode", PLAIN, &three, 1));
    request(session, "to audit mode", VS_AUDIT_MODE);
    print_mode();
    memcpy(kept, part.bytes, PART);
    printf("PK is stored in audit mode\n");
    cut_call(kept, change_pk, &first, global_vendor, 4097, 1);
    print_mode();
    cut_call(kept, change_pk, &first, global_vendor, 4098, 0);
    print_mode();
    memcpy(part.bytes, kept, PART);
    print_answer("start-up", power_on(session));
    key_changed(session, "set PK, signed by a PK", (key_change){1, 4, 0, VS_BY_PK});
    key_changed(session, "set PK, signed by itself", first);
    print_mode();
    list(session, image, PART);
    printf("free from %u\n", (unsigned)vs_check(image, PART).tail);
}

/* Custom mode does not count: who is there in person needs the key all the same. */
static void present_in_deployed(const vs_session *session)
{
    key_changed(session, "replace PK, present and unsigned", (key_change){2, 4, 1, VS_BY_NONE});
    key_changed(session, "delete PK, present and unsigned", (key_change){2, 0, 1, VS_BY_NONE});
    request(session, "to audit mode", VS_AUDIT_MODE);
    key_changed(session, "delete PK, signed by PK", (key_change){2, 0, 0, VS_BY_PK});
    print_mode();
    printf("free from %u\n", (unsigned)vs_check(image, PART).tail);
}

/* In user mode it counts. A key that comes while PlatMode does not exist, or that is replaced, goes into the free part as any other variable. */
static void from_user(const vs_session *session)
{
    key_changed(session, "set PK, present and unsigned", (key_change){3, 4, 1, VS_BY_NONE});
    print_mode();
    key_changed(session, "replace PK, present and unsigned", (key_change){3, 4, 1, VS_BY_NONE});
    request(session, "to deployed mode", VS_DEPLOYED_MODE);
    print_mode();
    key_changed(session, "replace PK, present and unsigned", (key_change){3, 4, 1, VS_BY_NONE});
    key_changed(session, "delete PK, signed by PK", (key_change){4, 0, 0, VS_BY_PK});
}

/* From user to audit mode PK is lost. After the boot phase a lock on PlatMode bars requests, before it is asked what they want; it does not bar PK. */
static void locked_mode(vs_session *session)
{
    key_changed(session, "set PK, present and unsigned", (key_change){5, 4, 1, VS_BY_NONE});
    print_answer("the modem: to audit mode", request_by(VS_MODEM, session, VS_AUDIT_MODE));
    request(session, "to audit mode", VS_AUDIT_MODE);
    list(session, image, PART);
    print_answer("lock PlatMode", lock_by(VS_OURS, global_vendor, session, "PlatMode"));
    request(session, "to audit mode", VS_AUDIT_MODE);
    vs_phase_lent(session, VS_AFTER_END_OF_DXE);
    request(session, "to audit mode, after EndOfDxe", VS_AUDIT_MODE);
    key_changed(session, "set PK, present and unsigned", (key_change){6, 4, 1, VS_BY_NONE});
    print_mode();
}

static void modes(vs_session *session)
{
    setup = (vs_setup)ALL_OURS;
    printf("modes of the platform\n");
    print_answer("format", format());
    print_answer("start-up", power_on(session));
    enrolled_in_audit(session);
    setup.custom = 1;
    print_answer("start-up in custom mode", power_on(session));
    present_in_deployed(session);
    from_user(session);
    locked_mode(session);
}

/* A compaction of one block makes 8,197 stores; number 4,098 decides. */
static int story(void)
{
    static const uint64_t after[] = {0, 1, 2000, 4097, 4098, 4099, 6000, 8196, 8197}, in[] = {1, 2000, 4098, 4099, 6000, 8196, 8197};
    static uint8_t full[PART];
    static vs_session session; /* not on the stack: it is large */
    first_calls(&session);
    fill(&session);
    memcpy(full, part.bytes, PART);
    for (size_t i = 0; i < sizeof after / sizeof after[0]; i++) {
        cut(full, after[i], 0);
    }
    for (size_t i = 0; i < sizeof in / sizeof in[0]; i++) {
        cut(full, in[i] - 1, 1);
    }
    printf("complete: %llu byte programs, %llu block erases\n", (unsigned long long)part.programs, (unsigned long long)part.erases);
    worn_tail(&session);
    worn_region(&session, full);
    pages(&session);
    records(&session);
    settings(&session);
    acquisition(&session);
    profiles(&session);
    tenant(&session);
    modes(&session);
    printf("dead bytes found: %u, at %u and %u\n", (unsigned)known.count, (unsigned)known.dead[0], (unsigned)known.dead[1]);
    return memcmp(image, part.bytes, PART) != 0;
}

int main(int argc, char **argv)
{
    if (argc == 1) {
        return story();
    }
    if (argc != 2 || argv[1][0] == '-') {
        fprintf(stderr,
                "usage: host [IMAGE]\n"
                "  with IMAGE: lists the variables of an image file: name, attributes, data\n"
                "  without: a small flash part, power cuts in a compaction, a byte that dies, pages, hardware error records, settings that must\n"
                "  make sense, are read in one call and changed together, a modem in the same image, and modes of the platform\n");
        return 2;
    }
    return list_file(argv[1]);
}
