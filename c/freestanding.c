/* A host with nothing beside it, no C library and no start-up code, in the calling convention that its compiler is told: a store is formatted, set, compacted,
 * read and planned under a rule for its one setting. First memory.c is tried, which is not proved, then varstore_uefi.h in this convention. Exit status 0 if every
 * answer is right, else the number of the first that is wrong.
 *
 * tools/link-test builds it for both conventions of x86-64, tools/targets-test for the other machines. The numbers of stores are those of document 01's cases: a
 * format of one block 31, a new RATE 75, a compaction of one block 8,197.
 */
#include "varstore_uefi.h"

enum {
    IMAGE = VS_BLOCK * 3,
    PLAIN = VS_NV | VS_BOOT_ACCESS | VS_RUNTIME_ACCESS,
    ENTRY = 76,  /* of RATE */
    HEADER = 28, /* of the region */
    MEMORY = 128
};

static const vs_context no_limit = {.limit = VS_NO_LIMIT};
static const uint8_t vendor[16] = {1, 2, 3};
static const uint8_t rate[] = {'R', 0, 'A', 0, 'T', 0, 'E', 0, 0, 0};
static const vs_setup setup = {
    .share = VS_WHOLE_SHARE(IMAGE),
    .rules = 1,
    .settings = {{.size = sizeof rate, .least = 4, .most = 4, .width = 4, .ranged = 1, .low = 1, .high = 250, .name = {'R', 0, 'A', 0, 'T', 0, 'E'}, .vendor = {1, 2, 3}}},
};
static uint8_t image[IMAGE], content[VS_CONTENT], buffer[VS_LARGEST_NAMED];
static vs_session session;
static unsigned asked, first_wrong;

static void told(int right)
{
    asked++;
    if (!right && first_wrong == 0) {
        first_wrong = asked;
    }
}

static int done(vs_answer answer, uint64_t stores)
{
    return answer.kind == VS_DONE && answer.rule == 0 && answer.stores == stores;
}

static int refused(vs_answer answer, uint32_t rule)
{
    return answer.kind == VS_REFUSED && answer.rule == rule && answer.stores == 0;
}

static vs_answer set(uint8_t number)
{
    const uint8_t data[4] = {number};
    return vs_set(no_limit, session, image, IMAGE, rate, sizeof rate, vendor, PLAIN, data, sizeof data, 0, VS_BY_NONE, content);
}

static int rate_is(uint8_t number)
{
    vs_reply reply = vs_get(no_limit, session, image, IMAGE, rate, sizeof rate, vendor, buffer, sizeof buffer);
    return done(reply.answer, 0) && reply.size == 4 && reply.attributes == PLAIN && buffer[0] == number && buffer[1] == 0 && buffer[2] == 0 && buffer[3] == 0;
}

/* RATE is replaced until the free part is too short for it, then once more. */
static void compaction(void)
{
    uint8_t number = 1;
    while (vs_check(image, IMAGE).tail + ENTRY <= VS_BLOCK) {
        told(set(++number).kind == VS_DONE && rate_is(number));
    }
    told(number == (VS_BLOCK - HEADER) / ENTRY);
    told(done(set(200), 8197) && rate_is(200));
    told(vs_check(image, IMAGE).tail == HEADER + ENTRY);
}

static void names(void)
{
    static const uint8_t empty[2];
    vs_reply reply = vs_next_name(no_limit, session, image, IMAGE, empty, sizeof empty, vendor, buffer, sizeof buffer);
    told(done(reply.answer, 0) && reply.size == sizeof vendor + sizeof rate && buffer[0] == 1 && buffer[sizeof vendor] == 'R');
}

/* What a set would store is planned, and once the boot phase is over it is refused. */
static void locked(void)
{
    const uint8_t data[4] = {250};
    vs_plan plan = vs_plan_set(session, VS_OURS, image, IMAGE, rate, sizeof rate, vendor, PLAIN, data, sizeof data, 0, VS_BY_NONE, content);
    told(plan.rule == 0 && plan.deciding < VS_OPERATIONS && plan.operations[plan.deciding].kind == VS_MARK);
    vs_listed listed = vs_lock(session, VS_OURS, rate, sizeof rate, vendor);
    told(done(listed.answer, 0) && listed.session.count == 1);
    session = vs_phase(listed.session, VS_AFTER_END_OF_DXE);
    told(session.phase == VS_AFTER_END_OF_DXE && refused(set(250), VS_LOCKED) && rate_is(200));
}

void *memcpy(void *to, const void *from, size_t count);
void *memset(void *to, int value, size_t count);
void *memmove(void *to, const void *from, size_t count);

/* The bytes that were to change have changed, and no other, before or after them. */
static int only_these(const uint8_t *bytes, size_t at, size_t size, int copied)
{
    for (size_t i = 0; i < MEMORY; i++) {
        uint8_t wanted = i < at || i >= at + size ? 0xC5 : copied ? (uint8_t)(i - at + 1) : 0x9A;
        if (bytes[i] != wanted) {
            return 0;
        }
    }
    return 1;
}

/* Each size around the widths of memory.c, at each place of sixteen. */
static void memory(void)
{
    static uint8_t source[MEMORY], target[MEMORY];
    for (size_t i = 0; i < MEMORY; i++) {
        source[i] = (uint8_t)(i + 1);
    }
    int right = 1;
    for (size_t size = 0; size <= MEMORY - 3 * 16; size++) {
        for (size_t at = 16; at < 2 * 16; at++) {
            for (int copied = 0; copied < 2; copied++) {
                for (size_t i = 0; i < MEMORY; i++) {
                    target[i] = 0xC5;
                }
                void *given = copied ? memcpy(target + at, source, size) : memset(target + at, 0x19A, size);
                right = right && given == target + at && only_these(target, at, size, copied);
            }
        }
    }
    told(right);
}

/* Each size, to places before and after the source: bytes that are not copied stay. */
static void overlaps(void)
{
    static uint8_t bytes[MEMORY];
    int right = 1;
    for (size_t size = 0; size <= 48; size++) {
        for (size_t to = 0; to < MEMORY - 48; to++) {
            const size_t from = 40;
            for (size_t i = 0; i < MEMORY; i++) {
                bytes[i] = (uint8_t)(i + 1);
            }
            right = right && memmove(bytes + to, bytes + from, size) == bytes + to;
            for (size_t i = 0; i < MEMORY; i++) {
                right = right && bytes[i] == (uint8_t)((i < to || i >= to + size ? i : i - to + from) + 1);
            }
        }
    }
    told(right);
}

/* As UEFI asks: a name by its zero character, a buffer too small and one that is not, and one buffer for the name that goes in and the one that comes out. */
static void uefi(void)
{
    static uint8_t data[VS_LARGEST_DATA], name[8], guid[16];
    uint64_t size = 3;
    uint32_t attributes = 0;
    told(vs_uefi_name_size(rate, SIZE_MAX) == sizeof rate);
    vs_reply reply = vs_get(no_limit, session, image, IMAGE, rate, vs_uefi_name_size(rate, SIZE_MAX), vendor, data, sizeof data);
    told(vs_uefi_got(reply, data, &attributes, &size, buffer) == VS_EFI_BUFFER_TOO_SMALL && size == 4 && attributes == PLAIN);
    told(vs_uefi_got(reply, data, &attributes, &size, buffer) == VS_EFI_SUCCESS && size == 4 && buffer[0] == 200);
    size = sizeof name;
    reply = vs_next_name(no_limit, session, image, IMAGE, name, vs_uefi_name_size(name, size), vendor, data, sizeof data);
    told(vs_uefi_named(reply, data, &size, name, guid) == VS_EFI_BUFFER_TOO_SMALL && size == sizeof rate);
    told(vs_uefi_named(reply, data, &size, buffer, guid) == VS_EFI_SUCCESS && buffer[6] == 'E' && guid[2] == 3);
    told(vs_uefi_answer(set(0)) == VS_EFI_INVALID_PARAMETER && vs_uefi_text(VS_SETTING)[0] == 'i');
}

/* The session lent: a start-up makes it fresh in place, with the setup that is in it, and calls only read it. */
static void lent(void)
{
    static vs_session mine;
    const uint8_t data[4] = {7};
    mine.setup = setup;
    mine.phase = VS_RUNTIME;
    vs_session_fresh(&mine);
    told(mine.phase == VS_BOOT && mine.count == 0 && mine.setup.rules == 1);
    mine.phase = VS_RUNTIME;
    told(done(vs_start_up_lent(no_limit, image, IMAGE, &mine, content), 0) && mine.phase == VS_BOOT && mine.setup.rules == 1);
    told(done(vs_set_lent(no_limit, &mine, image, IMAGE, rate, sizeof rate, vendor, PLAIN, data, sizeof data, 0, VS_BY_NONE, content), 77) && rate_is(7));
    vs_reply reply = vs_get_lent(no_limit, &mine, image, IMAGE, rate, sizeof rate, vendor, buffer, sizeof buffer);
    told(done(reply.answer, 0) && reply.size == 4 && buffer[0] == 7);
    reply = vs_next_name_lent(no_limit, &mine, image, IMAGE, rate, sizeof rate, vendor, buffer, sizeof buffer);
    told(refused(reply.answer, VS_ABSENT));
    vs_plan plan = vs_plan_set_lent(&mine, VS_OURS, image, IMAGE, rate, sizeof rate, vendor, PLAIN, data, 3, 0, VS_BY_NONE, content);
    told(plan.rule == VS_SETTING);
    told(done(vs_lock_lent(&mine, VS_OURS, rate, sizeof rate, vendor), 0) && mine.count == 1);
    vs_phase_lent(&mine, VS_AFTER_END_OF_DXE);
    told(mine.phase == VS_AFTER_END_OF_DXE && refused(vs_lock_lent(&mine, VS_OURS, rate, sizeof rate, vendor), VS_LOCK_PHASE) && mine.count == 1);
    told(refused(vs_set_lent(no_limit, &mine, image, IMAGE, rate, sizeof rate, vendor, PLAIN, data, sizeof data, 0, VS_BY_NONE, content), VS_LOCKED));
}

/* Linux's call exit, and where a program begins: the stack is aligned as for a call, with the 32 bytes that a callee of the Microsoft convention may use. */
#if defined(__x86_64__)
#define EXIT(status) __asm__ volatile("syscall" : : "a"(60ul), "D"((uint64_t)(status)) : "rcx", "r11", "memory")
__asm__(".text\n.globl _start\n_start:\n\tand $-16, %rsp\n\tsub $32, %rsp\n\tcall run\n");
#elif defined(__aarch64__)
#define EXIT(status) __asm__ volatile("mov x0, %0\n\tmov x8, #93\n\tsvc #0" : : "r"((uint64_t)(status)) : "x0", "x8", "memory")
__asm__(".text\n.globl _start\n_start:\n\tbl run\n");
#else
#define EXIT(status) __asm__ volatile("mv a0, %0\n\tli a7, 93\n\tecall" : : "r"((uint64_t)(status)) : "a0", "a7", "memory")
__asm__(".text\n.globl _start\n_start:\n\t.option push\n\t.option norelax\n\tla gp, __global_pointer$\n\t.option pop\n\tcall run\n");
#endif

__attribute__((noreturn)) void run(void);
void run(void)
{
    memory();
    overlaps();
    told(done(vs_format(no_limit, image, IMAGE, content), 31));
    vs_started started = vs_start_up(no_limit, image, IMAGE, setup, content);
    told(done(started.answer, 0) && started.session.setup.rules == 1);
    session = started.session;
    told(refused(set(0), VS_SETTING));
    told(done(set(1), 75) && rate_is(1));
    compaction();
    names();
    uefi();
    locked();
    lent();
    EXIT(first_wrong);
    __builtin_unreachable();
}
