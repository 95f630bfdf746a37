/* varstore_uefi.h against what it should do, worked out by hand: a status for each rule, the variables of each mode, sizes of names, what goes into UEFI's buffers and
 * what does not.
 *
 *   uefi_test             exit status 0 if all is right, else each wrong line is named
 *   uefi_test statuses    prints the status of each rule, which tools/link-test compares with the list in varstore.h
 */
#include <stdio.h>
#include <string.h>

#include "varstore_uefi.h"

static unsigned checks, wrong;

static void right(int holds, int line)
{
    checks++;
    if (!holds) {
        wrong++;
        printf("uefi_test: line %d is not so\n", line);
    }
}

#define RIGHT(holds) right((holds), __LINE__)

static const struct {
    uint64_t status;
    const char *name;
} statuses[] = {
    {0, "EFI_SUCCESS"},
    {0x8000000000000002u, "EFI_INVALID_PARAMETER"},
    {0x8000000000000003u, "EFI_UNSUPPORTED"},
    {0x8000000000000005u, "EFI_BUFFER_TOO_SMALL"},
    {0x8000000000000007u, "EFI_DEVICE_ERROR"},
    {0x8000000000000008u, "EFI_WRITE_PROTECTED"},
    {0x8000000000000009u, "EFI_OUT_OF_RESOURCES"},
    {0x800000000000000Eu, "EFI_NOT_FOUND"},
    {0x800000000000000Fu, "EFI_ACCESS_DENIED"},
    {0x800000000000001Au, "EFI_SECURITY_VIOLATION"},
};

static const char *named(uint64_t status)
{
    for (size_t i = 0; i < sizeof statuses / sizeof statuses[0]; i++) {
        if (statuses[i].status == status) {
            return statuses[i].name;
        }
    }
    return "none";
}

/* No rule has the number NONE. */
enum { LAST = VS_TWICE, NONE = LAST + 1 };

static void list_statuses(void)
{
    for (uint32_t rule = 1; rule <= LAST; rule++) {
        if (strcmp(vs_uefi_text(rule), "unknown rule") != 0) {
            printf("%u %s\n", (unsigned)rule, named(vs_uefi_status(rule)));
        }
    }
}

static void answers(void)
{
    RIGHT(vs_uefi_status(0) == 0);
    RIGHT(vs_uefi_answer((vs_answer){VS_DONE, 0, 75}) == 0);
    RIGHT(vs_uefi_answer((vs_answer){VS_STOPPED, 0, 0}) == 0x8000000000000007u);
    RIGHT(vs_uefi_answer((vs_answer){VS_REFUSED, VS_ABSENT, 0}) == 0x800000000000000Eu);
    /* a rule that this header does not know is no success */
    RIGHT(vs_uefi_status(NONE) == 0x8000000000000007u && vs_uefi_status(1000) == 0x8000000000000007u);
    RIGHT(strcmp(vs_uefi_text(NONE), "unknown rule") == 0 && strcmp(vs_uefi_text(1000), "unknown rule") == 0);
    /* a call by the wrong side, and a start-up with shares that do not fit; every other rule is the same of both */
    RIGHT(vs_uefi_status(VS_SIDE) == 0x800000000000000Fu && vs_uefi_started(VS_SIDE) == 0x8000000000000002u);
    for (uint32_t rule = 0; rule <= LAST; rule++) {
        RIGHT(rule == VS_SIDE || vs_uefi_started(rule) == vs_uefi_status(rule));
        RIGHT(strcmp(vs_uefi_text(rule), "unknown rule") != 0);
        for (uint32_t other = 0; other < rule; other++) {
            RIGHT(strcmp(vs_uefi_text(rule), vs_uefi_text(other)) != 0);
        }
    }
}

/* SetupMode, AuditMode and DeployedMode of each mode, as digits. */
static void modes(void)
{
    static const struct {
        uint32_t mode;
        unsigned variables;
    } wanted[] = {{VS_SETUP_MODE, 100}, {VS_USER_MODE, 0}, {VS_AUDIT_MODE, 110}, {VS_DEPLOYED_MODE, 1}};
    for (size_t i = 0; i < sizeof wanted / sizeof wanted[0]; i++) {
        uint32_t mode = wanted[i].mode;
        RIGHT(100u * vs_uefi_setup_mode(mode) + 10u * vs_uefi_audit_mode(mode) + vs_uefi_deployed_mode(mode) == wanted[i].variables);
    }
    RIGHT(vs_uefi_status(VS_MODE) == 0x8000000000000008u);
}

static const uint8_t vendor[16] = {1, 2, 3, 4, 5, 6, 7, 8, 9, 10, 11, 12, 13, 14, 15, 16};

static void read_only(void)
{
    static vs_setup setup = {.rules = 2,
                             .settings = {{.size = 4, .fixed = 0, .name = {'A'}, .vendor = {1, 2, 3, 4, 5, 6, 7, 8, 9, 10, 11, 12, 13, 14, 15, 16}},
                                          {.size = 4, .fixed = 7, .name = {'B'}, .vendor = {1, 2, 3, 4, 5, 6, 7, 8, 9, 10, 11, 12, 13, 14, 15, 16}}}};
    static const uint8_t a[4] = {'A'}, b[4] = {'B'}, other[16] = {1, 2, 3, 4, 5, 6, 7, 8, 9, 10, 11, 12, 13, 14, 15, 17};
    RIGHT(!vs_uefi_read_only(&setup, a, 4, vendor));
    RIGHT(vs_uefi_read_only(&setup, b, 4, vendor));
    RIGHT(!vs_uefi_read_only(&setup, b, 2, vendor));
    RIGHT(!vs_uefi_read_only(&setup, b, 4, other));
    setup.rules = 1;
    RIGHT(!vs_uefi_read_only(&setup, b, 4, vendor));
    setup.settings[31] = setup.settings[1];
    setup.settings[1].fixed = 0;
    setup.rules = 31;
    RIGHT(!vs_uefi_read_only(&setup, b, 4, vendor));
    setup.rules = 0xFFFFFFFF; /* counts as 32 */
    RIGHT(vs_uefi_read_only(&setup, b, 4, vendor));
}

static void names(void)
{
    static uint16_t characters[66];
    static const uint8_t odd[8] = {0xFF, 'R', 0, 'A', 1, 0, 0, 0xFF}; /* from its second byte on R and U+0141 */
    RIGHT(vs_uefi_name_size(NULL, SIZE_MAX) == 0 && vs_uefi_name_size(NULL, 0) == 0);
    RIGHT(vs_uefi_name_size(characters, SIZE_MAX) == 2); /* the empty name */
    RIGHT(vs_uefi_name_size(characters, 2) == 2 && vs_uefi_name_size(characters, 1) == 0 && vs_uefi_name_size(characters, 0) == 0);
    RIGHT(vs_uefi_name_size(odd + 1, SIZE_MAX) == 6);
    RIGHT(vs_uefi_name_size(odd + 1, 6) == 6 && vs_uefi_name_size(odd + 1, 5) == 0 && vs_uefi_name_size(odd + 1, 4) == 0);
    for (size_t i = 0; i < 63; i++) {
        characters[i] = 'N';
        RIGHT(vs_uefi_name_size(characters, SIZE_MAX) == 2 * (i + 2));
    }
    RIGHT(vs_uefi_name_size(characters, 128) == 128 && vs_uefi_name_size(characters, 127) == 0);
    characters[63] = 'N'; /* 64 characters, one more than there may be */
    RIGHT(vs_uefi_name_size(characters, SIZE_MAX) == 130 && vs_uefi_name_size(characters, 130) == 130);
    RIGHT(vs_uefi_name_size(characters, 129) == 0 && vs_uefi_name_size(characters, 128) == 0);
    RIGHT(vs_uefi_bytes(NULL) != NULL && vs_uefi_bytes(odd) == odd);
}

static void got(void)
{
    static const uint8_t held[VS_LARGEST_DATA] = {10, 11, 12, 13};
    const vs_reply done = {.answer = {VS_DONE, 0, 0}, .size = 4, .attributes = 7}, absent = {.answer = {VS_REFUSED, VS_ABSENT, 0}};
    uint8_t data[6];
    uint32_t attributes;
    for (uint64_t given = 0; given <= 6; given++) {
        uint64_t size = given;
        memset(data, 0xC5, sizeof data);
        attributes = 99;
        uint64_t status = vs_uefi_got(done, held, &attributes, &size, data);
        RIGHT(status == (given < 4 ? 0x8000000000000005u : 0) && size == 4 && attributes == 7);
        RIGHT(memcmp(data, given < 4 ? "\xC5\xC5\xC5\xC5\xC5\xC5" : "\x0A\x0B\x0C\x0D\xC5\xC5", 6) == 0);
    }
    uint64_t size = 0;
    RIGHT(vs_uefi_got(done, held, NULL, &size, NULL) == 0x8000000000000005u && size == 4);
    attributes = 99;
    RIGHT(vs_uefi_got(done, held, &attributes, &size, NULL) == 0x8000000000000002u && size == 4 && attributes == 99);
    RIGHT(vs_uefi_got(done, held, &attributes, NULL, data) == 0x8000000000000002u && attributes == 99);
    size = 6;
    RIGHT(vs_uefi_got(absent, held, &attributes, &size, data) == 0x800000000000000Eu && size == 6 && attributes == 99);
    RIGHT(vs_uefi_got(done, held, NULL, &size, data) == 0 && size == 4);
}

static void next(void)
{
    static const uint8_t held[VS_LARGEST_NAMED] = {1, 2, 3, 4, 5, 6, 7, 8, 9, 10, 11, 12, 13, 14, 15, 16, 'R', 0, 'A', 0, 0, 0, 'x'};
    const vs_reply done = {.answer = {VS_DONE, 0, 0}, .size = 22}, end = {.answer = {VS_REFUSED, VS_ABSENT, 0}};
    uint8_t name[8], guid[16];
    for (uint64_t given = 0; given <= 8; given++) {
        uint64_t size = given;
        memset(name, 0xC5, sizeof name);
        memset(guid, 0xC5, sizeof guid);
        uint64_t status = vs_uefi_named(done, held, &size, name, guid);
        RIGHT(status == (given < 6 ? 0x8000000000000005u : 0) && size == 6);
        RIGHT(memcmp(name, given < 6 ? "\xC5\xC5\xC5\xC5\xC5\xC5\xC5\xC5" : "R\0A\0\0\0\xC5\xC5", 8) == 0);
        RIGHT(given < 6 ? guid[0] == 0xC5 : memcmp(guid, vendor, 16) == 0);
    }
    uint64_t size = 8;
    RIGHT(vs_uefi_named(end, held, &size, name, guid) == 0x800000000000000Eu && size == 8);
}

int main(int argc, char **argv)
{
    if (argc == 2 && strcmp(argv[1], "statuses") == 0) {
        list_statuses();
        return 0;
    }
    answers();
    modes();
    read_only();
    names();
    got();
    next();
    printf("uefi_test: %u checks, %u wrong\n", checks, wrong);
    return wrong != 0;
}
