/* What a UEFI variable driver does around varstore.h: statuses, variables of the mode, names of CHAR16, empty data, and UEFI's buffers. Nothing here is proved; all of it is small, and
 * tried by c/uefi_test.c. examples/uefi_driver.c is a driver built on it.
 *
 * The functions are static and inline, call nothing, not even memcpy, and keep no state, so they compile in a firmware as they are, in its own calling convention.
 * EFI types are plain numbers here, so that EDK II's headers are not needed, and do not disturb:
 *
 *   EFI_STATUS, UINTN    uint64_t          CHAR16 *, EFI_GUID *, VOID *    void *, at any alignment
 *   UINT32               uint32_t
 */
#ifndef VARSTORE_UEFI_H
#define VARSTORE_UEFI_H

#include "varstore.h"

/* EFI_STATUS, as the UEFI specification numbers them. */
#define VS_EFI_SUCCESS 0u
#define VS_EFI_ERROR(number) (UINT64_C(0x8000000000000000) | (number))
#define VS_EFI_INVALID_PARAMETER VS_EFI_ERROR(2)
#define VS_EFI_UNSUPPORTED VS_EFI_ERROR(3)
#define VS_EFI_BUFFER_TOO_SMALL VS_EFI_ERROR(5)
#define VS_EFI_DEVICE_ERROR VS_EFI_ERROR(7)
#define VS_EFI_WRITE_PROTECTED VS_EFI_ERROR(8)
#define VS_EFI_OUT_OF_RESOURCES VS_EFI_ERROR(9)
#define VS_EFI_NOT_FOUND VS_EFI_ERROR(14)
#define VS_EFI_ACCESS_DENIED VS_EFI_ERROR(15)
#define VS_EFI_SECURITY_VIOLATION VS_EFI_ERROR(26)

/* ---- Statuses */

/* The EFI_STATUS for a rule, that of varstore.h's list; 0 is no rule, EFI_SUCCESS. For VS_SETTING it is EFI_INVALID_PARAMETER: see vs_uefi_read_only. For VS_SIDE it is
 * EFI_ACCESS_DENIED, since the variable may be there and is not the caller's; a start-up has no caller: see vs_uefi_started. */
static inline uint64_t vs_uefi_status(uint32_t rule)
{
    switch (rule) {
    case 0:
        return VS_EFI_SUCCESS;
    case VS_NAME:
    case VS_ATTRIBUTES:
    case VS_KEY_ATTRIBUTES:
    case VS_STANDING:
    case VS_DATA_SIZE:
    case VS_RECORD_NAME:
    case VS_SETTING:
    case VS_FILE:
    case VS_TWICE:
        return VS_EFI_INVALID_PARAMETER;
    case VS_LOCKED:
    case VS_LOCK_PHASE:
    case VS_MODE:
        return VS_EFI_WRITE_PROTECTED;
    case VS_DESCRIPTOR:
    case VS_VERDICT:
    case VS_STAMP:
        return VS_EFI_SECURITY_VIOLATION;
    case VS_ABSENT:
        return VS_EFI_NOT_FOUND;
    case VS_ROOM:
    case VS_LOCK_SPACE:
    case VS_RECORD_SPACE:
        return VS_EFI_OUT_OF_RESOURCES;
    case VS_BUFFER:
        return VS_EFI_BUFFER_TOO_SMALL;
    case VS_SIDE:
        return VS_EFI_ACCESS_DENIED;
    case VS_TIME_BASED_VALUE:
        return VS_EFI_UNSUPPORTED;
    default: /* VS_LENGTH, VS_UNREADY, VS_SOURCE, VS_WORN */
        return VS_EFI_DEVICE_ERROR;
    }
}

/* The same of an answer. A call that was stopped is unfinished: EFI_DEVICE_ERROR, and the image needs a start-up. */
static inline uint64_t vs_uefi_answer(vs_answer answer)
{
    return answer.kind == VS_DONE ? VS_EFI_SUCCESS : answer.kind == VS_REFUSED ? vs_uefi_status(answer.rule) : VS_EFI_DEVICE_ERROR;
}

/* The same of the rule that a start-up, or its plan, has broken: VS_SIDE is EFI_INVALID_PARAMETER then, since the shares of its setup are at fault and not the part. */
static inline uint64_t vs_uefi_started(uint32_t rule)
{
    return rule == VS_SIDE ? VS_EFI_INVALID_PARAMETER : vs_uefi_status(rule);
}

/* Whether a rule of the setup makes a name read-only. A set that is refused VS_SETTING then returns EFI_WRITE_PROTECTED. */
static inline int vs_uefi_read_only(const vs_setup *setup, const uint8_t *name, size_t name_len, const uint8_t vendor[16])
{
    uint32_t rules = setup->rules < 32 ? setup->rules : 32;
    for (uint32_t i = 0; i < rules; i++) {
        const vs_setting *rule = &setup->settings[i];
        int same = rule->fixed != 0 && rule->size == name_len && name_len <= VS_LARGEST_NAME;
        for (size_t k = 0; same && k < name_len; k++) {
            same = rule->name[k] == name[k];
        }
        for (size_t k = 0; same && k < 16; k++) {
            same = rule->vendor[k] == vendor[k];
        }
        if (same) {
            return 1;
        }
    }
    return 0;
}

/* A rule in words, for a log. */
static inline const char *vs_uefi_text(uint32_t rule)
{
    switch (rule) {
    case 0:
        return "no rule";
    case VS_LENGTH:
        return "image length";
    case VS_UNREADY:
        return "image not ready for a call";
    case VS_NAME:
        return "name not well formed";
    case VS_ATTRIBUTES:
        return "attributes not allowed";
    case VS_KEY_ATTRIBUTES:
        return "key name with other attributes";
    case VS_LOCKED:
        return "locked";
    case VS_STANDING:
        return "not allowed over the standing value";
    case VS_DESCRIPTOR:
        return "descriptor malformed";
    case VS_VERDICT:
        return "signature verdict missing";
    case VS_STAMP:
        return "time stamp not later";
    case VS_ABSENT:
        return "not found";
    case VS_DATA_SIZE:
        return "data too long";
    case VS_ROOM:
        return "no room";
    case VS_BUFFER:
        return "buffer too short";
    case VS_LOCK_PHASE:
        return "lock after the boot phase";
    case VS_LOCK_SPACE:
        return "lock list full";
    case VS_RECORD_NAME:
        return "an error record's attribute or name without the other";
    case VS_RECORD_SPACE:
        return "no room for error records";
    case VS_SOURCE:
        return "source not fit for a move";
    case VS_TIME_BASED_VALUE:
        return "a value with time-based authentication";
    case VS_SETTING:
        return "its rules forbid it";
    case VS_SIDE:
        return "the other side's name, or shares that do not fit";
    case VS_WORN:
        return "a byte no longer clears";
    case VS_MODE:
        return "no such transition of modes, or a set of PlatMode";
    case VS_FILE:
        return "not the form of a profile";
    case VS_TWICE:
        return "a profile names a variable twice";
    default:
        return "unknown rule";
    }
}

/* ---- Variables of the mode */

/* What UEFI's variables SetupMode, AuditMode and DeployedMode hold in a mode that vs_present_mode tells: one byte, 0 or 1. The store keeps none of the three: a driver
 * answers a get of them by these, if vs_present_mode is done: one that is refused tells mode 0, which would read as setup mode. */
static inline uint8_t vs_uefi_setup_mode(uint32_t mode)
{
    return mode == VS_SETUP_MODE || mode == VS_AUDIT_MODE;
}

static inline uint8_t vs_uefi_audit_mode(uint32_t mode)
{
    return mode == VS_AUDIT_MODE;
}

static inline uint8_t vs_uefi_deployed_mode(uint32_t mode)
{
    return mode == VS_DEPLOYED_MODE;
}

/* ---- Arguments */

/* The size in bytes of a name of CHAR16, its zero character included, as the library's calls take it. Of a name without a zero character in its first `most` bytes it
 * is 0, and of one that is too long 130; the calls refuse both with VS_NAME. No character is read that a caller of UEFI need not have.
 *   most   the size of the buffer that holds the name, for GetNextVariableName; SIZE_MAX if only the zero character ends it, for the other services */
static inline size_t vs_uefi_name_size(const void *name, size_t most)
{
    const uint8_t *bytes = (const uint8_t *)name;
    size_t size = 0;
    while (size <= VS_LARGEST_NAME - 2) {
        if (bytes == NULL || most - size < 2) {
            return 0;
        }
        size += 2;
        if (bytes[size - 2] == 0 && bytes[size - 1] == 0) {
            return size;
        }
    }
    return most - size < 2 ? 0 : VS_LARGEST_NAME + 2;
}

/* A pointer for the library, which wants one even with length 0: SetVariable's Data may be NULL if DataSize is 0, and a name that is NULL has size 0 above. */
static inline const uint8_t *vs_uefi_bytes(const void *bytes)
{
    static const uint8_t none[1] = {0};
    return bytes == NULL ? none : (const uint8_t *)bytes;
}

/* ---- Results */

/* Copies bytes that do not overlap. The target is volatile because compilers make such a loop a call of memcpy, which a host may not have. */
static inline void vs_uefi_copy(void *to, const uint8_t *from, size_t count)
{
    volatile uint8_t *target = (volatile uint8_t *)to;
    for (size_t i = 0; i < count; i++) {
        target[i] = from[i];
    }
}

/* Ends a GetVariable: hands over what vs_get_lent or vs_get has written into a buffer of VS_LARGEST_DATA bytes of the driver's own. From there attributes are known
 * also if the caller's buffer is too small, as UEFI 2.8 wants it.
 *   reply, got   that call's reply and its buffer
 *   attributes   NULL if the caller does not ask; written with EFI_SUCCESS and EFI_BUFFER_TOO_SMALL
 *   data_size    in: size of the caller's buffer; out, with these two: size of the data
 *   data         may be NULL if that size is too small, as with 0
 * Returns EFI_SUCCESS, EFI_BUFFER_TOO_SMALL, EFI_INVALID_PARAMETER (no data_size, or no buffer of a size that would do), or what the call was refused with. */
static inline uint64_t vs_uefi_got(vs_reply reply, const uint8_t *got, uint32_t *attributes, uint64_t *data_size, void *data)
{
    if (data_size == NULL) {
        return VS_EFI_INVALID_PARAMETER;
    }
    if (reply.answer.kind != VS_DONE) {
        return vs_uefi_answer(reply.answer);
    }
    int fits = reply.size <= *data_size;
    if (fits && data == NULL) {
        return VS_EFI_INVALID_PARAMETER;
    }
    if (attributes != NULL) {
        *attributes = reply.attributes;
    }
    *data_size = reply.size;
    if (!fits) {
        return VS_EFI_BUFFER_TOO_SMALL;
    }
    vs_uefi_copy(data, got, reply.size);
    return VS_EFI_SUCCESS;
}

/* Ends a GetNextVariableName: hands over what vs_next_name_lent or vs_next_name has written into a buffer of VS_LARGEST_NAMED bytes of the driver's own, because UEFI has
 * one buffer for the name that goes in and the name that comes out.
 *   reply, named   that call's reply and its buffer
 *   name_size      in: size of the caller's buffer; out, with EFI_SUCCESS and EFI_BUFFER_TOO_SMALL: size of the name
 *   name, vendor   are written with EFI_SUCCESS alone
 * Returns EFI_SUCCESS, EFI_BUFFER_TOO_SMALL, or what the call was refused with: EFI_NOT_FOUND at the end. After a name that does not exist UEFI wants
 * EFI_INVALID_PARAMETER, and the call is refused VS_ABSENT too; a get of that name tells which. */
static inline uint64_t vs_uefi_named(vs_reply reply, const uint8_t *named, uint64_t *name_size, void *name, void *vendor)
{
    if (reply.answer.kind != VS_DONE) {
        return vs_uefi_answer(reply.answer);
    }
    uint32_t size = reply.size - 16;
    int fits = size <= *name_size;
    *name_size = size;
    if (!fits) {
        return VS_EFI_BUFFER_TOO_SMALL;
    }
    vs_uefi_copy(vendor, named, 16);
    vs_uefi_copy(name, named + 16, size);
    return VS_EFI_SUCCESS;
}

#endif
