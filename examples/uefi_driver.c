/* A UEFI variable driver on the proved store, over a SPI NOR part.
 *
 *   service ──▶ plan on the copy in memory ──▶ carry out on the part, read back ──▶ the copy is as the part ──▶ EFI_SUCCESS
 *                     │ a rule is broken             │ a store fails
 *                     ▼                              ▼
 *                 EFI_STATUS              read the part again, start up, EFI_DEVICE_ERROR
 *
 * The library sees the copy and never the part. What it plans is safe against power cuts at any store and inside one, if each store is complete before the next
 * begins, which spi_nor.h promises.
 *
 * What a platform adds:
 * - spi_nor.h's three functions;
 * - one caller at a time: EDK II raises the TPL or serialises in SMM;
 * - `verdict_of`, if it has signed variables;
 * - SetVirtualAddressMap for the addresses by which it drives the part. The driver itself keeps no pointer.
 */
#include "uefi_driver.h"

#include "spi_nor.h"

static const vs_context no_limit = {.limit = VS_NO_LIMIT}; /* and the side is ours: UEFI's services are the host's own; see uefi_driver.h */

/* All memory that the driver needs besides its stack; nothing is allocated. In EDK II it is EfiRuntimeServicesData, or SMRAM. */
static struct {
    uint8_t image[DRIVER_SIZE];       /* the copy of the part */
    uint8_t content[VS_CONTENT];      /* where calls compose what they store */
    uint8_t data[VS_LARGEST_DATA];    /* where gets write */
    uint8_t named[VS_LARGEST_NAMED];  /* where next-names write */
    vs_session session;
    int lost;                         /* whether the copy is not as the part: nothing can be answered until a power-on */
} driver;

/* ---- the part: each function makes one kind of store, complete, on the part and then on the copy */

/* Bytes in rising order, in pieces that end with a page. What was programmed is read back: a bit that was to fall and did not is a failure. */
static int program(size_t at, const uint8_t *bytes, size_t len)
{
    uint8_t found[SPI_NOR_PAGE];
    for (size_t done = 0; done < len;) {
        size_t room = SPI_NOR_PAGE - (at + done) % SPI_NOR_PAGE, piece = len - done < room ? len - done : room;
        if (!spi_nor_program(at + done, bytes + done, piece) || !spi_nor_read(at + done, found, piece)) {
            return 0;
        }
        for (size_t i = 0; i < piece; i++) {
            uint8_t *copy = &driver.image[at + done + i];
            if (found[i] != (*copy & bytes[done + i])) {
                return 0;
            }
            *copy = found[i];
        }
        done += piece;
    }
    return 1;
}

static int erase(size_t block)
{
    if (!spi_nor_erase(block)) {
        return 0;
    }
    for (size_t i = 0; i < VS_BLOCK; i++) {
        driver.image[VS_BLOCK * block + i] = 0xFF;
    }
    return 1;
}

/* One operation of a plan. Of an erase `at` and `len` count blocks, of all others bytes. */
static int operate(const vs_operation *operation)
{
    const uint8_t mark = (uint8_t)operation->from, *bytes = driver.content + operation->from;
    switch (operation->kind) {
    case VS_NOTHING:
        return 1;
    case VS_MARK:
        return program(operation->at, &mark, 1);
    case VS_HEADER:
        /* its third byte is the state, which stays as it is: byte by byte it is left out; in a page it is FF */
        if (SPI_NOR_PAGE == 1) {
            return program(operation->at, bytes, 2) && program(operation->at + 3, bytes + 3, operation->len - 3);
        }
        return program(operation->at, bytes, operation->len);
    case VS_PROGRAM:
        return program(operation->at, bytes, operation->len);
    case VS_ERASE:
        for (size_t i = 0; i < operation->len; i++) {
            if (!erase(operation->at + i)) {
                return 0;
            }
        }
        return 1;
    default:
        return 0;
    }
}

/* Whether every operation of a plan without a rule is complete on the part. The content, which may hold keys, is cleared. */
static int carry_out(const vs_plan *plan)
{
    int done = 1;
    for (size_t i = 0; done && i < VS_OPERATIONS; i++) {
        done = operate(&plan->operations[i]);
    }
    for (size_t i = 0; i < VS_CONTENT; i++) {
        driver.content[i] = 0;
    }
    return done;
}

/* Reads the part, and finishes what a power cut or a failed store has left. The session stays as it is. */
static uint64_t start_up(void)
{
    driver.lost = 1;
    if (!spi_nor_read(0, driver.image, DRIVER_SIZE)) {
        return VS_EFI_DEVICE_ERROR;
    }
    vs_plan plan = vs_plan_start_up_lent(&driver.session, driver.image, DRIVER_SIZE, driver.content);
    if (plan.rule != 0) {
        return vs_uefi_started(plan.rule);
    }
    if (!carry_out(&plan)) {
        return VS_EFI_DEVICE_ERROR;
    }
    driver.lost = 0;
    return VS_EFI_SUCCESS;
}

uint64_t driver_power_on(const vs_setup *setup)
{
    vs_uefi_copy(&driver.session.setup, (const uint8_t *)setup, sizeof driver.session.setup);
    vs_session_fresh(&driver.session);
    return start_up();
}

uint64_t driver_format(void)
{
    driver.lost = 1;
    if (!spi_nor_read(0, driver.image, DRIVER_SIZE)) {
        return VS_EFI_DEVICE_ERROR;
    }
    vs_plan plan = vs_plan_format(driver.image, DRIVER_SIZE, driver.content);
    if (plan.rule != 0 || !carry_out(&plan)) {
        return VS_EFI_DEVICE_ERROR;
    }
    driver.lost = 0;
    return VS_EFI_SUCCESS;
}

/* ---- the events */

void driver_end_of_dxe(void) { vs_phase_lent(&driver.session, VS_AFTER_END_OF_DXE); }

void driver_exit_boot_services(void) { vs_phase_lent(&driver.session, VS_RUNTIME); }

/* ---- the services */

/* Whose key signed the data of a set with VS_TIME_BASED: this platform checks no signatures, so those that need one are refused with EFI_SECURITY_VIOLATION. */
static uint32_t verdict_of(const void *name, const void *vendor, uint32_t attributes, const void *data, uint64_t data_size)
{
    (void)name, (void)vendor, (void)attributes, (void)data, (void)data_size;
    return VS_BY_NONE;
}

/* Gets a variable into driver.data, where every value has room. */
static vs_reply get(const uint8_t *name, size_t name_len, const uint8_t *vendor)
{
    return vs_get_lent(no_limit, &driver.session, driver.image, DRIVER_SIZE, name, name_len, vendor, driver.data, sizeof driver.data);
}

DRIVER_API uint64_t driver_get_variable(const void *name, const void *vendor, uint32_t *attributes, uint64_t *data_size, void *data)
{
    if (name == NULL || vendor == NULL || data_size == NULL) {
        return VS_EFI_INVALID_PARAMETER;
    }
    if (driver.lost) {
        return VS_EFI_DEVICE_ERROR;
    }
    vs_reply reply = get((const uint8_t *)name, vs_uefi_name_size(name, SIZE_MAX), (const uint8_t *)vendor);
    return vs_uefi_got(reply, driver.data, attributes, data_size, data);
}

DRIVER_API uint64_t driver_get_next_variable_name(uint64_t *name_size, void *name, void *vendor)
{
    if (name_size == NULL || name == NULL || vendor == NULL) {
        return VS_EFI_INVALID_PARAMETER;
    }
    if (driver.lost) {
        return VS_EFI_DEVICE_ERROR;
    }
    const uint8_t *from = (const uint8_t *)name, *of = (const uint8_t *)vendor;
    size_t from_size = vs_uefi_name_size(name, *name_size);
    vs_reply reply = vs_next_name_lent(no_limit, &driver.session, driver.image, DRIVER_SIZE, from, from_size, of, driver.named, sizeof driver.named);
    if (reply.answer.rule == VS_ABSENT && from_size > 2 && get(from, from_size, of).answer.rule == VS_ABSENT) {
        return VS_EFI_INVALID_PARAMETER; /* not the end: the name that it was to go on from does not exist */
    }
    return vs_uefi_named(reply, driver.named, name_size, name, vendor);
}

DRIVER_API uint64_t driver_set_variable(const void *name, const void *vendor, uint32_t attributes, uint64_t data_size, const void *data)
{
    if (name == NULL || vendor == NULL || (data == NULL && data_size != 0)) {
        return VS_EFI_INVALID_PARAMETER;
    }
    if (driver.lost) {
        return VS_EFI_DEVICE_ERROR;
    }
    const uint8_t *of = (const uint8_t *)vendor, *bytes = vs_uefi_bytes(data);
    size_t name_len = vs_uefi_name_size(name, SIZE_MAX);
    uint32_t verdict = verdict_of(name, vendor, attributes, data, data_size), presence = 0;
    vs_plan plan = vs_plan_set_lent(&driver.session, VS_OURS, driver.image, DRIVER_SIZE, (const uint8_t *)name, name_len, of, attributes, bytes, data_size, presence,
                                    verdict, driver.content);
    if (plan.rule == VS_SETTING && vs_uefi_read_only(&driver.session.setup, (const uint8_t *)name, name_len, of)) {
        return VS_EFI_WRITE_PROTECTED;
    }
    if (plan.rule != 0) {
        return vs_uefi_status(plan.rule);
    }
    if (!carry_out(&plan)) {
        /* the variable has its old value or its new one, wholly; a get tells */
        start_up();
        return VS_EFI_DEVICE_ERROR;
    }
    return VS_EFI_SUCCESS;
}

DRIVER_API uint64_t driver_query_variable_info(uint32_t attributes, uint64_t *maximum_storage, uint64_t *remaining_storage, uint64_t *maximum_size)
{
    if (maximum_storage == NULL || remaining_storage == NULL || maximum_size == NULL) {
        return VS_EFI_INVALID_PARAMETER;
    }
    if (driver.lost) {
        return VS_EFI_DEVICE_ERROR;
    }
    vs_room room = vs_query_lent(no_limit, &driver.session, driver.image, DRIVER_SIZE, attributes);
    if (room.answer.kind == VS_DONE) {
        *maximum_storage = room.storage;
        *remaining_storage = room.remaining;
        *maximum_size = room.largest;
    }
    return vs_uefi_answer(room.answer);
}

DRIVER_API uint64_t driver_request_to_lock(const void *name, const void *vendor)
{
    if (name == NULL || vendor == NULL) {
        return VS_EFI_INVALID_PARAMETER;
    }
    return vs_uefi_answer(vs_lock_lent(&driver.session, VS_OURS, (const uint8_t *)name, vs_uefi_name_size(name, SIZE_MAX), (const uint8_t *)vendor));
}
