/* A UEFI variable driver on the proved store: UEFI's services as functions, and the events at which a platform calls it. uefi_driver.c says how it works.
 *
 * EFI types are plain numbers, as in varstore_uefi.h, so that it compiles without EDK II. Inside EDK II the services can be given to the runtime services table as
 * they are: their calling convention is EFIAPI's.
 */
#ifndef UEFI_DRIVER_H
#define UEFI_DRIVER_H

#include "varstore_uefi.h"

#ifdef __x86_64__
#define DRIVER_API __attribute__((ms_abi))
#else
#define DRIVER_API
#endif

enum {
    DRIVER_BLOCKS = 2,                                      /* b: blocks of the region, 1 to 7 */
    DRIVER_SIZE = VS_BLOCK * (2 * DRIVER_BLOCKS + 1),       /* of the store on the part: region, work block, spare */
    DRIVER_SHARE = VS_WHOLE_SHARE(DRIVER_SIZE)              /* what it has for variables */
};

/* UEFI's services, with the parameters and statuses of the specification. They ask for our side: of a modem in the same image, if the setup names one, they show nothing,
 * and a service that names a variable of its returns EFI_ACCESS_DENIED. A platform with a modem gives it services of its own, with VS_MODEM in their context. */
DRIVER_API uint64_t driver_get_variable(const void *name, const void *vendor, uint32_t *attributes, uint64_t *data_size, void *data);
DRIVER_API uint64_t driver_get_next_variable_name(uint64_t *name_size, void *name, void *vendor);
DRIVER_API uint64_t driver_set_variable(const void *name, const void *vendor, uint32_t attributes, uint64_t data_size, const void *data);
DRIVER_API uint64_t driver_query_variable_info(uint32_t attributes, uint64_t *maximum_storage, uint64_t *remaining_storage, uint64_t *maximum_size);

/* EDK II's variable lock: from EndOfDxe on the variable is read-only until the next power-on. */
DRIVER_API uint64_t driver_request_to_lock(const void *name, const void *vendor);

/* At every power-on, before any service. Finishes what a power cut has left.
 *   setup   our share, which without a modem is DRIVER_SHARE less the bytes for hardware error records; those, run-time reserve, rules for settings; varstore.h
 * With EFI_INVALID_PARAMETER the shares of the setup do not fit, or the variables that stand do not keep to them; nothing was stored, and it can be called again with
 * others. With EFI_DEVICE_ERROR the part is not readable, was never formatted, or is damaged. After either every service returns EFI_DEVICE_ERROR. */
uint64_t driver_power_on(const vs_setup *setup);

/* Once, when the device is made: all variables are lost. driver_power_on comes next. */
uint64_t driver_format(void);

/* The two events: the first ends the boot phase for locks, the second begins run time. */
void driver_end_of_dxe(void);
void driver_exit_boot_services(void);

#endif
