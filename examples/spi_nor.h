/* The flash part as uefi_driver.c sees it: three functions that a platform provides. uefi_driver_test.c plays them on a workstation.
 *
 * Offsets count bytes from the part's first block that belongs to the store; the platform adds where that is. A function returns when the part has completed the
 * command (the write-in-progress bit of its status register is 0), and tells whether it has.
 */
#ifndef SPI_NOR_H
#define SPI_NOR_H

#include <stddef.h>
#include <stdint.h>

/* Bytes that one erase makes FF: the part's smallest erase, opcode 20h on most. */
#define SPI_NOR_BLOCK 4096

/* Bytes that one program may have, within one page of so many: 1, 2, 4, 8 or 16, as many as the part takes. */
#ifndef SPI_NOR_PAGE
#define SPI_NOR_PAGE 16
#endif

/* Reads bytes. Returns 1, or 0 if that failed. */
int spi_nor_read(size_t at, uint8_t *bytes, size_t len);

/* Programs up to SPI_NOR_PAGE bytes within one page: a bit that is 0 in `bytes` becomes 0, every other keeps what it is. Returns 1, or 0 if the part reports a failure. */
int spi_nor_program(size_t at, const uint8_t *bytes, size_t len);

/* Erases one block: every bit becomes 1. Returns 1, or 0 if the part reports a failure.
 *   block   counts blocks */
int spi_nor_erase(size_t block);

#endif
