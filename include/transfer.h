/* The transfer library's functions for C firmware. Link with libwire.a. */
#ifndef TRANSFER_H
#define TRANSFER_H

#include <stddef.h>
#include <stdint.h>

#ifdef __cplusplus
extern "C" {
#endif

/* Why a captured frame is malformed: 1 where its kind is 00, 2 where a bit
   that must be zero is not, 0 for neither. The frame is twelve bytes, most
   significant first; any other length answers 255. `bytes` may be null only
   where `length` is 0. */
uint8_t transfer_frame_fault(const uint8_t *bytes, size_t length);

/* The least count of cyclic numbers for a path: the two windows, and the
   lifetime over the gap rounded up. It may be above 65536, the most that a
   path can have. 0 where a term is out of range: the windows lie in 1 to
   4096, the lifetime and the gap in 1 to 65535. */
uint32_t transfer_least_numbers(uint32_t send_window, uint32_t receive_window,
                                uint32_t lifetime, uint32_t gap);

#ifdef __cplusplus
}
#endif

#endif
