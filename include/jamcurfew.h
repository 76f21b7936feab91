/* Angles and square roots on bit patterns: IEEE 754 binary64 in a uint64_t, binary32 in a uint32_t.
 * Every pattern is answered. A NaN is answered as 0x7ff8000000000000 or 0x7fc00000.
 * Angles are in radians. */
#ifndef JAMCURFEW_H
#define JAMCURFEW_H

#include <stdint.h>

#ifdef __cplusplus
extern "C" {
#endif

uint64_t jamcurfew_asin(uint64_t x);
uint32_t jamcurfew_asinf(uint32_t x);

uint64_t jamcurfew_acos(uint64_t x);
uint32_t jamcurfew_acosf(uint32_t x);

uint64_t jamcurfew_atan(uint64_t x);
uint32_t jamcurfew_atanf(uint32_t x);

/* The angle of the point (x, y), from -pi to pi. */
uint64_t jamcurfew_atan2(uint64_t y, uint64_t x);
uint32_t jamcurfew_atan2f(uint32_t y, uint32_t x);

uint64_t jamcurfew_sqrt(uint64_t x);
uint32_t jamcurfew_sqrtf(uint32_t x);

#ifdef __cplusplus
}
#endif

#endif
