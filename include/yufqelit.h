/* Darts of a plate's record, asked from C.

   A record is the bytes of a sheet; a dart's code is pixel * 256 + road * 64 + place, with the roads W 0, N 1, E 2, S 3.
   The answer is a dart's code, or a refusal's number with its sign turned:
     -15  the bytes are no record
     -11  the sheet has no such dart
     -12  the road to be passed fails
   No call allocates or keeps anything. */
#ifndef YUFQELIT_H
#define YUFQELIT_H

#include <stddef.h>
#include <stdint.h>

#ifdef __cplusplus
extern "C" {
#endif

/* The dart that leaves the entered pixel through the same crossing. */
int32_t plate_opposite(const uint8_t *record, size_t len, uint32_t dart);

/* The dart that leaves the entered pixel by the crossing before the entered one in its group. */
int32_t plate_next(const uint8_t *record, size_t len, uint32_t dart);

/* The dart whose next this one is. */
int32_t plate_previous(const uint8_t *record, size_t len, uint32_t dart);

#ifdef __cplusplus
}
#endif

#endif
