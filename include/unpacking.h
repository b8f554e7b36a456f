/* The engines of the unpacker, each by itself, for tests and benchmarks. `tools/library` proves and compiles them to libunpacking.a, which stands
   beside libskogmund.a and is no part of it: whoever has sections to unpack calls skogmund_unpack of skogmund.h, and needs none of this.

   All three make one promise. The packed octets are numbers of `bits` bits, one after the other without a gap, the most significant bit first, and
   place i of the row gets number i, both counted from 0. An octet that is missing counts as 0; one to spare changes nothing. Numbers of 0 bits are
   0. Where there are more than 32 bits a place has no room for a number, and the row stays as it was.

   A slice is a pointer and, behind it, how many elements it has; a slice of none may come with a null pointer. The packed octets are only read.
   Nothing is kept between calls, and there is no heap. No function asks for more than pointers that are valid for their lengths, and a row that
   does not overlap the packed octets. */
#ifndef UNPACKING_H
#define UNPACKING_H

#include <stddef.h>
#include <stdint.h>

#if SIZE_MAX < UINT64_MAX
#error "unpacking needs a size_t of 64 bits"
#endif

#ifdef __cplusplus
extern "C" {
#endif

/* The plain engine: one bit at a time. */
void unpack_bits(const uint8_t *packed, size_t n, uint32_t bits, uint32_t *row, size_t places);

/* The engine to read: one octet at a time, and the bits that are left over are carried to the next number. */
void unpack_octets(const uint8_t *packed, size_t n, uint32_t bits, uint32_t *row, size_t places);

/* What skogmund_unpack uses: as unpack_octets does it, but eight numbers a turn where there are eight. */
void unpack(const uint8_t *packed, size_t n, uint32_t bits, uint32_t *row, size_t places);

#ifdef __cplusplus
}
#endif

#endif
