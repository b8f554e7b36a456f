/* Compiled as C and as C++: include/skogmund.h by itself, and what it takes a refusal apart into. A month 0 is 8, section 1, place 15; 4.8 with
   n = 2 and NV = 2 is 11, place 78, in 77 octets, and 21, place 79, in 79; a message's own refusals have no section and no place. */
#include "skogmund.h"

#define MONTH_0 ((UINT64_C(8) << 40) + (UINT64_C(1) << 32) + 15)
#define CLIPPED ((UINT64_C(11) << 40) + (UINT64_C(4) << 32) + 78)
#define WITH_A_TAIL ((UINT64_C(21) << 40) + (UINT64_C(4) << 32) + 79)
#define OF_A_MESSAGE(number) (UINT64_C(number) << 40)

typedef char the_number[SKOGMUND_NUMBER(MONTH_0) == SKOGMUND_REFUSED_FIELD ? 1 : -1];
typedef char the_section[SKOGMUND_SECTION(MONTH_0) == 1 ? 1 : -1];
typedef char the_place[SKOGMUND_PLACE(MONTH_0) == 15 ? 1 : -1];
typedef char clipped[SKOGMUND_NUMBER(CLIPPED) == SKOGMUND_REFUSED_UNDER_TOTAL && SKOGMUND_PLACE(CLIPPED) == 78 ? 1 : -1];
typedef char with_a_tail[SKOGMUND_NUMBER(WITH_A_TAIL) == SKOGMUND_REFUSED_OVER_TOTAL && SKOGMUND_PLACE(WITH_A_TAIL) == 79 ? 1 : -1];
typedef char no_grib[SKOGMUND_NUMBER(OF_A_MESSAGE(22)) == SKOGMUND_REFUSED_START ? 1 : -1];
typedef char out_of_order[SKOGMUND_NUMBER(OF_A_MESSAGE(23)) == SKOGMUND_REFUSED_ORDER ? 1 : -1];
typedef char a_bit_map[SKOGMUND_NUMBER(OF_A_MESSAGE(24)) == SKOGMUND_REFUSED_BIT_MAP ? 1 : -1];
typedef char no_7777[SKOGMUND_NUMBER(OF_A_MESSAGE(25)) == SKOGMUND_REFUSED_END ? 1 : -1];
typedef char nowhere[SKOGMUND_SECTION(OF_A_MESSAGE(25)) + SKOGMUND_PLACE(OF_A_MESSAGE(25)) == 0 ? 1 : -1];
typedef char sixteen_fields[SKOGMUND_SPANS == 16 * 5 * 2 ? 1 : -1];
typedef char none[SKOGMUND_NUMBER(0) + SKOGMUND_SECTION(0) + SKOGMUND_PLACE(0) == 0 ? 1 : -1];

#if SKOGMUND_VERSION < 1000
#error "the version can't be compared"
#endif
