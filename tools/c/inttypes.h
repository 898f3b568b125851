/* How printf writes uint32_t and uint64_t: the kit's compiler comes without headers, and this is all that our C code needs of this one. */
#ifndef TOOLS_C_INTTYPES_H
#define TOOLS_C_INTTYPES_H

#include <stdint.h>

#define PRIu32 "u"
#define PRIu64 "lu"

#endif
