/* uint64_t and uint32_t: the kit's compiler comes without headers, and this is all that the C code here needs of this one. */
#ifndef TOOLS_C_STDINT_H
#define TOOLS_C_STDINT_H

typedef __UINT32_TYPE__ uint32_t;
typedef __UINT64_TYPE__ uint64_t;
#define UINT64_MAX __UINT64_MAX__
#define UINT64_C(number) number##UL

#endif
