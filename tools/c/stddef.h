/* size_t: the kit's compiler comes without headers, and this is all that the C code here needs of this one. */
#ifndef TOOLS_C_STDDEF_H
#define TOOLS_C_STDDEF_H

typedef __SIZE_TYPE__ size_t;

#endif
