/* bool: the kit's compiler comes without headers, and this is all that the C code here needs of this one. */
#ifndef TOOLS_C_STDBOOL_H
#define TOOLS_C_STDBOOL_H

#ifndef __cplusplus
#define bool _Bool
#define true 1
#define false 0
#endif

#endif
