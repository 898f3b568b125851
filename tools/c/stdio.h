/* printf: the kit's compiler comes without headers, and this is all that the C code here needs of this one. */
#ifndef TOOLS_C_STDIO_H
#define TOOLS_C_STDIO_H

#ifdef __cplusplus
extern "C" {
#endif

int printf(const char *format, ...);

#ifdef __cplusplus
}
#endif

#endif
