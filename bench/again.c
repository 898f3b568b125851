/*
 * The plain C a second time, elsewhere in the same program: two programs that are the same. How far their times lie apart is the noise
 * that bench/run allows for.
 */
#define plain_request again_request
#define plain_audit again_audit
#include "plain.c"
