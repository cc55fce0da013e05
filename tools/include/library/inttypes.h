/* What an ordinary C program needs of this header, where the machine has none: the functions are the kit's C library's. */
#ifndef INTTYPES_H
#define INTTYPES_H

#include <stdint.h>

#define PRIu8 "u"
#define PRIu16 "u"
#define PRIu32 "u"
#define PRIu64 "lu"
#define PRId32 "d"
#define PRId64 "ld"
#define PRIx8 "x"
#define PRIx16 "x"
#define PRIx32 "x"
#define PRIx64 "lx"

#endif
