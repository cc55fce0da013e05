/* What the kit's compiler lacks of this header, of which C wants a compiler to have one. */
#ifndef STDARG_H
#define STDARG_H

typedef __builtin_va_list va_list;
typedef __builtin_va_list __gnuc_va_list; /* the C library's name for it */

#define va_start(list, last) __builtin_va_start(list, last)
#define va_arg(list, type) __builtin_va_arg(list, type)
#define va_copy(to, from) __builtin_va_copy(to, from)
#define va_end(list) __builtin_va_end(list)

#endif
