/* What an ordinary C program needs of this header, where the machine has none: the functions are the kit's C library's. */
#ifndef ASSERT_H
#define ASSERT_H

__attribute__((noreturn)) void __assert_fail(const char *test, const char *file, unsigned line, const char *function);

#ifdef NDEBUG
#define assert(test) ((void)0)
#else
#define assert(test) ((test) ? (void)0 : __assert_fail(#test, __FILE__, __LINE__, __func__))
#endif

#endif
