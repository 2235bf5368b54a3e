/* The kit's clang comes without headers: what the header and the examples need of the C library, for x86-64 Linux. */
#ifndef TESTS_STDDEF_H
#define TESTS_STDDEF_H
typedef unsigned long size_t;
#endif
