#ifndef TESTS_STDINT_H
#define TESTS_STDINT_H
typedef unsigned char uint8_t;
typedef unsigned short uint16_t;
typedef long int64_t;
typedef unsigned long uint64_t;
#endif
