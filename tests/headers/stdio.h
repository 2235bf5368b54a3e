#ifndef TESTS_STDIO_H
#define TESTS_STDIO_H
#ifdef __cplusplus
extern "C"
#endif
int printf(const char *format, ...);
#endif
