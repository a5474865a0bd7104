/* The kit brings neither its C library's headers nor its compiler's. Of this one, what the C of bench/, tests/ and include/ uses. */
#ifndef STDDEF_H
#define STDDEF_H
typedef __SIZE_TYPE__ size_t;
#define NULL ((void *)0)
#endif
