/* The kit brings neither its C library's headers nor its compiler's. Of this one, what the C of bench/, tests/ and include/ uses. */
#ifndef STDINT_H
#define STDINT_H
typedef __INT8_TYPE__ int8_t;
typedef __INT16_TYPE__ int16_t;
typedef __INT32_TYPE__ int32_t;
typedef __INT64_TYPE__ int64_t;
typedef __UINT8_TYPE__ uint8_t;
typedef __UINT16_TYPE__ uint16_t;
typedef __UINT32_TYPE__ uint32_t;
typedef __UINT64_TYPE__ uint64_t;
#define UINT8_MAX 255
#define UINT32_MAX 4294967295u
#define UINT64_MAX 18446744073709551615u
#endif
