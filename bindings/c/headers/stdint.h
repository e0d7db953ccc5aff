/* Of the C library's header, what the tests use: the kit's clang comes without headers. */
#pragma once
typedef __UINT8_TYPE__ uint8_t;
typedef __UINT64_TYPE__ uint64_t;
typedef __INT64_TYPE__ int64_t;
#define UINT64_MAX __UINT64_MAX__
#define SIZE_MAX __SIZE_MAX__
