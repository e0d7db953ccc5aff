/* Of the C library's header, what the tests use: the kit's clang comes without headers. */
#pragma once
typedef __SIZE_TYPE__ size_t;
#define NULL ((void *)0)
