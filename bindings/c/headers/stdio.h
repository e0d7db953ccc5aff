/* Of the C library's header, what the tests use: the kit's clang comes without headers. */
#pragma once
int printf(const char *format, ...);
