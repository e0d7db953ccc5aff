/* Of the C library's header, what the tests use: the kit's clang comes without headers. */
#pragma once
void exit(int status);
unsigned long long strtoull(const char *digits, char **end, int base);
