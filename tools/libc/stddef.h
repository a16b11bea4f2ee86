/* The kit's compiler has no C library's headers. These are the parts of three that the hosts here use, for x86-64 Linux. */
#pragma once
typedef __SIZE_TYPE__ size_t;
#define NULL ((void *)0)
