/* For the kit's compiler, which comes with no headers: what the example uses of <stddef.h>. */
#pragma once
typedef __SIZE_TYPE__ size_t;
#define NULL ((void *)0)
