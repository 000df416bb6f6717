/* For the kit's compiler: what the example uses of <stdio.h>. */
#pragma once
int printf(const char *format, ...);
int puts(const char *text);
