/* What the header needs of C, from the compiler alone: there are no system headers for x86-64 on another processor. */
#ifndef FREESTANDING_STDDEF_H
#define FREESTANDING_STDDEF_H
typedef __SIZE_TYPE__ size_t;
#define NULL ((void *)0)
#endif
