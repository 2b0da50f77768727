/* The kit's compiler comes without headers: here is what these tests use of them. */
#ifndef STDDEF_H
#define STDDEF_H

typedef __SIZE_TYPE__ size_t;

#endif
