// The self-test of the plain C.
#ifndef CHECK_H
#define CHECK_H
#include "plain.h"

// What is wrong with a build of the plain C, or a null pointer.
const char *check_plain(const struct plain *p);

#endif
