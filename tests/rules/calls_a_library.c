// SPDX-License-Identifier: Apache-2.0
// It doesn't link: there is no C library.
#include "sched.h"

extern int printf(const char *, ...);

FILTER
{
    return printf("asked\n") ? PASS : UNSCHEDULABLE;
}
