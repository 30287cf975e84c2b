/* What the cases share is what the examples share. */
#ifndef CASES_H
#define CASES_H
#include "../../examples/machine/crate.h"
#endif
