/* The proved library, and how a flash is passed to it. */
#ifndef LIBRARY_H
#define LIBRARY_H

#include "delunkpawi.h"
#include "dump.h"

/* What every function of the library that reads a flash begins with. */
#define FLASH(flash) (flash)->bytes, (flash)->length, (flash)->granule, (flash)->spt0, (flash)->spt1

#endif
