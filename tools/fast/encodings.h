/* The encodings that Python knows and expat doesn't. */

#ifndef ENCODINGS_H
#define ENCODINGS_H

#include "xmlpyx.h"

/* Fills in the character of each byte, -1 for none; or says in `fault` why not, and answers false. */
bool find_encoding(const char *name, int characters[256], struct bytes *fault);

#endif
