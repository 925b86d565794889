/* The script of calls that crates/run_script carries out, carried out by any implementation. */
#ifndef SCRIPT_H
#define SCRIPT_H

#include "implementations.h"

/* Carries out the script of a file; fails where the text that it writes is not that of the other file. Returns how many
   lines the script has. */
size_t compare_script(const struct implementation *implementation, const char *script, const char *expected);

#endif
