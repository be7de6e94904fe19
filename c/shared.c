/* The calls that are inline in the headers, as functions: what libmkdemux.so has beside the two archives. */
#define MKDEMUX_CALL __attribute__((visibility("default")))
#include "mkdemux.h"
#include "mkdemux_cores.h"
