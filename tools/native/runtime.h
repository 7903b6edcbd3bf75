/* Memory for the translated module. */
#ifndef RUNTIME_H
#define RUNTIME_H

#include <stdbool.h>

#include "wasm-rt.h"

/* Reserves memory for the next module that this thread makes; returns whether there is any. */
bool has_memory(void);

#endif
