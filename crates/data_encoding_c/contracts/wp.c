/* The glue as it is built, and after it what it promises: for WP. */
#include "data_encoding.c"

#include "words.h"
#include "exports.h"
#include "implied.h"
#include "helpers.h"
#include "calls.h"
