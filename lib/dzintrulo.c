/*
 * The headers' functions as symbols, for languages that cannot include them: this file and the proved archive are
 * libdzintrulo.so. None of this file is proved.
 */
#define DZ_INLINE

#include "dzintrulo.h"
#include "dzintrulo_sheet.h"
