#include "golvanzo.h"

const char *golvanzo_version(void) { return GOLVANZO_VERSION_STRING; }
