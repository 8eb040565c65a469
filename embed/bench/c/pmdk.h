/* What the two stores on libpmemobj have in common. */
#ifndef PMDK_H
#define PMDK_H

#include "peer.h"
#include <libpmemobj.h>
#include <stdio.h>

#define POOL_BYTES ((size_t)256 << 20)
#define FOLDER_BYTES 512

static const char *version(void)
{
	static char text[32];
	snprintf(text, sizeof text, "libpmemobj %d.%d", PMEMOBJ_MAJOR_VERSION, PMEMOBJ_MINOR_VERSION);
	return text;
}

/* A batch needs no preparation: each change is a transaction of its own. */
static void begin(void *opened, int writes)
{
	(void)opened, (void)writes;
}

static void end(void *opened)
{
	(void)opened;
}

#endif
