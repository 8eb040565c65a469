/* What each store in C offers the benchmark. */
#ifndef PEER_H
#define PEER_H

#include <stdint.h>

/* Keys and values are words. `get` answers 1 for found and 0 for absent, `del` 1 for removed and 0 for absent, `put` 1; each answers
 * -1 where the store failed. A batch of requests stands between `begin` and `end`. */
struct peer {
	const char *(*version)(void);
	void *(*open)(const char *folder, int setting);
	void (*begin)(void *store, int writes);
	int (*get)(void *store, uint64_t key, uint64_t *value);
	int (*put)(void *store, uint64_t key, uint64_t value);
	int (*del)(void *store, uint64_t key);
	void (*end)(void *store);
	void (*close)(void *store);
};

#endif
