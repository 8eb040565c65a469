/* PMDK's own example of a tree, btree_map, as Debian's package ships its source. A value is kept in the offset of an object's name, which
 * the map never follows; 0 is therefore no value. The map has no replace: an insert of a present key makes a second record. */
#include "pmdk.h"
#include <btree_map.h>
#include <stdlib.h>

#define SOME_POOL 1

POBJ_LAYOUT_BEGIN(map);
POBJ_LAYOUT_ROOT(map, struct top);
POBJ_LAYOUT_END(map);

struct top {
	TOID(struct btree_map) map;
};

struct store {
	PMEMobjpool *pool;
	TOID(struct btree_map) map;
};

static void *open_store(const char *folder, int setting)
{
	char path[FOLDER_BYTES];
	struct store *store = calloc(1, sizeof *store);
	if (!store || snprintf(path, sizeof path, "%s/btree_map-%d", folder, setting) >= (int)sizeof path)
		return NULL;
	store->pool = pmemobj_create(path, POBJ_LAYOUT_NAME(map), POOL_BYTES, 0600);
	if (!store->pool)
		return NULL;
	TOID(struct top) top = POBJ_ROOT(store->pool, struct top);
	if (btree_map_create(store->pool, &D_RW(top)->map, NULL))
		return NULL;
	store->map = D_RO(top)->map;
	return store;
}

static int get(void *opened, uint64_t key, uint64_t *value)
{
	struct store *store = opened;
	PMEMoid found = btree_map_get(store->pool, store->map, key);
	*value = found.off;
	return !OID_IS_NULL(found);
}

static int put(void *opened, uint64_t key, uint64_t value)
{
	struct store *store = opened;
	PMEMoid kept = {SOME_POOL, value};
	return btree_map_insert(store->pool, store->map, key, kept) ? -1 : 1;
}

static int del(void *opened, uint64_t key)
{
	struct store *store = opened;
	return !OID_IS_NULL(btree_map_remove(store->pool, store->map, key));
}

static void close_store(void *opened)
{
	struct store *store = opened;
	pmemobj_close(store->pool);
	free(store);
}

const struct peer peer_btree_map = {version, open_store, begin, get, put, del, end, close_store};
