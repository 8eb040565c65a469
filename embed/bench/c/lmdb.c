/* LMDB. Settings: 0 writes through the map and syncs nothing, a transaction a request; 1 LMDB's default, which syncs each change;
 * 2 as 0, with one transaction for a whole batch of requests. */
#include "peer.h"
#include <lmdb.h>
#include <stdio.h>
#include <stdlib.h>

#define MAP_BYTES ((size_t)1 << 30)
#define FOLDER_BYTES 512
#define DEFAULT_SYNC 1
#define BATCHED 2

struct store {
	MDB_env *env;
	MDB_dbi records;
	MDB_txn *reading;
	MDB_txn *batch;
	int setting;
	int sharing;
};

static const char *version(void)
{
	return mdb_version(NULL, NULL, NULL);
}

static int open_records(struct store *store)
{
	MDB_txn *txn;
	if (mdb_txn_begin(store->env, NULL, 0, &txn))
		return -1;
	if (mdb_dbi_open(txn, NULL, MDB_CREATE | MDB_INTEGERKEY, &store->records) || mdb_txn_commit(txn))
		return -1;
	if (mdb_txn_begin(store->env, NULL, MDB_RDONLY, &store->reading))
		return -1;
	mdb_txn_reset(store->reading);
	return 0;
}

static void *open_store(const char *folder, int setting)
{
	char path[FOLDER_BYTES];
	struct store *store = calloc(1, sizeof *store);
	unsigned flags = MDB_NOSUBDIR | (setting == DEFAULT_SYNC ? 0 : MDB_WRITEMAP | MDB_NOSYNC);
	if (!store || snprintf(path, sizeof path, "%s/lmdb-%d", folder, setting) >= (int)sizeof path)
		return NULL;
	store->setting = setting;
	if (mdb_env_create(&store->env) || mdb_env_set_mapsize(store->env, MAP_BYTES) || mdb_env_open(store->env, path, flags, 0600))
		return NULL;
	return open_records(store) ? NULL : store;
}

static void begin(void *opened, int writes)
{
	struct store *store = opened;
	store->sharing = store->setting == BATCHED && !writes;
	if (store->sharing && mdb_txn_renew(store->reading))
		abort();
	if (store->setting == BATCHED && writes && mdb_txn_begin(store->env, NULL, 0, &store->batch))
		abort();
}

static void end(void *opened)
{
	struct store *store = opened;
	if (store->sharing)
		mdb_txn_reset(store->reading);
	if (store->batch && mdb_txn_commit(store->batch))
		abort();
	store->batch = NULL;
	store->sharing = 0;
}

static int get(void *opened, uint64_t key, uint64_t *value)
{
	struct store *store = opened;
	MDB_val name = {sizeof key, &key}, found;
	if (!store->sharing && mdb_txn_renew(store->reading))
		return -1;
	int failed = mdb_get(store->reading, store->records, &name, &found);
	if (!failed)
		*value = *(const uint64_t *)found.mv_data;
	if (!store->sharing)
		mdb_txn_reset(store->reading);
	return failed == 0 ? 1 : failed == MDB_NOTFOUND ? 0 : -1;
}

/* One change, by itself or in the batch: a value put, or the key deleted where there is none. */
static int change(struct store *store, uint64_t key, uint64_t *value)
{
	MDB_txn *txn = store->batch;
	MDB_val name = {sizeof key, &key}, given = {sizeof *value, value};
	if (!txn && mdb_txn_begin(store->env, NULL, 0, &txn))
		return -1;
	int failed = value ? mdb_put(txn, store->records, &name, &given, 0) : mdb_del(txn, store->records, &name, NULL);
	if (failed && failed != MDB_NOTFOUND)
		return -1;
	if (!store->batch && mdb_txn_commit(txn))
		return -1;
	return failed == 0;
}

static int put(void *opened, uint64_t key, uint64_t value)
{
	return change(opened, key, &value);
}

static int del(void *opened, uint64_t key)
{
	return change(opened, key, NULL);
}

static void close_store(void *opened)
{
	struct store *store = opened;
	mdb_txn_abort(store->reading);
	mdb_env_close(store->env);
	free(store);
}

const struct peer peer_lmdb = {version, open_store, begin, get, put, del, end, close_store};
