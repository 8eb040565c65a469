/* Berkeley DB's B-tree. Settings: 0 without transactions and without a log, so nothing is kept at a cut; 1 a transaction a change, whose
 * log is written but not synced. The cache holds every page in both. */
#include "peer.h"
#include <db.h>
#include <stdio.h>
#include <stdlib.h>
#include <string.h>

#define CACHE_BYTES (64u << 20)
#define FOLDER_BYTES 512
#define ENVIRONMENT (DB_CREATE | DB_PRIVATE | DB_INIT_MPOOL | DB_INIT_TXN | DB_INIT_LOG | DB_INIT_LOCK)

struct store {
	DB_ENV *env;
	DB *records;
};

static const char *version(void)
{
	return db_version(NULL, NULL, NULL);
}

static int open_environment(struct store *store, const char *folder)
{
	if (db_env_create(&store->env, 0) || store->env->set_cachesize(store->env, 0, CACHE_BYTES, 1))
		return -1;
	if (store->env->set_flags(store->env, DB_TXN_NOSYNC, 1))
		return -1;
	if (store->env->log_set_config(store->env, DB_LOG_AUTO_REMOVE, 1))
		return -1;
	return store->env->open(store->env, folder, ENVIRONMENT, 0600);
}

static void *open_store(const char *folder, int setting)
{
	char path[FOLDER_BYTES];
	struct store *store = calloc(1, sizeof *store);
	const char *name = setting ? "records" : path;
	if (!store || snprintf(path, sizeof path, "%s/berkeley", folder) >= (int)sizeof path)
		return NULL;
	if (setting && open_environment(store, folder))
		return NULL;
	if (db_create(&store->records, store->env, 0))
		return NULL;
	if (!setting && store->records->set_cachesize(store->records, 0, CACHE_BYTES, 1))
		return NULL;
	unsigned flags = DB_CREATE | (setting ? DB_AUTO_COMMIT : 0);
	return store->records->open(store->records, NULL, name, NULL, DB_BTREE, flags, 0600) ? NULL : store;
}

static void begin(void *opened, int writes)
{
	(void)opened, (void)writes;
}

static void end(void *opened)
{
	(void)opened;
}

/* A word as a datum; keys go most significant byte first, so that their order is that of the numbers. */
static DBT datum(uint64_t *word)
{
	DBT datum;
	memset(&datum, 0, sizeof datum);
	datum.data = word;
	datum.size = datum.ulen = sizeof *word;
	datum.flags = DB_DBT_USERMEM;
	return datum;
}

static int get(void *opened, uint64_t key, uint64_t *value)
{
	struct store *store = opened;
	uint64_t turned = __builtin_bswap64(key);
	DBT name = datum(&turned), found = datum(value);
	int failed = store->records->get(store->records, NULL, &name, &found, 0);
	return failed == 0 ? 1 : failed == DB_NOTFOUND ? 0 : -1;
}

static int put(void *opened, uint64_t key, uint64_t value)
{
	struct store *store = opened;
	uint64_t turned = __builtin_bswap64(key);
	DBT name = datum(&turned), given = datum(&value);
	return store->records->put(store->records, NULL, &name, &given, 0) ? -1 : 1;
}

static int del(void *opened, uint64_t key)
{
	struct store *store = opened;
	uint64_t turned = __builtin_bswap64(key);
	DBT name = datum(&turned);
	int failed = store->records->del(store->records, NULL, &name, 0);
	return failed == 0 ? 1 : failed == DB_NOTFOUND ? 0 : -1;
}

static void close_store(void *opened)
{
	struct store *store = opened;
	store->records->close(store->records, DB_NOSYNC);
	if (store->env)
		store->env->close(store->env, 0);
	free(store);
}

const struct peer peer_berkeley = {version, open_store, begin, get, put, del, end, close_store};
