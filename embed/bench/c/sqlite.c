/* SQLite: a table with the key as its row number, a write-ahead log, synchronous off, the file locked once. Settings: 0 a transaction a
 * request; 1 one transaction for a whole batch. */
#include "peer.h"
#include <sqlite3.h>
#include <stdio.h>
#include <stdlib.h>

#define FOLDER_BYTES 512
#define BATCHED 1
#define CACHE_PAGES "-65536"

static const char *const settings =
	"PRAGMA journal_mode=WAL;"
	"PRAGMA synchronous=OFF;"
	"PRAGMA locking_mode=EXCLUSIVE;"
	"PRAGMA cache_size=" CACHE_PAGES ";"
	"CREATE TABLE records (key INTEGER PRIMARY KEY, value INTEGER NOT NULL);";

struct store {
	sqlite3 *base;
	sqlite3_stmt *get, *put, *del;
	int setting;
};

static const char *version(void)
{
	return "SQLite " SQLITE_VERSION;
}

static int prepare(struct store *store, const char *text, sqlite3_stmt **statement)
{
	return sqlite3_prepare_v3(store->base, text, -1, SQLITE_PREPARE_PERSISTENT, statement, NULL) != SQLITE_OK;
}

static void *open_store(const char *folder, int setting)
{
	char path[FOLDER_BYTES];
	struct store *store = calloc(1, sizeof *store);
	if (!store || snprintf(path, sizeof path, "%s/sqlite-%d", folder, setting) >= (int)sizeof path)
		return NULL;
	store->setting = setting;
	if (sqlite3_open_v2(path, &store->base, SQLITE_OPEN_READWRITE | SQLITE_OPEN_CREATE | SQLITE_OPEN_NOMUTEX, NULL))
		return NULL;
	if (sqlite3_exec(store->base, settings, NULL, NULL, NULL))
		return NULL;
	if (prepare(store, "SELECT value FROM records WHERE key = ?1", &store->get) ||
	    prepare(store, "INSERT INTO records VALUES (?1, ?2) ON CONFLICT (key) DO UPDATE SET value = ?2", &store->put) ||
	    prepare(store, "DELETE FROM records WHERE key = ?1", &store->del))
		return NULL;
	return store;
}

static void begin(void *opened, int writes)
{
	struct store *store = opened;
	(void)writes;
	if (store->setting == BATCHED && sqlite3_exec(store->base, "BEGIN", NULL, NULL, NULL))
		abort();
}

static void end(void *opened)
{
	struct store *store = opened;
	if (!sqlite3_get_autocommit(store->base) && sqlite3_exec(store->base, "COMMIT", NULL, NULL, NULL))
		abort();
}

static int get(void *opened, uint64_t key, uint64_t *value)
{
	sqlite3_stmt *statement = ((struct store *)opened)->get;
	sqlite3_bind_int64(statement, 1, (int64_t)key);
	int stepped = sqlite3_step(statement);
	if (stepped == SQLITE_ROW)
		*value = (uint64_t)sqlite3_column_int64(statement, 0);
	sqlite3_reset(statement);
	return stepped == SQLITE_ROW ? 1 : stepped == SQLITE_DONE ? 0 : -1;
}

static int put(void *opened, uint64_t key, uint64_t value)
{
	sqlite3_stmt *statement = ((struct store *)opened)->put;
	sqlite3_bind_int64(statement, 1, (int64_t)key);
	sqlite3_bind_int64(statement, 2, (int64_t)value);
	int stepped = sqlite3_step(statement);
	sqlite3_reset(statement);
	return stepped == SQLITE_DONE ? 1 : -1;
}

static int del(void *opened, uint64_t key)
{
	struct store *store = opened;
	sqlite3_bind_int64(store->del, 1, (int64_t)key);
	int stepped = sqlite3_step(store->del);
	sqlite3_reset(store->del);
	return stepped == SQLITE_DONE ? sqlite3_changes(store->base) : -1;
}

static void close_store(void *opened)
{
	struct store *store = opened;
	sqlite3_finalize(store->get);
	sqlite3_finalize(store->put);
	sqlite3_finalize(store->del);
	sqlite3_close(store->base);
	free(store);
}

const struct peer peer_sqlite = {version, open_store, begin, get, put, del, end, close_store};
