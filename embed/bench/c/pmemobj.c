/* A tree over libpmemobj, as a user of that library writes it: sorted nodes of seven records, 01's rule of splits, no node given back, and
 * a transaction a change. Nothing is checked on the way down. */
#include "pmdk.h"
#include <stdlib.h>
#include <string.h>

#define RECORDS 7
#define LOWER 4
#define HEIGHT_MOST 16

POBJ_LAYOUT_BEGIN(tree);
POBJ_LAYOUT_ROOT(tree, struct top);
POBJ_LAYOUT_TOID(tree, struct node);
POBJ_LAYOUT_END(tree);

/* A leaf has values, an inner node children: kids[i] covers the keys below keys[i] and not below keys[i - 1]. */
struct node {
	uint64_t count;
	uint64_t keys[RECORDS];
	union {
		uint64_t values[RECORDS];
		TOID(struct node) kids[RECORDS + 1];
	};
};

struct top {
	TOID(struct node) root;
	uint64_t height;
};

struct store {
	PMEMobjpool *pool;
	TOID(struct top) top;
};

/* The way down, the leaf first: each node, and how many of its keys are not above the key. */
struct path {
	TOID(struct node) nodes[HEIGHT_MOST];
	unsigned places[HEIGHT_MOST];
	unsigned height;
};

/* What goes up after a split. */
struct rising {
	uint64_t key;
	TOID(struct node) kid;
};

static void *open_store(const char *folder, int setting)
{
	char path[FOLDER_BYTES];
	int failed = 0;
	struct store *store = calloc(1, sizeof *store);
	if (!store || snprintf(path, sizeof path, "%s/pmemobj-%d", folder, setting) >= (int)sizeof path)
		return NULL;
	store->pool = pmemobj_create(path, POBJ_LAYOUT_NAME(tree), POOL_BYTES, 0600);
	if (!store->pool)
		return NULL;
	store->top = POBJ_ROOT(store->pool, struct top);
	TX_BEGIN(store->pool) {
		TX_ADD(store->top);
		D_RW(store->top)->root = TX_ZNEW(struct node);
		D_RW(store->top)->height = 1;
	} TX_ONABORT {
		failed = 1;
	} TX_END
	return failed ? NULL : store;
}

static unsigned place_of(const struct node *node, uint64_t key)
{
	unsigned place = 0;
	while (place < node->count && node->keys[place] <= key)
		place++;
	return place;
}

static int get(void *opened, uint64_t key, uint64_t *value)
{
	const struct top *top = D_RO(((struct store *)opened)->top);
	const struct node *node = D_RO(top->root);
	for (uint64_t left = top->height - 1; left > 0; left--)
		node = D_RO(node->kids[place_of(node, key)]);
	unsigned place = place_of(node, key);
	if (place == 0 || node->keys[place - 1] != key)
		return 0;
	*value = node->values[place - 1];
	return 1;
}

static struct path descend(struct store *store, uint64_t key)
{
	struct path path;
	TOID(struct node) node = D_RO(store->top)->root;
	path.height = (unsigned)D_RO(store->top)->height;
	for (unsigned level = path.height - 1;; level--) {
		path.nodes[level] = node;
		path.places[level] = place_of(D_RO(node), key);
		if (level == 0)
			return path;
		node = D_RO(node)->kids[path.places[level]];
	}
}

static void enter(struct node *leaf, unsigned place, uint64_t key, uint64_t value)
{
	size_t above = (leaf->count - place) * sizeof key;
	memmove(&leaf->keys[place + 1], &leaf->keys[place], above);
	memmove(&leaf->values[place + 1], &leaf->values[place], above);
	leaf->keys[place] = key;
	leaf->values[place] = value;
	leaf->count++;
}

static void take(struct node *inner, unsigned place, struct rising up)
{
	size_t above = inner->count - place;
	memmove(&inner->keys[place + 1], &inner->keys[place], above * sizeof up.key);
	memmove(&inner->kids[place + 2], &inner->kids[place + 1], above * sizeof up.kid);
	inner->keys[place] = up.key;
	inner->kids[place + 1] = up.kid;
	inner->count++;
}

/* Of a full leaf's records and the new one the lower four stay. */
static struct rising split_leaf(struct node *leaf, unsigned place, uint64_t key, uint64_t value)
{
	struct rising up = {0, TX_ZNEW(struct node)};
	struct node *right = D_RW(up.kid);
	unsigned stay = place < LOWER ? LOWER - 1 : LOWER;
	right->count = RECORDS - stay;
	memcpy(right->keys, &leaf->keys[stay], right->count * sizeof key);
	memcpy(right->values, &leaf->values[stay], right->count * sizeof value);
	leaf->count = stay;
	if (place < LOWER)
		enter(leaf, place, key, value);
	else
		enter(right, place - LOWER, key, value);
	up.key = right->keys[0];
	return up;
}

/* Of a full inner node's keys and the new one the lower four stay and the fifth goes up. */
static struct rising split_inner(struct node *inner, unsigned place, struct rising came)
{
	struct rising up = {came.key, TX_ZNEW(struct node)};
	struct node *right = D_RW(up.kid);
	unsigned stay = place < LOWER ? LOWER - 1 : LOWER;
	unsigned from = place == LOWER ? stay : stay + 1;
	if (place != LOWER)
		up.key = inner->keys[stay];
	right->count = RECORDS - from;
	memcpy(right->keys, &inner->keys[from], right->count * sizeof up.key);
	memcpy(right->kids, &inner->kids[from], (right->count + 1) * sizeof up.kid);
	if (place == LOWER)
		right->kids[0] = came.kid;
	inner->count = stay;
	if (place < LOWER)
		take(inner, place, came);
	else if (place > LOWER)
		take(right, place - LOWER - 1, came);
	return up;
}

static void crown(struct store *store, struct rising up)
{
	TOID(struct node) root = TX_ZNEW(struct node);
	D_RW(root)->count = 1;
	D_RW(root)->keys[0] = up.key;
	D_RW(root)->kids[0] = D_RO(store->top)->root;
	D_RW(root)->kids[1] = up.kid;
	TX_ADD(store->top);
	D_RW(store->top)->root = root;
	D_RW(store->top)->height++;
}

static void insert(struct store *store, struct path *path, uint64_t key, uint64_t value)
{
	TX_ADD(path->nodes[0]);
	if (D_RO(path->nodes[0])->count < RECORDS) {
		enter(D_RW(path->nodes[0]), path->places[0], key, value);
		return;
	}
	struct rising up = split_leaf(D_RW(path->nodes[0]), path->places[0], key, value);
	for (unsigned level = 1; level < path->height; level++) {
		TX_ADD(path->nodes[level]);
		struct node *inner = D_RW(path->nodes[level]);
		if (inner->count < RECORDS) {
			take(inner, path->places[level], up);
			return;
		}
		up = split_inner(inner, path->places[level], up);
	}
	crown(store, up);
}

static int put(void *opened, uint64_t key, uint64_t value)
{
	struct store *store = opened;
	struct path path = descend(store, key);
	TOID(struct node) leaf = path.nodes[0];
	unsigned place = path.places[0];
	int done = 1;
	TX_BEGIN(store->pool) {
		if (place > 0 && D_RO(leaf)->keys[place - 1] == key)
			TX_SET(leaf, values[place - 1], value);
		else
			insert(store, &path, key, value);
	} TX_ONABORT {
		done = -1;
	} TX_END
	return done;
}

static int del(void *opened, uint64_t key)
{
	struct store *store = opened;
	struct path path = descend(store, key);
	TOID(struct node) leaf = path.nodes[0];
	unsigned place = path.places[0];
	int done = 1;
	if (place == 0 || D_RO(leaf)->keys[place - 1] != key)
		return 0;
	TX_BEGIN(store->pool) {
		TX_ADD(leaf);
		size_t above = (D_RO(leaf)->count - place) * sizeof key;
		memmove(&D_RW(leaf)->keys[place - 1], &D_RO(leaf)->keys[place], above);
		memmove(&D_RW(leaf)->values[place - 1], &D_RO(leaf)->values[place], above);
		D_RW(leaf)->count--;
	} TX_ONABORT {
		done = -1;
	} TX_END
	return done;
}

static void close_store(void *opened)
{
	struct store *store = opened;
	pmemobj_close(store->pool);
	free(store);
}

const struct peer peer_pmemobj = {version, open_store, begin, get, put, del, end, close_store};
