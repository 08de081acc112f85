/* A player over Berkeley DB 5.3's lock manager, for comparison: the same lines in, the same answers out. An action is a transaction, a subaction one
   nested in its parent's; each read or write that gets 0 or 6 is one lock_get for that transaction, without waiting, and its result is the answer.

   Where Berkeley DB and document 01 agree: a transaction is granted what only itself and its ancestors hold against it, a nested one's commit hands
   its locks to its parent, an abort drops them. No line played got another answer than document 01's; docs/PERFORMANCE.md says how many were.

   Where nothing stands in: order 2's draining. An abort frees at once here, so this player is compared on traces that abort no owner, neither an action that
   owns something nor one with a descendant that does. On those nothing drains, and quiet always gets 10.

   Where they do not, and the bookkeeping of trace_player.h stands in:
   - Answer 5. Berkeley DB's manual forbids a parent all but begin, commit and abort while it has a running child. lock_get does not enforce that: it
     grants the parent what nobody holds (benchmarks/lock_get shows it) and refuses what the child holds. The parent's commit ends the child too.
   - Numbers. A transaction is gone for its user once it commits; here a committed subaction's number stays in use until its family ends. */
#include "berkeley.h"
#include "trace_player.h"

static DB_TXN *transaction[64]; /* of each running number */

static void begin(int n) {
    DB_TXN *above = parent[n] < 0 ? NULL : transaction[parent[n]];
    must(environment->txn_begin(environment, above, &transaction[n], 0), "txn_begin");
}

/* The lock itself is not kept: it goes with its transaction. */
static int granted(int a, int instrument, int writing) {
    DB_LOCK lock;
    int result = ask(transaction[a]->id(transaction[a]), (uint8_t)instrument, writing ? DB_LOCK_WRITE : DB_LOCK_READ, &lock);
    if (result == DB_LOCK_NOTGRANTED) return 0;
    must(result, "lock_get");
    return 1;
}

static void commit_sub(int a) { must(transaction[a]->commit(transaction[a], 0), "commit of a sub"); }

/* Children first: Berkeley DB would end the running ones along with their parent and leave their handles dead. */
static void end_family(int a, int committing) {
    for (int k = 0; k < 64; k++)
        if (parent[k] == a) end_family(k, committing);
    if (state[a] == RUNNING && committing) must(transaction[a]->commit(transaction[a], 0), "commit of a top");
    if (state[a] == RUNNING && !committing) must(transaction[a]->abort(transaction[a]), "abort");
    state[a] = FREE;
    running_children[a] = 0;
    parent[a] = -1;
}

static void commit_top(int a) { end_family(a, 1); }
static void abort_family(int a) { end_family(a, 0); }

static int quiet(int a, int instrument) {
    (void)a, (void)instrument;
    return 0;
}

int main(void) {
    open_environment();
    play();
    return 0;
}
