/* Berkeley DB's transactions and lock manager, set to be fast: all in memory, one thread and so no mutexes, one partition of the lock table. No
   database is written, so the log, which transactions ask for, gets no record of them. The limits are those of the bench: 64 transactions at a time,
   each of which may hold 128 objects in two modes. */
#include <db.h>
#include <stdint.h>
#include <stdio.h>
#include <stdlib.h>

static DB_ENV *environment;

static void must(int result, const char *what) {
    if (!result) return;
    fprintf(stderr, "Berkeley DB: %s: %s\n", what, db_strerror(result));
    exit(1);
}

static void open_environment(void) {
    must(db_env_create(&environment, 0), "db_env_create");
    must(environment->set_lk_partitions(environment, 1), "set_lk_partitions");
    must(environment->set_lk_max_lockers(environment, 64), "set_lk_max_lockers");
    must(environment->set_lk_max_objects(environment, 128), "set_lk_max_objects");
    must(environment->set_lk_max_locks(environment, 64 * 128 * 2), "set_lk_max_locks");
    must(environment->set_tx_max(environment, 64), "set_tx_max");
    must(environment->log_set_config(environment, DB_LOG_IN_MEMORY, 1), "log_set_config");
    must(environment->set_flags(environment, DB_TXN_NOSYNC, 1), "set_flags");
    must(environment->open(environment, NULL, DB_CREATE | DB_PRIVATE | DB_INIT_LOCK | DB_INIT_LOG | DB_INIT_TXN, 0), "open");
}

/* 0 or DB_LOCK_NOTGRANTED; it never waits. */
static int ask(u_int32_t locker, uint8_t instrument, db_lockmode_t mode, DB_LOCK *lock) {
    DBT object = { .data = &instrument, .size = sizeof instrument };
    return environment->lock_get(environment, locker, DB_LOCK_NOWAIT, &object, mode, lock);
}
