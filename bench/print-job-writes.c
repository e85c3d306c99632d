/* A Print-Job's three writes by the stock SQLite library, each time in a transaction that is committed.

     print-job-writes FILE ACCOUNTS COUNT FIND_ACCOUNT SET_NEXT_JOB ADD_JOB ADD_DOCUMENT

   Makes COUNT Print-Jobs in FILE by the last three texts, of the accounts m000000, m000001 and so on in turns, whose next
   number is the same, and prints the nanoseconds of all, from the opening of FILE to its closing. Each text is prepared
   once. */
#include "print-job.h"
#include <time.h>

static long long now(void)
{
    struct timespec it;
    clock_gettime(CLOCK_MONOTONIC, &it);
    return it.tv_sec * 1000000000LL + it.tv_nsec;
}

int main(int count, char **words)
{
    if (count != 8) {
        fprintf(stderr, "usage: print-job-writes FILE ACCOUNTS COUNT FIND_ACCOUNT SET_NEXT_JOB ADD_JOB ADD_DOCUMENT\n");
        return 2;
    }
    int accounts = atoi(words[2]), turns = atoi(words[3]);
    long long start = now();
    open_file(words[1], words + 4);
    sqlite3_int64 first = next_job("m000000");
    for (int turn = 0; turn < turns; turn++) {
        char account[16];
        snprintf(account, sizeof account, "m%06d", turn % accounts);
        run(begin);
        write_rows(account, first + turn / accounts, "Hello", 5);
        run(commit);
    }
    for (sqlite3_stmt *it; (it = sqlite3_next_stmt(db, NULL)) != NULL;)
        sqlite3_finalize(it);
    check(sqlite3_close(db) == SQLITE_OK, "close");
    printf("%lld\n", now() - start);
    return 0;
}
