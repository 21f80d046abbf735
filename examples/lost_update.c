// Two threads add one to x, each with a read and then a write. The schedule in lost_update.schedule lets thread 1 read,
// then thread 2 add its one, then thread 1 write: an increment is lost, and the check of main breaks.
//     lazycheck --mode replay --schedule examples/lost_update.schedule examples/lost_update.c
// answers BROKEN check assert line 24 events 12. Without its last line the schedule holds: HOLDS events 11.
#include <assert.h>
#include <pthread.h>

int x;

void *add(void *a)
{
    x = x + 1;
    return NULL;
}

int main(void)
{
    pthread_t one, two;
    pthread_create(&one, NULL, add, NULL);
    pthread_create(&two, NULL, add, NULL);
    pthread_join(one, NULL);
    pthread_join(two, NULL);
    // one read and the check
    assert(x == 2);
}
