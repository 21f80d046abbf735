// A thread waits on a condition until main has put an item there and signals it. The schedule in woken.schedule goes
// through to the end of main, and no check breaks.
//     lazycheck --mode replay --schedule examples/woken.schedule examples/woken.c
// answers HOLDS events 16. Its seventh step, `step 0 2`, is the signal, which wakes thread 1: its choice is one more than
// the number of the thread. With `step 0 0` there, a signal that wakes nobody while thread 1 waits, the answer is
// NOTARUN index 6.
#include <assert.h>
#include <pthread.h>

pthread_mutex_t m = PTHREAD_MUTEX_INITIALIZER;
pthread_cond_t ready = PTHREAD_COND_INITIALIZER;
int item;

void *take(void *a)
{
    pthread_mutex_lock(&m);
    while (item == 0)
        pthread_cond_wait(&ready, &m); // gives the mutex up, and takes it again once it is woken
    assert(item == 5);
    pthread_mutex_unlock(&m);
    return NULL;
}

int main(void)
{
    pthread_t t;
    pthread_create(&t, NULL, take, NULL);
    pthread_mutex_lock(&m);
    item = 5;
    pthread_cond_signal(&ready);
    pthread_mutex_unlock(&m);
    pthread_join(t, NULL);
    return 0;
}
