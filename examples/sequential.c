// A program of one thread without an input: its one course of events is followed, up to a check that breaks.
#include <assert.h>
#include <pthread.h>

pthread_mutex_t lock;
int sums[3];

int add(int to, int value)
{
    pthread_mutex_lock(&lock);
    sums[to] += value;
    pthread_mutex_unlock(&lock);
    return sums[to];
}

int main(void)
{
    int last = 0;
    for (int i = 0; i < 2; i++)
        last = add(i, 5 - i);
    assert(last == 4);          // holds
    assert(sums[last - 1] > 0); // there is no fourth element
    return 0;
}
