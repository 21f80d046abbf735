// Two choices: an input and a thread. The decision of such programs is not built, so the answer is NOTBUILT with the line of the first.
#include <pthread.h>

int seed;

void *worker(void *arg)
{
    seed = __VERIFIER_nondet_int();
    return arg;
}

int main(void)
{
    pthread_t thread;
    pthread_create(&thread, NULL, worker, NULL);
    return 0;
}
