// Two turns of each of five loops create 32 threads, which are more than 16.
#include <pthread.h>

void *work(void *a)
{
    return a;
}

int main(void)
{
    pthread_t t;
    while (1)
        while (1)
            while (1)
                while (1)
                    while (1)
                        pthread_create(&t, NULL, work, NULL);
}
