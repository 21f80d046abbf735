#include <pthread.h>
#define FLAG (-1u)
static int x = FLAG, a[3] = { 1, 'b', }, b[x ? 2 : 1] = { 0 }, n;
pthread_mutex_t m = PTHREAD_MUTEX_INITIALIZER; pthread_cond_t c = PTHREAD_COND_INITIALIZER; pthread_t t[2];
int t0; signed t1; signed int t2; unsigned t3; unsigned int t4;
_Bool u0; char u1; signed char u2; unsigned char u3;
short v0; short int v1; unsigned short v2; unsigned short int v3;
long w0; long int w1; unsigned long w2; unsigned long int w3;
long long y0; long long int y1; unsigned long long y2; unsigned long long int y3;
void *run(void *p); extern void q0(); static int q1(void); int q2(int, unsigned q);
static unsigned g(int one, unsigned two) { { } ; x; }
void none() { return; }
void *run(void *p) { pthread_mutex_lock(&m); a[1]++; --x; ++a[0]; x--; return NULL; }
int main(void) {
    for (int i = 0; i < 3; i++)
        if (a[i]) x += a[i] ? 2 : -x; else last: while (!x) break;
    for (;;) continue;
    for (x = 1; ; x = 2) do x -= 1; while (x > 0);
    if (x) if (n) ; else { int k[2] = { 1, 2 }; k[1] *= +x; } else x /= 1;
    x %= ~n; x &= 1; x |= 2; x ^= 3; x <<= 4; x >>= 5; x = n = 'c'; if (n) ++x;
    x = a[0] * n / 2 % 3 + 4 - 5 << 6 >> 7; x = 1 < 2 > 3 <= 4 >= 5 == 6 != 7;
    x = 1 & 2 ^ 3 | 4 && 5 || 6; x = (1 ? 2 : 3 ? 4 : 5);
    printf("text", (int) x, (unsigned long) (void *) 0, g(1, q1()));
    return 0;
}
