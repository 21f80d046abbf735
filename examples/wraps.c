#define LARGEST 2147483647 // the greatest int; one more wraps to the least
int x = LARGEST;

int main(void)
{
    assert(x + 1 == 0);
}
