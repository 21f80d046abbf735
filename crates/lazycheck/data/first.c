int x;
int main(void)
{
    x = 1;
    x = x + 1;
    assert(x == 2);
}
