// A sum reads its operands before the assignment writes.
int x;
int main(void)
{
    x = 1;
    x = x + 1;
    assert(x == 2);
}
