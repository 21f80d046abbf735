// Every assertion holds, in every run.
int first;
int second;

int main(void)
{
    first = 7;
    second = first;
    assert(second == 7);
    assert(first == second);
}
