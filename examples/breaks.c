int total;
int limit;

int main(void)
{
    limit = 5;
    total = limit;
    assert(total == limit); // holds: both are 5
    assert(total == 4);     // breaks
}
