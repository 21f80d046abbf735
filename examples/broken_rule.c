// A parameter and the objects of the outermost block are in one scope, so line 5 breaks rule 2.
int twice(int x)
{
    int y = x;
    int x = y + y;
    return x;
}

int main(void)
{
    return twice(2);
}
