// No program of the language has a goto: SOURCE line 4 token 6: not a program.
int main(void)
{
    goto out;
out:
    return 0;
}
