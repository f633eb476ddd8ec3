/* The same with an error: a sum with 0 does not wrap. */
unsigned saturate(unsigned a, unsigned b)
{
    unsigned sum = a + b;
    return sum <= a ? 0xffffffffu : sum;
}
