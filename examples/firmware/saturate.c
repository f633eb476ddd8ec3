/* A sum that stops at the greatest value. */
unsigned saturate(unsigned a, unsigned b)
{
    unsigned sum = a + b;
    return sum < a ? 0xffffffffu : sum;
}
