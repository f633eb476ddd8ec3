/* The sum of two numbers, or the greatest number where the sum wraps. */
unsigned saturate(unsigned a, unsigned b)
{
    unsigned sum = a + b;
    return sum < a ? 0xffffffffu : sum;
}
