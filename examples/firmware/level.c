/* A call tree: mix calls level twice, and level calls limit. */
#define APART __attribute__((noinline))

APART unsigned limit(unsigned value, unsigned top)
{
    return value > top ? top : value;
}

APART unsigned level(unsigned sample, unsigned gain)
{
    return limit(sample, 4095) * limit(gain, 15);
}

APART unsigned mix(unsigned left, unsigned right, unsigned gain)
{
    return level(left, gain) + level(right, gain);
}
