unsigned at_most(unsigned value, unsigned top)
{
    return value > top ? top : value;
}

unsigned sum(unsigned a, unsigned b)
{
    return at_most(a, 255) + at_most(b, 255);
}
