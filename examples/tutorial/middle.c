unsigned middle(unsigned low, unsigned high)
{
    return low + (high - low) / 2;
}
