unsigned middle(unsigned low, unsigned high)
{
    return (low + high) / 2;
}
