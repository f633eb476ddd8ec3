void clear(unsigned char *to, unsigned count)
{
    for (unsigned i = 0; i < count; i++)
        to[i] = 0;
}
