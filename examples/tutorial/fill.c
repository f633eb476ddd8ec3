/* Sets 16 bytes to a value. */
void fill(unsigned char *to, unsigned char value)
{
    for (int i = 0; i < 16; i++)
        to[i] = value;
}
