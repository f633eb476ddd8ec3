/* CRC-8 with the polynomial x^8 + x^2 + x + 1. */
unsigned crc8_bitwise(unsigned crc, unsigned byte)
{
    crc ^= byte;
    for (int i = 0; i < 8; i++)
        crc = crc & 0x80 ? (crc << 1 ^ 0x07) & 0xff : crc << 1;
    return crc;
}

/* The same by a table of the 16 upper halves, twice. */
unsigned crc8_table(unsigned crc, unsigned byte)
{
    static const unsigned char table[16] = {
        0x00, 0x07, 0x0e, 0x09, 0x1c, 0x1b, 0x12, 0x15, 0x38, 0x3f, 0x36, 0x31, 0x24, 0x23, 0x2a, 0x2d,
    };
    crc ^= byte;
    crc = (crc << 4 & 0xff) ^ table[crc >> 4];
    return (crc << 4 & 0xff) ^ table[crc >> 4];
}
