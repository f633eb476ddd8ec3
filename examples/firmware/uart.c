/* A frame is 0x7e, the number of its bytes, and the bytes. */
#define MARK 0x7eu
#define MOST 6u

/* Copies the bytes of a frame and returns their number, or -1 if it is no frame. */
int parse_frame(const unsigned char *frame, unsigned char *bytes)
{
    unsigned count = frame[1];
    if (frame[0] != MARK || count > MOST)
        return -1;
    for (unsigned i = 0; i < count; i++)
        bytes[i] = frame[2 + i];
    return count;
}

/* Takes one byte too many: MOST + 1 passes. */
int parse_frame_broken(const unsigned char *frame, unsigned char *bytes)
{
    unsigned count = frame[1];
    if (frame[0] != MARK || count > MOST + 1)
        return -1;
    for (unsigned i = 0; i < count; i++)
        bytes[i] = frame[2 + i];
    return count;
}
