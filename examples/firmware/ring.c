/* A ring buffer of received bytes: one place stays free. */
#define SIZE 16u

struct ring {
    unsigned put;
    unsigned get;
    unsigned char data[SIZE];
};

struct ring rx;

/* 1 if the byte was taken, 0 if the buffer is full. */
int ring_put(unsigned char byte)
{
    unsigned next = (rx.put + 1) % SIZE;
    if (next == rx.get)
        return 0;
    rx.data[rx.put] = byte;
    rx.put = next;
    return 1;
}

/* The oldest byte, or -1 if there is none. */
int ring_get(void)
{
    if (rx.put == rx.get)
        return -1;
    int byte = rx.data[rx.get];
    rx.get = (rx.get + 1) % SIZE;
    return byte;
}

/* Forgets to wrap: the byte after the last place is the next variable's. */
int ring_put_broken(unsigned char byte)
{
    unsigned next = rx.put + 1;
    if (next == rx.get)
        return 0;
    rx.data[rx.put] = byte;
    rx.put = next;
    return 1;
}
