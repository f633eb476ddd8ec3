/* Copies as many bytes as its caller says. The label names the loop's head for the notes, and its operands say
   in which registers the three values are there, whatever else the compiler does. */
#if defined __riscv
#define FIRST "a0"
#define SECOND "a1"
#define THIRD "a2"
#else
#define FIRST "r0"
#define SECOND "r1"
#define THIRD "r2"
#endif

void copy(unsigned char *target, const unsigned char *source, unsigned size)
{
    register unsigned char *to asm(FIRST) = target;
    register const unsigned char *from asm(SECOND) = source;
    register unsigned left asm(THIRD) = size;
    while (left != 0) {
        asm volatile("copy_head:" : "+r"(to), "+r"(from), "+r"(left));
        *to++ = *from++;
        left--;
    }
}
