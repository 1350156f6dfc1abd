/* What the built archive answers for every Lmax from 64 to 1,518 and every M from 1 to 8,192, in this order: the packets of a
   message in two bytes, the greater one first. */
#include "avulgjesh.h"

int putchar(int byte);

int main(void)
{
    avulgjesh_number lmax, m;
    for (lmax = 64; lmax <= 1518; lmax++)
        for (m = 1; m <= 8192; m++) {
            struct avulgjesh_rule_answer is = avulgjesh_packets_of(m, lmax);
            if (is.number != 0 || 65535 < is.value)
                return 1;
            putchar((int)(is.value / 256));
            putchar((int)(is.value % 256));
        }
    return 0;
}
