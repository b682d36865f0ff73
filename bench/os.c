/* What a program of the kit asks for that the C library of another machine than x86-64 has not. */
#include <errno.h>

int rattle_errno(void) { return errno; }

/* Before it begins, a program asks which instructions of x86-64 the processor has (bits of eight
   words). It was compiled anew for this machine, so that all that it asks for is there. */
const unsigned *__x86_get_cpuid_feature_leaf(unsigned leaf)
{
    static const unsigned all[8] = { ~0u, ~0u, ~0u, ~0u, ~0u, ~0u, ~0u, ~0u };
    (void)leaf;
    return all;
}
