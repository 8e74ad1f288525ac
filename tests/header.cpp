// The header in C++: linked with the archive, whose symbols are not mangled, from two files that share one helper. Built of this file,
// once with OTHER and once without.
#include "anthegyra.h"

#include <stdio.h>

typedef unsigned (*helper)(uint64_t);

helper elsewhere();

#ifdef OTHER

helper elsewhere() { return anthegyra_refusal; }

#else

// as a header of the user's own would
inline unsigned parts(uint64_t n) { return anthegyra_refusal(n) * 100 + anthegyra_verdict(n) * 10 + anthegyra_count(n); }

int main()
{
    const uint64_t n = anthegyra_stretch_judge(NULL, 0, NULL, 0);
    const bool one = elsewhere() == anthegyra_refusal;
    const bool same = anthegyra_version() == ANTHEGYRA_VERSION;
    printf("header: linked by C++, refusal %u, %s helper, %s version\n", parts(n) / 100, one ? "one" : "more than one",
           same ? "the header's" : "another");
    return parts(n) == ANTHEGYRA_MISSING * 100u && one && same ? 0 : 1;
}

#endif
