/* Must not compile: record and answer are swapped. .ci/beside/2_c_examples tries each line that SWAPPED names. */
#include "kruzhvela.h"

static uint32_t region[64];
static kz_record record;
static kz_answer answer;
static kz_counts counts;

uint32_t swapped(void);
uint32_t swapped(void)
{
    (void)region, (void)record, (void)answer, (void)counts;
#if SWAPPED == 1
    return kz_allocate(region, 64, &answer, 40, &record);
#elif SWAPPED == 2
    return kz_allocate((uint32_t *)0, 64, region, 40, &answer);
#elif SWAPPED == 3
    return kz_check(region, 64, &record, &answer);
#elif SWAPPED == 4
    return kz_free(region, 64, &record, 16, &counts);
#else
    return kz_allocate(region, 64, &record, 40, &answer);
#endif
}
