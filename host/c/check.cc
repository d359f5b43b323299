// That pasetone.h and pasetone_host.h are C++ too, and that their names link from there.
#include "pasetone_host.h"

#include <cstdio>

int main()
{
    uint8_t tuner[PASETONE_TUNER_SIZE];
    const pasetone_reply made = pasetone_tuner_new(PASETONE_R828D, 0x74, 28800000, tuner, sizeof tuner);
    const pasetone_reply hz = pasetone_get_if_freq(tuner, sizeof tuner);
    pasetone_host host;
    const bool opened = pasetone_host_open(&host, PASETONE_R828D, 0x74, PASETONE_V4, 28800000).refusal == PASETONE_DONE;
    const pasetone_tune_reply reply = pasetone_host_make(&host, pasetone_host_initialize, 0);
    const bool good = pasetone_stands(made) && made.refusal == PASETONE_DONE && hz.value == 2300000 && opened && reply.count == PASETONE_INITIALIZE_ENTRIES;
    std::printf("check: 1 checks, %d faults\n", good ? 0 : 1);
    return good ? 0 : 1;
}
