/* The image that a call must have left. */
#include <string.h>

#include "judged.h"

const char *judge_image(const struct attempt *a)
{
    uint64_t fields[FIELDS];
    uint8_t image[64];
    uint32_t edition = edition_of(a->call);
    size_t n;
    memcpy(fields, a->arg, sizeof fields);
    if (a->call->way == SETTINGS_MOVE) {
        move_model(a, fields);
        edition = 3 - edition;
    }
    n = image_model(fields, edition, image);
    return memcmp(a->at[OUT], image, n) == 0 ? NULL : "the image is not that of its settings";
}
