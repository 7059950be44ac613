/* thermostats.c: the built-in thermostats, which accept what they are asked for or stay silent. */
#include "thermostats.h"

static bool is_silent(const struct simple_site *site, uint16_t address)
{
    for (size_t i = 0; i < site->silent_count; i++) {
        if (site->silent[i] == address) {
            return true;
        }
    }
    return false;
}

static tha_heard ask(void *site, const tha_update *update)
{
    const struct simple_site *simple = site;
    tha_heard heard = {.answered = false, .value = 0};

    if (update->age >= simple->delay && !is_silent(simple, update->field.address)) {
        heard.answered = true;
        heard.value = update->value;
    }
    return heard;
}

struct thermostats simple_thermostats(struct simple_site *site)
{
    struct thermostats thermostats = {.ask = ask, .site = site};

    return thermostats;
}
