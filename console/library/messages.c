/* What the library says in words, and its version, in C. No figure rests on it. */
#include <nuggetbay.h>

uint32_t nb_version(void) { return NB_VERSION; }

const char *nb_refusal_message(uint8_t refusal) {
#define MESSAGE(number, name, message) [number] = message,
    static const char *const messages[] = {[NB_ACCEPTED] = "not refused", NB_REFUSALS(MESSAGE)};
    return refusal < sizeof messages / sizeof messages[0] ? messages[refusal] : "no such refusal";
}
