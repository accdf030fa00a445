/* For languages that load a shared library: ingthabor_run, which is inline in C, as a function. */
#include "ingthabor.h"

uint32_t ingthabor_guarded(const void *session, size_t session_length, void *listing, size_t listing_length);

uint32_t ingthabor_guarded(const void *session, size_t session_length, void *listing, size_t listing_length) {
    return ingthabor_run(session, session_length, listing, listing_length);
}
