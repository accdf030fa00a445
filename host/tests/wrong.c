/* A library that gives the listing of an empty session whatever it is given: damage has to tell that it differs. */
#include <string.h>

#include "ingthabor.h"

uint32_t ingthabor_session(const uint8_t *session, size_t session_length, uint8_t *listing, size_t listing_length) {
    static const char header[] = "nodes=0 mark=0 active=1\n";
    (void)session;
    (void)session_length;
    if (listing_length < strlen(header)) return UINT32_C(8) << 24;
    memcpy(listing, header, strlen(header));
    return (uint32_t)strlen(header);
}
