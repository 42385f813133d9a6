#include "offsets.h"

#include <cstdio>
#include <cstring>

static const char offer[] = "v=0\nc=IN IP4 192.0.2.1\nm=audio 40000 RTP/AVP 0\nb=AS:64\n";

int main()
{
    frumxadda_row rows[1] = {};
    frumxadda_reply reply = frumxadda_offer(rows, 1, 0, 0, reinterpret_cast<const uint8_t *>(offer), std::strlen(offer));

    if (reply.refusal != 0 || rows[0].offer.present != 1 || rows[0].offer.said.media[0].port != 40000) {
        std::puts("header: the call from C++ went wrong");
        return 1;
    }
    std::puts("header: included from C++, a call made");
    return 0;
}
