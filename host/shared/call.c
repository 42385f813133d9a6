#include "call.h"

static struct frumxadda_settings settings_of(const struct second_ask *ask)
{
    return (struct frumxadda_settings) { { ask->settings.media_up, ask->settings.media_down },
        { ask->settings.rtcp_up, ask->settings.rtcp_down }, { ask->pool.up, ask->pool.down } };
}

struct frumxadda_reply lent_call(struct frumxadda_row *rows, size_t count, const struct second_ask *ask, uint8_t *out)
{
    struct frumxadda_asked asked = { ask->asked.set, ask->asked.class_number, ask->asked.up, ask->asked.down };
    size_t session = (size_t)ask->session;

    switch (ask->letter) {
    case SECOND_OFFER:
        return frumxadda_offer(rows, count, session, ask->origin, ask->text, ask->len);
    case SECOND_ANSWER:
        return frumxadda_answer(settings_of(ask), rows, count, session, ask->text, ask->len);
    case SECOND_CANCEL:
        return frumxadda_cancel(rows, count, session);
    case SECOND_CLOSE:
        return frumxadda_close(rows, count, session);
    case SECOND_BEARER:
        return frumxadda_bearer(rows, count, session, asked);
    default:
        return frumxadda_statement(rows, count, session, out, ask->room);
    }
}
