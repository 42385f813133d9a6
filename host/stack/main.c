/* How much stack the library takes. Each function is called on a stack of its own, which is painted before, and the deepest byte that it changed is
 * looked for. The header says less than 64 KiB. */
#include <frumxadda.h>

#include <stdio.h>
#include <string.h>
#include <ucontext.h>

enum { ROOM = 256 * 1024, MOST = 64 * 1024, PAINT = 0xa5, TEXT = 4096, FILE_BYTES = 49152, PRINTED = 1572992 };

static uint8_t stack[ROOM], offer[TEXT + 1], answer[TEXT + 1], out[2048], file[FILE_BYTES], printed[PRINTED];
static size_t offer_len, answer_len, file_len;
static struct frumxadda_row book[16];
static struct frumxadda_reading offered, answered;
static const struct frumxadda_settings settings = { { 100000, 100000 }, { 5000, 5000 }, { 4294967295u, 4294967295u } };
static const struct frumxadda_asked asked = { 255, 9, 1000, 1000 };

static void nothing(void) { }
static void text(void) { frumxadda_text(offer, offer_len); }
static void read_offer(void) { offered = frumxadda_read(offer, offer_len); }
static void read_answer(void) { answered = frumxadda_read(answer, answer_len); }
static void deciding_line(void) { frumxadda_deciding_line(offer, offer_len, answer, answer_len, 8); }
static void open_offer(void) { frumxadda_offer(book, 16, 3, 1, offer, offer_len); }
static void complete(void) { frumxadda_answer(settings, book, 16, 3, answer, answer_len); }
static void bearer(void) { frumxadda_bearer(book, 16, 3, asked); }
static void statement(void) { frumxadda_statement(book, 16, 3, out, sizeof out); }
static void measured_statement(void) { frumxadda_statement(book, 16, 3, out, 509); }
static void cancel(void) { frumxadda_cancel(book, 16, 3); }
static void close_session(void) { frumxadda_close(book, 16, 3); }
static void before(void) { frumxadda_before(book[3].held); }
static void gates(void) { frumxadda_gates(book[3].held.components[0]); }
static void media_destinations(void) { frumxadda_media_destinations(book[3].held.components[0]); }
static void rtcp_destinations(void) { frumxadda_rtcp_destinations(book[3].held.components[0]); }
static void authorise(void) { frumxadda_authorise(book[3].held, asked); }
static void play(void) { frumxadda_play(file, file_len, printed, sizeof printed); }
static void measured_play(void) { frumxadda_play(file, file_len, printed, 2000); }

static struct frumxadda_descriptions said(const struct frumxadda_reading *t)
{
    struct frumxadda_descriptions d = { .count = t->count };

    memcpy(d.media, t->media, sizeof d.media);
    return d;
}

static void fit(void) { frumxadda_fit(said(&offered), said(&answered)); }
static void derive(void) { frumxadda_derive(settings, 1, frumxadda_before(book[3].held), said(&offered), said(&answered)); }

/* A text of eight media sections, filled up to 4,096 bytes. */
static size_t write_text(uint8_t *at, unsigned port)
{
    char *s = (char *)at;
    size_t n = (size_t)sprintf(s, "v=0\r\nc=IN IP4 192.0.2.1\r\n");

    for (unsigned i = 0; i < 8; i++)
        n += (size_t)sprintf(s + n, "m=video %u RTP/AVP 31\r\nc=IN IP4 192.0.2.%u\r\nb=AS:64\r\nb=RS:800\r\nb=RR:2400\r\na=sendonly\r\n", port + 2 * i, i);
    while (n + 5 <= TEXT)
        n += (size_t)sprintf(s + n, "a=x\r\n");
    return n;
}

/* Sixteen sessions, each offered, answered, borne and closed. */
static size_t write_file(uint8_t *at)
{
    char *s = (char *)at;
    size_t n = (size_t)sprintf(s, "6\n100000\n100000\n5000\n5000\n4294967295\n4294967295\n2\n%zu\n", offer_len);

    memcpy(s + n, offer, offer_len);
    n += offer_len;
    n += (size_t)sprintf(s + n, "%zu\n", answer_len);
    memcpy(s + n, answer, answer_len);
    n += answer_len;
    n += (size_t)sprintf(s + n, "64\n");
    for (unsigned i = 0; i < 16; i++)
        n += (size_t)sprintf(s + n, "O %u 0 0\nA %u 1\nB %u 255 9 0 0\nX %u\n", i, i, i, i);
    return n;
}

static ucontext_t here, there;

/* The bytes of the stack that a call changed, down to the deepest one. */
static size_t taken(void (*call)(void))
{
    size_t left = 0;

    memset(stack, PAINT, sizeof stack);
    getcontext(&there);
    there.uc_stack = (stack_t) { .ss_sp = stack, .ss_size = sizeof stack };
    there.uc_link = &here;
    makecontext(&there, call, 0);
    swapcontext(&here, &there);
    while (left < sizeof stack && stack[left] == PAINT)
        left++;
    return sizeof stack - left;
}

static const struct { const char *name; void (*call)(void); } calls[] = {
    { "text", text }, { "read", read_offer }, { "read", read_answer }, { "deciding_line", deciding_line }, { "fit", fit },
    { "offer", open_offer }, { "answer", complete }, { "offer", open_offer }, { "cancel", cancel }, { "bearer", bearer },
    { "statement", statement }, { "statement", measured_statement }, { "before", before }, { "derive", derive }, { "gates", gates },
    { "media_destinations", media_destinations }, { "rtcp_destinations", rtcp_destinations }, { "authorise", authorise },
    { "close", close_session }, { "play", play }, { "play", measured_play },
};

int main(void)
{
    size_t none, most = 0;
    const char *deepest = "";

    offer_len = write_text(offer, 40000);
    answer_len = write_text(answer, 50000);
    file_len = write_file(file);
    none = taken(nothing);
    for (size_t i = 0; i < sizeof calls / sizeof *calls; i++) {
        size_t n = taken(calls[i].call) - none;
        if (n > most) {
            most = n;
            deepest = calls[i].name;
        }
    }
    if (offered.count != 8 || book[3].held.completed || memcmp(printed, "calls 64\n", 9) != 0) {
        printf("stack: the calls were not made\n");
        return 1;
    }
    printf("stack: %zu bytes at most, by frumxadda_%s\n", most, deepest);
    return most < MOST ? 0 : 1;
}
