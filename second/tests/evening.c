#undef NDEBUG
#include "../generate/evening.h"
#include "../generate/write_calls.h"
#include "../server/calls.h"
#include "../server/evening.h"

#include <assert.h>
#include <stdio.h>
#include <stdlib.h>
#include <string.h>

#define USUAL "6\n100000\n100000\n5000\n5000\n1000000\n1000000\n"
#define POOL(up, down) "6\n100000\n100000\n5000\n5000\n" #up "\n" #down "\n"
#define FIRST "v=0\nc=IN IP4 192.0.2.1\nm=audio 40000 RTP/AVP 0\nb=AS:64\n"
#define ANSWER "v=0\nc=IN IP4 192.0.2.9\nm=audio 50000 RTP/AVP 0\n"
#define REMOVED "v=0\nm=audio 0 RTP/AVP 0\n"
#define TEXTS(...) (const char *const[]) { __VA_ARGS__, NULL }
#define BYTES(bytes) bytes, sizeof(bytes) - 1

static unsigned tests;

/* The file being put together; above the most that a file may have. */
static uint8_t file[SECOND_FILE_BYTES + 1000];
static size_t len;

static void put(const void *bytes, size_t count)
{
    assert(count <= sizeof file - len);
    memcpy(file + len, bytes, count);
    len += count;
}

static void put_word(const char *word)
{
    put(word, strlen(word));
}

static void put_number(size_t number)
{
    char digits[24];

    snprintf(digits, sizeof digits, "%zu\n", number);
    put_word(digits);
}

static void start(const char *bytes)
{
    len = 0;
    put_word(bytes);
}

/* All zeros for settings, no texts and no calls but these. */
static void start_calls(const char *calls)
{
    start("6\n0\n0\n0\n0\n0\n0\n0\n");
    put_word(calls);
}

static void put_texts(const char *const *texts)
{
    size_t count = 0;

    while (texts[count])
        count++;
    put_number(count);
    for (size_t i = 0; i < count; i++) {
        put_number(strlen(texts[i]));
        put_word(texts[i]);
    }
}

static void put_calls(const char *lines)
{
    size_t count = 0;

    for (const char *p = lines; *p; p++)
        count += *p == '\n';
    put_number(count);
    put_word(lines);
}

static void check_unchanged(const uint8_t *out, size_t room)
{
    for (size_t i = 0; i < room; i++)
        assert(out[i] == 'x');
}

/* A copy of exactly that room, so that the sanitizer sees any byte past it. */
static void check_room(const uint8_t *copy, size_t room, const char *output, size_t output_len)
{
    uint8_t *out = malloc(room ? room : 1);

    memset(out, 'x', room);
    assert(second_evening_play(copy, len, out, room) == output_len);
    if (room < output_len) {
        check_unchanged(out, room);
    } else {
        assert(memcmp(out, output, output_len) == 0);
        check_unchanged(out + output_len, room - output_len);
    }
    free(out);
}

/* The file as it stands, with ample room, just enough, one byte too few and none. */
static void check_output(const char *output, size_t output_len)
{
    uint8_t *copy = malloc(len ? len : 1);

    memcpy(copy, file, len);
    check_room(copy, SECOND_EVENING_BYTES, output, output_len);
    check_room(copy, output_len + 1, output, output_len);
    check_room(copy, output_len, output, output_len);
    check_room(copy, output_len - 1, output, output_len);
    assert(second_evening_play(copy, len, NULL, 0) == output_len);
    assert(memcmp(copy, file, len) == 0);
    free(copy);
}

static void check(const char *output)
{
    check_output(output, strlen(output));
}

static void check_evening(const char *settings, const char *const *texts, const char *calls, const char *output)
{
    start(settings);
    put_texts(texts);
    put_calls(calls);
    check(output);
}

/* First's offer and answer with lines added, then a bearer of class 2 that asks for nothing. */
static void check_first(const char *offered, const char *answered, const char *output)
{
    char offer[200], answer[200];

    snprintf(offer, sizeof offer, FIRST "%s", offered);
    snprintf(answer, sizeof answer, ANSWER "%s", answered);
    check_evening(USUAL, TEXTS(offer, answer), "O 0 0 0\nA 0 1\nB 0 1 2 0 0\n", output);
}

static void test_paper(void)
{
    start("6\n100000\n100000\n5000\n5000\n1000000\n1000000\n2\n"
          "55\nv=0\nc=IN IP4 192.0.2.1\nm=audio 40000 RTP/AVP 0\nb=AS:64\n"
          "47\nv=0\nc=IN IP4 192.0.2.9\nm=audio 50000 RTP/AVP 0\n"
          "6\nO 0 0 0\nA 0 1\nB 0 1 2 105000 67200\nB 0 1 2 105001 67200\nX 0\nX 0\n");
    check("calls 6\n1 O 0 0\n2 A 0 0 105000 67200\n3 B 0 0 2 105000 67200\n4 B 17 0 2 105000 67200\n"
          "5 X 0 0 -105000 -67200\n6 X 13 0 0 0\nbooked 0 0\n");
    tests++;
}

static void test_cases_a_to_f(void)
{
    check_first("", "", "calls 3\n1 O 0 0\n2 A 0 0 105000 67200\n3 B 0 0 2 105000 67200\nbooked 105000 67200\n");
    check_evening(USUAL, TEXTS(FIRST, ANSWER, REMOVED), "O 0 0 0\nA 0 1\nO 0 0 2\nA 0 2\nO 0 0 2\nA 0 2\n",
        "calls 6\n1 O 0 0\n2 A 0 0 105000 67200\n3 O 0 0\n4 A 0 0 -105000 -67200\n5 O 0 0\n6 A 0 0 0 0\nbooked 0 0\n");
    check_first("", "b=RS:800\nb=RR:2400\n",
        "calls 3\n1 O 0 0\n2 A 0 0 103200 67200\n3 B 0 0 2 103200 67200\nbooked 103200 67200\n");
    check_first("", "b=RS:800\n",
        "calls 3\n1 O 0 0\n2 A 0 0 105000 67200\n3 B 0 0 2 105000 67200\nbooked 105000 67200\n");
    check_first("", "b=RR:8000\n",
        "calls 3\n1 O 0 0\n2 A 0 0 105000 72000\n3 B 0 0 2 105000 72000\nbooked 105000 72000\n");
    check_first("a=inactive\n", "a=sendrecv\n",
        "calls 3\n1 O 0 0\n2 A 0 0 105000 67200\n3 B 0 0 2 105000 67200\nbooked 105000 67200\n");
    tests++;
}

static void test_cases_g_h(void)
{
    const char *const *texts = TEXTS(FIRST "a=sendonly\n", ANSWER "a=recvonly\n", FIRST, ANSWER);

    check_evening(USUAL, texts, "O 0 0 0\nA 0 1\nB 0 1 4 105000 3200\nB 0 1 2 105000 3200\n",
        "calls 4\n1 O 0 0\n2 A 0 0 105000 3200\n3 B 0 0 4 105000 3200\n4 B 17 0 4 105000 3200\nbooked 105000 3200\n");
    check_evening(USUAL, texts, "O 0 0 2\nA 0 3\nO 0 0 0\nA 0 1\nB 0 1 2 105000 67200\n",
        "calls 5\n1 O 0 0\n2 A 0 0 105000 67200\n3 O 0 0\n4 A 0 0 0 0\n5 B 0 0 2 105000 67200\nbooked 105000 67200\n");
    tests++;
}

/* Case g with the direction in the session section (02, request 1), and 8 for a second one there. */
static void test_whole_call(void)
{
#define WHOLE(direction) "v=0\nc=IN IP4 192.0.2.1\na=" direction "\nm=audio 40000 RTP/AVP 0\nb=AS:64\n"
    check_evening(USUAL, TEXTS(WHOLE("sendonly"), "v=0\nc=IN IP4 192.0.2.9\na=recvonly\nm=audio 50000 RTP/AVP 0\n",
            WHOLE("sendonly\na=sendonly")),
        "O 0 0 0\nA 0 2\nA 0 1\nB 0 1 4 105000 3200\nB 0 1 2 105000 3200\nO 1 0 2\n",
        "calls 6\n1 O 0 0\n2 A 8 4 0 0\n3 A 0 0 105000 3200\n4 B 0 0 4 105000 3200\n5 B 17 0 4 105000 3200\n6 O 8 4\n"
        "booked 105000 3200\n");
#undef WHOLE
    tests++;
}

/* Clients that write TIAS (02, request 7): alone, beside an AS in the re-offer, and twice. */
static void test_tias(void)
{
#define OFFER(lines) "v=0\nc=IN IP4 192.0.2.1\nb=TIAS:x\nm=audio 40000 RTP/AVP 0\n" lines
    check_evening(POOL(105000, 67202), TEXTS(OFFER("b=TIAS:64001\n"), ANSWER, OFFER("b=TIAS:64001\nb=AS:64\n"),
            OFFER("b=TIAS:64001\nb=TIAS:64001\n"), ANSWER "b=TIAS:4294967296\n", ANSWER "b=RR:3202\n"),
        "O 0 0 3\nO 0 0 0\nA 0 4\nA 0 5\nA 0 1\nB 0 1 2 105000 67202\nB 0 1 2 105000 67203\nO 0 0 2\nA 0 1\n",
        "calls 9\n1 O 7 6\n2 O 0 0\n3 A 7 4 0 0\n4 A 16 0 0 0\n5 A 0 0 105000 67202\n6 B 0 0 2 105000 67202\n"
        "7 B 17 0 2 105000 67202\n8 O 0 0\n9 A 0 0 0 -2\nbooked 105000 67200\n");
#undef OFFER
    tests++;
}

static void test_case_i(void)
{
#define PORT(port) "v=0\nc=IN IP4 192.0.2.1\nm=audio " port " 0\n"
    check_evening(USUAL, TEXTS(PORT("1 RTP/AVP") "b=AS:4294967\n", PORT("1 RTP/AVP") "b=AS:4294968\n",
            PORT("65534 RTP/AVP"), PORT("65535 RTP/AVP"), PORT("65535 udp")),
        "O 0 0 0\nO 1 0 1\nO 2 0 2\nO 3 0 3\nO 4 0 4\n",
        "calls 5\n1 O 0 0\n2 O 7 4\n3 O 0 0\n4 O 3 3\n5 O 0 0\nbooked 0 0\n");
#undef PORT
    tests++;
}

static void test_cases_j_k(void)
{
    check_evening(POOL(105000, 67200), TEXTS(FIRST, ANSWER), "O 0 0 0\nA 0 1\n",
        "calls 2\n1 O 0 0\n2 A 0 0 105000 67200\nbooked 105000 67200\n");
    check_evening(POOL(104999, 67200), TEXTS(FIRST, ANSWER), "O 0 0 0\nA 0 1\nC 0\n",
        "calls 3\n1 O 0 0\n2 A 16 0 0 0\n3 C 0 0\nbooked 0 0\n");
    check_evening(POOL(105000, 67199), TEXTS(FIRST, ANSWER), "O 0 0 0\nA 0 1\n",
        "calls 2\n1 O 0 0\n2 A 16 0 0 0\nbooked 0 0\n");
    check_evening(POOL(1000000, 4294967295),
        TEXTS("v=0\nc=IN IP4 192.0.2.1\nm=audio 40000 RTP/AVP 0\nb=AS:300000\n", ANSWER),
        "O 0 0 0\nA 0 1\nB 0 1 2 105000 256000000\nB 0 1 2 105000 256000001\n",
        "calls 4\n1 O 0 0\n2 A 0 0 105000 315000000\n3 B 0 0 2 105000 256000000\n4 B 17 0 2 105000 256000000\n"
        "booked 105000 315000000\n");
    tests++;
}

/* Well formed, whatever is refused in them. */
static void test_refused_calls(void)
{
    check_evening(USUAL, TEXTS(FIRST), "O 16 0 0\nO 0 2 0\nO 4294967295 4294967295 0\nB 0 1 3 0 0\nB 0 0 0 0 0\n",
        "calls 5\n1 O 10 0\n2 O 10 0\n3 O 10 0\n4 B 10 0 0 0 0\n5 B 10 0 0 0 0\nbooked 0 0\n");
    check_evening(USUAL, TEXTS(FIRST),
        "A 15 0\nC 15\nX 15\nB 15 4294967295 9 4294967295 4294967295\nO 15 1 0\nX 15\nO 15 0 0\n",
        "calls 7\n1 A 12 0 0 0\n2 C 12 0\n3 X 13 0 0 0\n4 B 13 0 0 0 0\n5 O 0 0\n6 X 11 0 0 0\n7 O 11 0\nbooked 0 0\n");
    check_evening(USUAL, TEXTS(FIRST, ANSWER "m=x 0 udp 0\n", ANSWER, "v=0\nm=video 0 RTP/AVP 0\n", "v=0\n"),
        "O 0 0 0\nA 0 1\nA 0 3\nA 0 2\nB 0 2 9 0 0\nB 0 0 9 0 0\nO 0 0 4\n",
        "calls 7\n1 O 0 0\n2 A 15 0 0 0\n3 A 15 1 0 0\n4 A 0 0 105000 67200\n5 B 18 0 0 0 0\n6 B 18 0 0 0 0\n7 O 14 0\n"
        "booked 105000 67200\n");
    tests++;
}

/* Texts of any length, and none; lengths and counts with zeros before them. */
static void test_well_formed(void)
{
    static char text[4098];

    start_calls("0\n");
    check("calls 0\nbooked 0 0\n");
    start_calls("1\nX 0\n");
    check("calls 1\n1 X 13 0 0 0\nbooked 0 0\n");
    start("0000000006\n0000000000\n0\n0\n0\n4294967295\n0004294967\n0000000001\n0000000000\n0000000001\n"
          "O 0000000000 0000000001 0000000000\n");
    check("calls 1\n1 O 2 1\nbooked 0 0\n");
    memset(text, 'x', 4097);
    check_evening(USUAL, TEXTS("", text), "O 0 0 0\nO 0 0 1\n", "calls 2\n1 O 2 1\n2 O 1 0\nbooked 0 0\n");
    strcpy(text, "v=0\n");
    for (size_t at = 4; at < 4093; at += 3)
        strcpy(text + at, "a=\n");
    strcpy(text + 4093, "a=");
    check_evening(USUAL, TEXTS(text), "O 0 0 0\n", "calls 1\n1 O 2 1365\nbooked 0 0\n");
    tests++;
}

static void check_malformed(const char *bytes, size_t count)
{
    len = 0;
    put(bytes, count);
    check("bad file\n");
}

#define HEAD "6\n1\n2\n3\n4\n5\n6\n"
#define ONE HEAD "1\n4\nv=0\n"

static void test_malformed_settings(void)
{
    static const char *const files[] = { "", "\n", "6", "6\n", " ", "5\n1\n2\n3\n4\n5\n0\n0\n",
        "7\n1\n2\n3\n4\n5\n6\n7\n0\n0\n", "5\n1\n2\n3\n4\n5\n6\n0\n0\n", "7\n1\n2\n3\n4\n5\n6\n0\n0\n", "0\n0\n0\n",
        "6\n1\n2\n3\n4\n5\n0\n0\n", "6\n1\n2\n3\n4\n5\n6\n7\n0\n0\n", "6\r\n1\n2\n3\n4\n5\n6\n0\n0\n",
        "6\n1\n2\n3\n4\n5\n6\r\n0\n0\n", "6 \n1\n2\n3\n4\n5\n6\n0\n0\n", " 6\n1\n2\n3\n4\n5\n6\n0\n0\n",
        "\n6\n1\n2\n3\n4\n5\n6\n0\n0\n", "6 1 2 3 4 5 6\n0\n0\n", "00000000006\n1\n2\n3\n4\n5\n6\n0\n0\n",
        "6\n4294967296\n2\n3\n4\n5\n6\n0\n0\n", "6\n1\n2\n3\n4\n5\n4294967296\n0\n0\n",
        "6\n1\n2\n3\n4\n9999999999\n6\n0\n0\n", "6\n1\n00000000002\n3\n4\n5\n6\n0\n0\n",
        "6\n-1\n2\n3\n4\n5\n6\n0\n0\n", "6\n+1\n2\n3\n4\n5\n6\n0\n0\n", "6\n1\n\n3\n4\n5\n6\n0\n0\n",
        "6\n1\n2a\n3\n4\n5\n6\n0\n0\n", "6\n1\n2\n3\n4\n:\n6\n0\n0\n", "6\n1\n2\n3\n/\n5\n6\n0\n0\n" };

    for (size_t i = 0; i < sizeof files / sizeof files[0]; i++)
        check_malformed(files[i], strlen(files[i]));
    assert(second_evening_play(NULL, 0, NULL, 0) == strlen("bad file\n"));
    check_malformed(BYTES("\0"));
    check_malformed(BYTES(HEAD "0\n0\n\0"));
    tests++;
}

static void test_malformed_texts(void)
{
    static const char *const files[] = { HEAD, HEAD "\n", HEAD "0", HEAD "0\n", HEAD "1\n0\n", HEAD "2\n4\nv=0\n0\n",
        HEAD "0\n4\nv=0\n0\n", HEAD "1\n5\nv=0\n0\n", HEAD "1\n3\nv=0\n0\n", HEAD "1\n7\nv=0\n0\n",
        HEAD "1\n4\nv=0\n\n0\n", HEAD "1\n4294967295\nv=0\n0\n", HEAD "1\n4294967296\nv=0\n0\n",
        HEAD "1\n00000000004\nv=0\n0\n", HEAD "1\n4\r\nv=0\n0\n", HEAD "1\n 4\nv=0\n0\n", HEAD "1\n4 \nv=0\n0\n",
        HEAD "1\n-4\nv=0\n0\n", HEAD "1\n4v=0\n0\n", HEAD "1\nv=0\n0\n", HEAD "01 \n4\nv=0\n0\n",
        HEAD "4294967295\n4\nv=0\n0\n" };

    for (size_t i = 0; i < sizeof files / sizeof files[0]; i++)
        check_malformed(files[i], strlen(files[i]));
    tests++;
}

static void test_malformed_calls(void)
{
    static const char *const calls[] = { "", "\n", "1", "1\n", "0", "0\n\n", "0\nC 0\n", "0\n ", "2\nC 0\n",
        "1\nC 0\nC 0\n", "4294967295\nC 0\n", "12283\nC 0\n", "00000000001\nC 0\n", "1\nC 0", "1\nC 0\r\n",
        "1\nC 0 \n", "1\nC  0\n", "1\n C 0\n", "1\nC0\n", "1\nC\n", "1\nC \n", "1\n\nC 0\n", "1\nC 0\n\n", "1\nC 0\n0",
        "1\nC 0\nX 0\n", "1\nC 0 0\n", "1\nC\t0\n", "1\nc 0\n", "1\nx 0\n", "1\no 0 0 0\n", "1\na 0 0\n",
        "1\nb 0 1 2 0 0\n", "1\nS 0\n", "1\nD 0\n", "1\nCC 0\n", "1\n0\n", "1\nC -1\n", "1\nC +1\n",
        "1\nC 4294967296\n", "1\nC 00000000000\n", "1\nX 9999999999\n", "1\nX\n", "1\nX 0 0\n", "1\nA 0\n",
        "1\nA 0 0 0\n", "1\nA 0 1\n", "1\nA 16 1\n", "1\nA 0  0\n", "1\nA 0 0 \n", "1\nA 0 4294967295\n",
        "1\nA 0 4294967296\n", "1\nO 0 0\n", "1\nO 0 0 0 0\n", "1\nO 0 0 1\n", "1\nO 99 2 1\n",
        "1\nO 0 4294967296 0\n", "1\nO 0 0  0\n", "1\nO 0 0 0\r\n", "1\nB 0 1 2 0\n", "1\nB 0 1 2 0 0 0\n",
        "1\nB 0 1 2 0 0 \n", "1\nB 0 1 2 4294967296 0\n", "1\nB 0 1 2 0 4294967296\n", "1\nB 0 4294967296 2 0 0\n",
        "1\nB 0 1 4294967296 0 0\n", "1\nB 0 1  0 0\n", "1\nB 0 1 2 0 a\n", "2\nC 0\nA 0 1\n" };

    for (size_t i = 0; i < sizeof calls / sizeof calls[0]; i++) {
        start(ONE);
        put_word(calls[i]);
        check("bad file\n");
    }
    start(HEAD "0\n1\nO 0 0 0\n");
    check("bad file\n");
    start(ONE "1\nA 0 0\n");
    check("calls 1\n1 A 12 0 0 0\nbooked 0 0\n");
    tests++;
}

/* Every start of a good file that is not the whole file is malformed, so a missing last LF is. */
static void test_cut(void)
{
    static const char whole[] = ONE "2\nO 0 0 0\nB 0 1 2 3 4\n";

    for (size_t count = 0; count < sizeof whole - 1; count++)
        check_malformed(whole, count);
    start(whole);
    check("calls 2\n1 O 0 0\n2 B 13 0 0 0 0\nbooked 0 0\n");
    tests++;
}

static void test_bounds_of_texts(void)
{
    for (size_t count = 63; count <= 65; count++) {
        start(HEAD);
        put_number(count);
        for (size_t i = 0; i < count; i++)
            put_word("0\n");
        put_word("1\nO 0 0 62\n");
        check(count <= SECOND_FILE_TEXTS ? "calls 1\n1 O 2 1\nbooked 0 0\n" : "bad file\n");
    }
    tests++;
}

static void test_bounds_of_bytes(void)
{
    static const uint8_t text[SECOND_FILE_BYTES];

    for (size_t bytes = SECOND_FILE_BYTES - 1; bytes <= SECOND_FILE_BYTES + 1; bytes++) {
        start(HEAD "1\n");
        size_t rest = bytes - len - strlen("00000\n" "1\nO 0 0 0\n");
        put_number(rest);
        put(text, rest);
        put_word("1\nO 0 0 0\n");
        assert(len == bytes);
        check(bytes <= SECOND_FILE_BYTES ? "calls 1\n1 O 1 0\nbooked 0 0\n" : "bad file\n");
    }
    tests++;
}

/* As many calls as a file can have. */
static void test_most_calls(void)
{
    static char output[SECOND_EVENING_BYTES + 1];
    size_t at = (size_t)sprintf(output, "calls %d\n", SECOND_FILE_CALLS);

    start_calls("12282\n");
    for (int i = 1; i <= SECOND_FILE_CALLS; i++) {
        put_word("X 0\n");
        at += (size_t)sprintf(output + at, "%d X 13 0 0 0\n", i);
    }
    strcpy(output + at, "booked 0 0\n");
    assert(SECOND_FILE_BYTES - len < strlen("X 0\n"));
    check(output);
    start_calls("12283\n");
    for (int i = 0; i <= SECOND_FILE_CALLS; i++)
        put_word("X 0\n");
    check("bad file\n");
    tests++;
}

/* Calls that give the longest lines for the bytes they have: the whole pool is booked and freed, again and again. */
static void test_longest_output(void)
{
    static char output[SECOND_EVENING_BYTES + 1];
    enum { ROUNDS = 2725 };
    size_t at = (size_t)sprintf(output, "calls %d\n", 3 * ROUNDS);

    start("6\n4294967295\n4294967295\n0\n0\n4294967295\n4294967295\n");
    put_texts(TEXTS("v=0\nc=IN IP4 1.2.3.4\nm=x 1 udp 0\n"));
    put_number(3 * ROUNDS);
    for (int i = 1; i <= 3 * ROUNDS; i += 3) {
        put_word("O 0 0 0\nA 0 0\nX 0\n");
        at += (size_t)sprintf(output + at,
            "%d O 0 0\n%d A 0 0 4294967295 4294967295\n%d X 0 0 -4294967295 -4294967295\n", i, i + 1, i + 2);
    }
    strcpy(output + at, "booked 0 0\n");
    assert(len <= SECOND_FILE_BYTES && SECOND_FILE_BYTES - len < strlen("O 0 0 0\nA 0 0\nX 0\n"));
    check(output);
    printf("longest output: %zu bytes\n", strlen(output));
    tests++;
}

static bool has_zeros(const struct second_calls *calls)
{
    static uint8_t plain[SECOND_GENERATED_FILE_BYTES];
    size_t count = second_write_calls(calls, 0, plain, sizeof plain);

    return count != len || memcmp(plain, file, len) != 0;
}

/* How often an answer filled the pool to its last bit, and how often a refusal number was given. */
struct seen {
    unsigned long refusals[21], full, malformed, zeros, longest, too_long;
};

static void see_calls(const struct second_calls *calls, struct seen *seen)
{
    struct second_row rows[SECOND_BOOK_ROWS] = { 0 };
    struct second_book book = { rows, SECOND_BOOK_ROWS };

    for (uint32_t i = 0; i < calls->call_count; i++) {
        struct second_ask ask = second_call_ask(calls, &calls->calls[i]);
        struct second_reply reply = second_play(book, &ask, NULL);
        struct second_rates booked = second_booked_in_all(book);
        seen->refusals[reply.refusal]++;
        if (reply.change_up > 0 && (booked.up == calls->pool.up || booked.down == calls->pool.down))
            seen->full++;
    }
}

static void see_file(struct seen *seen)
{
    static char output[SECOND_EVENING_BYTES];
    static struct second_calls calls;
    size_t bytes = second_evening_play(file, len, (uint8_t *)output, sizeof output);

    check_output(output, bytes);
    seen->longest += len == SECOND_FILE_BYTES;
    seen->too_long += len > SECOND_FILE_BYTES;
    if (!second_read_calls(file, len, &calls)) {
        assert(bytes == strlen("bad file\n"));
        seen->malformed++;
        return;
    }
    seen->zeros += has_zeros(&calls);
    see_calls(&calls, seen);
}

static void test_generated(void)
{
    struct seen seen = { 0 };
    uint64_t seed = 1;

    for (int i = 0; i < 240; i++) {
        len = second_generate_evening(&seed, file);
        see_file(&seen);
    }
    printf("generated:");
    for (int number = 0; number <= 18; number++) {
        printf(" %lu", seen.refusals[number]);
        assert(seen.refusals[number] >= 4);
    }
    printf(", pool full %lu, bad file %lu, zeros %lu, 49,152 bytes %lu, more %lu\n", seen.full, seen.malformed,
        seen.zeros, seen.longest, seen.too_long);
    assert(seen.full >= 100 && seen.malformed >= 20 && seen.malformed <= 40 && seen.zeros >= 10);
    assert(seen.longest >= 1 && seen.too_long >= 1);
    tests++;
}

int main(void)
{
    test_paper();
    test_cases_a_to_f();
    test_cases_g_h();
    test_whole_call();
    test_tias();
    test_case_i();
    test_cases_j_k();
    test_refused_calls();
    test_well_formed();
    test_malformed_settings();
    test_malformed_texts();
    test_malformed_calls();
    test_cut();
    test_bounds_of_texts();
    test_bounds_of_bytes();
    test_most_calls();
    test_longest_output();
    test_generated();
    printf("second: %u tests of evenings passed\n", tests);
    return 0;
}
