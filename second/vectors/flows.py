"""Writes the stored exchanges to standard output: a head line, then offer and answer, each a length line and its bytes.

The head is origin + 2 * mode; mode: 0 go on, 1 fresh, 2 from the saved state, 3 fresh and save.
A refused exchange in a mode other than 0 is never followed by one that goes on, and none that saves is refused.
"""
import sys

GO_ON, FRESH, SAVED, SAVE = range(4)
DIRECTIONS = ["sendrecv", "sendonly", "recvonly", "inactive"]
V = "v=0\n"
OFFERER = "c=IN IP4 1.1.1.1\n"
ANSWERER = "c=IN IP4 2.2.2.2\n"
OFFERED = V + OFFERER
ANSWERED = V + ANSWERER

exchanges = []


def exchange(origin, mode, offer, answer):
    exchanges.append((origin + 2 * mode, offer.encode(), answer.encode()))


def section(kind, port, transport="udp", lines=""):
    return "m=%s %d %s 0\n%s" % (kind, port, transport, lines)


def direction(name):
    return "a=%s\n" % name


def sections(*parts):
    return "".join(parts)


# Ports, directions, the section that gives them, origins and what came before, eight mixes to an exchange.

KINDS = ["audio", "video", "data", "x", "x", "video", "x", "audio"]
TRANSPORTS = ["udp", "RTP/AVP", "udp", "udp", "udp", "udp", "udp", "udp"]
OTHER_KIND = {"audio": "video", "video": "audio", "data": "x", "x": "data"}
PAIRS = [(first, then) for first in DIRECTIONS for then in DIRECTIONS]
# No direction counts where both ports are 0, so half of the pairs are enough.
MIXES = [(ports, *pair) for ports in ((1, 1), (1, 0)) for pair in PAIRS] + [
    ((0, 0), *pair) for i, pair in enumerate(PAIRS) if (i + i // 4) % 2 == 0]
SESSIONS = [""] + DIRECTIONS


def head(address, session, turn):
    """The session section, its direction, if any, before or after its address."""
    line = direction(session) if session else ""
    return V + (line + address if turn % 2 else address + line)


def own(name, session, turn):
    """The line of a section of that direction, some left out where the session's, or sendrecv, stands for it."""
    return "" if name == (session or "sendrecv") and turn % 6 else direction(name)


def eight(mixes, sessions, turn):
    """Offer and answer of eight mixes, with those directions in their session sections."""
    offer, answer = head(OFFERER, sessions[0], turn), head(ANSWERER, sessions[1], turn // 2)
    for i, ((offered, answered), first, then) in enumerate(mixes):
        offer += section(KINDS[i], offered * (1 + i), TRANSPORTS[i], own(first, sessions[0], i + turn))
        answer += section(KINDS[i], answered * (1 + (i + 4) % 8), TRANSPORTS[i], own(then, sessions[1], i + turn))
    return offer, answer


def mixes_after(mode, shift):
    """One origin, by turns, has directions in the session sections, in all shifts every pair of them."""
    for origin in (0, 1):
        for start in range(5):
            mixes = [MIXES[start + 5 * ((i + shift) % 8)] for i in range(8)]
            sessions = SESSIONS[(start + shift) % 5], SESSIONS[(2 * start + shift + 2 * origin) % 5]
            exchange(origin, mode, *eight(mixes, ("", "") if (origin + shift) % 2 else sessions, start + origin))


def save(answer_line="", answered=1, kinds=KINDS):
    """Saves eight components that are alike in ports and directions; origin 0."""
    offer, answer = OFFERED, ANSWERED
    for i, kind in enumerate(kinds):
        offer += section(kind, 31 + i, TRANSPORTS[i])
        answer += section(kind, answered * (41 + i), TRANSPORTS[i], answer_line)
    exchange(0, SAVE, offer, answer)


def all_mixes():
    mixes_after(FRESH, 0)
    save()
    mixes_after(SAVED, 1)
    save(direction("recvonly"))
    mixes_after(SAVED, 2)
    save(direction("sendonly"))
    mixes_after(SAVED, 3)
    save(answered=0)
    mixes_after(SAVED, 4)
    save(kinds=[OTHER_KIND[kind] for kind in KINDS])
    mixes_after(SAVED, 5)


def session_or_own():
    """With and without a direction in the session section and in the media section, of the offer and of the answer."""
    for i, (offered, answered) in enumerate([("", ""), ("inactive", ""), ("", "recvonly"), ("inactive", "recvonly")]):
        offer, answer = head(OFFERER, offered, i), head(ANSWERER, answered, i)
        for port, (first, then) in enumerate([(0, 0), (0, 1), (1, 0), (1, 1)], 1):
            offer += section("x", port, "udp", first * direction("sendrecv"))
            answer += section("x", port, "udp", then * direction("sendonly"))
        exchange(i // 2, FRESH, offer, answer)


def misfit_mixes():
    """An answer's port that is not 0 where the offer's is; refused whatever came before."""
    for origin in (0, 1):
        for i, first in enumerate(DIRECTIONS):
            for then in DIRECTIONS[origin ^ i & 1::2]:
                exchange(origin, FRESH if i % 2 else SAVED, V + section("x", 0, "udp", direction(first)),
                    ANSWERED + section("x", 2, "udp", direction(then)))


# Rates: every mix of AS or TIAS, RS and RR on both sides, and both origins.

def requested(kilobits, turn):
    """AS, or by turns TIAS with one bit more, whose twentieth is rounded up."""
    return "TIAS:%d001" % kilobits if turn % 2 else "AS:%d" % kilobits


def rate_lines(figures):
    return "".join("b=%s\n" % rate for rate in figures)


def chosen(has, *figures):
    return rate_lines(rate for i, rate in enumerate(figures) if has >> i & 1)


def rates(origin, mixes, transport, ways=("",)):
    offer, answer = OFFERED, ANSWERED
    for i, mix in enumerate(mixes):
        # A twentieth is 3000 and more for the offer's, 2000 and more for the answer's.
        rs, rr = ((2500, 900), (900, 2500), (9000, 4000), (4000, 9001))[(mix + i) % 4]
        offered, answered = requested(60 + i, i // 2 + origin), requested(40 + i, i // 4 + origin)
        offer += section("x", 1 + i, transport, chosen(mix & 7, offered, "RS:7000", "RR:8000"))
        answer += section("x", 1 + i, transport,
            ways[i % len(ways)] + chosen(mix >> 3, answered, "RS:%d" % (rs + i), "RR:%d" % (rr + i)))
    exchange(origin, FRESH, offer, answer)


def all_rates():
    for origin in (0, 1):
        for start in range(0, 64, 8):
            rates(origin, range(start, start + 8), "RTP/AVP")
        one_way = (direction("sendonly"), direction("recvonly"))
        rates(origin, (0, 9, 16, 25, 33, 40, 49, 56), "RTP/AVP", one_way)
        rates(origin, (0, 1, 8, 9, 27, 48, 54, 63), "udp", one_way)


def rated(*rows, transport="RTP/AVP"):
    """A section for each row of rates."""
    return "".join(section("audio", 9, transport, rate_lines(row.split())) for row in rows)


def tias():
    """TIAS alone and at 0, beside an AS in either order and at 0, and its twentieth beside RS and RR."""
    pairs = [("TIAS:64001", ""), ("TIAS:64001", "RS:3200"), ("TIAS:64001", "RR:3202"), ("TIAS:64001", "RS:800 RR:2400"),
        ("AS:64 TIAS:64001", "TIAS:64001 AS:0"), ("TIAS:0", "TIAS:4294967295"), ("TIAS:19 RS:9", "TIAS:21")]
    offer, answer = zip(*pairs)
    udp = rated("TIAS:64001", transport="udp")
    exchange(0, FRESH, OFFERED + "b=TIAS:5\n" + rated(*offer) + udp, ANSWERED + rated(*answer) + udp)


# The kept class: each call is a row of exchanges, each exchange a row of kinds and ways.

LETTERS = {"a": "audio", "v": "video", "p": "application", "d": "data", "c": "control", "o": "other"}
CALLS = [
    # Up alone, one added in the same direction, one in the other, one removed (NOTE 2), nothing new after it.
    ["a^", "a^ v^", "a^ v^ a_", "a^ v^ a-", "a^ v^ a-"],
    # Down alone, one removed, the other given both ways, then one gone and one live again.
    ["a_", "a_ v_", "a- v_", "a- v=", "a^ v-"],
    # Both, then up: stays with both; removed; up again.
    ["a=", "a^", "a-", "a^", "a!", "a_"],
    # Mixed directions, one removed, nothing new after it.
    ["a^ v_", "a^ v-", "a^ v-"],
    # The same, live again, then one gone and one changed in kind.
    ["v= a_", "v- a_", "v_ a_", "a= a-"],
    # Hold describes both.
    ["a!", "a^", "a^ v^"],
    ["a_ v!", "a_ v-", "a_ v- d="],
    # Audio to video and back.
    ["a^", "v=", "a^", "v_", "v_ d="],
    ["a= v=", "v^ a^", "v^ a="],
    # Audio to application and back: one gone, none new, then new.
    ["a^ v_", "p^ v_", "p^ v_", "a_ v_", "a_ p="],
    ["p^", "a^", "p=", "a=", "d="],
    # One gone and one new at once.
    ["a_ v^", "a- v^ a^", "d- v- a- v_"],
    # Nothing, then something; fewer lines than before.
    ["", "a^", "a^ v_", "a^", "a^", ""],
    # All six kinds.
    ["a= v= p= d= c= o=", "a^ v^ p^ d^ c^ o^", "a- v- p- d- c- o-", "a^ v^ p^ d^ c^ o^"],
    ["a_ v_ p_ d_ c_ o_", "a! v! p! d! c! o!", "o_ c_ d_ p_ v_ a_", "o= c= d= p= v= a="],
]


def answer_way(way, origin):
    """The answer's direction line for up (^), down (_), hold (!), both (=) and removed (-)."""
    line = {"^": ("recvonly", "sendonly"), "_": ("sendonly", "recvonly"), "!": ("inactive", "inactive")}
    return direction(line[way][origin]) if way in line else ""


def all_calls():
    for number, call in enumerate(CALLS):
        for step, row in enumerate(call):
            origin = (number + step // 2) % 2
            offer, answer = OFFERED, ANSWERED
            for i, (kind, way) in enumerate(row.split()):
                name = LETTERS[kind] if kind != "o" else ("other", "x")[step % 2]
                offer += section(name, 0 if way == "-" and i % 2 else 11 + i)
                answer += section(name, 0 if way == "-" else 21 + i, "udp", answer_way(way, origin))
            exchange(origin, FRESH if step == 0 else GO_ON, offer, answer)


def had_both():
    """What stays with both: after hold, over a change of transport, over another other name, from origin to origin."""
    def step(mode, origin, kind, transport, line):
        exchange(origin, mode, OFFERED + section(kind, 11, transport), ANSWERED + section(kind, 21, transport, line))
    step(FRESH, 0, "x", "udp", direction("inactive"))
    step(GO_ON, 1, "y", "RTP/AVP", direction("sendonly"))
    step(GO_ON, 0, "X", "udp", direction("sendonly"))
    step(GO_ON, 0, "Audio", "udp", direction("recvonly"))
    step(GO_ON, 0, "audio", "udp", direction("recvonly"))


# Refusals.

X = section("x", 0)
L = section("x", 9)
FAULTS = [
    "", "v=0", "V=0\n", V + "\n", V + "m=x 0 udp\n", V + "m=x 65536 udp 0\n", V + X + "m=x 0 TCP 0\n", V + 9 * X,
    V + "c=IN IP6 ::1\n", V + X + "b=AS:4294968\n", V + X + "b=AS:1\n" + 2 * "b=TIAS:1\n",
    V + X + 2 * direction("sendonly"), V + 2 * direction("sendonly") + X,
    V + direction("sendrecv") + "s=\n" + direction("inactive"), V + X + L,
]


def text_faults():
    for fault in FAULTS:
        exchange(0, FRESH, fault, V + X)
        exchange(1, FRESH, V + X, fault)
    exchange(0, FRESH, V + X + X + "b=TIAS:4294967296\n", "")
    exchange(0, FRESH, "", "")
    exchange(0, FRESH, V + X + X, V + "m=x 9 udp 0\n")


def misfits():
    live = section("audio", 9) + section("audio", 8, "RTP/AVP") + section("video", 0)
    for answer in [
        "", section("audio", 1), live + X, section("video", 1) + live, live + live + X + X,
        section("video", 0) + section("audio", 0, "RTP/AVP") + section("video", 0),
        section("audio", 1, "RTP/AVP") + section("audio", 0, "RTP/AVP") + section("video", 0),
        section("audio", 1) + section("audio", 1) + section("video", 0),
        section("audio", 1) + section("x", 1, "RTP/AVP") + section("video", 0),
        section("audio", 1) + section("audio", 1, "RTP/AVP") + section("video", 1),
        section("audio", 1) + section("audio", 1, "RTP/AVP") + section("audio", 0),
        section("audio", 1) + section("audio", 1, "RTP/AVP") + section("video", 0, "RTP/AVP"),
        section("audio", 1) + section("audio", 1) + section("video", 1),
        section("Audio", 1) + section("Audio", 1, "RTP/AVP") + section("Video", 1),
    ]:
        exchange(0, FRESH, OFFERED + live, ANSWERED + answer)
    exchange(1, FRESH, OFFERED + 7 * L + X, ANSWERED + 8 * L)
    exchange(1, FRESH, OFFERED + 8 * L, ANSWERED + 7 * L + section("data", 9))
    exchange(1, FRESH, V + 8 * X, V + 7 * X + section("x", 0, "RTP/AVP"))
    exchange(1, FRESH, V + 8 * X, V + 7 * X)
    exchange(1, FRESH, V + 7 * X, V + 8 * X)
    exchange(0, FRESH, V + X, V)
    exchange(0, FRESH, V, V + X)
    exchange(0, FRESH, V, V)
    exchange(1, GO_ON, V, V + "s=\n")
    exchange(0, FRESH, V + 8 * X, V + 8 * X)


def refused_goes_on():
    """Refused exchanges between others leave the state: both ways before, up only after."""
    exchange(0, FRESH, OFFERED + section("audio", 11), ANSWERED + section("audio", 21))
    exchange(0, GO_ON, OFFERED + section("audio", 11), ANSWERED + section("audio", 21) + X)
    exchange(0, GO_ON, OFFERED + section("audio", 0), ANSWERED + section("audio", 21))
    exchange(0, GO_ON, OFFERED + section("audio", 0), "")
    exchange(0, GO_ON, "v=1\n", ANSWERED)
    exchange(1, GO_ON, OFFERED + section("audio", 11), ANSWERED + section("audio", 21, "udp", direction("sendonly")))


# Large rates, addresses and ports, and deciding lines.

def large():
    top = "AS:4294967 RS:4294967295 RR:4294967295"
    exchange(0, FRESH, OFFERED + 3 * rated(top), ANSWERED + 3 * rated(top))
    exchange(0, FRESH, OFFERED + rated(top), ANSWERED + rated("AS:0 RS:0 RR:0"))
    exchange(1, FRESH, OFFERED + rated(top), ANSWERED + rated("AS:0 RS:0"))
    exchange(0, FRESH, OFFERED + rated("AS:255999", ""), ANSWERED + rated("AS:1 RS:0 RR:500", "RS:400 RR:100"))
    exchange(0, FRESH, OFFERED + rated("AS:256000"), ANSWERED + rated("AS:256000 RS:0 RR:0"))
    exchange(0, FRESH, OFFERED + rated("AS:255999"), ANSWERED + rated("AS:256000 RS:1 RR:999"))
    exchange(0, FRESH, OFFERED + rated("AS:255999"), ANSWERED + rated("AS:256000 RS:1 RR:998"))
    exchange(1, FRESH, OFFERED + rated("AS:200000", "AS:40000"), ANSWERED + rated("AS:1 RR:4294967295", "AS:2 RS:7"))
    # With RTCP rounded up one bit below 256,000,000 up, and just that down.
    exchange(0, FRESH, OFFERED + rated("TIAS:243809523"), ANSWERED + rated("TIAS:243809522"))


def addresses():
    offer = V + "c=IN IP4 255.255.255.255\n" + section("audio", 65534, "RTP/AVP") + section(
        "audio", 1, "RTP/AVP", "c=IN IP4 0.0.0.0\n") + section("x", 65535, "udp", "c=IN IP4 1.2.3.4\n")
    answer = V + section("audio", 1, "RTP/AVP", "c=IN IP4 0.0.0.1\n") + section(
        "audio", 65534, "RTP/AVP", "c=IN IP4 128.0.0.0\n") + section("x", 65535, "udp", "c=IN IP4 4.3.2.1\n")
    for origin in (0, 1):
        exchange(origin, FRESH, offer, answer)
        exchange(origin, FRESH, OFFERED + section("audio", 0), ANSWERED + section("audio", 0))


def line_of(offer, answer, offered="", answered=""):
    """Media sections of an offer and an answer, | for CR LF, and the directions in their session sections."""
    def text(session, media):
        session = "a=%s|" % session if session else ""
        return ("v=0|c=IN IP4 1.1.1.1|%sm=audio %s" % (session, media)).replace("|", "\r\n")
    exchange(0, FRESH, text(offered, offer), text(answered, answer))


def deciding_lines():
    for offer, answer in [
        ("9 udp 0 |m=", "9 udp 0|"), ("9 udp 0|", "8 udp \t\x7f|"), ("9 udp 0|a=inactive|", "8 udp 1|a=sendrecv|"),
        ("9 udp 0|a=inactive|", "8 udp 1|a=inactive|"), ("9 udp 0|a=sendonly|", "8 udp 1|a=recvonly|b=AS:1|"),
        ("9 udp 0|a=recvonly|", "8 udp 1 2 3|"), ("9 udp 0|", "8 udp 1|a=inactive|"),
        ("0 udp 0|a=inactive|", "0 udp 1|a=inactive|"), ("9 udp 0|a=inactive|", "00000 udp 1|a=sendonly|"),
        ("00 udp a=b|", "0 udp 1|"), ("9 udp 0|a=sendonly |", "8 udp 1|a=inactive |a=sendrecv|"),
        ("9 udp 0|", "8 udp 1|m=x 0 udp 0|a=inactive|"), ("9 udp 0|m=x 7 udp 0|a=inactive|", "8 udp 1|m=x 6 udp 0|"),
    ]:
        line_of(offer, answer)


def deciding_session_lines():
    offer, answer, held, both = "9 udp 0|", "8 udp 1|", "a=inactive|", "a=sendrecv|"
    # The offer's inactive, whatever the answer says.
    line_of(offer, answer, "inactive")
    line_of(offer, answer + both, "inactive")
    line_of(offer, answer + both, "inactive", "recvonly")
    line_of(offer, answer, "inactive", "inactive")
    # An own one beats it, a sendrecv too.
    line_of(offer + both, answer, "inactive")
    line_of(offer + "a=recvonly|", answer, "inactive", "sendonly")
    line_of(offer + held, answer, "sendrecv", "sendrecv")
    # The answer's, a sendrecv too, and its own ones.
    line_of(offer, answer, "sendonly", "recvonly")
    line_of(offer, answer, "", "sendrecv")
    line_of(offer, answer, "", "inactive")
    line_of(offer, answer + both, "", "inactive")
    line_of(offer, answer + held, "", "sendrecv")
    # Neither in the answer, or only one that is near.
    line_of(offer, answer, "sendonly")
    line_of(offer, answer, "inactive ", "Recvonly")
    # A direction after an m= line does not serve the next section.
    line_of(offer + held + "m=x 7 udp 0|", answer + held + "m=x 6 udp 0|")
    line_of(offer + held + "m=x 7 udp 0|", answer + both + "m=x 6 udp 0|", "sendonly", "recvonly")
    # Removed.
    line_of("0 udp 0|", "0 udp 1|", "inactive", "inactive")
    line_of(offer, "00 udp 1|", "inactive", "inactive")
    line_of(offer + "m=x 0 udp 0|", answer + "m=x 0 udp 1|", "inactive", "sendonly")


# The cases of the paper that are exchanges.

def first(port=40000, more="", session=""):
    return "v=0\nc=IN IP4 192.0.2.1\n%sm=audio %d RTP/AVP 0\nb=AS:64\n%s" % (session, port, more)


def answer(port=50000, more="", session=""):
    return "v=0\nc=IN IP4 192.0.2.9\n%sm=audio %d RTP/AVP 0\n%s" % (session, port, more)


def paper_cases():
    up = (first(more="a=sendonly\n"), answer(more="a=recvonly\n"))
    exchange(0, FRESH, first(), answer())
    exchange(0, GO_ON, first(0), answer(0))
    exchange(0, GO_ON, first(0), answer(0))
    exchange(0, FRESH, first(), answer(more="b=RS:800\nb=RR:2400\n"))
    exchange(0, FRESH, first(), answer(more="b=RS:800\n"))
    exchange(0, FRESH, first(), answer(more="b=RR:8000\n"))
    exchange(0, FRESH, first(more="a=inactive\n"), answer(more="a=sendrecv\n"))
    exchange(0, FRESH, *up)
    exchange(0, FRESH, first(), answer())
    exchange(0, GO_ON, *up)
    exchange(0, FRESH, first().replace("AS:64", "AS:300000"), answer())


def whole_call():
    """Cases f, g and h with the direction in the session section, then hold and its end by an own direction."""
    held, both = direction("inactive"), direction("sendrecv")
    up = (first(session=direction("sendonly")), answer(session=direction("recvonly")))
    exchange(0, FRESH, first(session=held), answer(session=both))
    exchange(0, FRESH, *up)
    exchange(1, FRESH, *up)
    exchange(0, FRESH, first(), answer())
    exchange(0, GO_ON, *up)
    exchange(0, GO_ON, first(session=held), answer(session=held))
    exchange(0, GO_ON, first(more=both, session=held), answer(more=both, session=held))


def check():
    size = sum(len(b"%d\n%d\n%d\n" % (head, len(offer), len(answer))) + len(offer) + len(answer)
        for head, offer, answer in exchanges)
    if size > 65000:
        sys.exit("flows: %d bytes are too many" % size)


def main():
    for part in (paper_cases, whole_call, all_mixes, session_or_own, misfit_mixes, all_rates, tias, all_calls, had_both,
            text_faults, misfits, refused_goes_on, large, addresses, deciding_lines, deciding_session_lines):
        part()
    check()
    for head, offer, answer in exchanges:
        sys.stdout.buffer.write(b"%d\n%d\n%s%d\n%s" % (head, len(offer), offer, len(answer), answer))


main()
