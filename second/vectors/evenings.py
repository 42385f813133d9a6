"""Writes the stored call files to the folder that is named, one evening or one malformed file each."""
import pathlib
import sys

TOP = 4294967295
FILE_BYTES = 49152
USUAL = (100000, 100000, 5000, 5000, 1000000, 1000000)
LARGE = (100000, 100000, 5000, 5000, TOP, TOP)
V = "v=0\n"
X = "m=x 0 udp 0\n"

files = []


def store(name, file):
    files.append((name, file.encode()))


def lines(numbers):
    return "".join("%d\n" % number for number in numbers)


def settings_of(settings):
    return lines((6,) + settings)


def texts_of(texts):
    return lines([len(texts)]) + "".join("%d\n%s" % (len(text), text) for text in texts)


def calls_of(calls):
    return lines([len(calls)]) + "".join(call + "\n" for call in calls)


def file_of(texts, calls, settings=USUAL):
    return settings_of(settings) + texts_of(texts) + calls_of(calls)


def evening(name, texts, calls, settings=USUAL):
    store(name, file_of(texts, calls, settings))


def first(more="", port="40000", rate=64, transport="RTP/AVP", session=""):
    return V + "c=IN IP4 192.0.2.1\n%sm=audio %s %s 0\nb=AS:%d\n%s" % (session, port, transport, rate, more)


def answer(more="", port="50000", transport="RTP/AVP", session=""):
    return V + "c=IN IP4 192.0.2.9\n%sm=audio %s %s 0\n%s" % (session, port, transport, more)


def padded(text, bytes_):
    """The text, filled with passed lines to that many bytes in all."""
    while bytes_ - len(text) > 400:
        text += "i=" + 197 * "x" + "\n"
    half = (bytes_ - len(text)) // 2
    return text + "i=" + (half - 3) * "x" + "\n" + "i=" + (bytes_ - len(text) - half - 3) * "x" + "\n"


FIRST = first()
ANSWER = answer()
REMOVED = first(port="0"), answer(port="0")
UP = first("a=sendonly\n"), answer("a=recvonly\n")
PAPER = file_of([FIRST, ANSWER], ["O 0 0 0", "A 0 1", "B 0 1 2 105000 67200", "B 0 1 2 105001 67200", "X 0", "X 0"])


# The paper's evening, and its cases but for l: a file has no statement.

def paper_cases():
    ask = "B 0 1 2 105000 67200"
    store("paper", PAPER)
    evening("case-a-first", [FIRST, ANSWER], ["O 0 0 0", "A 0 1", ask])
    evening("case-b-removed-twice", [FIRST, ANSWER, *REMOVED],
        ["O 0 0 0", "A 0 1", "O 0 0 2", "A 0 3", "B 0 1 9 0 0", "O 0 0 2", "A 0 3", "X 0"])
    evening("cases-c-d-e-rtcp",
        [FIRST, answer("b=RS:800\nb=RR:2400\n"), answer("b=RS:800\n"), answer("b=RR:8000\n")],
        ["O 0 0 0", "O 1 0 0", "O 2 0 0", "A 0 1", "A 1 2", "A 2 3",
        "B 0 1 2 103200 67200", "B 1 1 2 105000 67200", "B 2 1 2 105000 72000"])
    evening("case-f-hold", [first("a=inactive\n"), answer("a=sendrecv\n")], ["O 0 0 0", "A 0 1", ask, "X 0"])
    evening("case-g-up-only", UP,
        ["O 0 0 0", "A 0 1", "B 0 1 4 105000 3200", "B 0 1 2 105000 3200", "B 0 1 4 105000 3201"])
    evening("case-h-up-after-both", [FIRST, ANSWER, *UP], ["O 0 0 0", "A 0 1", "O 0 0 2", "A 0 3", ask])
    evening("case-i-bounds-in-texts", [first(rate=4294967), first(rate=4294968), first(port="65534"),
        first(port="65535"), first(port="65535", transport="udp"), answer("b=RS:0\nb=RR:0\n"),
        answer(transport="udp", port="65535")],
        ["O 0 0 0", "O 1 0 1", "O 2 0 2", "O 3 0 3", "O 4 0 4", "A 0 5", "A 2 5", "X 0", "A 2 5", "A 4 6"], LARGE)
    evening("case-j-pool-just-full", [FIRST, ANSWER], ["O 0 0 0", "A 0 1", "O 1 0 0", "A 1 1"],
        USUAL[:4] + (105000, 67200))
    evening("case-j-pool-one-less", [FIRST, ANSWER], ["O 0 0 0", "A 0 1", "X 0", "C 0"], USUAL[:4] + (104999, 67200))
    evening("case-k-large", [first(rate=300000), ANSWER],
        ["O 0 0 0", "A 0 1", "B 0 1 2 105000 256000000", "B 0 1 2 105000 256000001"], LARGE)


# A direction set for the whole call: in the session section, and mostly in no media section.

def whole_call():
    held, both, up = "a=inactive\n", "a=sendrecv\n", (first(session="a=sendonly\n"), answer(session="a=recvonly\n"))
    exchange = ["O 0 0 0", "A 0 1"]
    up_only = ["B 0 1 4 105000 3200", "B 0 1 2 105000 3200", "B 0 1 4 105000 3201"]
    evening("whole-call-hold", [first(session=held), answer(session=both), FIRST, ANSWER],
        exchange + ["B 0 1 2 105000 67200", "O 0 0 2", "A 0 3", "O 1 0 2", "A 1 3", "O 1 0 0", "A 1 1", "X 0", "X 1"])
    evening("whole-call-up-only", up, exchange + up_only + ["O 1 1 0", "A 1 1", "B 1 1 4 3200 105000"])
    evening("whole-call-up-after-both", [FIRST, ANSWER, *up],
        exchange + ["O 0 0 2", "A 0 3", "B 0 1 2 105000 67200"])
    evening("whole-call-own-wins", [first(both, session=held), answer("a=recvonly\n", session="a=sendonly\n")],
        exchange + up_only)
    data = "m=data 9 udp 0\n"
    evening("whole-call-two-media", [first(data, session="a=sendonly\n"), answer(data + both, session="a=recvonly\n")],
        exchange + ["B 0 1 4 105000 3200", "B 0 2 8 100000 100000", "B 0 3 4 205000 103200", "B 0 3 4 205000 103201"])


# Video clients that write TIAS, and mostly no AS.

def video(more=""):
    return V + "c=IN IP4 192.0.2.1\nm=video 40002 RTP/AVP 0\n" + more


def tias():
    ends = [video("b=TIAS:64001\n"), video()]
    exchange = ["O 0 0 0", "A 0 1"]
    evening("tias-alone", [*ends, video("b=RS:3200\n"), video("b=RR:3202\n"), video("b=TIAS:40001\n")],
        exchange + ["B 0 1 2 105000 67202", "B 0 1 2 105000 67203", "O 1 1 0", "A 1 1", "O 2 0 0", "A 2 2",
        "O 3 0 0", "A 3 3", "O 4 0 0", "A 4 4", "X 0", "X 1", "X 2", "X 3", "X 4"])
    evening("tias-beside-as-in-the-re-offer",
        [*ends, video("b=TIAS:64001\nb=AS:64\n"), video("b=AS:0\nb=TIAS:64001\n"), video("b=TIAS:0\n")],
        exchange + ["O 0 0 2", "A 0 1", "B 0 1 2 105000 67200", "B 0 1 2 105000 67201", "O 0 0 3", "A 0 1", "O 0 1 0",
        "A 0 4", "O 0 0 0", "A 0 1", "X 0"])
    evening("tias-pool-just-full", [*ends, video("b=RS:3202\n"), video("b=RR:3201\n")],
        ["O 0 0 0", "A 0 2", "A 0 3", "O 0 0 0", "A 0 1", "X 0"], USUAL[:4] + (105000, 67202))
    evening("tias-bounds", [video("b=TIAS:4294967295\n"), video("b=RS:0\nb=RR:0\n"), video("b=TIAS:4294967296\n"),
        video("b=TIAS:00000064001\n"), V + "b=TIAS:x\nc=IN IP4 192.0.2.9\nm=video 0 RTP/AVP 0\nb=TIAS:0000064001\n"],
        exchange + ["O 1 0 2", "O 1 0 3", "O 1 0 4", "A 1 4", "O 2 0 0", "A 2 1", "X 0", "A 2 1"], LARGE)


# One file for each refusal number; 19 and 20 cannot be had by a file.

def refused_text(name, *texts):
    """Each as an offer, then each as an answer to an offer that is still open after it."""
    numbers = range(2, 2 + len(texts))
    evening(name, [FIRST, ANSWER, *texts], ["O 0 0 %d" % number for number in numbers] + ["O 0 0 0"]
        + ["A 0 %d" % number for number in numbers] + ["A 0 1"])


def refused_texts():
    refused_text("refusal-1-text-too-long", padded(FIRST, 4097), padded("v=1\n", 4097), 9000 * "\n")
    refused_text("refusal-2-line", "", "v=1\n", V[:-1], V + "\n", V + "s\n", FIRST + "s=-", FIRST + "s=-\r",
        V + "s=a\0b\n", V + "s=" + 255 * "x" + "\n", V + 1363 * "a=\n" + "a=x")
    refused_text("refusal-3-media-fields", first(port="65535"), first(port="65536"), first(port="000000"),
        V + "m=audio 0 udp\n", V + "m=audio 0 udp 0 \n", V + "m=audio  0 udp 0\n", FIRST + "m=\n")
    refused_text("refusal-4-transport", first(transport="TCP"), first(transport="UDP"), FIRST + "m=x 0 RTP/AVPF 0\n")
    refused_text("refusal-5-ninth-media", V + 9 * X, V + 8 * X + "m=\n")
    refused_text("refusal-6-address", V + "c=IN IP6 ::1\n", V + "c=IN IP4 1.2.3.256\n",
        FIRST + 2 * "c=IN IP4 1.2.3.4\n")
    refused_text("refusal-7-rate", first(rate=4294968), FIRST + "b=AS:64\n", FIRST + "b=RS:4294967296\n",
        FIRST + "b=RR:\n")
    refused_text("refusal-7-tias", video(2 * "b=TIAS:64001\n"), FIRST + "b=TIAS:64000\nb=TIAS:1\n",
        FIRST + "b=TIAS:4294967296\n", FIRST + "b=TIAS:\n", video("b=TIAS:64001\nb=AS:64\nb=TIAS:64001\n"))
    refused_text("refusal-8-direction", first("a=sendonly\na=sendonly\n"), first("a=inactive\nb=RS:0\na=sendrecv\n"),
        first(session=2 * "a=sendonly\n"), first("a=sendrecv\n", session="a=inactive\ns=-\na=sendrecv\n"),
        V + 2 * "a=sendrecv\n")
    refused_text("refusal-9-no-address", V + X + "m=audio 1 udp 0\n",
        V + "m=audio 40000 RTP/AVP 0\nm=audio 2 udp 0\n")


def unknown_calls():
    calls = [call % session for session in (16, 17, TOP)
        for call in ("O %d 0 0", "A %d 1", "C %d", "X %d", "B %d 1 2 0 0")]
    calls += ["O 0 %d 0" % origin for origin in (2, 3, 256, TOP)]
    calls += ["B 0 1 %d 0 0" % number for number in (0, 1, 3, 5, 7, 10, 258, TOP)]
    evening("refusal-10-unknown", [FIRST, ANSWER], ["O 0 0 0", "A 0 1"] + calls + ["O 15 0 0", "B 15 1 2 0 0"])


def calls_out_of_order():
    evening("refusal-11-offer-open", [FIRST, ANSWER, V],
        ["O 0 0 0", "O 0 1 0", "X 0", "A 0 1", "O 0 0 0", "O 0 0 2", "X 0", "O 0 2 0", "C 0", "X 0"])
    evening("refusal-12-none-open", [FIRST, ANSWER, V[:-1]],
        ["A 0 1", "A 0 2", "C 0", "O 0 0 0", "C 0", "C 0", "A 0 1",
        "O 0 0 0", "A 0 1", "A 0 1", "C 0", "X 0", "A 0 1", "C 0"])
    evening("refusal-13-nothing-completed", [FIRST, ANSWER],
        ["X 0", "B 0 0 2 0 0", "O 0 0 0", "B 0 1 2 0 0", "C 0", "X 0",
        "O 0 0 0", "A 0 1", "X 0", "X 0", "B 0 1 2 0 0"])
    evening("refusal-14-fewer-lines", [FIRST, ANSWER, V, *REMOVED, V + "x", V + X],
        ["O 0 0 0", "A 0 1", "O 0 0 2", "O 0 0 5", "O 0 0 3", "A 0 4",
        "O 0 0 2", "O 0 0 6", "A 0 6", "X 0", "O 0 0 2", "A 0 2", "O 0 0 2"])


def answers_refused():
    two = first("m=x 0 udp 0\n")
    evening("refusal-15-answer-differs", [two, ANSWER, answer("m=x 9 udp 0\n"), answer("m=data 0 udp 0\n"),
        answer("m=x 9 udp 0\n", transport="udp"), V + "m=video 0 RTP/AVP 0\n" + X, answer("m=x 0 RTP/AVP 0\n"),
        answer(2 * X), V, answer("m=y 0 udp 0\n")],
        ["O 0 0 0"] + ["A 0 %d" % text for text in range(1, 10)] + ["B 0 1 2 105000 67200", "B 0 2 9 0 0"])
    evening("refusal-16-pool-full", [FIRST, ANSWER, *REMOVED],
        ["O 0 0 0", "O 1 1 0", "O 2 0 0", "A 2 1", "A 0 1", "A 1 1", "A 0 1",
        "O 2 0 2", "A 0 1", "A 2 3", "A 0 1", "X 0"], USUAL[:4] + (200000, 172200))


def bearers_refused():
    data = "m=data 9 udp 0\n"
    evening("refusal-17-beyond", [first(data + X), answer(data + X)],
        ["O 0 0 0", "A 0 1", "B 0 1 2 105000 67200", "B 0 1 2 105001 67200", "B 0 1 2 105000 67201",
        "B 0 2 8 100000 100000", "B 0 2 6 100000 100000", "B 0 3 2 205000 167200", "B 0 7 2 205001 167200",
        "B 0 4 9 0 0", "B 0 6 9 0 0", "B 0 1 2 %d %d" % (TOP, TOP)])
    evening("refusal-18-set", [FIRST, ANSWER, V], ["O 0 0 0", "A 0 1"]
        + ["B 0 %d 2 %d 0" % (set_, TOP) for set_ in (0, 2, 3, 257, 2147483649, TOP)]
        + ["O 1 0 2", "A 1 2", "B 1 0 2 0 0", "B 1 1 2 0 0", "X 1"])


# Longer evenings, and well-formed files at the bounds of the form.

def sixteen_sessions():
    """Every offer is made before the first answer; then half of the sessions hold, and half of those remove."""
    both, held = (first(), answer()), (first("a=inactive\n"), answer("a=inactive\n"))
    texts = [*both, *held, *REMOVED]
    everyone, half, quarter = range(16), range(0, 16, 2), range(0, 16, 4)
    calls = ["O %d %d 0" % (session, session % 2) for session in everyone]
    calls += ["A %d 1" % session for session in reversed(everyone)]
    calls += ["O %d 0 2" % session for session in half] + ["C 2"]
    calls += ["A %d 3" % session for session in half] + ["O %d 0 4" % session for session in quarter]
    calls += ["B %d 1 2 105000 67200" % session for session in everyone]
    calls += ["A %d 5" % session for session in quarter] + ["X %d" % session for session in everyone]
    evening("sixteen-sessions-cross", texts, calls, USUAL[:4] + (1680000, 1680000))


def dropped_twice():
    """The night of the bill: each end drops the video, and the rate comes off once."""
    def call(end, port):
        return end + "m=video %d RTP/AVP 0\nb=AS:500\n" % port
    texts = [call(FIRST, 40002), call(ANSWER, 50002), call(FIRST, 0), call(ANSWER, 0)]
    evening("video-dropped-by-both-ends", texts, ["O 0 0 0", "A 0 1", "O 0 0 2", "A 0 3", "O 0 1 3", "A 0 2", "X 0"])


def well_formed():
    store("nothing-to-play", file_of([], []))
    evening("offers-left-open", [FIRST, ANSWER], ["O 0 0 0", "O 1 1 0", "A 1 1", "O 1 0 0"])
    zeros = "".join("%010d\n" % number for number in (6,) + USUAL + (2, 55)) + FIRST + "0000000047\n" + ANSWER
    store("leading-zeros", zeros + "0000000002\nO 0000000000 0000000001 0000000000\nA 0000000000 0000000001\n")
    evening("sixty-four-texts", 62 * [""] + [FIRST, ANSWER], ["O 0 0 62", "A 0 63", "O 1 0 0"])
    store("49152-bytes", long_file(FILE_BYTES))


def long_file(bytes_):
    rest = bytes_ - len(file_of([FIRST, ANSWER, ""], ["O 0 0 2", "O 0 0 0", "A 0 1"]))
    file = file_of([FIRST, ANSWER, (rest - 4) * "x"], ["O 0 0 2", "O 0 0 0", "A 0 1"])
    assert len(file) == bytes_
    return file


def largest():
    """As many calls as a file can have: four bytes each, 22 bytes before them, two zeros more in the last."""
    file = settings_of(6 * (0,)) + texts_of([]) + calls_of(12281 * ["X 0"] + ["X 000"])
    assert len(file) == FILE_BYTES
    return file


# Malformed files: the paper's evening, changed in one way each.

def changed(name, old, new):
    assert PAPER.count(old) == 1, old
    store("malformed-" + name, PAPER.replace(old, new))


def malformed_counts():
    store("malformed-empty", "")
    changed("five-settings", "6\n100000\n100000\n5000\n", "5\n100000\n100000\n")
    changed("six-settings-counted-as-seven", "6\n100000\n100000\n", "7\n100000\n100000\n")
    store("malformed-sixty-five-texts", file_of(65 * [""], []))
    changed("text-past-the-end", "47\nv=0", "4700\nv=0")
    changed("lf-after-a-text", "50000 RTP/AVP 0\n", "50000 RTP/AVP 0\n\n")
    changed("text-not-in-the-file", "X 0\nX 0\n", "X 0\nO 16 2 2\n")
    changed("one-call-more-than-counted", "6\nO 0 0 0\n", "5\nO 0 0 0\n")
    changed("one-call-less-than-counted", "6\nO 0 0 0\n", "7\nO 0 0 0\n")
    store("malformed-49153-bytes", long_file(FILE_BYTES + 1))


def malformed_lines():
    changed("number-too-large", "105001 67200", "105001 4294967296")
    changed("eleven-digits", "B 0 1 2 105001", "B 0 1 00000000002 105001")
    changed("number-missing", "105001 67200\n", "105001\n")
    changed("number-too-many", "A 0 1\n", "A 0 1 0\n")
    changed("unknown-letter", "A 0 1\n", "S 0 1\n")
    changed("small-letter", "A 0 1\n", "a 0 1\n")
    changed("cr-lf", "A 0 1\n", "A 0 1\r\n")
    changed("two-spaces", "A 0 1\n", "A  0 1\n")
    changed("space-at-the-end", "A 0 1\n", "A 0 1 \n")
    changed("space-at-the-start", "A 0 1\n", " A 0 1\n")
    store("malformed-no-last-lf", PAPER[:-1])
    store("malformed-lf-after-the-last-call", PAPER + "\n")


def main():
    if len(sys.argv) != 2:
        sys.exit("usage: evenings.py FOLDER")
    for part in (paper_cases, whole_call, tias, refused_texts, unknown_calls, calls_out_of_order, answers_refused,
            bearers_refused, sixteen_sessions, dropped_twice, well_formed, malformed_counts, malformed_lines):
        part()
    folder = pathlib.Path(sys.argv[1])
    folder.mkdir(parents=True, exist_ok=True)
    for number, (name, file) in enumerate(files, 1):
        (folder / ("%02d-%s.calls" % (number, name))).write_bytes(file)
    # what is printed for it is too long to be stored
    (folder / "largest").write_bytes(largest().encode())


main()
