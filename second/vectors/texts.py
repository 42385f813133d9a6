"""Writes the stored texts to standard output: a length line, then the bytes, one text after the other."""
import sys

V = b"v=0\n"
C = b"c=IN IP4 192.0.2.1\n"
M = b"m=audio 0 RTP/AVP 0\n"
L = b"m=audio 40000 RTP/AVP 0\n"
MEDIA = V + M


def line(start, bytes_, ending=b"\n"):
    """A line of that many bytes without its ending."""
    return start + b"x" * (bytes_ - len(start)) + ending


def padded(text, bytes_):
    """The text, filled with passed lines to that many bytes in all."""
    while bytes_ - len(text) > 400:
        text += line(b"i=", 199)
    return text + line(b"i=", (bytes_ - len(text)) // 2 - 1) + line(b"i=", (bytes_ - len(text) + 1) // 2 - 1)


TEXTS = [
    # Case i: AS 4294967 is good.
    V + C + L + b"b=AS:4294967\n",
    # Case i: AS 4294968 is 7.
    V + C + L + b"b=AS:4294968\n",
    # Case i: RTP/AVP port 65534 is good.
    V + C + b"m=audio 65534 RTP/AVP 0\n",
    # Case i: RTP/AVP port 65535 is 3.
    V + C + b"m=audio 65535 RTP/AVP 0\n",
    # Case i: udp port 65535 is good.
    V + C + b"m=audio 65535 udp 0\n",
    # The offer of First.
    V + C + L + b"b=AS:64\n",
    # The answer of First.
    b"v=0\nc=IN IP4 192.0.2.9\nm=audio 50000 RTP/AVP 0\n",

    # 4,096 bytes are good.
    padded(V + C + L, 4096),
    # 1: 4,097 bytes are too long.
    padded(V + C + L, 4097),
    # 1: before 2 in a bad first line.
    padded(b"v=1\n", 4097),
    # 1: before 2 in a text of NULs.
    4097 * b"\0",
    # 2: 4,096 bytes, the last of them not an LF.
    padded(V, 4097)[:-1],
    # 4,096 bytes with CR LF at the end.
    padded(V + M, 4094)[:-1] + b"x\r\n",

    # 2: empty text.
    b"",
    # v=0 alone, LF.
    V,
    # v=0 alone, CR LF.
    b"v=0\r\n",
    # 2: v=0 without an ending.
    b"v=0",
    # 2: v=0 with a CR only.
    b"v=0\r",
    # 2: an LF only.
    b"\n",
    # 2: line 1 with a space after it.
    b"v=0 \n" + M,
    # 2: line 1 is another version.
    b"v=1\n",
    # 2: line 1 with two digits.
    b"v=00\n",
    # 2: line 1 empty after the = sign.
    b"v=\n",
    # 2: line 1 in a capital.
    b"V=0\n",
    # 2: line 1 is another line, v=0 the second.
    b"s=-\nv=0\n",
    # Later v= lines are passed over.
    V + b"v=1\nv=0\nv=\n",
    # 2: empty line in the middle.
    V + C + b"\n" + M,
    # 2: empty line with CR LF.
    b"v=0\r\n\r\ns=-\r\n",
    # 2: empty line after the final LF.
    V + M + b"\n",
    # 2: missing last LF.
    V + C + L[:-1],
    # 2: CR, but no LF, at the end.
    V + C + L[:-1] + b"\r",
    # 2: lone CR in a line.
    V + b"s=a\rb\n",
    # 2: CR CR LF.
    V + b"s=-\r\r\n",
    # 2: CR, then an LF after a space.
    V + b"s=-\r \n",
    # 2: NUL in a line.
    V + M + b"s=a\0b\n",
    # 2: NUL for an ending.
    V + M + b"s=-\0",
    # 2: NUL in an m= line, before its own faults.
    V + b"m=audio 65536 TCP\0\n",
    # 2: no = sign.
    V + b"s\n",
    # 2: a space before the = sign.
    V + b"s =-\n",
    # 2: a capital letter.
    V + b"S=-\n",
    # 2: the byte before a.
    V + b"`=-\n",
    # 2: the byte after z.
    V + b"{=-\n",
    # The letters a and z, nothing after the = sign.
    V + b"a=\nz=\n",
    # 2: a byte over 127 for the letter.
    V + b"\xe1=-\n",
    # Tab, controls, DEL and bytes over 127 after the = sign.
    V + b"s=\t\x01\x0b\x0c\x0e\x7f\x80\xff = =\n",
    # LF and CR LF mixed.
    b"v=0\r\ns=-\nc=IN IP4 1.2.3.4\r\nm=audio 40000 RTP/AVP 0\na=sendonly\r\nb=AS:64\n",
    # CR LF all over: the CR is not part of a line.
    b"v=0\r\nc=IN IP4 1.2.3.4\r\nm=video 2 udp 0\r\na=inactive\r\n",
    # A line of 255 bytes.
    V + line(b"s=", 255),
    # A line of 256 bytes.
    V + line(b"s=", 256),
    # 2: a line of 257 bytes.
    V + line(b"s=", 257),
    # A line of 256 bytes before CR LF.
    V + line(b"s=", 256, b"\r\n"),
    # 2: a line of 257 bytes before CR LF.
    V + line(b"s=", 257, b"\r\n"),
    # An m= line of 256 bytes.
    V + line(b"m=audio 0 RTP/AVP ", 256),
    # 2: an m= line of 257 bytes.
    V + line(b"m=audio 0 RTP/AVP ", 257),
    # 4: an m= line of 256 bytes with an unknown transport.
    V + line(b"m=audio 0 TCP ", 256),
    # 2: a bad c= line of 257 bytes.
    V + line(b"c=", 257),
    # The first faulty line wins: 6 before a later 2.
    V + b"c=IN IP6 ::1\n\n",
    # The first faulty line wins: 2 before a later 6.
    V + b"\nc=IN IP6 ::1\n",

    # Every kind, its number in the port.
    V + C + b"m=audio 1 udp 0\nm=video 2 udp 0\nm=application 3 udp 0\nm=data 4 udp 0\nm=control 5 udp 0\n"
    b"m=message 6 udp 0\n",
    # Names near the kinds are the kind other.
    V + b"m=Audio 0 udp 0\nm=audi 0 udp 0\nm=videos 0 udp 0\nm=applicatio 0 udp 0\nm=DATA 0 udp 0\n"
    b"m=control\t 0 udp 0\nm=\xff 0 udp 0\n",
    # 3: nothing after the = sign.
    V + b"m=\n",
    # 3: media alone.
    V + b"m=audio\n",
    # 3: port missing.
    V + b"m=audio \n",
    # 3: transport missing.
    V + b"m=audio 0\n",
    # 3: transport empty.
    V + b"m=audio 0 \n",
    # 3: format missing.
    V + b"m=audio 0 RTP/AVP\n",
    # 3: format empty.
    V + b"m=audio 0 RTP/AVP \n",
    # 3: media empty.
    V + b"m= 0 RTP/AVP 0\n",
    # 3: port empty.
    V + b"m=audio  RTP/AVP 0\n",
    # 3: two spaces after the media.
    V + b"m=audio  0 RTP/AVP 0\n",
    # 3: two spaces after the port.
    V + b"m=audio 0  RTP/AVP 0\n",
    # 3: two spaces after the transport.
    V + b"m=audio 0 RTP/AVP  0\n",
    # 3: two spaces between formats.
    V + b"m=audio 0 RTP/AVP 0  8\n",
    # 3: a space at the end.
    V + b"m=audio 0 RTP/AVP 0 8 \n",
    # Three formats.
    V + b"m=audio 0 RTP/AVP 0 8 101\n",
    # A tab is an ordinary byte: a format.
    V + b"m=audio 0 RTP/AVP \t\n",
    # 3: a tab between media and port.
    V + b"m=audio\t0 RTP/AVP 0\n",
    # udp port 65534.
    V + C + b"m=data 65534 udp 0\n",
    # 3: RTP/AVP port 65536.
    V + C + b"m=audio 65536 RTP/AVP 0\n",
    # 3: udp port 65536.
    V + C + b"m=audio 65536 udp 0\n",
    # 3: udp port 99999.
    V + C + b"m=audio 99999 udp 0\n",
    # 3: a port of six digits.
    V + C + b"m=audio 065534 udp 0\n",
    # Port 00000 is 0 and needs no address.
    V + b"m=audio 00000 RTP/AVP 0\n",
    # 3: port 000000.
    V + b"m=audio 000000 RTP/AVP 0\n",
    # Leading zeros in a live port.
    V + C + b"m=audio 00080 udp 0\n",
    # 3: a number of ports.
    V + C + b"m=audio 40000/2 RTP/AVP 0\n",
    # 3: a signed port.
    V + C + b"m=audio -1 RTP/AVP 0\n",
    # 3: the byte after 9 in a port.
    V + C + b"m=audio 1: RTP/AVP 0\n",
    # 4: TCP.
    V + b"s=-\n" + b"m=audio 0 TCP 0\n",
    # 4: UDP in capitals.
    V + b"m=audio 0 UDP 0\n",
    # 4: rtp/avp in small letters.
    V + b"m=audio 0 rtp/avp 0\n",
    # 4: RTP/SAVP, in the second section.
    V + M + b"m=video 0 RTP/SAVP 0\n",
    # 4: RTP/AVPF.
    V + b"m=audio 0 RTP/AVPF 0\n",
    # 4: RTP/AV.
    V + b"m=audio 0 RTP/AV 0\n",
    # 4: a tab in the transport.
    V + b"m=audio 0 udp\t0 0\n",
    # 4: port 65535 with an unknown transport.
    V + C + b"m=audio 65535 TCP 0\n",
    # 3 before 4: port 65536 with an unknown transport.
    V + C + b"m=audio 65536 TCP 0\n",
    # 3 before 4: format missing, unknown transport.
    V + b"m=audio 0 TCP\n",
    # 3 before 4: a space at the end, unknown transport.
    V + b"m=audio 0 TCP 0 \n",
    # Eight m= lines.
    V + C + 8 * L,
    # 5: nine m= lines.
    V + C + 9 * L,
    # 5: nine m= lines, removed ones, with other lines between.
    V + 9 * (M + b"a=sendonly\n"),
    # 5 before 3: the ninth is empty.
    V + 8 * M + b"m=\n",
    # 5 before 4: the ninth has an unknown transport.
    V + 8 * M + b"m=audio 0 TCP 0\n",
    # 2 before 5: the ninth has no ending.
    V + 8 * M + M[:-1],
    # 5 before 9: no address at all.
    V + 9 * L,

    # The session's address serves a section without its own.
    V + C + L + L + b"c=IN IP4 10.0.0.255\n" + L,
    # A media section's address serves that section alone: 9.
    V + L + C + L,
    # 0.0.0.0 is an address.
    V + b"c=IN IP4 0.0.0.0\n" + L,
    # 255.255.255.255.
    V + b"c=IN IP4 255.255.255.255\n" + L,
    # 6: an octet of 256, first.
    V + b"c=IN IP4 256.0.0.1\n",
    # 6: an octet of 256, last.
    V + L + b"c=IN IP4 1.2.3.256\n",
    # Leading zeros within three digits.
    V + b"c=IN IP4 001.02.003.004\n" + L,
    # 6: four digits, first.
    V + b"c=IN IP4 0001.2.3.4\n",
    # 6: four digits, last.
    V + b"c=IN IP4 1.2.3.0004\n",
    # 6: three numbers.
    V + b"c=IN IP4 1.2.3\n",
    # 6: five numbers.
    V + b"c=IN IP4 1.2.3.4.5\n",
    # 6: an empty number.
    V + b"c=IN IP4 1..3.4\n",
    # 6: a dot at the end.
    V + b"c=IN IP4 1.2.3.4.\n",
    # 6: TTL.
    V + b"c=IN IP4 224.2.1.1/127\n",
    # 6: a space at the end.
    V + b"c=IN IP4 1.2.3.4 \n",
    # 6: IP6.
    V + b"c=IN IP6 ::1\n",
    # 6: small letters.
    V + b"c=in ip4 1.2.3.4\n",
    # 6: two spaces.
    V + b"c=IN IP4  1.2.3.4\n",
    # 6: nothing after the = sign.
    V + M + b"c=\n",
    # 6: a prefix only.
    V + M + b"c=IN IP4 \n",
    # 6: a host name.
    V + b"c=IN IP4 example.org\n",
    # 6: second in the session section.
    V + C + b"s=-\n" + C,
    # 6: second in a media section, the first good.
    V + C + L + C + C,
    # 6: second in a media section of port 0.
    V + M + C + b"s=-\n" + C,
    # Both levels, once each.
    V + C + L + b"c=IN IP4 198.51.100.7\n",

    # RS and RR at 4294967295.
    MEDIA + b"b=RS:4294967295\nb=RR:4294967295\n",
    # 7: RS at 4294967296.
    MEDIA + b"b=RS:4294967296\n",
    # 7: RR at 4294967296, after a good RS.
    MEDIA + b"b=RS:1\nb=RR:4294967296\n",
    # RS above the largest AS.
    MEDIA + b"b=RS:4294968\n",
    # AS, RS and RR at 0 are present.
    MEDIA + b"b=AS:0\nb=RS:0\nb=RR:0\n",
    # AS of ten digits.
    MEDIA + b"b=AS:0004294967\n",
    # 7: AS of eleven digits.
    MEDIA + b"b=AS:00004294967\n",
    # RR of ten digits.
    MEDIA + b"b=RR:0000000000\n",
    # 7: RR of eleven digits.
    MEDIA + b"b=RR:00000000000\n",
    # 7: RS of eleven digits.
    MEDIA + b"b=RS:10000000000\n",
    # 7: RS at 2^64.
    MEDIA + b"b=RS:18446744073709551616\n",
    # 7: AS without digits.
    MEDIA + b"b=AS:\n",
    # 7: RS without digits.
    MEDIA + b"b=RS:\n",
    # 7: signed AS.
    MEDIA + b"b=AS:-1\n",
    # 7: AS with a plus.
    MEDIA + b"b=AS:+1\n",
    # 7: AS with a space before.
    MEDIA + b"b=AS: 64\n",
    # 7: AS with a space after.
    MEDIA + b"b=AS:64 \n",
    # 7: the byte before 0.
    MEDIA + b"b=AS:6/\n",
    # 7: second AS, equal.
    MEDIA + b"b=AS:64\nb=AS:64\n",
    # 7: second RS, with others between.
    MEDIA + b"b=RS:800\nb=AS:64\nb=RR:1\nb=RS:0\n",
    # 7: second RR, the first 0.
    MEDIA + b"b=RR:0\nb=RR:0\n",
    # The same modifier in two sections.
    MEDIA + b"b=AS:64\n" + M + b"b=AS:65\n",
    # Other modifiers are passed over.
    MEDIA + b"b=AS\nb=as:64\nb=X-AS:1\nb=CT:x\nb=\nb=RS\nb=AR:x\nb=SS:\nb= AS:x\nb=AS 64\n",
    # All b= in the session section are passed over.
    V + b"b=AS:x\nb=AS:64\nb=AS:64\nb=RS:\n" + M,

    # TIAS alone is the requested rate as it stands.
    MEDIA + b"b=TIAS:64000\n",
    # No multiple of 20, in a live section, CR LF.
    b"v=0\r\nc=IN IP4 1.2.3.4\r\nm=video 2 RTP/AVP 0\r\nb=TIAS:64001\r\n",
    # TIAS at 0 is present.
    MEDIA + b"b=TIAS:0\n",
    # TIAS at 4294967295.
    MEDIA + b"b=TIAS:4294967295\n",
    # 7: TIAS at 4294967296.
    MEDIA + b"b=TIAS:4294967296\n",
    # 7: the largest of ten digits.
    MEDIA + b"b=TIAS:9999999999\n",
    # TIAS of ten digits.
    MEDIA + b"b=TIAS:0000064001\n",
    # 7: TIAS of eleven digits.
    MEDIA + b"b=TIAS:00000064001\n",
    # 7: zeros, eleven digits.
    MEDIA + b"b=TIAS:00000000000\n",
    # TIAS above the largest AS.
    MEDIA + b"b=TIAS:4294968\n",
    # 7: TIAS without digits.
    MEDIA + b"b=TIAS:\n",
    # 7: signed TIAS.
    MEDIA + b"b=TIAS:-1\n",
    # 7: TIAS with a space before.
    MEDIA + b"b=TIAS: 64001\n",
    # 7: TIAS with a space after.
    MEDIA + b"b=TIAS:64001 \n",
    # 7: the byte after 9.
    MEDIA + b"b=TIAS:6:\n",
    # AS decides, TIAS after it.
    MEDIA + b"b=AS:64\nb=TIAS:64001\n",
    # AS decides, TIAS before it.
    MEDIA + b"b=TIAS:64001\nb=AS:64\n",
    # The same with others between.
    MEDIA + b"b=TIAS:4294967295\nb=RS:800\ns=-\nb=RR:1\na=inactive\nb=AS:1\n",
    # AS at 0 decides, TIAS after it.
    MEDIA + b"b=AS:0\nb=TIAS:64001\n",
    # AS at 0 decides, TIAS before it.
    MEDIA + b"b=TIAS:64001\nb=AS:0\n",
    # AS decides, TIAS at 0.
    MEDIA + b"b=TIAS:0\nb=AS:64\n",
    # Both at their largest.
    MEDIA + b"b=AS:4294967\nb=TIAS:4294967295\n",
    # 7: a bad TIAS after an AS.
    MEDIA + b"b=AS:64\nb=TIAS:x\n",
    # 7: a bad TIAS before an AS.
    MEDIA + b"b=TIAS:4294967296\nb=AS:64\n",
    # 7: a bad AS after a TIAS.
    MEDIA + b"b=TIAS:64001\nb=AS:4294968\n",
    # 7: second TIAS, equal.
    MEDIA + b"b=TIAS:64001\nb=TIAS:64001\n",
    # 7: second TIAS, another, lines between.
    MEDIA + b"b=TIAS:0\ns=-\nb=RS:1\nb=TIAS:1\n",
    # 7: second TIAS after an AS.
    MEDIA + b"b=AS:64\nb=TIAS:64001\nb=TIAS:64001\n",
    # 7: second TIAS, an AS between.
    MEDIA + b"b=TIAS:64001\nb=AS:64\nb=TIAS:64001\n",
    # 7: second AS, a TIAS between.
    MEDIA + b"b=AS:64\nb=TIAS:64001\nb=AS:64\n",
    # Each section has its own: TIAS in two, AS in one, both in one, neither in one.
    MEDIA + b"b=TIAS:1\n" + M + b"b=TIAS:1\n" + M + b"b=AS:2\n" + M + b"b=TIAS:3\nb=AS:4\n" + M,
    # An AS before serves no later section.
    MEDIA + b"b=AS:64\nb=TIAS:1\n" + M + b"b=TIAS:64001\n",
    # 7: second TIAS, in the second section.
    MEDIA + b"b=TIAS:1\n" + M + b"b=TIAS:1\nb=TIAS:1\n",
    # Modifiers that look alike are passed over.
    MEDIA + b"b=TIAS\nb=TIA:1\nb=tias:1\nb=Tias:1\nb=TIAS :1\nb= TIAS:x\nb=XTIAS:1\nb=X-TIAS:x\nb=TIASX:1\n"
    b"b=TIAS=1\nb=TIAS1\nb=T\nb=TI:1\nb=IAS:x\nb=TAS:\n",
    # The same beside a TIAS.
    MEDIA + b"b=TIAS\nb=tias:x\nb=TIAS:64001\nb=TIASX:1\nb=TIA:x\n",
    # In the session section a TIAS is passed over, and is no default.
    V + b"b=TIAS:64001\n" + M + M + b"b=TIAS:5\n",
    # The same, bad ones and second ones.
    V + b"b=TIAS:x\nb=TIAS:\nb=TIAS:4294967296\nb=TIAS:1\nb=TIAS:1\n" + M,
    # 2 before 7: NUL in a bad TIAS.
    MEDIA + b"b=TIAS:x\0\n",
    # The first faulty line wins: 7 before a later 8.
    MEDIA + b"a=inactive\nb=TIAS:x\na=inactive\n",
    # The first faulty line wins: 8 before a later 7.
    MEDIA + b"a=inactive\na=inactive\nb=TIAS:x\n",
    # 7 before 9, which waits for all lines to be good.
    V + L + b"b=TIAS:4294967296\n",

    # Every direction.
    V + M + b"a=sendrecv\n" + M + b"a=sendonly\n" + M + b"a=recvonly\n" + M + b"a=inactive\n" + M,
    # 8: second direction, equal.
    MEDIA + b"a=sendonly\na=sendonly\n",
    # 8: second direction, another, lines between.
    MEDIA + b"a=sendrecv\nb=AS:64\ns=-\na=inactive\n",
    # 8: second direction, in the second section.
    MEDIA + b"a=recvonly\n" + M + b"a=inactive\na=recvonly\n",
    # Lines near the directions are passed over.
    MEDIA + b"a=sendonly\na=sendonly \na=Inactive\na=inactiv\na=inactive2\na=\na= sendrecv\na=recvonly:1\n",
    # A media section's direction serves that section alone.
    MEDIA + b"a=inactive\n" + M,

    # The session section's direction stands for each media section without one: sendrecv.
    V + b"a=sendrecv\n" + M + M,
    # sendonly, before the address.
    V + b"a=sendonly\n" + C + L,
    # recvonly, after the address and other lines.
    V + C + b"b=AS:x\na=ptime:20\ns=-\na=recvonly\n" + L,
    # inactive, between other lines, for eight sections.
    V + b"s=-\na=inactive\nt=0 0\n" + 8 * M,
    # The own one wins, a sendrecv too, and serves that section alone.
    V + b"a=inactive\n" + M + b"a=sendrecv\n" + M + M + b"a=recvonly\n" + M,
    # Every own one, under sendonly.
    V + b"a=sendonly\n" + M + b"a=sendrecv\n" + M + b"a=sendonly\n" + M + b"a=recvonly\n" + M + b"a=inactive\n" + M,
    # One in the session section and one in a media section, equal.
    V + b"a=inactive\n" + M + b"a=inactive\n",
    # CR LF: the CR is not part of the session section's line either.
    b"v=0\r\na=inactive\r\nc=IN IP4 1.2.3.4\r\nm=audio 1 udp 0\r\nm=video 2 udp 0\r\na=sendrecv\r\n",
    # One, and no m= line.
    V + b"s=-\na=inactive\n",
    # Lines near the directions are passed over in the session section too.
    V + b"a=sendonly \na=Inactive\na=inactiv\na=inactive2\na=\na= sendrecv\na=recvonly:1\ns=a=sendonly\n"
    b"a=a=inactive\n" + M,
    # The same before and after one, and a long one.
    V + b"a=inactive \na=sendonly\na=sendonly\t\na=SENDONLY\n" + line(b"a=sendonly", 256) + M,
    # 8: second direction in the session section, equal.
    V + b"a=sendonly\na=sendonly\n" + M,
    # 8: another, lines between.
    V + b"a=sendrecv\n" + C + b"s=-\na=inactive\n" + L,
    # 8: where no section uses it.
    V + b"a=inactive\na=inactive\n" + M + b"a=sendrecv\n" + M + b"a=recvonly\n",
    # 8: where there is no section.
    V + b"a=sendrecv\na=sendrecv\n",
    # 8: the same, another, CR LF.
    b"v=0\r\ns=-\r\na=recvonly\r\na=inactive\r\n",
    # 8: the second of three.
    V + b"a=inactive\na=sendonly\na=recvonly\n" + M,
    # 8: second direction in a media section, under one in the session section.
    V + b"a=inactive\n" + M + b"a=sendonly\n" + M + b"a=recvonly\na=recvonly\n",
    # 2 before 8: NUL in the second.
    V + b"a=inactive\na=inactive\0\n" + M,
    # 2 before 8: the second has no ending.
    V + b"a=inactive\na=inactive",
    # The first faulty line wins: 8 before a later 6.
    V + b"a=inactive\na=inactive\nc=\n",
    # The first faulty line wins: 6 before a later 8.
    V + b"a=inactive\nc=\na=inactive\n",
    # The first faulty line wins: 8 before 5.
    V + b"a=inactive\na=inactive\n" + 9 * M,
    # 8 before 9, which waits for all lines to be good.
    V + b"a=sendonly\na=sendonly\n" + L,
    # 9 after a session section's direction.
    V + b"a=sendonly\n" + M + L,

    # 9: live port, no address.
    V + L,
    # 9: the lowest of two, after a removed one.
    b"v=0\r\ns=-\r\nm=audio 0 RTP/AVP 0\r\na=sendonly\r\nm=audio 1 udp 0\r\ns=-\r\nm=audio 2 udp 0\r\n",
    # 9: the first has its own, the second the lack.
    V + L + C + b"a=sendonly\n" + L + M,
    # 9: the last of eight.
    V + 7 * M + L,
    # 9: udp port 65535.
    V + b"m=audio 65535 udp 0\n",
    # 7 before 9, which waits for all lines to be good.
    V + L + b"b=AS:\n",
    # 2 before 9, in the last line.
    V + L + b"s=-",
    # Port 0 needs no address.
    V + M + b"a=inactive\n",
    # A removed section keeps its own address.
    V + M + C,
]


def main():
    for text in TEXTS:
        sys.stdout.buffer.write(b"%d\n" % len(text) + text)


main()
