/*
 * Writes requests: lifelike ones for what the table can answer, with one part wrong now and then, parts around
 * their limits, headers in every form, and damage to single bytes.
 */
#include "compare.h"

#include <stdio.h>
#include <string.h>

struct call *out;
const struct plain_box *table;

/* Putting text. */

void put_byte(uint8_t byte)
{
    if (out->length < CALL_BYTES)
        out->bytes[out->length++] = byte;
}

void put(const char *text)
{
    while (*text != '\0')
        put_byte((uint8_t)*text++);
}

void put_number(uint64_t number)
{
    char text[24];
    snprintf(text, sizeof text, "%llu", (unsigned long long)number);
    put(text);
}

const char *any(const char *const *texts, size_t count)
{
    return texts[below(count)];
}

/* Letters of a name in either case. */
static void put_name(const char *name)
{
    bool wild = once_in(6);
    for (; *name != '\0'; name++) {
        bool letter = (*name >= 'a' && *name <= 'z') || (*name >= 'A' && *name <= 'Z');
        put_byte((uint8_t)(wild && letter && once_in(2) ? *name ^ 32 : *name));
    }
}

/* An open session, at times the one that was silent for the longest time; NULL if there is none. */
static const struct plain_session *some_session(void)
{
    const struct plain_session *chosen = NULL;
    const size_t start = below(PLAIN_SESSIONS);
    const bool oldest = once_in(3);
    for (size_t i = 0; i < PLAIN_SESSIONS; i++) {
        const struct plain_session *session = &table->sessions[(start + i) % PLAIN_SESSIONS];
        if (session->number != 0 && (chosen == NULL || (oldest && session->last < chosen->last)))
            chosen = session;
    }
    return chosen;
}

/* Headers. */

/* A header's name, colon and outer spaces; its value is put after it. */
static void put_header(const char *name)
{
    put_name(name);
    put(once_in(SPOIL * 12) ? ANY(" :", "", "_:", ";") : ":");
    put(once_in(4) ? ANY("", "  ", "   ") : " ");
}

static void end_line(void)
{
    put(once_in(8) ? ANY(" ", "  ", "") : "");
    put(once_in(SPOIL * 20) ? ANY("\r", "\n", "\r\r\n", "\n\r", "\t\r\n", "") : "\r\n");
}

/* A number with zeros in front, where it has not as many digits of its own. */
static void put_digits(uint64_t number, uint64_t digits)
{
    char text[24];
    snprintf(text, sizeof text, "%0*llu", (int)digits, (unsigned long long)number);
    put(text);
}

/* The digits of a CSeq: of any length, plain or with zeros in front, around the limits, past them, or none. */
static void put_cseq_digits(void)
{
    const uint64_t number = chance() >> (32 + below(32));
    if (once_in(SPOIL))
        put(ANY("", "1a", "-1", "4294967296", "00000000001", "04294967295", "99999999999", "9999999999", "1 2", "+1",
                "0x1"));
    else if (once_in(SPOIL))
        put_digits(number, once_in(2) ? 11 : 12 + below(8));
    else if (once_in(SPOIL * 2))
        put_digits(below(10000000000), 10);
    else if (once_in(6))
        put(ANY("0", "00", "007", "0000000001", "0000000000", "0429496729", "0999999999", "4294967294", "4294967295"));
    else
        put_digits(number, once_in(3) ? 1 : once_in(3) ? 10 : 2 + below(9));
}

static void put_cseq(void)
{
    if (once_in(SPOIL * 2) && once_in(2))
        return;
    put_header("CSeq");
    put(once_in(6) ? ANY(" ", "    ", "          ") : "");
    put_cseq_digits();
    put(once_in(6) ? ANY(" ", "   ", "          ") : "");
    end_line();
}

/* A session number in hex of either case. */
static void put_hex(uint32_t number)
{
    uint64_t style = below(4);
    for (int shift = 28; shift >= 0; shift -= 4) {
        bool small = style == 1 || (style == 2 && once_in(2));
        put_byte((uint8_t)(small ? "0123456789abcdef" : "0123456789ABCDEF")[number >> shift & 15]);
    }
}

static void put_odd_session(const struct plain_session *session)
{
    uint32_t number = session == NULL ? 1 : session->number;
    char text[24];
    switch (below(6)) {
    case 0: put(ANY("", ";", "0000000", "00000000", "000000001", "0000000G", "FFFFFFFF", ";00000001", "0x000001")); break;
    case 1: put_hex((uint32_t)chance()); break;
    case 2: put_hex(number + 1); break;
    case 3: snprintf(text, sizeof text, "%X", (unsigned)number); put(text); break;
    case 4: put_hex(number); put(ANY(" ", " ;timeout=60", "0", ",1", ":")); break;
    default: put_hex(number); put_hex(number); break;
    }
}

/* The Session header: the session's own number, mostly, or another's. */
static void put_session(const struct plain_session *session)
{
    if (session == NULL && !once_in(3))
        return;
    put_header("Session");
    if (session == NULL || once_in(SPOIL))
        put_odd_session(session);
    else
        put_hex(once_in(SPOIL) ? some_session()->number : session->number);
    if (once_in(4))
        put(ANY(";", ";timeout=60", ";x;y", "; timeout=60"));
    end_line();
}

static void put_odd_transport(void)
{
    put(ANY("", "RTP/AVP;unicast;client_port=5001-5002", "RTP/AVP;unicast;client_port=5000-5002",
            "RTP/AVP;unicast;client_port=5000", "RTP/AVP;unicast;client_port=5000-5001;", "RTP/AVP;multicast",
            "RTP/AVP;unicast;client_port=1022-1023", "RTP/AVP;unicast;client_port=65536-65537",
            "RTP/AVP;unicast;client_port=05000-5001", "RTP/AVP;unicast;client_port=5000-05001",
            "rtp/avp;unicast;client_port=5000-5001", "RTP/AVP; unicast;client_port=5000-5001",
            "RTP/AVP/UDP;unicast;client_port=5000-5001", "RTP/AVP;unicast;client_port=0-1",
            "RTP/AVP;unicast;client_port=-", "RTP/AVP;unicast;client_port=5000-4999",
            "RTP/AVP;unicast;client_port=100000-100001", "RTP/AVP;unicast;client_port=5000--5001"));
}

static void put_transport(void)
{
    uint64_t port = once_in(6) ? (once_in(2) ? 1024 : 65534) : 1024 + 2 * below(32256);
    if (once_in(SPOIL))
        return;
    put_header("Transport");
    if (once_in(SPOIL)) {
        put_odd_transport();
    } else {
        put("RTP/AVP;unicast;client_port=");
        put_number(port);
        put("-");
        put_number(port + 1);
    }
    end_line();
}

/* A header that the request could do without, known or not. */
static void put_spare_header(void)
{
    put_header(once_in(12) ? ANY("CSeq", "Session", "Transport", "Require", "Accept")
                           : ANY("Accept", "User-Agent", "X", "x.y-1", "Content-Length", "CSeqs", "Sessio", "Date"));
    put(ANY("", "1", "application/sdp", "a:b", "a  b", "00000001", "x;y=\"z\"", "RTP/AVP;unicast;client_port=5000-5001"));
    end_line();
}

static void put_require(void)
{
    put_header("Require");
    put(ANY("", "x", "a  b", "com.ses.x, y", ":", "Require: x"));
    end_line();
}

/* A header that makes the request so long without its line's end; at times its value comes back. */
static void put_long_header(size_t end)
{
    put(once_in(2) ? "Require: " : "X-Long: ");
    while (out->length < end)
        put("y");
    put("\r\n");
}

/* The request. */

/* A request line of fewer or more parts than three, or with an empty one. */
static void put_odd_line(void)
{
    put(ANY("OPTIONS", "OPTIONS rtsp://h/", "OPTIONS  RTSP/1.0", " rtsp://h/ RTSP/1.0", "OPTIONS rtsp://h/ ", "  ", " ",
            "OPTIONS rtsp://h/ RTSP/1.0 x", "OPTIONS  rtsp://h/ RTSP/1.0", " OPTIONS rtsp://h/ RTSP/1.0", ""));
    put("\r\n");
}

static void put_request_line(enum errand errand, const struct plain_session *session)
{
    static const char *const methods[ERRANDS] = {"SETUP", "SETUP", "SETUP", "PLAY", "OPTIONS", "TEARDOWN"};
    if (once_in(SPOIL * 6)) {
        put_odd_line();
        return;
    }
    if (once_in(SPOIL * 2))
        put(ANY("DESCRIBE", "setup", "GET", "OPTION", "PLAYS", "TEARDOWNX", "PAUSE", "", "S", "PLAY "));
    else
        put(methods[once_in(SPOIL) ? below(ERRANDS) : errand]);
    put(once_in(SPOIL * 8) ? ANY("", "  ", "\t") : " ");
    put_uri(errand, session);
    put(once_in(SPOIL * 8) ? ANY("", "  ", " x ") : " ");
    put(once_in(SPOIL * 2) ? ANY("RTSP/1.1", "rtsp/1.0", "HTTP/1.1", "", "RTSP/1.0 ", "RTSP/1.00", "RTSP/1.", "R")
                           : "RTSP/1.0");
    put("\r\n");
}

static void put_headers(enum errand errand, const struct plain_session *session)
{
    bool setup = errand == OPEN || errand == JOIN || errand == AGAIN;
    bool last = once_in(4);
    if (!last)
        put_cseq();
    while (once_in(5))
        put_spare_header();
    if (setup && once_in(2))
        put_transport(), setup = false;
    if (session != NULL || once_in(SPOIL))
        put_session(session);
    if (setup || once_in(SPOIL))
        put_transport();
    if (once_in(SPOIL * 2))
        put_require();
    if (last && once_in(SPOIL))
        put_long_header(below(2030));
    if (last)
        put_cseq();
    if (once_in(SPOIL * 2))
        put_long_header(2042 + below(5));
}

/* Damages one byte; the places go round so that each has its turn. */
static void damage(void)
{
    static size_t turn;
    size_t at = turn++ % (out->length + 1), rest = out->length - at;
    uint8_t byte = (uint8_t)(once_in(2) ? " \r\n\t:;=&?,-/0A~\x7F\x80"[below(17)] : (char)below(256));
    switch (below(6)) {
    case 0: if (rest > 0) out->bytes[at] ^= (uint8_t)(1u << below(8)); return;
    case 1: if (rest > 0) out->bytes[at] = byte; return;
    case 2: out->length = at; return;
    case 3:
        if (rest > 0)
            memmove(out->bytes + at, out->bytes + at + 1, --rest), out->length--;
        return;
    default:
        if (out->length == CALL_BYTES)
            return;
        memmove(out->bytes + at + 1, out->bytes + at, rest);
        out->length++;
        if (rest == 0 || once_in(2))
            out->bytes[at] = byte;
    }
}

/* Bytes altogether of chance, or none. */
static void put_rubbish(void)
{
    size_t count = below(once_in(8) ? CALL_BYTES : 40);
    bool printable = once_in(2);
    if (once_in(4))
        return;
    while (out->length < count)
        put_byte((uint8_t)(printable ? 32 + below(95) : below(256)));
    if (once_in(2))
        put("\r\n\r\n");
}

void write_request(struct call *call, const struct plain_box *box, enum errand errand, unsigned hostile)
{
    const struct plain_session *session;
    out = call;
    table = box;
    out->length = 0;
    if (errand != OPEN && errand != ALIVE && some_session() == NULL && !once_in(6))
        errand = OPEN;
    session = errand == OPEN || errand == JOIN || (errand == ALIVE && once_in(8)) ? NULL : some_session();
    if (once_in(400)) {
        put_rubbish();
        return;
    }
    put_request_line(errand, session);
    put_headers(errand, session);
    put("\r\n");
    if (below(16) < hostile)
        damage();
    if (once_in(200))
        put(ANY("\r\n", "x", "OPTIONS rtsp://h/ RTSP/1.0\r\nCSeq: 1\r\n\r\n"));
}
