/*
 * Writes the URI of a request: a host, mostly the stream of the session, and a query with values around their limits.
 */
#include "compare.h"

/* The ID of a live stream, or any if there is none. */
static uint64_t some_stream(void)
{
    size_t start = below(PLAIN_STREAMS);
    for (size_t i = 0; i < PLAIN_STREAMS; i++)
        if (table->streams[(start + i) % PLAIN_STREAMS].frontend != 0)
            return (start + i) % PLAIN_STREAMS + 1;
    return 1 + below(PLAIN_STREAMS);
}

/* Values of a query. */

static const char *bad_value(void)
{
    return ANY("0", "00", "000001", "-1", "+1", "1 ", "a", "H", "ALL", "none", "all", ",", "1,", ",1", "1,,2", "8192",
               "65536", "99999", "100000", "h?x", "h=v", "%30", "0x1", "=", "1.5", "999", "1001", "45001", "5", "9");
}

static void put_freq(void)
{
    if (once_in(SPOIL))
        put(ANY("10699", "10699.99", "12750.01", "12750.1", "12751", "12750.", "011538", "1153", "11538.123",
                "11538.005", "11538,5", "11538.5a", "1153a", "99999.99", "00000", ".5", "11538.-1"));
    else if (once_in(4))
        put(ANY("10700", "12750", "10700.0", "10700.00", "12750.0", "12750.00", "11538.5", "11538.05", "12749.99"));
    else
        put_number(10700 + below(2051));
}

/* A PID: mostly from few, so that lists meet. */
static void put_pid(void)
{
    if (once_in(40))
        put(ANY("8191", "08191", "00000", "8190", "00001"));
    else if (once_in(150))
        put(ANY("8192", "000001", "", "a", "65535", "99999", "-1"));
    else
        put_number(below(once_in(6) ? 8192 : 44));
}

static void put_pids(void)
{
    size_t count = once_in(12) ? 30 + below(8) : once_in(60) ? 150 + below(80) : 1 + below(6);
    for (size_t i = 0; i < count; i++) {
        if (i > 0)
            put(",");
        put_pid();
    }
}

/* A list of 31 to 34 numbers one after the other: just below and above the most. */
static void put_run(void)
{
    size_t count = 31 + below(4), first = below(3) * 20;
    for (size_t i = 0; i < count; i++) {
        if (i > 0)
            put(",");
        put_number(first + i);
    }
}

static void put_list(bool words)
{
    if (words && once_in(4))
        put(ANY("all", "none"));
    else if (once_in(10))
        put_run();
    else
        put_pids();
}

/* A frontend for fe: one there is, mostly. */
static void put_fe(void)
{
    if (once_in(6))
        put(ANY("1", "02", "00003", "8", "9", "0"));
    else
        put_number(1 + below(table->settings.frontends + (once_in(8) ? 1u : 0u)));
}

enum { SRC, FE, FREQ, POL, MSYS, MTYPE, PLTS, RO, SR, FEC, PIDS, ADDPIDS, DELPIDS, NAMES };

static const char *const names[NAMES] = {
    "src", "fe", "freq", "pol", "msys", "mtype", "plts", "ro", "sr", "fec", "pids", "addpids", "delpids"
};

/* A good value of a name; if `old`, one that goes with dvbs. */
static void put_value(size_t name, bool old)
{
    switch (name) {
    case SRC: put(ANY("1", "2", "3", "4", "04", "00001")); break;
    case FE: put_fe(); break;
    case FREQ: put_freq(); break;
    case POL: put(ANY("h", "v", "l", "r")); break;
    case MSYS: put(old ? "dvbs" : "dvbs2"); break;
    case MTYPE: put(old ? "qpsk" : ANY("qpsk", "8psk")); break;
    case PLTS: put(old ? "off" : ANY("on", "off")); break;
    case RO: put(old ? "0.35" : ANY("0.35", "0.25", "0.20")); break;
    case SR: put(ANY("1000", "01000", "45000", "22000", "27500", "44999")); break;
    case FEC: put(old ? ANY("12", "23", "34", "56", "78") : ANY("12", "78", "89", "35", "45", "910")); break;
    default: put_list(name == PIDS); break;
    }
}

/* A name that is none, with a value. */
static void put_odd_pair(void)
{
    put(ANY("bogus=1", "=h", "pol", "pol=", "Pol=h", "?pol=h", "pids", "pol =h", "srcc=1", "sr=", "fee=1", "", "&",
            "addpid=1", "frequ=1", "x=1=2", "src=1", "pol=h"));
}

static void put_pair(size_t name, bool old)
{
    put(names[name]);
    put("=");
    if (once_in(SPOIL * 4))
        put(bad_value());
    else
        put_value(name, old && !once_in(8));
}

/* Which names a query has: a bit for each. */
static unsigned choose_names(enum errand errand)
{
    unsigned chosen = (unsigned)chance() & (unsigned)chance() & 0x3FF;
    if (once_in(3))
        chosen |= 1u << FREQ | 1u << POL | 1u << MSYS | 1u << SR | 1u << FEC;
    if (!once_in(4))
        chosen &= ~(1u << FE);
    if (once_in(3))
        chosen |= 1u << SRC;
    if (errand == OPEN && once_in(6))
        chosen |= 1u << FE;
    if (errand == OPEN || once_in(4))
        chosen |= once_in(2) ? 1u << PIDS : 0;
    else
        chosen |= (unsigned)below(4) << ADDPIDS;
    if (once_in(SPOIL * 4))
        chosen |= 1u << PIDS | 1u << ADDPIDS;
    return chosen == 0 ? 1u << below(PIDS + 1) : chosen;
}

static void put_query(enum errand errand)
{
    unsigned chosen = choose_names(errand);
    bool old = once_in(3), first = true;
    size_t start = below(NAMES);
    put("?");
    for (size_t i = 0; i < NAMES; i++) {
        size_t name = (start + i) % NAMES;
        if ((chosen >> name & 1) == 0)
            continue;
        if (!first)
            put("&");
        put_pair(name, old);
        first = false;
    }
    if (once_in(SPOIL * 2)) {
        put("&");
        put_odd_pair();
    }
}

/* The URI. */

static void put_host(void)
{
    if (once_in(SPOIL * 3)) {
        put(ANY("", "h_", "[::1]", "u@h", "h:", "h:0", "h:65536", "h:000554", "h:a", "h:1:2", ":554", "h?", "h%"));
        return;
    }
    put(ANY("10.0.0.5", "h", "Box-1.local", "192.168.178.39", "-", ".", "0"));
    if (once_in(4))
        put(ANY(":554", ":1", ":65535", ":00554", ":00001"));
}

static void put_odd_stream(void)
{
    put(ANY("stream=0", "stream=01", "stream=", "stream=65536", "Stream=1", "stream=1/", "stream", "stream=-1", "x",
            "/", "stream=1a", "stream=100000", "stream=9", "stream=65535", "stream=257", "stream=256", "stream=8"));
}

/* The stream a request names: the session's own, mostly. */
static void put_stream(const struct plain_session *session)
{
    if (once_in(SPOIL)) {
        put_odd_stream();
        return;
    }
    if (once_in(SPOIL))
        return;
    put("stream=");
    put_number(session != NULL && !once_in(SPOIL / 2) ? session->stream
               : once_in(SPOIL) ? 1 + below(12) : some_stream());
}

/* A URI whose length is about 1,024. */
static void put_long_uri(void)
{
    size_t end = out->length + 1022 + below(5);
    put("rtsp://");
    if (once_in(2)) {
        while (out->length + 1 < end)
            put("h");
        put("/");
        return;
    }
    put("h/?pids=0");
    while (out->length + 2 < end)
        put(",0");
    while (out->length < end)
        put("0");
}

/* Does a request of this errand have a query? */
static bool wants_query(enum errand errand, const struct plain_session *session)
{
    switch (errand) {
    case OPEN: return !once_in(SPOIL * 2);
    case JOIN: return once_in(SPOIL / 2);
    case AGAIN: case PLAY: return session != NULL && session->owner ? once_in(2) : once_in(6);
    default: return once_in(SPOIL);
    }
}

void put_uri(enum errand errand, const struct plain_session *session)
{
    if (once_in(SPOIL * 2)) {
        put_long_uri();
        return;
    }
    put(once_in(SPOIL * 4) ? ANY("RTSP://", "rtsp:/", "rtsp:", "http://", "", "*", "rtsp:///") : "rtsp://");
    put_host();
    put(once_in(SPOIL * 6) ? "" : "/");
    if ((errand != OPEN && errand != ALIVE) || once_in(SPOIL))
        put_stream(session);
    if (wants_query(errand, session))
        put_query(errand);
    else if (once_in(SPOIL * 6))
        put("?");
}
