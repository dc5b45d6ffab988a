/*
 * Reads a request's URI: its host, its stream, its query and the query's values, which is steps 7 to 9 of the
 * answer. Nothing here knows the table, but for the number of frontends that bounds fe.
 */
#include "plain_scan.h"

/* The query: steps 8 and 9. */

/* The attributes, in the order of document 01's table. */
enum attribute { SRC, FE, FREQ, POL, MSYS, MTYPE, PLTS, RO, SR, FEC, PIDS, ADDPIDS, DELPIDS, ATTRIBUTES };

static const char *const attribute_names[ATTRIBUTES] = {
    "src", "fe", "freq", "pol", "msys", "mtype", "plts", "ro", "sr", "fec", "pids", "addpids", "delpids"
};

static const char *const pol_words[] = {"h", "v", "l", "r", NULL};
static const char *const msys_words[] = {"dvbs", "dvbs2", NULL};
static const char *const mtype_words[] = {"qpsk", "8psk", NULL};
static const char *const plts_words[] = {"on", "off", NULL};
static const char *const ro_words[] = {"0.35", "0.25", "0.20", NULL};
static const char *const fec_words[] = {"12", "23", "34", "56", "78", "89", "35", "45", "910", NULL};

/* One name=value: the name known and not yet given, the value not empty. */
static bool read_pair(struct text pair, struct text given[ATTRIBUTES])
{
    struct text name, value;
    size_t i = 0;
    if (!split(pair, '=', &name, &value) || value.length == 0)
        return false;
    while (i < ATTRIBUTES && !same(name, attribute_names[i]))
        i++;
    if (i == ATTRIBUTES || given[i].length > 0)
        return false;
    given[i] = value;
    return true;
}

/* Step 8: the query's form, and which attributes may be there. */
static bool read_query(struct text query, const struct reading *reading, struct text given[ATTRIBUTES])
{
    bool more = true;
    if (reading->method == METHOD_OPTIONS || reading->method == METHOD_TEARDOWN)
        return false;
    while (more) {
        struct text pair;
        more = split(query, '&', &pair, &query);
        if (!read_pair(pair, given))
            return false;
    }
    bool changes = given[ADDPIDS].length > 0 || given[DELPIDS].length > 0;
    return !changes || (given[PIDS].length == 0 && reading->stream != 0);
}

/* The readers of step 9: a value that is not given leaves its code 0 and is good. */

static bool read_plain(struct text given, uint32_t low, uint32_t high, uint32_t *number)
{
    return given.length == 0 || read_number(given, 5, low, high, number);
}

static bool read_word(struct text given, const char *const words[], uint32_t *code)
{
    if (given.length == 0)
        return true;
    for (uint32_t i = 0; words[i] != NULL; i++)
        if (same(given, words[i])) {
            *code = i + 1;
            return true;
        }
    return false;
}

/* Five digits of MHz, optionally a dot and one or two digits, kept in hundredths. */
static bool read_freq(struct text given, uint32_t *freq)
{
    struct text whole, fraction;
    uint32_t mhz, hundredths = 0;
    if (given.length == 0)
        return true;
    bool dot = split(given, '.', &whole, &fraction);
    if (whole.length != 5 || !read_number(whole, 5, 0, 99999, &mhz))
        return false;
    if (dot && !read_number(fraction, 2, 0, 99, &hundredths))
        return false;
    if (fraction.length == 1)
        hundredths *= 10;
    uint32_t value = 100 * mhz + hundredths;
    if (value < FREQ_LEAST || value > FREQ_MOST)
        return false;
    *freq = value;
    return true;
}

bool plain_take_pid(struct text *list, uint16_t *pid)
{
    struct text first;
    uint32_t number;
    bool comma = split(*list, ',', &first, list);
    if (!read_number(first, 5, 0, PLAIN_PID_MOST, &number) || (comma && list->length == 0))
        return false;
    *pid = (uint16_t)number;
    return true;
}

static bool read_list(struct text given, struct text *list)
{
    uint16_t pid;
    *list = given;
    while (given.length > 0)
        if (!plain_take_pid(&given, &pid))
            return false;
    return true;
}

static bool read_pids(struct text given, struct reading *reading)
{
    reading->pids_given = given.length > 0;
    reading->pids_all = same(given, "all");
    return reading->pids_all || same(given, "none") || read_list(given, &reading->pids);
}

/* Step 9: every value given is in the table. */
static bool read_values(const struct text given[ATTRIBUTES], uint32_t frontends, struct reading *reading)
{
    struct plain_values *values = &reading->values;
    return read_plain(given[SRC], 1, SRC_MOST, &values->src)
        && read_plain(given[FE], 1, frontends, &reading->fe)
        && read_freq(given[FREQ], &values->freq)
        && read_word(given[POL], pol_words, &values->pol)
        && read_word(given[MSYS], msys_words, &values->msys)
        && read_word(given[MTYPE], mtype_words, &values->mtype)
        && read_word(given[PLTS], plts_words, &values->plts)
        && read_word(given[RO], ro_words, &values->ro)
        && read_plain(given[SR], SR_LEAST, SR_MOST, &values->sr)
        && read_word(given[FEC], fec_words, &values->fec)
        && read_pids(given[PIDS], reading)
        && read_list(given[ADDPIDS], &reading->addpids)
        && read_list(given[DELPIDS], &reading->delpids);
}

/* The URI before its query: rtsp://host[:port]/[stream=n]. */
static bool read_path(struct text path, struct reading *reading)
{
    struct text authority, port, stream;
    uint32_t number;
    if (!take_prefix(&path, "rtsp://") || !split(path, '/', &authority, &stream))
        return false;
    bool colon = split(authority, ':', &reading->host, &port);
    if (!is_name(reading->host) || (colon && !read_number(port, 5, 1, 65535, &number)))
        return false;
    if (stream.length == 0)
        return true;
    return take_prefix(&stream, "stream=") && read_strict_number(stream, 1, 65535, &reading->stream);
}

enum status plain_read_uri(struct text uri, uint32_t frontends, struct reading *reading)
{
    struct text path, query;
    struct text given[ATTRIBUTES] = {{NULL, 0}};
    if (uri.length > PLAIN_URI_BYTES)
        return STATUS_URI_TOO_LONG;
    reading->query = split(uri, '?', &path, &query);
    if (!read_path(path, reading))
        return STATUS_BAD_REQUEST;
    if (!reading->query)
        return STATUS_OK;
    if (!read_query(query, reading, given))
        return STATUS_BAD_REQUEST;
    return read_values(given, frontends, reading) ? STATUS_OK : STATUS_FORBIDDEN;
}
