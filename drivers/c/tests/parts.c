/* Settings that are wrong, the text of identifiers, and the values of the headers. */
#include <linux/magic.h>
#include <stddef.h>
#include <stdio.h>
#include <string.h>
#include <sys/socket.h>
#include <unistd.h>

#include "../src/session.h"
#include "../switches/answer.h"
#include "../switches/xid_text.h"
#include "story.h"

static void settings_that_are_wrong(void)
{
    static const char *const texts[][2] = {{"nothing 1\n", "no such setting"}, {"threads 0\n", "no such setting"},
        {"threads 1.5\n", "no such setting"}, {"threads 1024\n", "no such setting"}, {"patience x\n", "no such setting"},
        {"name 12345678901234567\n", "no such setting"}, {"rm a -\n", "it takes a name"}, {"rm a - nowhere x\n", "nowhere"},
        {"rm a nowhere.so x y\n", "nowhere.so"}, {"rm a - stand_in x\nrm a - stand_in x\n", "two of this name"}, {"close b x\n", "close"},
        {"", "names no log"}};

    for (size_t i = 0; i < sizeof texts / sizeof texts[0]; i++) {
        write_file("settings", texts[i][0]);
        IS(tx_open(), TX_FAIL);
        if (strstr(gf_error(), texts[i][1]) == NULL)
            SAYS(gf_error(), texts[i][1]);
    }
    IS(gf_settings(path_of("nowhere")), -1);
    IS(tx_open(), TX_FAIL);
    set_up("# b\n\n  # c\r\nrm a - stand_in  x y \nclose a z\n", NULL);
    IS(gf_settings(path_of("settings")), 0);
    IS(gf_rmid("a"), 0);
    IS(gf_settings(path_of("nowhere")), 0); /* they are read once */
}

static void texts_of_identifiers(void)
{
    static const char *const wrong[] = {"", "7", "7:", "7::", "7:0:0", "7:00:", "7::00", "7:0g:00", "7:00:0G", "x:00:00", "7:00:00:00",
        "7:00 :00", " 7:00:00", "+7:00:00", "07:00:00", "-0:00:00", "9223372036854775808:00:00", "18446744073709551623:00:00"};
    char text[XID_TEXT], longest[XID_TEXT];
    XID xid;

    snprintf(longest, sizeof longest, "-1:%0128d:%0128d", 0, 0);
    IS(xid_from(longest, &xid), true);
    SAYS(text_of(&xid, text), longest);
    snprintf(longest, sizeof longest, "7:%0130d:00", 0);
    IS(xid_from(longest, &xid), false);
    for (size_t i = 0; i < sizeof wrong / sizeof wrong[0]; i++)
        see_number(__FILE__, __LINE__, wrong[i], xid_from(wrong[i], &xid), false);
}

static void places_of_logs(void)
{
    SAYS(danger_of(NFS_SUPER_MAGIC), "is shared: nothing sees there whether a program of another machine has it too");
    SAYS(danger_of(OVERLAYFS_SUPER_MAGIC), "is lost with the container or the machine: what is prepared then waits for somebody");
    IS(danger_of(EXT4_SUPER_MAGIC) == NULL, true);
}

/* A number that is none of a resource manager is none, also where its lowest bits are. */
static void numbers_in_replies(void)
{
    static const struct {
        const char *reply;
        int count, last;
    } rows[] = {{"due", 0, 0}, {"due 0 1", 2, 1}, {"due 1", 1, 1}, {"due 2", 0, 0}, {"due -1", 0, 0}, {"due +1", 0, 0}, {"due  1", 0, 0},
        {"due 1 x", 1, 1}, {"due 4294967297", 0, 0}, {"due 18446744073709551617", 0, 0}, {"due 1 0 1", 2, 0}};
    int rms[MOST_RMS];

    settings.rms = 2;
    for (size_t i = 0; i < sizeof rows / sizeof rows[0]; i++) {
        int count = named_in(rows[i].reply, rms);
        see_number(__FILE__, __LINE__, rows[i].reply, count, rows[i].count);
        see_number(__FILE__, __LINE__, rows[i].reply, count > 0 ? rms[count - 1] : 0, rows[i].last);
    }
}

static void texts_of_uuids(void)
{
    static const char *const wrong[] = {"", "0", "01234567-89ab-cdef-0123-456789abcde", "01234567-89ab-cdef-0123-456789abcdef0",
        "01234567-89ab-cdef-0123-456789abcde'", "01234567-89AB-cdef-0123-456789abcdef", "0123456789ab--cdef-0123-456789abcdef",
        "' AS id UNION SELECT password FROM x"};

    IS(is_uuid("01234567-89ab-cdef-0123-456789abcdef"), true);
    for (size_t i = 0; i < sizeof wrong / sizeof wrong[0]; i++)
        see_number(__FILE__, __LINE__, wrong[i], is_uuid(wrong[i]), false);
}

/* What programs and switches were compiled with that know other headers of these names. */
static void values_of_headers(void)
{
#define ROW(name, value) \
    { \
#name, name, value \
    }
    static const struct {
        const char *name;
        long found, expected;
    } rows[] = {ROW(TX_H_VERSION, 0), ROW(TX_NOT_SUPPORTED, 1), ROW(TX_OK, 0), ROW(TX_OUTSIDE, -1), ROW(TX_ROLLBACK, -2), ROW(TX_MIXED, -3),
        ROW(TX_HAZARD, -4), ROW(TX_PROTOCOL_ERROR, -5), ROW(TX_ERROR, -6), ROW(TX_FAIL, -7), ROW(TX_EINVAL, -8), ROW(TX_COMMITTED, -9),
        ROW(TX_NO_BEGIN, -100), ROW(TX_ROLLBACK_NO_BEGIN, -102), ROW(TX_MIXED_NO_BEGIN, -103), ROW(TX_HAZARD_NO_BEGIN, -104),
        ROW(TX_COMMITTED_NO_BEGIN, -109), ROW(TX_COMMIT_COMPLETED, 0), ROW(TX_COMMIT_DECISION_LOGGED, 1), ROW(TX_UNCHAINED, 0),
        ROW(TX_CHAINED, 1), ROW(TX_ACTIVE, 0), ROW(TX_TIMEOUT_ROLLBACK_ONLY, 1), ROW(TX_ROLLBACK_ONLY, 2), ROW(TMREGISTER, 1),
        ROW(TMNOMIGRATE, 2), ROW(TMUSEASYNC, 4), ROW(TMASYNC, 0x80000000), ROW(TMONEPHASE, 0x40000000), ROW(TMFAIL, 0x20000000),
        ROW(TMNOWAIT, 0x10000000), ROW(TMRESUME, 0x08000000), ROW(TMSUCCESS, 0x04000000), ROW(TMSUSPEND, 0x02000000),
        ROW(TMSTARTRSCAN, 0x01000000), ROW(TMENDRSCAN, 0x00800000), ROW(TMMULTIPLE, 0x00400000), ROW(TMJOIN, 0x00200000),
        ROW(TMMIGRATE, 0x00100000), ROW(TM_JOIN, 2), ROW(TM_RESUME, 1), ROW(TM_OK, 0), ROW(TMER_TMERR, -1), ROW(TMER_INVAL, -2),
        ROW(TMER_PROTO, -3), ROW(XA_RBROLLBACK, 100), ROW(XA_RBCOMMFAIL, 101), ROW(XA_RBDEADLOCK, 102), ROW(XA_RBINTEGRITY, 103),
        ROW(XA_RBOTHER, 104), ROW(XA_RBPROTO, 105), ROW(XA_RBTIMEOUT, 106), ROW(XA_RBTRANSIENT, 107), ROW(XA_NOMIGRATE, 9),
        ROW(XA_HEURHAZ, 8), ROW(XA_HEURCOM, 7), ROW(XA_HEURRB, 6), ROW(XA_HEURMIX, 5), ROW(XA_RETRY, 4), ROW(XA_RDONLY, 3), ROW(XA_OK, 0),
        ROW(XAER_ASYNC, -2), ROW(XAER_RMERR, -3), ROW(XAER_NOTA, -4), ROW(XAER_INVAL, -5), ROW(XAER_PROTO, -6), ROW(XAER_RMFAIL, -7),
        ROW(XAER_DUPID, -8), ROW(XAER_OUTSIDE, -9)};

    for (size_t i = 0; i < sizeof rows / sizeof rows[0]; i++)
        see_number(__FILE__, __LINE__, rows[i].name, rows[i].found, rows[i].expected);
    IS(sizeof(XID), 3 * sizeof(long) + 128);
    IS(offsetof(TXINFO, xid), 0);
    IS(offsetof(TXINFO, when_return), sizeof(XID));
    IS(offsetof(TXINFO, transaction_control), sizeof(XID) + sizeof(long));
    IS(offsetof(TXINFO, transaction_timeout), sizeof(XID) + 2 * sizeof(long));
    IS(offsetof(TXINFO, transaction_state), sizeof(XID) + 3 * sizeof(long));
    IS(sizeof(TXINFO), sizeof(XID) + 4 * sizeof(long));
    IS(offsetof(struct xa_switch_t, xa_open_entry), 32 + 2 * sizeof(long));
    IS(sizeof(struct xa_switch_t), 32 + 2 * sizeof(long) + 10 * sizeof(void (*)(void)));
}

/* Of a database that is silent the connection is lost. */
static void answers_that_never_come(void)
{
    int ends[2];
    char byte;

    IS(socketpair(AF_UNIX, SOCK_STREAM, 0, ends), 0);
    IS(write(ends[1], "x", 1), 1);
    wait_for_answer(ends[0], LONGEST_ANSWER);
    IS(read(ends[0], &byte, 1), 1);
    wait_for_answer(ends[0], 0.05);
    IS(read(ends[0], &byte, 1), 0);
    close(ends[0]);
    close(ends[1]);
}

const struct story of_parts[] = {{"parts: settings that are wrong", settings_that_are_wrong},
    {"parts: texts of identifiers", texts_of_identifiers}, {"parts: places of logs", places_of_logs},
    {"parts: answers that never come", answers_that_never_come}, {"parts: texts of UUIDs", texts_of_uuids},
    {"parts: numbers in replies", numbers_in_replies}, {"parts: values of headers", values_of_headers}, {NULL, NULL}};
