/* The recovery of a resource manager, by the keeper (docs/MOVES.md, "Recovery"). */
#include <stdio.h>
#include <stdlib.h>
#include <string.h>

#include "../beside/databases.h"
#include "garterfossil.h"
#include "session.h"

enum { PAGE = 32 };

/* What a resource manager lists of this manager. */
struct list {
    XID *xids;
    int count, told;
};

/* False if it can't be asked, or there is no memory. */
static bool is_list_read(int rm, struct list *to)
{
    int count = PAGE;

    for (long flags = TMSTARTRSCAN; count == PAGE; flags = TMNOFLAGS) {
        XID *xids = realloc(to->xids, (size_t)(to->count + PAGE) * sizeof *xids);
        if (xids == NULL)
            return note_fault(false, "no memory");
        to->xids = xids;
        XID *page = xids + to->count;
        count = xa_of(rm)->xa_recover_entry(page, PAGE, rm, flags);
        for (int i = 0; i < count && count <= PAGE; i++)
            if (is_ours(&page[i], rm))
                to->xids[to->count++] = page[i];
    }
    if (count < 0 || count > PAGE) /* it has written behind its end, or says so */
        return note_fault(false, "xa_recover of %s returned %d", settings.rm[rm].name, count);
    return true;
}

/* ** before the first session */

bool may_be_made(void)
{
    bool is_right = true;

    for (int rm = 0; rm < settings.rms && is_right; rm++) {
        struct list list = {.count = 0};
        char text[XID_TEXT];
        is_right = is_rm_open(rm) ? is_list_read(rm, &list) : note_fault(false, "%s", gf_error());
        if (list.count > 0)
            is_right = note_fault(true, "the log %s is new, and %s lists the branch %s of an earlier one: put that back", settings.log,
                settings.rm[rm].name, text_of(&list.xids[0], text));
        free(list.xids);
    }
    return is_right;
}

/* ** what the coordinator tells */

/* The next page: it is the last if it isn't full. */
static void tell_page(int rm, struct list *list)
{
    char page[MOVE] = "", *to = page;

    for (int i = 0; i < PAGE && list->told < list->count; i++) {
        *to++ = ' ';
        to += strlen(text_of(&list->xids[list->told++], to));
    }
    move(SOON, "page %d%s", rm, page);
}

/* Makes the call that is told, on `xa_<verb> <identifier>`. */
static void make_call(int rm, const char *reply)
{
    struct line *line = &me->line[rm];
    const char *name = strchr(reply, ' ');
    enum verb verb = strncmp(reply, "xa_", 3) == 0 ? verb_of(reply + 3) : NO_VERB;

    if ((verb != COMMIT && verb != ROLLBACK && verb != FORGET) || name == NULL || !xid_from(name + 1, &line->xid)) {
        lose_session("told a recovery what is no call");
        return;
    }
    if (verb == FORGET)
        fprintf(stderr, "garterfossil: %s has ended a branch by itself: %s\n", settings.rm[rm].name, name + 1);
    begin_call(rm, verb);
    int code = made(rm, verb);
    if (code == LOST)
        move(SOON, "end %d lost", rm);
    else
        move(SOON, "end %d %d", rm, code);
}

/* What no session over this log began is strange: the log isn't the one that the databases belong
 * to, and the coordinator has shut it. */
static bool is_ended(int rm, struct list *list)
{
    const char *reply;

    move(SOON, "recover %d", rm);
    while ((reply = replied())[0] != '\0' && !is_reply(reply, "recovered") && !is_reply(reply, "later")) {
        if (is_reply(reply, "recover")) {
            tell_page(rm, list);
        } else if (strncmp(reply, "strange ", 8) == 0) {
            note_fault(true, "%s lists the branch %s, of which the log %s knows nothing", settings.rm[rm].name, reply + 8, settings.log);
            lose_session("is over");
        } else {
            make_call(rm, reply);
        }
    }
    return strcmp(reply, "recovered") == 0;
}

bool is_recovered(int rm)
{
    struct list list = {.count = 0};
    bool is_done = is_rm_open(rm) && save_databases() && is_list_read(rm, &list) && is_ended(rm, &list);

    free(list.xids);
    return is_done;
}
