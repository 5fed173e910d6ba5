/* What the driver in C reads from the file beside a log: beside LOG NAME. */
#include "databases.c"

int main(int count, char **words)
{
    if (count != 3)
        return 2;
    snprintf(settings.log, sizeof settings.log, "%s", words[1]);
    snprintf(settings.name, sizeof settings.name, "%s", words[2]);
    if (!read_databases())
        return 1;
    printf("%s %ld [%s]\n", kept.manager, kept.incarnation, kept.shut);
    for (int rm = 0; rm < MOST_RMS; rm++)
        if (kept.databases[rm].identity[0] != '\0')
            printf("%d %s [%s]\n", rm, kept.databases[rm].identity, kept.databases[rm].at);
    return 0;
}
