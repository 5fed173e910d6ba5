/* What the driver in C reads from its settings: settings FILE. */
#include "settings.c"

int main(int count, char **words)
{
    if (count != 2 || gf_settings(words[1]) != 0)
        return fprintf(stderr, "%s\n", gf_error()), 1;
    printf("%s %s %d %.1f %s\n", strrchr(settings.log, '/') + 1, settings.name, settings.threads, settings.patience, settings.program);
    for (int rm = 0; rm < settings.rms; rm++)
        printf("%d %s %s [%s] [%s]\n", gf_rmid(settings.rm[rm].name), settings.rm[rm].name, settings.rm[rm].is_embedded ? "embedded" : "rm",
            settings.rm[rm].open, settings.rm[rm].close);
    return 0;
}
