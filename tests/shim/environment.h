/* What stands in the environment under a name, or nothing. */
extern char **environ;

static const char *named(const char *name) {
    for (char **it = environ; it && *it; it++) {
        int at = 0;
        while (name[at] && (*it)[at] == name[at]) at++;
        if (!name[at] && (*it)[at] == '=') return *it + at + 1;
    }
    return 0;
}
