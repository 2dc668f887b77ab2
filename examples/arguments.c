/* Writes its arguments, and then its environment, one to a line. */
#include <string.h>
#include <unistd.h>

extern char **environ;

static void line(const char *text) {
    write(1, text, strlen(text));
    write(1, "\n", 1);
}

int main(int count, char **arguments) {
    for (int i = 0; i < count; i++) line(arguments[i]);
    for (char **entry = environ; *entry; entry++) line(*entry);
    return 0;
}
