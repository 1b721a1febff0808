/* Asks a guard what becomes of a message: ask POLICY FROM TO MESSAGE < OCTETS */
#include <stdio.h>
#include <string.h>
#include <sys/socket.h>
#include <unistd.h>

static unsigned char body[1 << 20];
static size_t size;

static void add_name(const char *name) {
    body[size++] = (unsigned char)strlen(name);
    memcpy(body + size, name, strlen(name));
    size += strlen(name);
}

int main(int argc, char **argv) {
    int ends[2];
    char line[65536];
    if (argc != 5 || socketpair(AF_UNIX, SOCK_STREAM, 0, ends) != 0) return 2;
    if (fork() == 0) {
        dup2(ends[1], 0), dup2(ends[1], 1), close(ends[0]), close(ends[1]);
        execlp("derguard", "derguard", "ask", argv[1], (char *)NULL);
        _exit(127);
    }
    close(ends[1]);
    for (int name = 2; name < 5; name++) add_name(argv[name]);
    size += fread(body + size, 1, sizeof body - size, stdin);
    unsigned char head[4] = {size >> 24, size >> 16, size >> 8, size};
    if (write(ends[0], head, 4) != 4 || write(ends[0], body, size) != (ssize_t)size) return 3;
    FILE *answers = fdopen(ends[0], "r");
    if (!fgets(line, sizeof line, answers)) return 3;
    fputs(line, stdout);
    int verdict = 0;
    sscanf(line, "%*s %*s %*s %n", &verdict);
    return strcmp(line + verdict, "pass\n") != 0;
}
