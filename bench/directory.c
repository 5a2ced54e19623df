/* Plays a script of whole calls on a real directory, the current one, and prints the answers of `zj play`: each call is made by the system
   calls that do the same. It counts the commits of a core and does nothing for them, and a call that fails is answered by the system's word
   for it. */
#include <dirent.h>
#include <errno.h>
#include <fcntl.h>
#include <stdio.h>
#include <stdlib.h>
#include <string.h>
#include <sys/stat.h>
#include <unistd.h>

enum { INPUT_BYTES = 16777216, CORES = 8, NAMES = 192, FILE_BYTES = 6144 };

static char input[INPUT_BYTES + 1];

/* A path of a script, from the current directory on. */
static const char *here(const char *path) { return path[1] ? path + 1 : "."; }

static int fail(void) { return printf("%s\n", strerror(errno)); }

static int ok(int status) { return status < 0 ? fail() : puts("ok"); }

static int digit(char c) { return c <= '9' ? c - '0' : c - 'a' + 10; }

static size_t unescape(char *text)
{
    size_t length = 0;
    for (char *at = text; *at; at++)
        if (*at == '%') {
            text[length++] = digit(at[1]) * 16 + digit(at[2]);
            at += 2;
        } else
            text[length++] = *at;
    return length;
}

static void print_text(const char *bytes, size_t length)
{
    for (size_t k = 0; k < length; k++) {
        unsigned char byte = bytes[k];
        if (byte > ' ' && byte < 127 && byte != '%')
            putchar(byte);
        else
            printf("%%%02x", byte);
    }
}

static int create(const char *path)
{
    int file = open(path, O_WRONLY | O_CREAT | O_EXCL, 0600);
    return ok(file < 0 ? file : close(file));
}

static int write_at(const char *path, off_t at, char *text)
{
    size_t length = unescape(text);
    int file = open(path, O_WRONLY);
    if (file < 0 || pwrite(file, text, length, at) != (ssize_t)length)
        return fail();
    return ok(close(file));
}

static int read_at(const char *path, off_t at, size_t most)
{
    char bytes[FILE_BYTES];
    int file = open(path, O_RDONLY);
    ssize_t length = file < 0 ? file : pread(file, bytes, most, at);
    if (length < 0)
        return fail();
    close(file);
    fputs(length ? "data " : "data", stdout);
    print_text(bytes, length);
    return putchar('\n');
}

static int ascending(const void *one, const void *other) { return strcmp(*(char *const *)one, *(char *const *)other); }

/* The names in a directory, ascending: how many there are. */
static int names_of(const char *path, char **names)
{
    DIR *directory = opendir(path);
    if (!directory)
        return -1;
    int count = 0;
    for (struct dirent *found; count < NAMES && (found = readdir(directory));)
        if (strcmp(found->d_name, ".") && strcmp(found->d_name, ".."))
            names[count++] = strdup(found->d_name);
    closedir(directory);
    qsort(names, count, sizeof *names, ascending);
    return count;
}

static int list(const char *path)
{
    char *names[NAMES];
    int count = names_of(path, names);
    if (count < 0)
        return fail();
    fputs("names", stdout);
    for (int k = 0; k < count; k++) {
        printf(" %s", names[k]);
        free(names[k]);
    }
    return putchar('\n');
}

static int tell(const char *path)
{
    struct stat found;
    if (stat(path, &found))
        return fail();
    if (S_ISREG(found.st_mode))
        return printf("file %ld\n", (long)found.st_size);
    char *names[NAMES];
    int count = names_of(path, names);
    for (int k = 0; k < count; k++)
        free(names[k]);
    return printf("dir %d\n", count);
}

static int call(char *words)
{
    char *verb = strsep(&words, " ");
    const char *path = here(strsep(&words, " "));
    if (!strcmp(verb, "mkdir"))
        return ok(mkdir(path, 0700));
    if (!strcmp(verb, "create"))
        return create(path);
    if (!strcmp(verb, "unlink"))
        return ok(unlink(path));
    if (!strcmp(verb, "rmdir"))
        return ok(rmdir(path));
    if (!strcmp(verb, "rename"))
        return ok(rename(path, here(words)));
    if (!strcmp(verb, "list"))
        return list(path);
    if (!strcmp(verb, "stat"))
        return tell(path);
    if (!strcmp(verb, "truncate"))
        return ok(truncate(path, atol(words)));
    long at = atol(strsep(&words, " "));
    return strcmp(verb, "write") ? read_at(path, at, atol(words)) : write_at(path, at, words);
}

int main(void)
{
    size_t length = 0;
    ssize_t count;
    while (length < INPUT_BYTES && (count = read(0, input + length, INPUT_BYTES - length)) > 0)
        length += count;
    input[length] = 0;
    char *rest = input, *line;
    long committed[CORES] = {0}, ticket = 0;
    for (long number = 1; (line = strsep(&rest, "\n")) && *line; number++) {
        int core = atoi(strsep(&line, " "));
        printf("%ld %d ", number, core);
        if (!strcmp(line, "commit"))
            printf("committed %ld\n", committed[core]++);
        else {
            printf("%ld ", ticket++);
            call(line);
        }
    }
    return fflush(stdout) != 0;
}
