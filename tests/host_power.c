/* For tests/host.sh: the example gateway is linked with these in the place of fsync, rename and remove. With POWER_OFF=N in its environment the process ends before
   the N-th call of them, without another word: what is not in a file by then is lost. Only the process ends, and not the machine, so nothing need be put on the disk:
   that makes thousands of restarts quick. */
#include <stdlib.h>
#include <unistd.h>

int __real_rename(const char *from, const char *to);
int __real_remove(const char *path);

static void count(void)
{
    static long calls;
    const char *last = getenv("POWER_OFF");

    if (last != NULL && ++calls == atol(last))
        _exit(9);
}

int __wrap_fsync(int file)
{
    (void)file;
    count();
    return 0;
}

int __wrap_rename(const char *from, const char *to)
{
    count();
    return __real_rename(from, to);
}

int __wrap_remove(const char *path)
{
    count();
    return __real_remove(path);
}
