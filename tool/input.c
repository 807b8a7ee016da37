#include "input.h"

#include <errno.h>
#include <fcntl.h>
#include <stdio.h>
#include <stdlib.h>
#include <string.h>
#include <sys/mman.h>
#include <sys/stat.h>
#include <unistd.h>

#include "error.h"

/* One byte more than a file may have. Longer files are refused whatever they hold, so no more is read. */
static const size_t MOST_BYTES = TAPLINEN_FILE_SIZE_MAX + 1;

static bool map(struct input *input, int fd)
{
    struct stat st;
    if (fstat(fd, &st) != 0 || !S_ISREG(st.st_mode) || st.st_size <= 0)
        return false;
    void *bytes = mmap(NULL, (size_t)st.st_size, PROT_READ, MAP_PRIVATE, fd, 0);
    if (bytes == MAP_FAILED)
        return false;
    input->bytes = bytes;
    input->len = (size_t)st.st_size;
    input->mapped = true;
    return true;
}

static bool read_whole(struct input *input, int fd)
{
    size_t room = 0;
    while (input->len < MOST_BYTES) {
        if (input->len == room) {
            room = room == 0 ? 65536 : room < MOST_BYTES / 2 ? 2 * room : MOST_BYTES;
            input->bytes = reallocate(input->bytes, room);
        }
        ssize_t n = read(fd, input->bytes + input->len, room - input->len);
        if (n == 0)
            return true;
        if (n > 0)
            input->len += (size_t)n;
        else if (errno != EINTR)
            return false;
    }
    return true;
}

/* A byte for each 16 bytes of the file is always enough. A file that is too long is refused whatever the workspace. */
static void add_workspace(struct input *input)
{
    size_t len = input->len < TAPLINEN_FILE_SIZE_MAX ? input->len : TAPLINEN_FILE_SIZE_MAX;
    input->workspace_len = len / 16;
    input->workspace = allocate(input->workspace_len);
}

bool input_open(struct input *input, const char *name)
{
    *input = (struct input){.name = name};
    bool standard = strcmp(name, "-") == 0;
    int fd = standard ? STDIN_FILENO : open(name, O_RDONLY | O_CLOEXEC);
    /* Standard input is always read, since it need not be at its start. Pipes and devices cannot be mapped. */
    bool done = fd >= 0 && ((!standard && map(input, fd)) || read_whole(input, fd));
    if (done)
        add_workspace(input);
    else
        print_error("%s: %s", name, strerror(errno));
    if (fd >= 0 && !standard)
        close(fd);
    return done;
}

void input_close(struct input *input)
{
    free(input->workspace);
    if (input->mapped)
        munmap(input->bytes, input->len);
    else
        free(input->bytes);
}
