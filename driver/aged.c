#include "aged.h"

#include <errno.h>
#include <inttypes.h>
#include <string.h>

#include "message.h"

/* More than two lines have. */
#define AGED_ROOM 256

uint64_t aged_sum(const struct table *table)
{
    /* FNV-1a */
    uint64_t sum = UINT64_C(0xCBF29CE484222325);
    for (size_t i = 0; i < table->length; i++)
        sum = (sum ^ table->bytes[i]) * UINT64_C(0x100000001B3);
    return sum;
}

/* Reads the lines in a text: 1, or 0 if it is none of ours. The last line for a sum counts. */
static int read_lines(struct aged *aged, const char *text)
{
    uint64_t second, sum;
    int used = 0, lines = 0;
    while (sscanf(text, "%" SCNu64 " %" SCNx64 "%n", &second, &sum, &used) == 2 && text[used] == '\n') {
        if (sum == aged->sum) {
            aged->known = 1;
            aged->second = second;
        }
        text += used + 1;
        lines++;
    }
    return lines > 0 && *text == '\0';
}

int aged_read(struct aged *aged, const char *path)
{
    char text[AGED_ROOM];
    FILE *file = fopen(path, "rb");
    if (file == NULL && errno == ENOENT)
        return 0;
    if (file == NULL)
        return bad_data("%s cannot be opened: %s", path, strerror(errno));
    size_t got = fread(text, 1, sizeof text - 1, file);
    int bad = ferror(file);
    fclose(file);
    text[got] = '\0';
    if (bad)
        return bad_data("%s cannot be read", path);
    /* It would be written over: a file of someone else's must not be. */
    if (strlen(text) != got || !read_lines(aged, text))
        return bad_data("%s holds something other than the second to which the table was aged; move it away", path);
    return 0;
}

static int write_line(struct whole *file, const struct aged *aged)
{
    char line[AGED_ROOM / 2];
    int length = snprintf(line, sizeof line, "%" PRIu64 " %016" PRIX64 "\n", aged->second, aged->sum);
    return whole_write(file, line, (size_t)length);
}

int aged_write(struct whole *file, const char *path, const char *table, const struct aged *now, const struct aged *next)
{
    int both = now->known && now->sum != next->sum;
    return whole_begin_like(file, path, table) != 0 || (both && write_line(file, now) != 0)
           || write_line(file, next) != 0 || whole_ready(file) != 0;
}
