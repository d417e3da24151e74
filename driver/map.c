#include "map.h"

#include <errno.h>
#include <stdio.h>
#include <string.h>

#include "message.h"
#include "options.h"

/* One pair more than a good map can have: such a map is the library's to refuse, and what follows is not read. */
#define PAIRS_MAX (SHINGLEBAR_MAP_LENGTH_MAX / SHINGLEBAR_PAIR_LENGTH + 1)
#define LINE_ROOM 256
#define BLANKS " \t\r\n"

struct pair {
    uint64_t vlan;
    uint64_t label;
    unsigned long line;
};

static struct pair pairs[PAIRS_MAX];
static uint8_t bytes[PAIRS_MAX * SHINGLEBAR_PAIR_LENGTH];

/* The pair of a line: 1, 0 where there is none, -1 where the line is in another form. */
static int read_pair(char *line, struct pair *pair)
{
    line[strcspn(line, "#")] = '\0';
    const char *vlan = strtok(line, BLANKS), *label = strtok(NULL, BLANKS);
    if (vlan == NULL)
        return 0;
    if (label == NULL || strtok(NULL, BLANKS) != NULL || !read_number(vlan, &pair->vlan)
        || !read_number(label, &pair->label) || pair->vlan > UINT16_MAX || pair->label > UINT32_MAX)
        return -1;
    return 1;
}

/* Reads the pairs of a file: 0, or 1 and said. */
static int read_pairs(const char *name, FILE *file, size_t *count)
{
    char line[LINE_ROOM];
    for (unsigned long number = 1; *count < PAIRS_MAX && fgets(line, sizeof line, file) != NULL; number++) {
        int whole = strchr(line, '\n') != NULL || feof(file);
        int read = whole ? read_pair(line, &pairs[*count]) : -1;
        if (read < 0)
            return bad_data("%s: line %lu is not `VLAN LABEL`", name, number);
        pairs[*count].line = number;
        *count += (size_t)read;
    }
    return ferror(file) ? bad_data("%s: %s", name, strerror(errno)) : 0;
}

/* Names the line for which the library refused the map. */
static int fault_say(const char *name, size_t count)
{
    for (size_t i = 0; i < count; i++) {
        const struct pair *pair = &pairs[i], *other = pairs;
        if (pair->vlan < 1 || pair->vlan > 0xFFE)
            return bad_data("%s: line %lu: the VLAN is outside 1 to 4094", name, pair->line);
        if (pair->label > 0xFFFFFF)
            return bad_data("%s: line %lu: the label is over 16777215", name, pair->line);
        while (other < pair && other->vlan != pair->vlan && other->label != pair->label)
            other++;
        if (other < pair)
            return bad_data("%s: line %lu: the %s is in line %lu already", name, pair->line,
                            other->vlan == pair->vlan ? "VLAN" : "label", other->line);
    }
    return bad_data("%s: %s", name, shinglebar_refusal_string(SHINGLEBAR_REFUSAL_MAP));
}

int map_read(const char *name, struct shinglebar_settings *settings)
{
    uint8_t free_slot[SHINGLEBAR_RECORD_LENGTH] = {0};
    size_t count = 0;
    FILE *file = fopen(name, "r");
    if (file == NULL)
        return bad_data("%s: %s", name, strerror(errno));
    int status = read_pairs(name, file, &count);
    fclose(file);
    if (status != 0)
        return status;
    for (size_t i = 0; i < count; i++)
        shinglebar_pack_pair((uint16_t)pairs[i].vlan, (uint32_t)pairs[i].label, bytes + i * SHINGLEBAR_PAIR_LENGTH);
    settings->map = bytes;
    settings->map_len = count * SHINGLEBAR_PAIR_LENGTH;
    uint64_t answer = shinglebar_receive_any(settings, NULL, 0, free_slot, sizeof free_slot, NULL, 0);
    return answer == SHINGLEBAR_REFUSAL_MAP ? fault_say(name, count) : 0;
}
