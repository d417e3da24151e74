/* The command `report`: what the program `morning_report` prints, of a table file. */
#include <stdio.h>
#include <string.h>

#include "commands.h"
#include "message.h"
#include "process.h"
#include "table.h"

static struct text line;

/* The facts of a line of the report, as the values of an object. */
static void json_line(const char *words)
{
    unsigned nickname, learned, configured, count;
    if (sscanf(words, "free %u", &count) == 1) {
        json_number(&line, "free", count);
    } else if (sscanf(words, "spoilt %u", &count) == 1) {
        json_number(&line, "spoilt", count);
    } else if (sscanf(words, "refused %u", &count) == 1) {
        json_number(&line, "refusal", count);
    } else if (sscanf(words, "%4X %u %u", &nickname, &learned, &configured) == 3) {
        json_hex(&line, "nickname", nickname, 4);
        json_number(&line, "learned", learned);
        json_number(&line, "configured", configured);
    }
}

/* Prints a text of whole lines. */
static void print(char *text)
{
    for (char *end; (end = strchr(text, '\n')) != NULL; text = end + 1) {
        *end = '\0';
        if (line.json)
            json_line(text);
        else
            text_put(&line, text);
        line_out(&line);
    }
}

int report_command(const struct options *options)
{
    static struct table table;
    static char text[SHINGLEBAR_REPORT_LENGTH_MAX + 1];
    int has_line = 0;
    line.json = options->json;
    if (table_load(&table, options->table, &has_line) != 0 || table_is_unclear(&table, options->table, has_line) != 0)
        return 1;
    uint64_t answer = shinglebar_report_any(table.bytes, table.length, (uint8_t *)text, sizeof text - 1);
    if (shinglebar_is_refusal(answer))
        return bad_data("refused %u: %s", shinglebar_refusal(answer), shinglebar_refusal_string(answer));
    text[shinglebar_written_length(answer)] = '\0';
    print(text);
    return output_ready() != 0 || table_check(&table, options->table, has_line) != 0;
}
