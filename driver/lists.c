#include "lists.h"

void list_put(struct list *list, uint64_t number, size_t bytes)
{
    if (list->length + bytes > sizeof list->bytes)
        return;
    for (size_t at = bytes; at-- > 0; number >>= 8)
        list->bytes[list->length + at] = (uint8_t)(number & 0xFF);
    list->length += bytes;
}
