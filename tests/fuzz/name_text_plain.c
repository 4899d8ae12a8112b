/* Names in text in ordinary C. A label is measured first and then copied; what is written goes through a buffer, so that a refusal writes nothing. */
#include "plain.h"

#include <stdbool.h>
#include <string.h>

enum { TEXT_LIMIT = NAME_LIMIT - 1 };

/* what may stand in a label, in lower case; 0 for any other byte */
static uint8_t lowered(uint8_t c)
{
    if (c >= 'A' && c <= 'Z')
        return (uint8_t)(c - 'A' + 'a');
    return (c >= 'a' && c <= 'z') || (c >= '0' && c <= '9') || c == '-' || c == '_' ? c : 0;
}

/* So many bytes of a label in lower case; whether all may stand there and they are neither none nor too many */
static bool copy_label(uint8_t *out, const uint8_t *label, size_t len)
{
    bool fits = len >= 1 && len <= LABEL_LIMIT;
    for (size_t i = 0; fits && i < len; i++) {
        out[i] = lowered(label[i]);
        fits = out[i] != 0;
    }
    return fits;
}

static uint64_t hand_over(const uint8_t *made, size_t len, uint8_t *out, size_t out_len)
{
    if (out_len < len)
        return refuse(VICHRELKA_REFUSED_OUTPUT_SHORT);
    memcpy(out, made, len);
    return accepted((uint32_t)len);
}

uint64_t name_from_text_plain(const uint8_t *text, size_t text_len, uint8_t *out, size_t out_len)
{
    uint8_t name[NAME_LIMIT];
    size_t at = 0;
    if (text_len == 0 || text_len > TEXT_LIMIT)
        return refuse(VICHRELKA_REFUSED_NO_PROPER_NAME);
    while (at < text_len) {
        const uint8_t *dot = memchr(text + at, '.', text_len - at);
        size_t label = dot ? (size_t)(dot - text) - at : 0;
        if (!copy_label(name + at + 1, text + at, label))
            return refuse(VICHRELKA_REFUSED_NO_PROPER_NAME);
        name[at] = (uint8_t)label;
        at += label + 1;
    }
    name[at] = 0;
    return hand_over(name, at + 1, out, out_len);
}

uint64_t name_to_text_plain(const uint8_t *name, size_t name_len, uint8_t *out, size_t out_len)
{
    uint8_t text[NAME_LIMIT];
    size_t at = 0;
    if (name_len < 2 || name_len > NAME_LIMIT || name[name_len - 1] != 0)
        return refuse(VICHRELKA_REFUSED_NO_PROPER_NAME);
    while (at < name_len - 1) {
        size_t label = name[at];
        if (label > name_len - 2 - at || !copy_label(text + at, name + at + 1, label))
            return refuse(VICHRELKA_REFUSED_NO_PROPER_NAME);
        text[at + label] = '.';
        at += label + 1;
    }
    return hand_over(text, at, out, out_len);
}
