/* Fuzzes the options: arguments are parted by NUL. Wrong ones are named. */
#include <string.h>

#include "must.h"
#include "settings.h"

#define MAX_ARGUMENTS 64

int LLVMFuzzerTestOneInput(const uint8_t *data, size_t size)
{
    char *arguments[MAX_ARGUMENTS + 1] = {"hennelaku-pipe"};
    buffer text = {NULL, 0, 0, 0};
    part all = {NULL, 0};
    int count = 1;
    settings s;
    size_t i;

    all.bytes = data;
    all.len = size;
    buffer_add(&text, all);
    buffer_add_byte(&text, 0);
    for (i = 0; i < size && count < MAX_ARGUMENTS;
         i += strlen((char *)text.bytes + i) + 1) {
        arguments[count++] = (char *)text.bytes + i;
    }
    arguments[count] = NULL;
    if (read_settings(&s, count, arguments)) {
        must(s.fault.len == 0 && s.has_sender);
        must(s.delivery.smtp.hop == &s.hop && s.hop.host[0] != '\0');
        must(s.delivery.addresses.recipient_count > 0);
        must(s.delivery.smtp.max_seconds >= 1);
    } else {
        must(s.fault.len > 0);
    }
    must_be_text(buffer_part(&s.fault));
    buffer_clear(&s.fault);
    buffer_clear(&text);
    return 0;
}
