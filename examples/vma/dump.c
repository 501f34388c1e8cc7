/* Prints the dump of a space in the form of VMA's, for view.py: of handles, or with an argument of tickets. Ranges touch, are
 * apart, and one is too small to be seen. */
#include "offset_allocator.h"

#include <stdio.h>

static const uint32_t sizes[] = {300, 4096, 65536, 1, 200000, 80000, 9};
enum { COUNT = sizeof sizes / sizeof *sizes };

int main(int count, char **arguments) {
    (void) arguments;
    oa_allocator *handles = oa_new(1 << 20, 64);
    oag_allocator *tickets = oag_new(1 << 20, 64);
    oa_allocation range[COUNT];
    oag_ticket ticket[COUNT];
    for (int i = 0; i < COUNT; i++) range[i] = oa_allocate(handles, sizes[i]), ticket[i] = oag_allocate(tickets, sizes[i]);
    for (int i = 1; i < COUNT; i += 3) oa_free(handles, range[i]), oag_free(tickets, ticket[i]);
    oa_text *text = count > 1 ? oag_vma_json(tickets) : oa_vma_json(handles);
    if (text) puts(oa_text_bytes(text));
    int status = text ? 0 : 1;
    oa_text_drop(text);
    oa_drop(handles);
    oag_drop(tickets);
    return status;
}
