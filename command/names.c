#include "names.h"

#include <stdlib.h>
#include <string.h>

#include "bytes.h"

enum { FIRST_ROOM = 16 };

const struct name *name_find(const struct names *names, int kind, const struct token *token)
{
    for (size_t i = 0; i < names->count; i++) {
        const struct name *name = &names->list[i];
        if (name->kind == kind && name->token.length == token->length &&
            memcmp(name->token.at, token->at, token->length) == 0)
            return name;
    }
    return NULL;
}

static void make_room(struct names *names)
{
    size_t room = names->room > 0 ? 2 * names->room : FIRST_ROOM;
    struct name *list = memory_for(room, sizeof *list);
    if (names->count > 0)
        memcpy(list, names->list, names->count * sizeof *list);
    free(names->list);
    names->list = list;
    names->room = room;
}

void name_add(struct names *names, const struct name *name)
{
    if (names->count == names->room)
        make_room(names);
    names->list[names->count++] = *name;
}

void names_free(struct names *names)
{
    free(names->list);
    memset(names, 0, sizeof *names);
}
