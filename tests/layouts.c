/* Holds the header's structs to the lines of tests/layouts, and its calls to those of tests/calls. */
#include "brundilope.h"

#define STRUCT(name, size) _Static_assert(sizeof(struct brundilope_##name) == (size), "size of " #name);
#define FIELD(name, field, offset, size)                                                                     \
    _Static_assert(offsetof(struct brundilope_##name, field) == (offset), "offset of " #name "." #field); \
    _Static_assert(sizeof((struct brundilope_##name){0}.field) == (size), "size of " #name "." #field);

#include "layouts"

#define CALL(result, name, parameters) \
    _Static_assert(_Generic(&brundilope_##name, result(*) parameters : 1, default : 0), "call " #name);

#include "calls"

/* The rooms for TLV forms are those of crates/claims/specs/FormSizes.antt. */
_Static_assert(BRUNDILOPE_LARGEST_640 == 512 && BRUNDILOPE_LARGEST == 1280, "the families' largest packets");
_Static_assert(BRUNDILOPE_LARGEST_FORM_640 == 2048 && BRUNDILOPE_LARGEST_FORM == 5120, "four times the largest packet");
_Static_assert(BRUNDILOPE_FORM_ROOM(1095) == 4380, "four times the packet");
