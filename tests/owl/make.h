/* A maker of OWL texts by chance: open names, nested fillers, equal rows, intersections with owl:Thing, and texts at and over the bounds.
   It knows the tree of the text it made last, and so what its axioms say. */

#ifndef OWL_MAKE_H
#define OWL_MAKE_H

#include "../second/draft.h"
#include "outcomes.h"

/* Whether some substitution makes all axioms of a text hold, by the way it was made. */
enum joins { JOINS, JOINS_NOT, JOINS_UNSAID };

/* Makes a text that is no syntax error; a declaration may be missing. The text before is forgotten. */
enum joins make_text(struct chance *chance, struct bytes *text);

/* Whether all axioms of the text made last hold where each open name stands for what its set says: bit i of sets[x] is atom i of the
   table that the text makes, for its variable x. */
int text_holds(const unsigned char *table, const u64 *sets);

/* Damages a text at one place: a byte is changed, removed or doubled; a token is removed, doubled or swapped with another one; a name or
   a word becomes another; the rest is cut off. */
void damage_text(struct chance *chance, struct bytes *text);

#endif
