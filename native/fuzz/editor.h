/* editor.h: gz_edit on lent memory, with what the header says of it for any tables. */
#ifndef EDITOR_H
#define EDITOR_H

#include "planner.h"
#include "tables.h"

/* Edits with tables that hold this, and copies back what they hold afterwards. */
struct planning edit_plan(const struct run *run, const struct reading *reading, size_t cabinet,
                          struct tables *tables);

#endif
