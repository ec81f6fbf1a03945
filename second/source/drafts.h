/* Drafts: images, recordings and texts made up by chance, most of them well formed. */
#ifndef DRAFTS_H
#define DRAFTS_H

#include "image.h"
#include "jobs.h"

enum { DRAFT_ROOM = 70000 };

typedef struct {
    uint32_t kind;
    size_t length;
    uint8_t bytes[DRAFT_ROOM];
} Draft;

/* How many primitives drafts have, from 0 on. */
extern uint32_t draft_primitives;

/* The memory is cleared by each. */
void draft_program(Memory *memory, Draft *draft); /* for expand, most of them accepted */
void draft_local(Memory *memory, bool is_small, Draft *draft); /* with primitives 7 to 9 at work */
void draft_identifier(Memory *memory, Draft *draft);
void draft_object(Memory *memory, Draft *draft); /* any syntax, for parse */
/* A word whose bindings compete, for resolve, expand or parse. */
void draft_rivals(Memory *memory, Job job, Draft *draft);
/* Bindings of which some are used, for the smaller image. */
void draft_finished(Memory *memory, Draft *draft);
void draft_tree(Memory *memory, Draft *draft);
void draft_panel(Memory *memory, Draft *draft); /* for the panel check */
void draft_ladder(Memory *memory, Draft *draft); /* a panel program for scans, accepted */

/* A recording for a program that drives these points; a small one is short. */
void draft_recording(const bool driven_points[], bool is_small, Draft *draft);

/* A tree full of variables, to be asked where they are; and what goes with an image
   that has a tree: its summary, a name, a place, and a part for that place. */
void draft_contacts(Memory *memory, Draft *draft);
void draft_summary(const Image *image, Draft *draft);
void put_summary(const Summary *summary, uint32_t names, Draft *draft); /* as it is, with entries for so many names */
uint32_t draft_name(const Image *image);
uint32_t draft_place(const Image *image);
void draft_part(Memory *memory, const Image *image, uint32_t place, Draft *draft); /* memory is kept */

/* A text, most often of one object and now and then damaged. */
void draft_text(bool is_small, Draft *draft);

/* A syntax image whose text is long. */
void draft_long_words(Memory *memory, Draft *draft);

/* Breaks a draft; other is another image to take pieces from. */
void damage_draft(Draft *draft, const Draft *other);

#endif
