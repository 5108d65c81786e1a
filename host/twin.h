/* Gives the plain implementation's functions other names, so that it can be linked beside the library and answer the
 * same calls. Included in front of its files when the twin is built. */
#ifndef TWIN_H
#define TWIN_H

#define gt_check twin_check
#define gt_refine twin_refine
#define gt_moves twin_moves
#define gt_split_edge twin_split_edge
#define gt_split_face twin_split_face
#define gt_flip twin_flip
#define gt_read twin_read
#define gt_write twin_write
#define gt_read_off twin_read_off
#define gt_write_off twin_write_off
#define gt_make twin_make
#define gt_erase twin_erase
#define gt_replace twin_replace
#define gt_insert_after twin_insert_after
#define gt_insert_before twin_insert_before
#define gt_contains twin_contains
#define gt_next twin_next
#define gt_prev twin_prev
#define gt_valence twin_valence
#define plain_first_beyond twin_first_beyond
#define plain_layout twin_layout

#endif
