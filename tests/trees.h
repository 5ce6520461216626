/*
 * Trees of known cases. A tree is written as its nodes in order, each by how many children it has: L is "0", stem L is
 * "10", fork(L, L) is "200".
 */
#ifndef TREES_H
#define TREES_H

#include <stdint.h>

#define TREE_I "21100"
#define TREE_D "2121100" TREE_I
#define TREE_F "22000"

/* Adds a tree to the used slots, of which slot 0 is the leaf, and answers its slot. */
uint32_t add_tree(uint32_t *slots, uint32_t *used, const char *text);

/* The tree in a slot is this one. */
void expect_tree(const uint32_t *slots, uint32_t slot, const char *wanted);

#endif
