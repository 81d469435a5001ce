/* The key of a tree, written anew from nodes, names and text by the table in typekey.h alone: so that the header is tested too. */
#ifndef TREE_H
#define TREE_H
#include "lent.h"

/* A row is its node's fields in order: a digit is so many bits, s a spelling, t a child, p a type parameter, q a parameter, m a member, ? an
   opt of the field after it, * a list of it; L, S, T and I are what is special to a literal, a predicate, a template and an index signature. */
static const char *const ROW[26] = {0, "*s?*t", "4", "L", "t", "*t", "*t", "t", "tt", "tttt", "s?t", "2t", "?*p??t*qt", "1?*p*qt", "2st?t2?t", "T", "1S?t", "*s?*t",
                                    "1s*s?*t", "*t", "t", "t", "s1t", "t", "t", "*m"};
static const char *const CHILD_ROW[3] = {0, "s?t?t", "1s1?t"};
static const char *const MEMBER_ROW[5] = {"12s1?t", "2s1?*p??t*q?t", "?*p??t*q?t", "?*p*q?t", "1?It"};

typedef struct { const uint64_t *nodes, *names; const uint8_t *text; uint64_t text_len, named, bits; int placed; uint8_t *out; } Tree;
typedef struct { uint64_t node, choices, left, kid, kids; int what; } At;

static void bits_out(Tree *t, uint64_t value, int width) {
    while (width--) {
        if (t->bits % 8 == 0) t->out[t->bits / 8] = 0;
        t->out[t->bits / 8] |= (uint8_t)((value >> width & 1) << (7 - t->bits % 8));
        t->bits++;
    }
}

static uint64_t chosen(Tree *t, At *a, int width) {
    uint64_t k = a->left & ((1u << width) - 1);
    a->left >>= width;
    bits_out(t, k, width);
    return k;
}

static void spelling(Tree *t) {
    uint64_t w = t->names[t->named++], start = typekey_name_start(w), length = typekey_name_length(w);
    must(length > 0 && length < 65536 && start + length <= t->text_len, "a name points out of the text");
    bits_out(t, length, 16);
    for (uint64_t i = 0; i < length; i++) bits_out(t, t->text[start + i], 8);
}

static void node_out(Tree *t, uint64_t i, int what);

static void child(Tree *t, At *a, int what) {
    must(typekey_has_children(t->nodes, a->node), "a node with children seems to have none");
    must((a->what == TYPEKEY_CHILD_MEMBER ? typekey_member_child(a->choices, a->kids) : typekey_child(a->choices, a->kids)) == what, "what a child is");
    a->kid = a->kids ? typekey_next_sibling(t->nodes, a->kid) : typekey_first_child(t->nodes, a->node);
    must(a->kid < a->node && (a->kids == 0 || a->kid != 0), "the number of a child");
    a->kids++;
    uint64_t first = typekey_first_byte(t->nodes, a->kid), end = typekey_end_byte(t->nodes, a->kid);
    if (t->placed) must(first < end && typekey_first_byte(t->nodes, a->node) <= first && end <= typekey_end_byte(t->nodes, a->node), "a child's span is not in its parent's");
    node_out(t, a->kid, what);
}

static const char *past(const char *row) {
    while (*row == '?' || *row == '*') row++;
    return row + 1;
}

/* One field; gives what follows it. */
static const char *field(Tree *t, At *a, const char *row) {
    uint64_t n;
    switch (*row) {
    case 's': spelling(t); break;
    case 't': child(t, a, TYPEKEY_CHILD_TAGGED); break;
    case 'p': child(t, a, TYPEKEY_CHILD_TYPE_PARAMETER); break;
    case 'q': child(t, a, TYPEKEY_CHILD_PARAMETER); break;
    case 'm': child(t, a, TYPEKEY_CHILD_MEMBER); break;
    case '?':
        if (chosen(t, a, 1)) field(t, a, row + 1);
        break;
    case '*':
        for (n = chosen(t, a, 12); n; n--) field(t, a, row + 1);
        break;
    case 'L':
        n = chosen(t, a, 3);
        if (n != TYPEKEY_LITERAL_TRUE && n != TYPEKEY_LITERAL_FALSE) spelling(t);
        break;
    case 'S':
        if (!chosen(t, a, 1)) spelling(t);
        break;
    case 'T':
        n = chosen(t, a, 12);
        spelling(t);
        for (; n; n--) child(t, a, TYPEKEY_CHILD_TAGGED), spelling(t);
        break;
    case 'I': spelling(t), child(t, a, TYPEKEY_CHILD_TAGGED); break;
    default: chosen(t, a, *row - '0');
    }
    return past(row);
}

static void node_out(Tree *t, uint64_t i, int what) {
    At a = {i, typekey_choices(t->nodes, i), typekey_choices(t->nodes, i), 0, 0, what};
    must(typekey_first_name(t->nodes, i) == t->named, "a node's first name");
    if (!t->placed) must(t->nodes[4 * i + 1] == 0, "a span in a tree that was taken back");
    const char *row;
    if (what == TYPEKEY_CHILD_TAGGED) {
        uint64_t tag = chosen(t, &a, 6);
        must(tag == typekey_tag(t->nodes, i) && tag >= 1 && tag <= TYPEKEY_OBJECT, "no tag");
        row = ROW[tag];
    } else if (what == TYPEKEY_CHILD_MEMBER) {
        uint64_t sort = chosen(t, &a, 3);
        must(sort == typekey_sort(t->nodes, i) && sort <= TYPEKEY_MEMBER_INDEX, "no sort of a member");
        row = MEMBER_ROW[sort];
    } else row = CHILD_ROW[what];
    while (*row) row = field(t, &a, row);
    must(a.left == 0, "bits behind a node's choices");
    must(a.kids ? a.kid == i - 1 && typekey_next_sibling(t->nodes, a.kid) == 0 : !typekey_has_children(t->nodes, i) && typekey_first_child(t->nodes, i) == 0, "a node's last child");
}

/* The key's length. */
static uint64_t key_of_tree(const uint64_t *nodes, uint64_t node_count, const uint64_t *names, uint64_t name_count, const uint8_t *text, uint64_t text_len, int placed, uint8_t *out) {
    Tree t = {nodes, names, text, text_len, 0, 0, placed, out};
    bits_out(&t, 1, 4);
    must(typekey_next_sibling(nodes, node_count - 1) == 0, "the root's sibling");
    node_out(&t, node_count - 1, TYPEKEY_CHILD_TAGGED);
    must(t.named == name_count, "the count of names");
    return (t.bits + 7) / 8;
}
#endif
