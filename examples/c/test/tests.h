/* The tests, by file. */
#ifndef TESTS_H
#define TESTS_H

#include "lent.h"

/* header.c */
void test_answer_names(void);
void test_row_names(void);

/* frame.c */
void test_s(void);
void test_s_paths(void);
void test_s_properties(void);
void test_s_refused(void);
void test_s_words(void);
void test_short(void);
void test_s_taken(void);

/* limits.c */
void test_layout(void);
void test_depth(void);
void test_room(void);
void test_unusable_nodes(void);
void test_unusable_counts(void);

/* readers.c */
void test_numbers(void);
void test_parts(void);
void test_utf8(void);

/* rooms.c */
void test_answer_room(void);
void test_null(void);

/* samples.c */
void test_enclosure_rows(const char *folder);
void test_enclosure_properties(const char *folder);
void test_damaged(const char *folder);
void test_daisy_chain(const char *folder);

#endif
