/*
 * The library through its C header: document 01's frame S and its neighbours, the limits, and the samples. The tests are in test/.
 *
 *     test SAMPLES        the folder with the samples' blobs
 *
 * Prints what differs and exits with 1, or prints how many answers were compared.
 */
#include <stdio.h>

#include "test/tests.h"

int main(int argc, char **argv)
{
    if (argc != 2) {
        printf("usage: test SAMPLES\n");
        return 2;
    }
    setvbuf(stdout, NULL, _IOLBF, 0);
    make_room();
    test_answer_names();
    test_row_names();
    test_s();
    test_s_paths();
    test_s_properties();
    test_s_refused();
    test_s_words();
    test_short();
    test_s_taken();
    test_layout();
    test_depth();
    test_room();
    test_unusable_nodes();
    test_unusable_counts();
    test_numbers();
    test_parts();
    test_utf8();
    test_answer_room();
    test_null();
    test_enclosure_rows(argv[1]);
    test_enclosure_properties(argv[1]);
    test_damaged(argv[1]);
    test_daisy_chain(argv[1]);
    printf("%lu compared, %lu differ\n", compared, differ);
    return differ == 0 ? 0 : 1;
}
