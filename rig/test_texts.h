/* Hand-made texts and files with what the writer and the lister must make of them, by the reference and the proved. */
#ifndef RIG_TEST_TEXTS_H
#define RIG_TEST_TEXTS_H

void test_texts(void); /* a part of the selftest */

#endif
