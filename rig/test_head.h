/* Hand-made faults of a small file, of block 0 above all, with what must be told of it, by the reference and the proved. */
#ifndef RIG_TEST_HEAD_H
#define RIG_TEST_HEAD_H

void test_head(void); /* a part of the selftest */

#endif
