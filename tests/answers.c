/* Calls the exported function from C on document 01's P1, P2, P4 and P7, and says what differs from the paper.
   Build and run: cc -std=c11 -Iinclude tests/answers.c target/staticlib/libfinder.a -o answers && ./answers */
#include "clipfinder.h"

#include <stdio.h>
#include <string.h>

#define ROW 7
#define GUARD 0xFFFFFFFFu

/* Image I of document 01: one term, N = 10, documents 2 with impact 5 and 7 with impact 9. */
static const uint8_t image_i[25] = {0x10, 0x01, 0x00, 0x00, 0x0A, 0x00, 0x00, 0x19, 0x00, 0x00, 0x00, 0x80, 0x00,
                                    0x00, 0x02, 0x09, 0x02, 0x30, 0x90, 0x00, 0x00, 0x74, 0x0B, 0x02, 0x40};

struct expected {
  unsigned number;
  uint64_t value;
  uint32_t row[ROW];
};

/* Asks one query of mode 1, term 0 and weight 3; counts what is not as expected. */
static int ask(const char *name, const uint8_t *image, uint32_t k, uint32_t budget, const struct expected *want) {
  const uint32_t sheet[7] = {1, 1, k, budget, 1, 0, 3};
  uint32_t row[ROW];
  for (size_t i = 0; i < ROW; i++) row[i] = GUARD;
  const uint64_t said = finder_answer(image, sizeof image_i, sheet, 7, row, ROW);
  int wrong = 0;
  if (CLIPFINDER_NUMBER(said) != want->number || CLIPFINDER_VALUE(said) != want->value) {
    printf("%s: said %u %llu, expected %u %llu\n", name, CLIPFINDER_NUMBER(said), (unsigned long long)CLIPFINDER_VALUE(said), want->number,
           (unsigned long long)want->value);
    wrong++;
  }
  for (size_t i = 0; i < ROW; i++) {
    if (row[i] != want->row[i]) {
      printf("%s: number %zu of the row is %u, expected %u\n", name, i, row[i], want->row[i]);
      wrong++;
    }
  }
  return wrong;
}

int main(void) {
  const struct expected p1 = {0, 5, {10, 1, 2, 7, 27, GUARD, GUARD}};
  const struct expected p2 = {0, 5, {7, 1, 1, 2, 15, GUARD, GUARD}};
  const struct expected p4 = {11, 0, {GUARD, GUARD, GUARD, GUARD, GUARD, GUARD, GUARD}};
  const struct expected p7 = {8, 1, {GUARD, GUARD, GUARD, GUARD, GUARD, GUARD, GUARD}};
  uint8_t image_7[sizeof image_i];
  memcpy(image_7, image_i, sizeof image_i);
  image_7[24] = 0x41;
  int wrong = 0;
  wrong += ask("P1", image_i, 1, 100, &p1);
  wrong += ask("P2", image_i, 1, 1, &p2);
  wrong += ask("P4", image_i, 65, 100, &p4);
  wrong += ask("P7", image_7, 1, 100, &p7);
  if (wrong == 0) printf("P1, P2, P4 and P7 from C: as document 01 says\n");
  return wrong != 0;
}
