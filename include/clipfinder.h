/* Neobyulhan's clip finder: ranked answers from an index image, each function proved to meet its contract.
   Link target/staticlib/libfinder.a, which `.ci/archive` writes for x86-64. No other library is needed. */
#ifndef CLIPFINDER_H
#define CLIPFINDER_H

#include <stddef.h>
#include <stdint.h>

#ifdef __cplusplus
extern "C" {
#endif

/* Answers every query of a sheet on an image.

   image, image_len   the index image and its length in bytes; only read
   sheet, sheet_len   the sheet of queries and its length in numbers; only read
   row, row_len       the answer row and its length in numbers; written only where the call is done

   Image and sheet may hold anything: both are judged first, and nothing outside the three rows is read or written.
   A pointer may be anything that is not null and is aligned, where its length is 0. The row must not overlap image or sheet.

   The result is number * 2^56 + value; CLIPFINDER_NUMBER and CLIPFINDER_VALUE take it apart.
   Number 0: done. The value is the count of numbers filled, 3 + 2k for each query: place, rows found, postings scored, then document and
   score for each row, then zeros up to k rows. The numbers after the count stay as they were.
   Number 1 to 15: refused. The value is the place, and the whole row stays as it was:

      1  image under 8 bytes                                                         0
      2  version not 1                                                               0
      3  length field not the image's length, or 8 + 8T exceeds it                   0
      4  directory: postings 0 with another field not 0; postings above N;
         list not at its due bit                                                     term
      5  block head or body passes the image's end; w above 24;
         more postings than the list has left                                        term
      6  document number N or above, or impact 0                                     term
      7  a block's last document or largest impact, or a list's largest impact,
         is not the true one                                                         term
      8  bits left after the last list are more than 7 or not all zero               T
      9  queries not 1 to 64; numbers missing or left over                           query; 0 if the first number is at fault;
                                                                                     the number of queries for numbers left over
     10  mode above 2                                                                query
     11  k not 1 to 64                                                               query
     12  q not 1 to 16                                                               query
     13  term T or above                                                             query
     14  weight not 1 to 255                                                         query
     15  answer row too short                                                        numbers needed */
uint64_t finder_answer(const uint8_t *image, size_t image_len, const uint32_t *sheet, size_t sheet_len, uint32_t *row, size_t row_len);

/* 0 where the call is done, else the number of its refusal. */
#define CLIPFINDER_NUMBER(said) ((unsigned)((uint64_t)(said) >> 56))

/* The count of numbers filled where the call is done, else the place of its refusal. */
#define CLIPFINDER_VALUE(said) ((uint64_t)(said) & UINT64_C(0xFFFFFFFFFFFFFF))

#ifdef __cplusplus
}
#endif

#endif
