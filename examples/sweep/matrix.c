/* Multiplies two matrices of doubles, the inner loop down the columns of the second: the program whose misses matrix.stream has. */
#include <stdio.h>

enum { SIZE = 56 };
static double left[SIZE][SIZE], right[SIZE][SIZE], product[SIZE][SIZE];

int main(void) {
  for (int row = 0; row < SIZE; row++)
    for (int column = 0; column < SIZE; column++) {
      left[row][column] = row + column;
      right[row][column] = row - column;
    }
  for (int row = 0; row < SIZE; row++)
    for (int column = 0; column < SIZE; column++)
      for (int k = 0; k < SIZE; k++) product[row][column] += left[row][k] * right[k][column];
  printf("%g\n", product[SIZE - 1][SIZE - 1]);
  return 0;
}
