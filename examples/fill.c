/* Two perfectly nested loops. */
void fill(int64_t rows, int64_t columns, uint64_t cells[rows][columns], uint64_t line[columns])
{
  for (int64_t row = 0; row < rows; row++)
    for (int64_t column = 0; column < columns; column++)
      cells[row][column] += line[column];
}
