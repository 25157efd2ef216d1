/* A host for the C of examples/heater: reads samples of temp, one a line behind a header, calls step once for each, and
   prints each call as `copilot interpret` does. */
#include <stdio.h>
#include <stdlib.h>
#include "heater.h"

int32_t temp;

static unsigned long now;

void heat(int32_t t)
{
  printf("%lu heat %ld\n", now, (long)t);
}

void frost(void)
{
  printf("%lu frost\n", now);
}

int main(void)
{
  char line[256];
  if (!fgets(line, sizeof line, stdin)) return 0;
  for (now = 0; fgets(line, sizeof line, stdin); now++) {
    temp = (int32_t)strtol(line, NULL, 10);
    step();
  }
  return 0;
}
