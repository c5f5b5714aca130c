/* Reads a JSON object from standard input by cJSON, sums the ages by looking each member up by its name, and prints it again. */
#include <stdio.h>
#include <stdlib.h>
#include "cJSON.h"

static char *read_all(void) {
  size_t size = 0, room = 4096;
  char *text = malloc(room);
  while (text) {
    size_t more = fread(text + size, 1, room - size - 1, stdin);
    if (more == 0) {
      text[size] = 0;
      break;
    }
    size += more;
    if (room - size < 2) text = realloc(text, room *= 2);
  }
  return text;
}

static double sum_ages(const cJSON *people) {
  double sum = 0;
  for (const cJSON *person = people->child; person; person = person->next) {
    const cJSON *found = cJSON_GetObjectItemCaseSensitive(people, person->string);
    sum += cJSON_GetObjectItemCaseSensitive(found, "age")->valuedouble;
  }
  return sum;
}

int main(void) {
  char *text = read_all();
  cJSON *people = text ? cJSON_Parse(text) : NULL;
  if (!people) return 1;
  printf("%d\n", (int)sum_ages(people));
  puts(cJSON_PrintUnformatted(people));
  cJSON_Delete(people);
  free(text);
  return 0;
}
