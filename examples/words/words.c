/* Counts the words of each file, in a hash table, and prints how many there are and which is the most frequent. */
#include <ctype.h>
#include <stdio.h>
#include <stdlib.h>
#include <string.h>

struct word {
    struct word *next;
    unsigned count;
    char text[];
};

enum { SLOTS = 256 };

struct table {
    struct word *slots[SLOTS];
    unsigned words;
};

static unsigned slot_of(const char *text)
{
    unsigned sum = 0;
    while (*text)
        sum = sum * 31 + (unsigned char)*text++;
    return sum % SLOTS;
}

static struct word *find(struct table *table, const char *text)
{
    struct word **slot = &table->slots[slot_of(text)];
    for (struct word *word = *slot; word; word = word->next)
        if (strcmp(word->text, text) == 0)
            return word;
    struct word *word = malloc(sizeof *word + strlen(text) + 1);
    if (!word)
        abort();
    strcpy(word->text, text);
    word->count = 0;
    word->next = *slot;
    *slot = word;
    table->words++;
    return word;
}

/* The next word of the file, in lower case and cut to fit. */
static int read_word(FILE *file, char *text, size_t most)
{
    int c = getc(file);
    while (c != EOF && !isalpha(c))
        c = getc(file);
    size_t length = 0;
    for (; c != EOF && isalpha(c); c = getc(file))
        if (length + 1 < most)
            text[length++] = (char)tolower(c);
    text[length] = 0;
    return length > 0;
}

static int by_count(const void *a, const void *b)
{
    const struct word *left = *(struct word *const *)a;
    const struct word *right = *(struct word *const *)b;
    if (left->count != right->count)
        return left->count < right->count ? 1 : -1;
    return strcmp(left->text, right->text);
}

static struct word **sort_words(struct table *table)
{
    struct word **sorted = malloc((table->words + 1) * sizeof *sorted);
    if (!sorted)
        abort();
    unsigned count = 0;
    for (unsigned slot = 0; slot < SLOTS; slot++)
        for (struct word *word = table->slots[slot]; word; word = word->next)
            sorted[count++] = word;
    qsort(sorted, count, sizeof *sorted, by_count);
    return sorted;
}

static void free_words(struct table *table)
{
    for (unsigned slot = 0; slot < SLOTS; slot++)
        for (struct word *word = table->slots[slot], *next; word; word = next) {
            next = word->next;
            free(word);
        }
}

static void count_file(const char *name, FILE *file)
{
    struct table table = { { 0 }, 0 };
    char text[64];
    unsigned words = 0;
    while (read_word(file, text, sizeof text)) {
        find(&table, text)->count++;
        words++;
    }
    struct word **sorted = sort_words(&table);
    printf("%s: %u words, %u different", name, words, table.words);
    if (table.words > 0)
        printf(", most often %s", sorted[0]->text);
    printf("\n");
    free(sorted);
    free_words(&table);
}

int main(int argc, char **argv)
{
    for (int i = 1; i < argc; i++) {
        FILE *file = fopen(argv[i], "r");
        if (!file) {
            printf("%s: cannot be opened\n", argv[i]);
            return 1;
        }
        count_file(argv[i], file);
        fclose(file);
    }
    return 0;
}
