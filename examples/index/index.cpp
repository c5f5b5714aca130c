// Makes an index of each file, the lines on which each word stands, and prints the words of the most lines. C++ with the
// library's containers, without exceptions and run-time types.
#include <algorithm>
#include <cctype>
#include <cstdio>
#include <string>
#include <unordered_map>
#include <vector>

using Lines = std::vector<unsigned>;
using Index = std::unordered_map<std::string, Lines>;

struct Entry {
    std::string word;
    std::size_t lines;
};

static std::string read_file(std::FILE *file)
{
    std::string text;
    for (int c = std::getc(file); c != EOF; c = std::getc(file))
        text += static_cast<char>(c);
    return text;
}

static void add_word(Index &index, const std::string &word, unsigned line)
{
    Lines &lines = index[word];
    if (lines.empty() || lines.back() != line)
        lines.push_back(line);
}

static Index make_index(const std::string &text)
{
    Index index;
    std::string word;
    unsigned line = 1;
    for (char c : text) {
        if (std::isalpha(static_cast<unsigned char>(c))) {
            word += static_cast<char>(std::tolower(static_cast<unsigned char>(c)));
            continue;
        }
        if (!word.empty())
            add_word(index, word, line);
        word.clear();
        line += c == '\n';
    }
    return index;
}

static bool comes_before(const Entry &left, const Entry &right)
{
    return left.lines != right.lines ? left.lines > right.lines : left.word < right.word;
}

static std::vector<Entry> sort_entries(const Index &index)
{
    std::vector<Entry> entries;
    for (const auto &[word, lines] : index)
        entries.push_back({ word, lines.size() });
    std::sort(entries.begin(), entries.end(), comes_before);
    return entries;
}

int main(int argc, char **argv)
{
    for (int i = 1; i < argc; i++) {
        std::FILE *file = std::fopen(argv[i], "r");
        if (!file)
            return 1;
        const std::vector<Entry> entries = sort_entries(make_index(read_file(file)));
        std::fclose(file);
        std::printf("%s: %zu words", argv[i], entries.size());
        for (std::size_t place = 0; place < 2 && place < entries.size(); place++)
            std::printf(", %s on %zu lines", entries[place].word.c_str(), entries[place].lines);
        std::printf("\n");
    }
    return 0;
}
