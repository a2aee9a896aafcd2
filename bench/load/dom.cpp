// Parses each line of a file into a tree of simdjson's, with one parser in one padded buffer, and keeps none of the trees. Where
// lines are short on average, many are scanned at once, which takes half the time of one after another.
#include <algorithm>
#include <cstdio>
#include <cstring>
#include <simdjson.h>

struct Counts {
    size_t trees = 0, refused = 0;
    void add(bool is_tree) { (is_tree ? trees : refused)++; }
};

static const char *line_end(const char *at, const char *end) {
    const char *feed = static_cast<const char *>(memchr(at, '\n', end - at));
    return feed ? feed : end;
}

static Counts parse_lines(const simdjson::padded_string &text) {
    simdjson::dom::parser parser;
    Counts counts;
    const char *end = text.data() + text.size();
    for (const char *at = text.data(); at < end;) {
        const char *last = line_end(at, end);
        simdjson::dom::element root;
        counts.add(!parser.parse(at, last - at, false).get(root));
        at = last + 1;
    }
    return counts;
}

static Counts parse_batches(const simdjson::padded_string &text, size_t batch) {
    simdjson::dom::parser parser;
    simdjson::dom::document_stream trees;
    Counts counts;
    if (parser.parse_many(text.data(), text.size(), batch).get(trees)) return counts;
    for (auto tree : trees) counts.add(!tree.error());
    return counts;
}

int main(int count, char **words) {
    const size_t short_line = 64, batch = 1 << 17;
    if (count != 2) return 2;
    simdjson::padded_string text;
    if (simdjson::padded_string::load(words[1]).get(text)) return 2;
    size_t front = std::min<size_t>(text.size(), 1000 * short_line);
    size_t feeds = std::count(text.data(), text.data() + front, '\n');
    Counts counts = feeds > front / short_line ? parse_batches(text, batch) : parse_lines(text);
    printf("%zu trees, %zu refused\n", counts.trees, counts.refused);
    return 0;
}
