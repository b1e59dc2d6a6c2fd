// The peer of bench/ipc and bench/changed: its words and lines are those of the program in bench/readings.py. Under `write SHAPE COUNT` it
// prints a message that FlatBuffers' library builds.
#include <algorithm>
#include <cstdio>
#include <fstream>
#include <map>

#include "ipc_unpack.h"

// A type in Arrow's usual notation, as the other program says it.
static std::string notation(const Column &column);
static std::string part(const Column &column) { return column.name + ": " + notation(column) + (column.nullable ? "" : " not null"); }
static std::string integer(long width, bool is_signed) { return (is_signed ? "int" : "uint") + std::to_string(width); }

static std::string nested(const char *word, const Column &column) {
    std::string made = word;
    for (size_t i = 0; i < column.children.size(); i++) {
        made += (i ? ", " : "<") + part(column.children[i]);
        if (column.tag == Type_Union) made += "=" + std::to_string(column.ids[i]);
    }
    return made + (column.children.empty() ? "<>" : ">");
}

static std::string values(const Column &column) {
    static const char *const units[] = {"s", "ms", "us", "ns"}, *const intervals[] = {"month_interval", "day_time_interval", "month_day_nano_interval"};
    static const char *const plain[] = {"", "null", "", "", "binary", "utf8", "boolean", "", "", "", "", "", "list", "struct", "", "", "", "map", "", "large_binary",
                                        "large_utf8", "large_list", "run_end_encoded", "binary_view", "utf8_view", "list_view", "large_list_view"};
    long one = column.parameters[0], two = column.parameters[1], three = column.parameters[2];
    switch (column.tag) {
    case Type_Int: return integer(one, two);
    case Type_FloatingPoint: return "float" + std::to_string(16 << one);
    case Type_Decimal: return "decimal" + std::to_string(three) + "(" + std::to_string(one) + ", " + std::to_string(two) + ")";
    case Type_Date: return one ? "date64" : "date32";
    case Type_Time: return "time" + std::to_string(two) + "[" + units[one] + "]";
    case Type_Timestamp: return std::string("timestamp[") + units[one] + (column.zone.empty() ? "" : ", tz=" + column.zone) + "]";
    case Type_Duration: return std::string("duration[") + units[one] + "]";
    case Type_Interval: return intervals[one];
    case Type_FixedSizeBinary: return "fixed_size_binary[" + std::to_string(one) + "]";
    case Type_FixedSizeList: return nested("fixed_size_list", column) + "[" + std::to_string(one) + "]";
    case Type_Union: return nested(one ? "dense_union" : "sparse_union", column);
    default: return children_of(column.tag) < 0 && column.tag != Type_Struct_ ? plain[column.tag] : nested(plain[column.tag], column);
    }
}

static std::string notation(const Column &column) {
    if (!column.has_dictionary) return values(column);
    return "dictionary<values=" + values(column) + ", indices=" + integer(column.index_width, column.index_signed) + ", ordered=" + (column.is_ordered ? "1>" : "0>");
}

static void add(uint64_t &digest, const std::string &bytes) {
    for (unsigned char byte : bytes) digest = (digest ^ byte) * 0x100000001b3;
    digest = (digest ^ 0xff) * 0x100000001b3;
}

static void add(uint64_t &digest, const Metadata &metadata) {
    std::map<std::string, std::string> last;
    for (const auto &entry : metadata) last[entry.first] = entry.second;
    for (const auto &entry : last) add(digest, entry.first), add(digest, entry.second);
    add(digest, std::string());
}

// Whether a type is one of our 26 data types with all that is below it, so that the metadata below it are kept.
static bool is_data(const Column &column) {
    bool is_list = column.tag == Type_List || column.tag == Type_LargeList || column.tag == Type_FixedSizeList;
    if (column.has_dictionary || (children_of(column.tag) > 0 && !is_list)) return false;
    if (column.tag == Type_Decimal || column.tag == Type_FixedSizeBinary || is_within(column.tag, Type_Time, Type_Interval) || column.tag == Type_Duration) return false;
    return !(is_list || column.tag == Type_Struct_ || column.tag == Type_Union) || std::all_of(column.children.begin(), column.children.end(), is_data);
}

static void add_nested(uint64_t &digest, const Column &column) {
    if (children_of(column.tag) == 1 || column.tag == Type_Struct_ || column.tag == Type_Union)
        for (const Column &child : column.children) add(digest, child.metadata), add_nested(digest, child);
}

// Prints a digest of what is read.
static void say(bool is_file, const std::string &bytes) {
    Read read;
    read_message(is_file, bytes, read);
    uint64_t digest = 0xcbf29ce484222325;
    add(digest, std::string(read.is_big ? "1" : "0"));
    for (const Column &column : read.columns) {
        add(digest, part(column)), add(digest, column.metadata);
        if (is_data(column)) add_nested(digest, column);
    }
    add(digest, read.metadata);
    printf("ok %llu\n", (unsigned long long)digest);
}

// The next number of a generator (SplitMix64).
static uint64_t next(uint64_t &state) {
    uint64_t number = state += 0x9e3779b97f4a7c15;
    number = (number ^ (number >> 30)) * 0xbf58476d1ce4e5b9;
    number = (number ^ (number >> 27)) * 0x94d049bb133111eb;
    return number ^ (number >> 31);
}

static uint32_t word(const std::string &bytes, size_t at) { return at + 4 <= bytes.size() ? flatbuffers::ReadScalar<uint32_t>(&bytes[at]) : 0; }

static void set(std::string &bytes, size_t at, uint32_t value, int count) {
    for (; count--; at++, value >>= 8) if (at < bytes.size()) bytes[at] = (char)value;
}

static void change(std::string &bytes, uint64_t &state) {
    static const uint32_t bounds[] = {0, 1, 2, 3, 4, 7, 8, 0x7f, 0x80, 0xffff, 0x10000, 0x7fffffff, 0x80000000, 0x80000001, 0xfffffffc, 0xffffffff};
    if (bytes.empty()) return;
    size_t length = bytes.size(), at = next(state) % length, four = at - at % 4;
    uint64_t number = next(state);
    uint32_t bound = bounds[number % 16];
    size_t end = std::min(four + (1 + number % 16) * 4, length);
    switch (next(state) % 8) {
    case 0: return set(bytes, at, number, 1);
    case 1: return set(bytes, four, word(bytes, four) ^ (1u << number % 32), 4);
    case 2: return set(bytes, four, bound, 4);
    case 3: return set(bytes, at - at % 2, bound, 2);
    case 4: return set(bytes, four, word(bytes, four) + number % 65 - 32, 4);
    case 5: return set(bytes, four, word(bytes, number % length / 4 * 4), 4);
    case 6: bytes = bytes.substr(0, four) + bytes.substr(end); return;
    default: bytes = bytes.substr(0, end) + bytes.substr(four);
    }
}

using Built = std::vector<Offset<KeyValue>>;

static Offset<KeyValue> build_entry(flatbuffers::FlatBufferBuilder &to, const std::string &key, const std::string &text) {
    return CreateKeyValue(to, to.CreateString(key), to.CreateString(text));
}

static Offset<Field> build_field(flatbuffers::FlatBufferBuilder &to, const std::string &name, std::vector<Offset<Field>> children = {}, Type tag = Type_Int, Built entries = {}) {
    Offset<void> type = tag == Type_Int ? CreateInt(to, 64, true).Union() : tag == Type_List ? CreateList(to).Union() : tag == Type_Struct_
        ? CreateStruct_(to).Union() : CreateDuration(to).Union();
    return CreateField(to, to.CreateString(name), true, tag, type, 0, to.CreateVector(children), entries.empty() ? 0 : to.CreateVector(entries));
}

// A message of a shape and a size, which the library builds.
static std::string build(const std::string &shape, size_t count) {
    flatbuffers::FlatBufferBuilder to;
    std::vector<Offset<Field>> fields;
    Built entries;
    if (shape == "columns" || shape == "struct") for (size_t i = 0; i < count; i++) fields.push_back(build_field(to, "column" + std::to_string(i)));
    if (shape == "nested") for (size_t i = 0; i < count; i++) fields.push_back(build_field(to, "n", {}, Type_Int, {build_entry(to, "key" + std::to_string(i % 3), "value")}));
    if (shape == "struct" || shape == "nested") fields = {build_field(to, "struct", fields, Type_Struct_)};
    if (shape == "others") for (size_t i = 0; i < count; i++) fields.push_back(build_field(to, "column" + std::to_string(i), {}, Type_Duration));
    if (shape == "others") for (int i = 0; i < 60; i++) fields = {build_field(to, "item", fields, i ? Type_List : Type_Struct_)};
    if (shape == "shared") fields.assign(count, build_field(to, std::string(40, 'n')));
    if (shape == "levels") for (size_t i = 0; i < count; i++) fields = {build_field(to, "item", fields, i ? Type_List : Type_Int)};
    if (shape == "entries") for (size_t i = 0; i < count; i++) entries.push_back(build_entry(to, "key" + std::to_string(i), "value"));
    if (shape == "text") entries.push_back(build_entry(to, "key", std::string(count, 't')));
    auto schema = CreateSchema(to, Endianness_Little, to.CreateVector(fields), to.CreateVector(entries));
    to.Finish(CreateMessage(to, MetadataVersion_V5, MessageHeader_Schema, schema.Union(), 0));
    return std::string((const char *)to.GetBufferPointer(), to.GetSize());
}

struct Line { bool is_file; std::string bytes; };

static std::vector<Line> lines_of(const std::string &path) {
    std::vector<Line> found;
    std::ifstream lines(path);
    auto value = [](char digit) { return digit <= '9' ? digit - '0' : digit - 'a' + 10; };
    for (std::string form, digits; lines >> form >> digits;) {
        found.push_back({form == "file", ""});
        for (size_t i = 0; i + 1 < digits.size(); i += 2) found.back().bytes += (char)(value(digits[i]) * 16 + value(digits[i + 1]));
    }
    return found;
}

static void read_again(const Line &line, uint64_t count) {
    for (uint64_t left = count; left--;) {
        Read made;
        read_message(line.is_file, line.bytes, made);
    }
    printf("%llu\n", (unsigned long long)count);
}

static void read_changed(Line line, uint64_t number) {
    uint64_t state = number * 0x2545f4914f6cdd1d;
    for (uint64_t left = 1 + next(state) % 3; left--;) change(line.bytes, state);
    try { say(line.is_file, line.bytes); } catch (const char *rule) { puts(rule); }
}

int main(int count, char **argument) {
    std::vector<std::string> words(argument, argument + count);
    uint64_t last = std::stoull(words.back());
    if (words[1] == "write") {
        for (unsigned char byte : build(words[2], last)) printf("%02x", byte);
        return puts(""), 0;
    }
    std::vector<Line> lines = lines_of(words[1]);
    uint64_t first = std::stoull(words[3]);
    if (words[2] == "changed") for (uint64_t number = first; number < first + last; number++) read_changed(lines.at(number % lines.size()), number);
    else try { read_again(lines.at(first), last); } catch (const char *rule) { puts(rule); }
}
