// The peer's reading of an Arrow message: verified by FlatBuffers' C++ library, and unpacked into structs.
#pragma once
#include <cstdint>
#include <cstring>
#include <string>
#include <utility>
#include <vector>

#include "File_generated.h"
#include "Message_generated.h"

using namespace org::apache::arrow::flatbuf;
using flatbuffers::Offset;
using flatbuffers::Vector;

using Metadata = std::vector<std::pair<std::string, std::string>>;

struct Column {
    std::string name, zone;
    bool nullable = false, has_dictionary = false, is_ordered = false;
    long tag = 0, parameters[3] = {0, 0, 0}, index_width = 32, index_signed = 1;
    std::vector<int> ids;
    std::vector<Column> children;
    Metadata metadata;
};

struct Read { bool is_big = false; std::vector<Column> columns; Metadata metadata; };

// The name of a rule is thrown where it is broken.
static void check(bool holds, const char *rule) { if (!holds) throw rule; }

static bool is_utf8(const flatbuffers::String *text) {
    const unsigned char *p = text->Data(), *end = p + text->size();
    while (p < end) {
        uint64_t eight;
        if (end - p >= 8 && (memcpy(&eight, p, 8), !(eight & 0x8080808080808080u))) { p += 8; continue; }
        unsigned char lead = *p++;
        if (lead < 0x80) continue;
        int more = lead >= 0xf0 ? 3 : lead >= 0xe0 ? 2 : 1;
        if (lead < 0xc2 || lead > 0xf4 || end - p < more) return false;
        if ((lead == 0xe0 && *p < 0xa0) || (lead == 0xed && *p > 0x9f) || (lead == 0xf0 && *p < 0x90) || (lead == 0xf4 && *p > 0x8f)) return false;
        while (more--) if ((*p++ & 0xc0) != 0x80) return false;
    }
    return true;
}

static std::string text_of(const flatbuffers::String *text) {
    if (!text) return std::string();
    check(is_utf8(text), "Utf8");
    return std::string(text->c_str(), text->size());
}

static void unpack(const Vector<Offset<KeyValue>> *entries, Metadata &made) {
    if (!entries) return;
    made.reserve(entries->size());
    for (const KeyValue *entry : *entries) {
        check(entry->key() && entry->value(), "Missing");
        made.emplace_back(text_of(entry->key()), text_of(entry->value()));
    }
}

static bool is_width(long bits) { return bits == 8 || bits == 16 || bits == 32 || bits == 64; }
static bool is_within(long number, long first, long last) { return first <= number && number <= last; }

// The parameters of a type, and whether it can have them.
static bool unpack_type(const Field *field, Column &made) {
    long &one = made.parameters[0], &two = made.parameters[1], &three = made.parameters[2];
    switch (field->type_type()) {
    case Type_Int: one = field->type_as_Int()->bitWidth(), two = field->type_as_Int()->is_signed(); return is_width(one);
    case Type_FloatingPoint: one = field->type_as_FloatingPoint()->precision(); return is_within(one, 0, 2);
    case Type_Decimal:
        one = field->type_as_Decimal()->precision(), two = field->type_as_Decimal()->scale(), three = field->type_as_Decimal()->bitWidth();
        return is_within(one, 0, 127) && is_within(two, -128, 127) && (three == 32 || three == 64 || three == 128 || three == 256);
    case Type_Date: one = field->type_as_Date()->unit(); return is_within(one, 0, 1);
    case Type_Time:
        one = field->type_as_Time()->unit(), two = field->type_as_Time()->bitWidth();
        return is_within(one, 0, 3) && two == (one < 2 ? 32 : 64);
    case Type_Timestamp: one = field->type_as_Timestamp()->unit(), made.zone = text_of(field->type_as_Timestamp()->timezone()); return is_within(one, 0, 3);
    case Type_Interval: one = field->type_as_Interval()->unit(); return is_within(one, 0, 2);
    case Type_Union: one = field->type_as_Union()->mode(); return is_within(one, 0, 1);
    case Type_FixedSizeBinary: one = field->type_as_FixedSizeBinary()->byteWidth(); return one >= 0;
    case Type_FixedSizeList: one = field->type_as_FixedSizeList()->listSize(); return one >= 0;
    case Type_Map: one = field->type_as_Map()->keysSorted(); return true;
    case Type_Duration: one = field->type_as_Duration()->unit(); return is_within(one, 0, 3);
    default: return true;
    }
}

// How many children a type must have, or -1.
static int children_of(int tag) {
    bool is_list = tag == Type_List || tag == Type_LargeList || tag == Type_FixedSizeList || tag == Type_Map || tag == Type_ListView || tag == Type_LargeListView;
    return is_list ? 1 : tag == Type_RunEndEncoded ? 2 : -1;
}

static void unpack_ids(const Vector<int32_t> *ids, Column &made) {
    bool taken[128] = {};
    check(!ids || ids->size() == made.children.size(), "TypeIds");
    for (size_t i = 0; i < made.children.size(); i++) {
        long id = ids ? ids->Get(i) : i;
        check(is_within(id, 0, 127) && !taken[id], "TypeIds");
        taken[id] = true;
        made.ids.push_back(id);
    }
}

static void unpack(const DictionaryEncoding *dictionary, Column &made) {
    if (!dictionary) return;
    made.has_dictionary = true;
    made.is_ordered = dictionary->isOrdered();
    if (dictionary->indexType()) made.index_width = dictionary->indexType()->bitWidth(), made.index_signed = dictionary->indexType()->is_signed();
    check(is_width(made.index_width), "Parameter");
}

static void unpack(const Vector<Offset<Field>> *fields, std::vector<Column> &made) {
    if (!fields) return;
    made.reserve(fields->size());
    for (const Field *field : *fields) {
        made.emplace_back();
        Column &column = made.back();
        column.name = text_of(field->name());
        column.nullable = field->nullable();
        column.tag = field->type_type();
        check(column.tag && field->type(), "Missing");
        check(column.tag <= Type_MAX, "Tag");
        check(unpack_type(field, column), "Parameter");
        unpack(field->dictionary(), column);
        unpack(field->children(), column.children);
        if (column.tag == Type_Union) unpack_ids(field->type_as_Union()->typeIds(), column);
        int wanted = children_of(column.tag);
        check(wanted < 0 || (size_t)wanted == column.children.size(), "Children");
        unpack(field->custom_metadata(), column.metadata);
    }
}

static void unpack(const Schema *schema, Read &made) {
    check(schema && schema->fields(), "Missing");
    made.is_big = schema->endianness() != Endianness_Little;
    unpack(schema->fields(), made.columns);
    unpack(schema->custom_metadata(), made.metadata);
}

// The root of a message, verified: with as many levels as our reader takes, and as many tables a byte as Arrow's C++ library.
template <typename Root> static const Root *verified(const std::string &bytes) {
    const uint8_t *data = (const uint8_t *)bytes.data();
    check(flatbuffers::Verifier(data, bytes.size(), 64, 8 * bytes.size()).VerifyBuffer<Root>(nullptr), "Verifier");
    const Root *root = flatbuffers::GetRoot<Root>(data);
    check(root->version() == MetadataVersion_V4 || root->version() == MetadataVersion_V5, "Message");
    return root;
}

static void read_message(bool is_file, const std::string &bytes, Read &made) {
    if (is_file) return unpack(verified<Footer>(bytes)->schema(), made);
    const Message *message = verified<Message>(bytes);
    check(message->header_type() == MessageHeader_Schema && message->bodyLength() == 0, "Message");
    unpack(message->header_as_Schema(), made);
}
