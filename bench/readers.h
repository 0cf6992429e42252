/* ali_read and the stock XML parsers that it is compared with, one function for each setting. For bench/read.cc alone, which is compiled with WITH_EXPAT,
 * WITH_LIBXML2, WITH_PUGIXML and WITH_RAPIDXML for those that are installed, and by bench/beside.py with WITH_BEFORE for the ali_read of an older archive.
 */
#ifndef READERS_H
#define READERS_H

#include "ali_link.h"

#include <cstdint>
#include <cstring>
#include <string>
#include <vector>

#ifdef WITH_EXPAT
#include <expat.h>
#endif
#ifdef WITH_LIBXML2
#include <libxml/parser.h>
#endif
#ifdef WITH_PUGIXML
#include <pugixml.hpp>
#endif
#ifdef WITH_RAPIDXML
#include <rapidxml/rapidxml.hpp>
#endif
#ifdef WITH_BEFORE
extern "C" decltype(ali_read) ali_read_before;
#endif

namespace {

constexpr std::size_t longest_message = 65520;

/* Says whether the message was taken. It may not change the message, which has a 0 behind its last byte. */
using Read = bool(std::string &message);

struct Reader {
    const char *peer, *setting;
    Read *read;
};

// ---- ali_read ----

std::uint64_t answer[ALI_ANSWER_PLACES];

template <decltype(ali_read) *read> bool read_proved(std::string &message)
{
    const auto *bytes = reinterpret_cast<const std::uint8_t *>(message.data());
    return read(bytes, message.size(), answer, ALI_ANSWER_PLACES) == 0 && answer[ALI_REFUSAL] == 0 && answer[ALI_KIND] == ALI_RESPONSE;
}

// ---- the copy that a parser needs which writes into what it reads ----

char fresh[longest_message + 1];

char *copy_of(const std::string &message)
{
    std::memcpy(fresh, message.data(), message.size() + 1);
    return fresh;
}

bool copy_alone(std::string &message)
{
    // the empty assembly says that the copy is used: otherwise the compiler may leave it out
    __asm__ volatile("" : : "r"(copy_of(message)) : "memory");
    return true;
}

// ---- expat: one parser, reset for each message ----

#ifdef WITH_EXPAT
XML_Parser expat_for_next()
{
    static XML_Parser parser = XML_ParserCreate(nullptr);
    XML_ParserReset(parser, nullptr); // forgets the handlers too
    return parser;
}

bool read_expat(std::string &message)
{
    return XML_Parse(expat_for_next(), message.data(), static_cast<int>(message.size()), 1) == XML_STATUS_OK;
}

bool read_expat_handled(std::string &message)
{
    XML_Parser parser = expat_for_next();
    XML_SetElementHandler(parser, [](void *, const XML_Char *, const XML_Char **) {}, [](void *, const XML_Char *) {});
    XML_SetCharacterDataHandler(parser, [](void *, const XML_Char *, int) {});
    return XML_Parse(parser, message.data(), static_cast<int>(message.size()), 1) == XML_STATUS_OK;
}
#endif

// ---- libxml2: its tree, and SAX2 on one context ----

#ifdef WITH_LIBXML2
constexpr int libxml2_options = XML_PARSE_NONET | XML_PARSE_NOERROR | XML_PARSE_NOWARNING | XML_PARSE_COMPACT;

bool read_libxml2_tree(std::string &message)
{
    xmlDocPtr tree = xmlReadMemory(message.data(), static_cast<int>(message.size()), nullptr, nullptr, libxml2_options);
    xmlFreeDoc(tree);
    return tree != nullptr;
}

/* A context keeps its table of names from one message to the next. */
xmlParserCtxtPtr libxml2_context()
{
    xmlParserCtxtPtr context = xmlNewParserCtxt();
    std::memset(context->sax, 0, sizeof *context->sax);
    context->sax->initialized = XML_SAX2_MAGIC;
    return context;
}

bool read_libxml2_with(xmlParserCtxtPtr context, const std::string &message)
{
    xmlCtxtReadMemory(context, message.data(), static_cast<int>(message.size()), nullptr, nullptr, libxml2_options);
    return context->wellFormed != 0;
}

bool read_libxml2_sax(std::string &message)
{
    static xmlParserCtxtPtr context = libxml2_context();
    return read_libxml2_with(context, message);
}

xmlParserCtxtPtr libxml2_context_handled()
{
    xmlParserCtxtPtr context = libxml2_context();
    context->sax->startElementNs = [](void *, const xmlChar *, const xmlChar *, const xmlChar *, int, const xmlChar **, int,
                                      int, const xmlChar **) {};
    context->sax->endElementNs = [](void *, const xmlChar *, const xmlChar *, const xmlChar *) {};
    context->sax->characters = context->sax->ignorableWhitespace = [](void *, const xmlChar *, int) {};
    return context;
}

bool read_libxml2_sax_handled(std::string &message)
{
    static xmlParserCtxtPtr context = libxml2_context_handled();
    return read_libxml2_with(context, message);
}
#endif

// ---- pugixml: one document, loaded anew for each message ----

#ifdef WITH_PUGIXML
pugi::xml_document pugixml_document;

template <unsigned flags> bool read_pugixml(std::string &message)
{
    return pugixml_document.load_buffer(message.data(), message.size(), flags, pugi::encoding_utf8);
}

bool read_pugixml_in_place(std::string &message)
{
    return pugixml_document.load_buffer_inplace(copy_of(message), message.size(), pugi::parse_default, pugi::encoding_utf8);
}
#endif

// ---- rapidxml: one document, cleared for each message ----

#ifdef WITH_RAPIDXML
template <int flags> bool read_rapidxml(std::string &message)
{
    static rapidxml::xml_document<> document;
    constexpr bool writes = (flags & rapidxml::parse_non_destructive) != rapidxml::parse_non_destructive;
    char *text = writes ? copy_of(message) : message.data();
    document.clear();
    try {
        document.parse<flags>(text);
        return true;
    } catch (const rapidxml::parse_error &) {
        return false;
    }
}
#endif

/* The first is what the others are held against; the settings of one peer stand together. */
const std::vector<Reader> readers = {
    {"ali_read", "", read_proved<ali_read>},
#ifdef WITH_BEFORE
    {"before", "", read_proved<ali_read_before>},
#endif
#ifdef WITH_EXPAT
    {"expat", "no handlers", read_expat},
    {"expat", "empty handlers", read_expat_handled},
#endif
#ifdef WITH_LIBXML2
    {"libxml2", "SAX2, no handlers", read_libxml2_sax},
    {"libxml2", "SAX2, empty handlers", read_libxml2_sax_handled},
    {"libxml2", "xmlReadMemory", read_libxml2_tree},
#endif
#ifdef WITH_PUGIXML
    {"pugixml", "parse_minimal", read_pugixml<pugi::parse_minimal>},
    {"pugixml", "parse_default", read_pugixml<pugi::parse_default>},
    {"pugixml", "parse_default, copy and in place", read_pugixml_in_place},
#endif
#ifdef WITH_RAPIDXML
    {"rapidxml", "parse_fastest", read_rapidxml<rapidxml::parse_fastest>},
    {"rapidxml", "parse_non_destructive", read_rapidxml<rapidxml::parse_non_destructive>},
    {"rapidxml", "no flags, copy", read_rapidxml<0>},
    {"rapidxml", "parse_validate_closing_tags, copy", read_rapidxml<rapidxml::parse_validate_closing_tags>},
#endif
};

const Reader copying = {"none", "the copy alone", copy_alone};

std::string name_of(const Reader &reader)
{
    return *reader.setting == '\0' ? reader.peer : std::string(reader.peer) + ": " + reader.setting;
}

} // namespace

#endif
