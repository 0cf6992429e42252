/* Faulty messages, and who takes them all the same. For bench/read.cc alone. */
#ifndef FAULTS_H
#define FAULTS_H

#include "readers.h"

#include <cstdio>
#include <cstring>
#include <string>
#include <vector>

namespace {

struct Fault {
    const char *name;
    std::string message;
};

std::string around(const std::string &content)
{
    return "<Response><QueryResponse inResponseTo=\"7\">" + content + "</QueryResponse></Response>";
}

std::string nested(int levels)
{
    std::string opened, closed;
    for (int i = 0; i < levels; i++) {
        opened += "<n>";
        closed += "</n>";
    }
    return opened + closed;
}

std::string attributes(int count)
{
    std::string element = "<x";
    for (int i = 0; i < count; i++)
        element += " a" + std::to_string(i) + "=\"\"";
    return element + "/>";
}

const std::vector<Fault> faults = {
    {"none (to compare)", around("")},
    {"end tag of another name", around("<x></y>")},
    {"end tag missing", "<Response><QueryResponse></Response>"},
    {"message cut off in text", "<Response><QueryResponse>Ash"},
    {"message cut off in a tag", "<Response><QueryResponse in"},
    {"text behind the root", around("") + "Ashford"},
    {"two roots", around("") + around("")},
    {"attribute twice", around("<x a=\"1\" a=\"2\"/>")},
    {"no white space between attributes", around("<x a=\"1\"b=\"2\"/>")},
    {"attribute without quotes", around("<x a=1/>")},
    {"attribute without value", around("<x a/>")},
    {"`<` in an attribute value", around("<x a=\"<\"/>")},
    {"name that begins with a digit", around("<1x/>")},
    {"name with a `$`", around("<x$/>")},
    {"blank before the name", around("< x/>")},
    {"`]]>` in text", around("]]>")},
    {"`--` in a comment", around("<!-- a -- b -->")},
    {"`&` alone", around("Gas & power")},
    {"reference to a name not defined", around("&street;")},
    {"reference to number 0", around("&#0;")},
    {"reference to a surrogate", around("&#xD800;")},
    {"reference beyond U+10FFFF", around("&#x110000;")},
    {"byte 01 in text", around("\x01")},
    {"byte 01 in a value", around("<x a=\"\x01\"/>")},
    {"byte 00 in text", around(std::string(1, '\0'))},
    {"byte 80 alone", around("\x80")},
    {"bytes C3, `<`", around("\xC3")},
    {"bytes C0 AF (`/` too long)", around("\xC0\xAF")},
    {"bytes ED A0 80 (surrogate)", around("\xED\xA0\x80")},
    {"bytes F4 90 80 80 (too large)", around("\xF4\x90\x80\x80")},
    {"bytes EF BF BE (U+FFFE)", around("\xEF\xBF\xBE")},
    {"cut: DOCTYPE", "<!DOCTYPE Response>" + around("")},
    {"cut: CDATA section", around("<![CDATA[ ]]>")},
    {"cut: processing instruction", around("<?x y?>")},
    {"cut: element at level 33", around(nested(31))},
    {"cut: 17 attributes", around(attributes(17))},
    {"cut: name of 65 bytes", around("<" + std::string(65, 'n') + "/>")},
};

std::string answer_in_words()
{
    if (answer[0] == 0)
        return "taken";
    return std::to_string(answer[0]) + " at " + std::to_string(answer[1]);
}

/* The peer's name where it takes the message with each of its settings, else the settings with which it does. */
std::string taken_by(const std::string &peer, std::string &message)
{
    std::string settings;
    bool always = true;
    for (const Reader &reader : readers) {
        if (reader.peer != peer)
            continue;
        if (!reader.read(message))
            always = false;
        else
            settings += (settings.empty() ? "" : "; ") + std::string(reader.setting);
    }
    return always ? peer : settings.empty() ? "" : peer + " (" + settings + ")";
}

void show_faults()
{
    std::puts("| fault | ali_read | taken by |");
    std::puts("|---|---|---|");
    for (const Fault &fault : faults) {
        std::string message = fault.message, takers;
        read_proved<ali_read>(message);
        for (std::size_t i = 1; i < readers.size(); i++) {
            if (std::strcmp(readers[i].peer, readers[i - 1].peer) == 0)
                continue;
            std::string taker = taken_by(readers[i].peer, message);
            takers += (takers.empty() || taker.empty() ? "" : ", ") + taker;
        }
        std::printf("| %s | %s | %s |\n", fault.name, answer_in_words().c_str(), takers.empty() ? "none" : takers.c_str());
    }
}

} // namespace

#endif
