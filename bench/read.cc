/* Times ali_read beside stock XML parsers on the messages of bench/responses.py, on the machine's own processor.
 *
 *   read FILE ..      a table of times; a FILE has messages with a byte 0 between two of them
 *   read --faults     a table of faulty messages and who takes them all the same
 *
 * `bench/run` builds and runs this, and so does bench/beside.py, to time the ali_read of an older archive too.
 * bench/README.md says what is compared with what.
 */
#include "faults.h"
#include "readers.h"

#include <sched.h>

#include <algorithm>
#include <cstdint>
#include <cstdio>
#include <cstdlib>
#include <cstring>
#include <ctime>
#include <fstream>
#include <iterator>
#include <string>
#include <vector>

namespace {

constexpr int rounds = 41;
constexpr double least_seconds = 0.004; // of one sample

// ---- time ----

struct Input {
    std::string name;
    std::vector<std::string> messages;
    double mean_length;
};

[[noreturn]] void stop(const std::string &why)
{
    std::fprintf(stderr, "read: %s\n", why.c_str());
    std::exit(1);
}

Input input_of(const std::string &path)
{
    std::ifstream file(path, std::ios::binary);
    Input input{path.substr(path.rfind('/') + 1), {}, 0};
    for (std::string message; std::getline(file, message, '\0');) {
        if (message.size() > longest_message)
            stop(path + ": longer than a message may be");
        input.messages.push_back(message);
        input.mean_length += static_cast<double>(message.size());
    }
    if (input.messages.empty())
        stop(path + ": no message");
    input.mean_length /= static_cast<double>(input.messages.size());
    return input;
}

void check_taken(const Input &input)
{
    for (const std::string &message : input.messages)
        for (const Reader &reader : readers) {
            std::string lent = message;
            if (!reader.read(lent) || lent != message)
                stop(name_of(reader) + " does not take a message of " + input.name + ", or changes it");
        }
}

#ifdef WITH_BEFORE
/* All places of the list, so that one which only one of the two writes shows. */
std::vector<std::uint64_t> answer_of(Read *read, std::string message)
{
    std::fill(std::begin(answer), std::end(answer), UINT64_MAX);
    read(message);
    return {std::begin(answer), std::end(answer)};
}

void check_same_answers(const Input &input)
{
    for (const std::string &message : input.messages)
        if (answer_of(read_proved<ali_read>, message) != answer_of(read_proved<ali_read_before>, message))
            stop("before answers a message of " + input.name + " in another way");
}
#endif

/* Of the processor and not of the clock on the wall: a machine that others use too would otherwise measure them. */
double seconds_used()
{
    timespec t;
    clock_gettime(CLOCK_PROCESS_CPUTIME_ID, &t);
    return static_cast<double>(t.tv_sec) + 1e-9 * static_cast<double>(t.tv_nsec);
}

/* Of so many passes over all messages, one message after the other. */
double seconds_for(const Reader &reader, Input &input, long passes)
{
    bool taken = true;
    double begun = seconds_used();
    for (long i = 0; i < passes; i++)
        for (std::string &message : input.messages)
            taken &= reader.read(message);
    double took = seconds_used() - begun;
    if (!taken)
        stop(name_of(reader) + " has refused what it took before");
    return took;
}

/* Also the warming up. */
long passes_for_a_sample(const Reader &reader, Input &input)
{
    long passes = 1;
    while (seconds_for(reader, input, passes) < least_seconds)
        passes *= 2;
    return passes;
}

struct Row {
    Reader reader;
    long passes;
    std::vector<double> nanoseconds; // of one message, a sample each
};

double median(std::vector<double> numbers)
{
    std::sort(numbers.begin(), numbers.end());
    return numbers[numbers.size() / 2];
}

/* All take turns in each round, so that whatever else the machine does falls on all. */
std::vector<Row> rows_of(Input &input)
{
    std::vector<Row> rows;
    for (const Reader &reader : readers)
        rows.push_back({reader, passes_for_a_sample(reader, input), {}});
    rows.push_back({copying, passes_for_a_sample(copying, input), {}});
    for (int round = 0; round < rounds; round++)
        for (Row &row : rows) {
            double messages = static_cast<double>(row.passes) * static_cast<double>(input.messages.size());
            row.nanoseconds.push_back(1e9 * seconds_for(row.reader, input, row.passes) / messages);
        }
    return rows;
}

void time_all(Input &input)
{
    std::vector<Row> rows = rows_of(input);
    double proved = median(rows.front().nanoseconds);
    for (const Row &row : rows) {
        double took = median(row.nanoseconds);
        std::printf("| %s | %s, %.0f | %.0f | %.0f | %.2f |\n", name_of(row.reader).c_str(), input.name.c_str(),
                    input.mean_length, took, 1e3 * input.mean_length / took, took / proved);
    }
    std::fflush(stdout);
}

void stay_on_one_processor()
{
    cpu_set_t one;
    CPU_ZERO(&one);
    CPU_SET(sched_getcpu(), &one);
    if (sched_setaffinity(0, sizeof one, &one) != 0)
        std::fputs("read: not pinned to one processor\n", stderr);
}

} // namespace

int main(int count, char **words)
{
    if (count < 2) {
        std::fputs("usage: read --faults | read FILE ..\n", stderr);
        return 2;
    }
    if (std::strcmp(words[1], "--faults") == 0) {
        show_faults();
        return 0;
    }
    stay_on_one_processor();
    std::vector<Input> inputs;
    for (int i = 1; i < count; i++) {
        inputs.push_back(input_of(words[i]));
        check_taken(inputs.back());
#ifdef WITH_BEFORE
        check_same_answers(inputs.back());
#endif
    }
    std::puts("| reader | messages, mean bytes | ns a message | MB/s | its time / ali_read's |");
    std::puts("|---|---|---|---|---|");
    for (Input &input : inputs)
        time_all(input);
    return 0;
}
