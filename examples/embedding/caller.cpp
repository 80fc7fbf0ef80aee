// Prints the contents of a pair and writes the pair again from the arrays that it read: caller CFG DAT NEWCFG NEWDAT
#include <cmath>
#include <cstdio>
#include <cstdlib>
#include <fstream>
#include <iterator>
#include <memory>
#include <string>
#include <vector>

#include "comtrade.h"

namespace {

// The calls have the names of the structs that they fill.
using Head = struct comtrade_head;
using Analog = struct comtrade_analog;
using Status = struct comtrade_status;
using Rate = struct comtrade_rate;

comtrade_fault fault{};

void need(int32_t answer) {
    if (answer == COMTRADE_DONE) return;
    char words[200] = "";
    comtrade_fault_text(&fault, words, sizeof words, nullptr);
    std::printf("%s\n%s\n", comtrade_answer_text(answer), words);
    std::exit(1);
}

std::vector<uint8_t> contents(const char *name) {
    std::ifstream file(name, std::ios::binary);
    return {std::istreambuf_iterator<char>(file), std::istreambuf_iterator<char>()};
}

struct Closes {
    void operator()(comtrade *record) const { comtrade_close(record); }
};

class Record {
  public:
    Record(const std::vector<uint8_t> &cfg, const std::vector<uint8_t> &dat) {
        comtrade *opened = nullptr;
        need(comtrade_open(cfg.data(), cfg.size(), dat.data(), dat.size(), &opened, &fault));
        at.reset(opened);
        head.size = sizeof head;
        need(comtrade_head(opened, &head));
    }
    std::string text(int32_t which, size_t channel = 0) const {
        size_t needed = 0;
        comtrade_text(at.get(), which, channel, nullptr, 0, &needed);
        std::string found(needed + 1, '\0');
        need(comtrade_text(at.get(), which, channel, &found[0], found.size(), nullptr));
        found.resize(needed);
        return found;
    }
    template <class T> std::vector<T> rows(int32_t (*call)(const comtrade *, size_t, size_t, size_t, T *), size_t channel, size_t first, size_t count, size_t wide = 1) const {
        std::vector<T> found(count * wide);
        need(call(at.get(), channel, first, count, found.data()));
        return found;
    }
    template <class T> T said(int32_t (*call)(const comtrade *, size_t, T *), size_t which) const {
        T found{};
        found.size = sizeof found;
        need(call(at.get(), which, &found));
        return found;
    }
    void print_row(size_t row) const {
        int64_t time = 0;
        need(comtrade_times(at.get(), row, 1, &time));
        std::printf("row %zu: %lld ns:", row, static_cast<long long>(time));
        for (double value : rows<double>(comtrade_values, COMTRADE_ALL, row, 1, head.analog))
            if (std::isnan(value)) std::printf(" -"); else std::printf(" %.6f", value);
        std::printf(" /");
        for (uint8_t bit : rows<uint8_t>(comtrade_bits, COMTRADE_ALL, row, 1, head.status)) std::printf(" %u", bit);
        std::printf("\n");
    }

    Head head{};
    std::unique_ptr<comtrade, Closes> at;
};

}

int main(int argc, char **argv) {
    if (argc != 5) return 2;
    const Record record(contents(argv[1]), contents(argv[2]));
    const Head &head = record.head;
    const std::string station = record.text(COMTRADE_STATION), device = record.text(COMTRADE_DEVICE);
    std::printf("%s, %s: %zu analogue, %zu status, %zu rows, %s\n", station.c_str(), device.c_str(), head.analog, head.status, head.rows, head.binary ? "BINARY" : "ASCII");
    std::printf("%.3f Hz, times %.3f, from %lld, trigger %lld\n", head.line_freq, head.timemult, static_cast<long long>(head.first), static_cast<long long>(head.trigger));
    std::vector<Rate> rates;
    for (size_t k = 0; k < head.rates; k++) {
        rates.push_back(record.said<Rate>(comtrade_rate, k));
        std::printf("rate %.3f to row %llu\n", rates[k].samp, static_cast<unsigned long long>(rates[k].endsamp));
    }
    std::vector<std::string> texts;
    texts.reserve(4 * head.analog + 3 * head.status);
    auto kept = [&](int32_t which, size_t channel) {
        texts.push_back(record.text(which, channel));
        return texts.back().c_str();
    };
    std::vector<comtrade_analog_setup> analog;
    for (size_t c = 0; c < head.analog; c++) {
        const auto said = record.said<Analog>(comtrade_analog, c);
        comtrade_analog_setup made{};
        made.id = kept(COMTRADE_ANALOG_ID, c), made.phase = kept(COMTRADE_ANALOG_PHASE, c);
        made.component = kept(COMTRADE_ANALOG_COMPONENT, c), made.unit = kept(COMTRADE_ANALOG_UNIT, c);
        made.a = said.a, made.b = said.b, made.skew = said.skew, made.primary = said.primary, made.secondary = said.secondary;
        made.min = said.min, made.max = said.max, made.on_secondary = said.on_secondary;
        analog.push_back(made);
        const auto samples = record.rows<int32_t>(comtrade_samples, c, 0, head.rows);
        const auto values = record.rows<double>(comtrade_values, c, 0, head.rows);
        long long sum = 0;
        size_t missing = 0;
        double most = 0;
        for (size_t k = 0; k < head.rows; k++)
            if (samples[k] == COMTRADE_NO_SAMPLE) missing++; else sum += samples[k], most = std::fmax(most, values[k]);
        std::printf("%s|%s|%s|%s: %.6f %.6f %.6f %.3f:%.3f%s %d to %d: %zu missing, sum %lld, most %.6f\n", made.id, made.phase, made.component, made.unit,
                    said.a, said.b, said.skew, said.primary, said.secondary, said.on_secondary ? "S" : "P", said.min, said.max, missing, sum, most);
    }
    std::vector<comtrade_status_setup> status;
    for (size_t c = 0; c < head.status; c++) {
        comtrade_status_setup made{};
        made.id = kept(COMTRADE_STATUS_ID, c), made.phase = kept(COMTRADE_STATUS_PHASE, c), made.component = kept(COMTRADE_STATUS_COMPONENT, c);
        made.normal = record.said<Status>(comtrade_status, c).normal;
        status.push_back(made);
        size_t ones = 0;
        for (uint8_t bit : record.rows<uint8_t>(comtrade_bits, c, 0, head.rows)) ones += bit;
        std::printf("%s|%s|%s: %d: %zu of %zu\n", made.id, made.phase, made.component, made.normal, ones, head.rows);
    }
    for (size_t row : {size_t(0), head.rows / 2, head.rows - 1}) record.print_row(row);

    std::vector<uint64_t> stamps(head.rows);
    need(comtrade_stamps(record.at.get(), 0, head.rows, stamps.data()));
    const auto samples = record.rows<int32_t>(comtrade_samples, COMTRADE_ALL, 0, head.rows, head.analog);
    const auto bits = record.rows<uint8_t>(comtrade_bits, COMTRADE_ALL, 0, head.rows, head.status);
    comtrade_setup setup{};
    setup.size = sizeof setup, setup.station = station.c_str(), setup.device = device.c_str();
    setup.analog = analog.data(), setup.analog_count = analog.size(), setup.status = status.data(), setup.status_count = status.size();
    setup.rates = rates.data(), setup.rate_count = head.nrates, setup.rows = head.rows;
    setup.stamps = stamps.data(), setup.samples = samples.data(), setup.bits = bits.data();
    setup.line_freq = head.line_freq, setup.timemult = head.timemult, setup.first = head.first, setup.trigger = head.trigger, setup.binary = head.binary;
    need(comtrade_write_files(&setup, argv[3], argv[4], &fault));
}
