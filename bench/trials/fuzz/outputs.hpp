// What each run must come to, as far as it can be said without another implementation.
#pragma once
#include "inputs.hpp"
#include <string_view>

using std::string_view;

struct End {
    int status;  // below 0 the signal that ended it
    bool is_late;
    double seconds;
    long peak;
    string out, err;
};

// The most kilobytes that a run of each kind may take. What is measured begins with the 3 or 4 MB of this program itself. A run begins with 2 MB, and
// holds a read of 4,096 bytes; of a message of 65,536 bytes some copies, and a field for each 4 bytes: 1 to 2 MB; 4,096 messages that it sent, 1 MB; its
// book; and what a sheet, of some 200 kB here, or a reference, of up to 10,000 rows of a kind, says.
constexpr long PEAKS[KINDS] = {8'192, 8'192, 8'192, 8'192, 8'192, 4'608};

inline bool is_number(const string &word) { return is_digits(word) && (word == "0" || word[0] != '0'); }
inline bool is_kind(const string &word) { return word == "EXEC" || word == "AGR" || word == "ACCT" || word == "CARRY" || word == "GUAR"; }
inline bool is_name(const string &word) {
    return !word.empty() && word.size() <= 12 && word.find_first_not_of("ABCDEFGHIJKLMNOPQRSTUVWXYZ0123456789-") == string::npos;
}

// Whether a line has the words of a form, in which # is a number, @ a name and KIND a kind of keys.
inline bool has_form(const string &line, const string &form) {
    Lines words = parted(line, ' '), forms = parted(form, ' ');
    if (words.size() != forms.size() || joined(words, " ") != line + ' ') return false;
    for (size_t n = 0; n < words.size(); n++) {
        const string &word = words[n], &wanted = forms[n];
        bool is_right = wanted == "#" ? is_number(word) : wanted == "@" ? is_name(word) : wanted == "KIND" ? is_kind(word) : word == wanted;
        if (!is_right) return false;
    }
    return true;
}

inline bool has_a_form(const string &line, const Lines &forms) {
    return std::any_of(forms.begin(), forms.end(), [&](const string &form) { return has_form(line, form); });
}

// Bytes as a line, with | for SOH.
inline string shown(const string &bytes, size_t most) {
    string text;
    for (unsigned char byte : bytes.substr(0, most)) {
        char hex[8];
        snprintf(hex, sizeof hex, "\\x%02x", byte);
        text += byte == 1 ? "|" : byte == '\n' ? "\\n" : byte < 32 || byte > 126 || byte == '\\' || byte == '|' ? hex : string(1, byte);
    }
    return text + (bytes.size() > most ? ".." : "");
}

// Sheets.

constexpr size_t MOST_OFFERS = 4'096;

// Why a sheet doesn't show that this many lots are a greatest take, or nothing.
inline string fault_of_sheet(const Lines &lines, const string &lots) {
    std::map<string, uint64_t> rooms, left, used;
    std::map<string, Lines> paths;
    uint64_t taken = 0, room = 0;
    for (const string &line : lines) {
        Lines all = parted(line, ' '), words;
        std::copy_if(all.begin(), all.end(), std::back_inserter(words), [](const string &word) { return !word.empty() && word != "\r"; });
        if (words.empty() || words[0][0] == '#') continue;
        if (!words.back().empty() && words.back().back() == '\r') words.back().pop_back();
        auto number = [&](size_t place) { return std::to_string(strtoull(words[place].c_str(), nullptr, 10)); };
        if (words[0] == "OFFER") {
            left[number(1)] = strtoull(words[2].c_str(), nullptr, 10);
            for (size_t n = 3; n < words.size(); n++) paths[number(1)].push_back(KEYS[n - 3] + words[n]);
        } else if (words[0] == "ROOM") {
            rooms[words[1] + ' ' + words[2]] = strtoull(words[3].c_str(), nullptr, 10);
        } else if (words[0] == "TAKE") {
            uint64_t take = strtoull(words[2].c_str(), nullptr, 10);
            if (take > left[number(1)]) return "takes more than an offer has";
            taken += take;
            for (const string &key : paths[number(1)]) used[key] += take;
        } else if (words[0] == "CUT") {
            room += words[1] == "OFFER" ? left[number(2)] : rooms[words[1] + ' ' + words[2]];
            for (auto &[offer, path] : paths)
                if (words[1] == "OFFER" ? offer == number(2) : std::count(path.begin(), path.end(), words[1] + ' ' + words[2]) > 0) path.clear();
        }
    }
    if (left.size() > MOST_OFFERS) return "has " + std::to_string(left.size()) + " offers";
    for (const auto &[key, lots_under] : used)
        if (lots_under > rooms[key]) return "takes more than the room of " + key;
    for (const auto &[offer, path] : paths)
        if (!path.empty()) return "offer " + offer + " isn't covered";
    return std::to_string(taken) != lots ? "takes " + std::to_string(taken) : room != taken ? "has a cut with room for " + std::to_string(room) : "";
}

// The sheets of a replay's output, each with the lots that the line before it says were swept.
inline vector<std::pair<string, string>> sheets_in(const string &text) {
    vector<std::pair<string, string>> sheets;
    bool is_inside = false;
    for (const string &line : parted(text, '\n')) {
        Lines words = parted(line, ' ');
        if (words.size() == 4 && words[1] == "SWEPT") sheets.push_back({"", words[3]});
        is_inside = line.rfind("SHEET ", 0) == 0 || (is_inside && !(words.size() == 4 && words[1] == "SWEPT"));
        if (is_inside && !sheets.empty()) sheets.back().first += line + '\n';
        if (line == "END") is_inside = false;
    }
    return sheets;
}

// Why this is no answer to a sheet, or nothing.
inline string fault_of_check(const Case &input, const End &end) {
    static const Lines FORMS{"FAULT 1 OverOffer #", "FAULT 2 OverLimit KIND @", "FAULT 3 Uncovered #", "FAULT 4 RoomDiffers",
        "FAULT 5 Unknown OFFER #", "FAULT 5 Unknown KIND @", "FAULT 6 NotOldestFirst #"};
    if (!end.err.empty()) return end.out.empty() ? "" : "a verdict beside a fault";
    if (end.out.empty() || end.out.find('\n') != end.out.size() - 1) return "not one line";
    string line = end.out.substr(0, end.out.size() - 1);
    if (end.status == 1) return has_a_form(line, FORMS) ? "" : "no FAULT of a known form";
    if (!has_form(line, "OK #")) return "not OK and its lots";
    string fault = fault_of_sheet(parted(input.stream, '\n'), line.substr(3));
    return fault.empty() ? "" : line + ", and yet the sheet " + fault;
}

// Scripts.

// Whether these are the words of a refusal, with the number that its name has.
inline bool is_denial(const Lines &words) {
    static const Lines REFUSALS{"", "NoDay", "WrongDay", "UnknownInstrument", "UnknownAccount", "NotYours", "DuplicateId", "MatchConflict", "UnknownTrade",
        "NotMatched", "NoAgreement", "TooManyLots", "TooManyOffers", "UnknownOffer", "OfferClosed", "LimitReached", "UnknownKey", "TooHigh", "OfferOpen",
        "NothingToReverse"};
    if (words.size() < 4 || words[1] != "NO" || !is_number(words[2]) || words[2].size() > 2) return false;
    size_t number = std::stoul(words[2]);
    bool has_key = words.size() == 6 && is_kind(words[4]) && is_name(words[5]);
    return number > 0 && number < REFUSALS.size() && words[3] == REFUSALS[number] && (number == 15 ? has_key : words.size() == 4);
}

// Why this is no answer to a script, or nothing.
inline string fault_of_replay(const Case &input, const End &end) {
    static const Lines ENTRIES{"# OK", "# OK OPEN", "# OK MATCHED", "# OK OFFERS # #", "# OK LOTS #", "# SWEPT @ #"};
    static const Lines OTHERS{"SEEN @ #", "UNKNOWN GROUP", "UNKNOWN", "PROPOSED #", "NOTHING", "STALE # #", "POSITION @ @ # #", "INTEREST @ #"};
    static const Lines OF_SHEETS{"SHEET @ #", "OFFER # # @ @ @ @", "OFFER # # @ @ @ @ @", "ROOM KIND @ #", "TAKE # #", "CUT KIND @", "CUT OFFER #",
        "END"};
    if (!end.out.empty() && end.out.back() != '\n') return "the last line lacks its end";
    uint64_t entries = 0, answers = 0;
    bool in_sheet = false;
    for (const string &line : parted(end.out, '\n')) {
        Lines words = parted(line, ' ');
        if (in_sheet || line.rfind("SHEET ", 0) == 0) {
            if (!has_a_form(line, OF_SHEETS)) return "no line of a sheet: " + shown(line, 80);
            in_sheet = line != "END";
        } else if (has_a_form(line, ENTRIES) || is_denial(words)) {
            if (words[0] != std::to_string(++entries)) return "entry " + words[0] + " isn't number " + std::to_string(entries);
            answers++;
        } else if (has_a_form(line, OTHERS)) {
            answers++;
        } else if (!has_form(line, "LIMIT @ KIND @ # # #")) {
            return "no line of a known form: " + shown(line, 80);
        }
    }
    if (in_sheet) return "a sheet without END";
    for (const auto &[sheet, lots] : sheets_in(end.out))
        if (string fault = fault_of_sheet(parted(sheet, '\n'), lots); !fault.empty()) return "a sheet of " + lots + " lots " + fault;
    // Each line that says something has its answer, up to the first bad one. (LIMITS is answered by lines that aren't counted, or by UNKNOWN.)
    uint64_t least = 0, most = 0, number = 0, bad = UINT64_MAX;
    if (!end.err.empty()) bad = strtoull(end.err.c_str() + string("giveup: bad line ").size(), nullptr, 10);
    for (const string &line : parted(input.stream, '\n')) {
        if (++number >= bad) break;
        bool is_silent = line.empty() || line == "\r" || line[0] == '#';
        most += !is_silent;
        least += !is_silent && line.rfind("LIMITS", 0) != 0;
    }
    return answers < least || answers > most ? std::to_string(answers) + " answers to " + std::to_string(most) + " lines" : "";
}

// Messages.

struct Message {
    Fields fields;
    string value(const string &tag) const {
        for (const auto &field : fields)
            if (field.first == tag) return field.second;
        return "";
    }
    uint64_t number(const string &tag) const { return strtoull(value(tag).c_str(), nullptr, 10); }
};

// Takes the whole message at the front of the bytes off them. Nothing is taken if there is none.
inline Message taken(string_view &bytes) {
    size_t start = string("8=FIXT.1.1|9=").size(), mark = bytes.find('\x01', start);
    if (bytes.substr(0, start) != "8=FIXT.1.1\x01" "9=" || mark == string::npos) return {};
    string length(bytes.substr(start, mark - start));
    if (!is_number(length) || length.size() > 5 || bytes.size() < mark + 1 + std::stoul(length) + 7) return {};
    string message(bytes.substr(0, mark + 1 + std::stoul(length) + 7));
    Message read{fields_of(message.substr(0, message.size() - 7), '\x01')};
    if (framed(read.fields) != message) return {};
    bytes.remove_prefix(message.size());
    return read;
}

inline bool has_header(const Message &message, const string &to) {
    static const Lines TAGS{"35", "49", "56", "34", "52"};
    if (message.fields.size() < TAGS.size()) return false;
    for (size_t n = 0; n < TAGS.size(); n++)
        if (message.fields[n].first != TAGS[n]) return false;
    return message.value("49") == "GIVEUP" && (to.empty() || message.value("56") == to) && is_number(message.value("34"));
}

// Why this is no output of a capture, or nothing: acknowledgements that are numbered one by one, and positions that are long as they are short.
inline string fault_of_capture(const string &out) {
    string_view left = out;
    for (uint64_t number = 1; left.substr(0, 2) == "8="; number++) {
        Message message = taken(left);
        if (!has_header(message, "") || message.value("35") != "AR") return "no whole AR: " + shown(string(left.substr(0, 200)), 200);
        if (message.number("34") != number || message.value("52") != "20260105-00:00:00.000") return "an AR with another 34 or 52";
    }
    std::map<string, int64_t> longs;
    for (const string &line : parted(string(left), '\n')) {
        if (!has_form(line, "POSITION @ @ # #")) return "no position: " + shown(line, 200);
        Lines words = parted(line, ' ');
        longs[words[2]] += std::stoll(words[3]) - std::stoll(words[4]);
    }
    for (const auto &[instrument, more] : longs)
        if (more) return "more lots of " + instrument + " are long than short";
    return left.empty() || left.back() == '\n' ? "" : "the last line lacks its end";
}

// How many messages a session keeps, to send them again.
constexpr size_t MOST_KEPT = 4'096;

// New messages are numbered one by one, what is sent again is as it was, gaps are filled if nothing is kept, and a Logout is the last.
inline string fault_of_fix(const Case &input, const string &out) {
    static const Lines KEPT{"j", "AR", "P", "AE", "AS", "AO", "AP"};
    string_view left = out;
    std::map<uint64_t, Fields> sent;
    bool is_out = false;
    for (uint64_t next = 1; !left.empty();) {
        Message message = taken(left);
        if (!has_header(message, input.words[1])) return "no whole message to the firm: " + shown(string(left.substr(0, 200)), 200);
        uint64_t number = message.number("34");
        if (is_out) return "a message after the Logout";
        if (message.value("43") != "Y") {
            if (number != next) return "number " + std::to_string(number) + " in place of " + std::to_string(next);
            next++;
            if ((number == 1) != (message.value("35") == "A")) return "a Logon that isn't the first message, or another that is";
            is_out = message.value("35") == "5";
            if (std::count(KEPT.begin(), KEPT.end(), message.value("35"))) sent[number] = message.fields;
            if (sent.size() > MOST_KEPT) sent.erase(sent.begin());
        } else if (message.value("35") == "4") {
            uint64_t after = message.number("36");
            bool is_filled = message.value("123") == "Y" && message.value("122") == message.value("52") && after > number && after <= next;
            if (!is_filled) return "a gap fill from " + std::to_string(number);
            auto kept = sent.lower_bound(number);
            if (kept != sent.end() && kept->first < after) return "a gap fill over " + std::to_string(kept->first);
        } else {
            if (!sent.count(number)) return "again " + std::to_string(number) + ", which isn't kept";
            Fields first = sent[number], again = message.fields;
            bool is_marked = again.size() == first.size() + 2 && again[5].first == "43" && again[6] == std::pair(string("122"), first[4].second);
            if (!is_marked) return "again " + std::to_string(number) + ", without 43 or its first moment in 122";
            again.erase(again.begin() + 5, again.begin() + 7);
            again[4] = first[4];
            if (again != first) return "again " + std::to_string(number) + ", otherwise than it was";
        }
    }
    return "";
}

// What is written but for the moments of a session.
inline string timeless(const Case &input, const string &out) {
    if (input.kind != Kind::fix) return out;
    string text;
    string_view left = out;
    for (Message message = taken(left); !message.fields.empty(); message = taken(left))
        for (const auto &[tag, value] : message.fields) text += tag + '=' + (tag == "52" || tag == "122" ? "" : value) + '|';
    return text.append(left);
}

// Ends.

inline uint64_t lines_in(const string &text) { return std::count(text.begin(), text.end(), '\n') + (!text.empty() && text.back() != '\n'); }
inline uint64_t records_in(const string &text) {
    return 1 + std::count_if(text.begin(), text.end(), [](char byte) { return byte == '\n' || byte == '\r'; });
}

// Whether standard error is the one line of this fault, whose number is one of the text's.
inline bool is_numbered(const string &err, const string &fault, uint64_t most) {
    size_t length = fault.size();
    if (err.compare(0, length, fault) || err.back() != '\n' || !is_number(err.substr(length, err.size() - length - 1))) return false;
    uint64_t number = strtoull(err.c_str() + length, nullptr, 10);
    return number > 0 && number <= most;
}

// Whether standard error names a fault of the input. There is no other in a run that meets no trouble.
inline bool is_fault_of_the_input(const Case &input, const string &err) {
    const string of_reference = "giveup: reference: ";
    if (input.has_reference)
        for (const char *name : {"BadRow ", "Unknown ", "Twice "})
            if (is_numbered(err, of_reference + name, records_in(input.reference))) return true;
    if (input.has_reference && err == of_reference + "TooMany\n") return true;
    switch (input.kind) {
    case Kind::check: return is_numbered(err, "giveup: bad line ", lines_in(input.stream) + 1);
    case Kind::replay:
    case Kind::reference: return is_numbered(err, "giveup: bad line ", lines_in(input.stream));
    case Kind::fix: return input.has_script && is_numbered(err, "giveup: bad line ", lines_in(input.script));
    case Kind::words: return err == "giveup: reference: ReadFault\n" || err == "giveup: read fault\n" || err == "giveup: bad line 1\n";
    default: return false;
    }
}

// The first thing that the rules forbid of this end, or nothing.
inline string fault_of(const Case &input, const End &end) {
    if (end.is_late) return "not done after 10 seconds";
    if (end.status < 0) return "ended by signal " + std::to_string(-end.status);
    if (end.peak > PEAKS[int(input.kind)]) return "takes " + std::to_string(end.peak) + " kB";
    bool is_refused = input.kind == Kind::words && end.status == 2;
    if (is_refused) return end.out.empty() && end.err.rfind("error: ", 0) == 0 ? "" : "status 2 otherwise than by the command line";
    if (end.status > 1) return "status " + std::to_string(end.status);
    if (end.status == 0 && !end.err.empty()) return "status 0 and standard error: " + shown(end.err, 200);
    bool is_verdict = input.kind == Kind::check && end.status == 1 && end.err.empty();
    if (end.status == 1 && !is_verdict && !is_fault_of_the_input(input, end.err)) return "status 1 and standard error: " + shown(end.err, 200);
    if (end.err.rfind("giveup: reference: ", 0) == 0 && !end.out.empty()) return "output beside a fault of the reference";
    switch (input.kind) {
    case Kind::capture: return fault_of_capture(end.out);
    case Kind::fix: return end.err.empty() || end.out.empty() ? fault_of_fix(input, end.out) : "output beside a bad script";
    case Kind::replay:
    case Kind::reference: return end.err.rfind("giveup: reference: ", 0) == 0 ? "" : fault_of_replay(input, end);
    case Kind::check: return fault_of_check(input, end);
    default: return "";
    }
}

// The first thing that the rules forbid of a run in trouble, beside the usual end of the same input.
inline string fault_in_trouble(const Case &input, const End &usual, const End &end) {
    bool is_usual = end.status == usual.status && end.err == usual.err && timeless(input, end.out) == timeless(input, usual.out);
    bool is_before_reading = usual.err.rfind("giveup: reference: ", 0) == 0 || (input.kind == Kind::fix && !usual.err.empty());
    auto is_refused = [&](const string &fault) { return end.status == 1 && end.err == "giveup: " + fault + '\n'; };
    string told = std::to_string(end.status) + ", " + shown(end.err, 200);
    if (end.is_late || end.status < 0) return "in trouble it is ended by a signal, or after 10 seconds";
    switch (input.trouble) {
    case Trouble::no_input:
        if (is_before_reading) return is_usual ? "" : "without input it ends otherwise: " + told;
        return is_refused("read fault") && end.out.empty() ? "" : "without input no read fault: " + told;
    case Trouble::no_output:
        if (usual.out.empty()) return is_usual ? "" : "without output it ends otherwise: " + told;
        return is_refused("write fault") || (!usual.err.empty() && end.err == usual.err) ? "" : "without output no write fault: " + told;
    default:
        // A session goes on where a command couldn't be entered, so what it prints may differ.
        if (input.kind == Kind::fix && end.status == usual.status && end.err == usual.err) return "";
        return is_usual || (is_refused("out of memory") && usual.out.compare(0, end.out.size(), end.out) == 0) ? "" : "with little memory: " + told;
    }
}
