// The inputs: messages, scripts, sheets and references of docs/samples and docs/sheets, and others like them, with something wrong.
#pragma once
#include <algorithm>
#include <cstdint>
#include <cstdio>
#include <cstdlib>
#include <fstream>
#include <iterator>
#include <map>
#include <string>
#include <utility>
#include <vector>

using std::max;
using std::string;
using std::vector;
using Fields = vector<std::pair<string, string>>;
using Lines = vector<string>;

enum class Kind { capture, fix, replay, check, reference, words };
constexpr int KINDS = 6;
constexpr const char *NAMES[KINDS] = {"capture", "fix", "replay", "check", "reference", "words"};

// What a run meets: standard input that can't be read, standard output that is full, little memory, or none of these.
enum class Trouble { none, no_input, no_output, no_memory };

struct Case {
    Kind kind;
    Lines words;  // REF and SCRIPT are replaced by the paths of the reference and the script
    string stream, script, reference;
    bool has_script = false, has_reference = false;  // without a reference REF is the sample house
    bool checks_sheets = false;                      // whether each sheet that it prints is given to `check`
    Lines pieces;                                    // the stream in pieces, for one more run; none without such a run
    Trouble trouble = Trouble::none;                 // of one more run, if any
    string memory;                                   // the bytes that this run may have
};

// splitmix64
class Random {
  public:
    explicit Random(uint64_t state) : state(state) {}
    uint64_t next() {
        uint64_t mixed = state += 0x9e3779b97f4a7c15;
        mixed = (mixed ^ mixed >> 30) * 0xbf58476d1ce4e5b9;
        mixed = (mixed ^ mixed >> 27) * 0x94d049bb133111eb;
        return mixed ^ mixed >> 31;
    }
    uint64_t below(uint64_t count) { return next() % count; }
    bool is(int percent) { return below(100) < uint64_t(percent); }
    template <class List> auto &of(List &list) { return list[below(list.size())]; }
    const char *one(std::initializer_list<const char *> words) { return words.begin()[below(words.size())]; }
    string number(uint64_t least, uint64_t most) { return std::to_string(least + below(most - least + 1)); }

  private:
    uint64_t state;
};

// A message of these fields, from 35 on, with its length and check sum.
inline string framed(const Fields &fields) {
    string body, front;
    for (const auto &[tag, value] : fields) body += tag + '=' + value + '\x01';
    front = "8=FIXT.1.1\x01" "9=" + std::to_string(body.size()) + '\x01' + body;
    unsigned sum = 0;
    for (unsigned char byte : front) sum += byte;
    char end[9];
    snprintf(end, sizeof end, "10=%03u\x01", sum % 256);
    return front + end;
}

inline Lines parted(const string &text, char end) {
    Lines parts;
    for (size_t from = 0, to; from < text.size(); from = to + 1) {
        to = std::min(text.find(end, from), text.size());
        parts.push_back(text.substr(from, to - from));
    }
    return parts;
}

inline string joined(const Lines &lines, const string &end) {
    string text;
    for (const string &line : lines) text += line + end;
    return text;
}

inline Fields fields_of(const string &message, char end) {
    Fields fields;
    for (const string &part : parted(message, end)) {
        size_t sign = part.find('=');
        string tag = part.substr(0, sign);
        if (tag != "8" && tag != "9" && tag != "10" && sign != string::npos) fields.push_back({tag, part.substr(sign + 1)});
    }
    return fields;
}

inline void set(Fields &fields, const string &tag, const string &value) {
    for (auto &field : fields)
        if (field.first == tag) field.second = value;
}

struct Seeds {
    vector<Fields> messages;
    vector<Lines> scripts, sheets;
    Lines reference;

    explicit Seeds(const string &top) {
        for (const char *name : {"session", "executing", "carrying", "three-firms"})
            for (const string &line : lines(top + "/docs/samples/" + name + ".fix"))
                if (size_t place = line.find("8="); place != string::npos) messages.push_back(fields_of(line.substr(place), '|'));
        for (const char *name : {"day", "open"}) scripts.push_back(lines(top + "/docs/samples/" + name + ".script"));
        for (const char *name : {"three-agreements", "guarantor"}) sheets.push_back(lines(top + "/docs/sheets/" + name + ".sheet"));
        reference = lines(top + "/docs/samples/house.csv");
    }

    static Lines lines(const string &path) {
        std::ifstream file(path);
        return parted(string(std::istreambuf_iterator<char>(file), {}), '\n');
    }
};

// Words at the edges of what is allowed, and beyond.
inline string edge(Random &random) {
    static const Lines EDGES{"", "0", "00", "1", "-1", "+1", "2", "5", "7", "0010.0", "10.", ".5", "10.5", "-5", "-0", ".", "-", "16", "17", "62", "63", "64",
        "3600", "3601", "1000000", "1000001", "16000000", "16000001", "1000000000", "1000000001", "999999999999", "0000000000001",
        "18446744073709551616", "4294967296", "999999999.999999", "1000000000.0", "-999999999.9999990", "20260105", "20260106", "20260230",
        "00000101", "00010101", "99991231", "2026010", "Y", "N", "y", "GIVEUP", "E1", "E2", "C1", "A1", "H1", "P1", "G1", "XF6", "e1", "E1 ", " ",
        "ABCDEFGHIJKL", "ABCDEFGHIJKLM", "\xc3\xa9", "\xff", "\t", string(1, 0), "=", "\"", "\"\"", ",", "#", "AE", "AAA", "AAAA",
        string(64, '~'), string(65, '~'), string(1024, 'x'), string(1025, 'x'), string(20, '9')};
    return random.is(15) ? random.number(0, 40) : random.of(EDGES);
}

inline bool is_digits(const string &word) { return !word.empty() && word.find_first_not_of("0123456789") == string::npos; }

inline void change_bytes(Random &random, string &bytes) {
    static const Lines PIECES{"8=FIXT.1.1\x01", "8=FIXT.1.1\x01" "9=5\x01", "8=FIXT.1.1\x01" "9=65510\x01" "35=", "9=", "10=000\x01", "\x01", "8=", "35=", "=",
        "\r\n", "\n", "\r", "\"", ",", " ", "#", "\xef\xbb\xbf", string(1, 0), string(1100, 'A'), "END\n"};
    size_t place = random.below(bytes.size() + 1), length = std::min<size_t>(random.below(random.is(50) ? 4 : 200), bytes.size() - place);
    switch (random.below(6)) {
    case 0: if (place < bytes.size()) bytes[place] ^= 1 << random.below(8); break;
    case 1: if (place < bytes.size()) bytes[place] = random.next(); break;
    case 2: bytes.insert(place, random.of(PIECES)); break;
    case 3: bytes.erase(place, length); break;
    case 4: bytes.insert(random.below(bytes.size() + 1), bytes.substr(place, length)); break;
    case 5: if (random.is(30)) bytes.resize(place); break;
    }
}

// Lines are doubled, dropped, swapped, and their words changed. The marks are what parts words: blanks, or commas.
inline void change_lines(Random &random, Lines &lines, char mark, string (*another)(Random &)) {
    size_t place = random.below(lines.size() + 1);
    bool is_end = place == lines.size();
    switch (random.below(7)) {
    case 0: if (!is_end) lines.insert(lines.begin() + random.below(lines.size()), string(lines[place])); break;
    case 1: if (!is_end) lines.erase(lines.begin() + place); break;
    case 2: if (!is_end) std::swap(lines[place], random.of(lines)); break;
    case 3: if (!is_end && random.is(20)) lines[place] += random.one({" ", "\r", ",", " 1", ",1", " A1 3", "\"", "\t"}); break;
    case 4: lines.insert(lines.begin() + place, another(random)); break;
    default:
        if (is_end) break;
        Lines words = parted(lines[place], mark);
        if (words.empty()) break;
        size_t at = random.below(words.size());
        if (mark == ',' && random.is(20)) words[at] = random.is(80) ? '"' + words[at] + '"' : '"' + words[at];
        else if (random.is(80)) words[at] = is_digits(words[at]) && random.is(60) ? random.number(0, 30) : edge(random);
        else if (random.is(50)) words.erase(words.begin() + at);
        else words.insert(words.begin() + at, edge(random));
        lines[place] = joined(words, string(1, mark));
        if (!lines[place].empty()) lines[place].pop_back();
    }
}

inline string firm(Random &random) { return random.one({"E1", "E1", "E2", "E2", "C1", "C1", "C2", "E9"}); }
inline string account(Random &random) { return random.one({"H1", "H2", "A1", "A1", "A2", "A3", "A9"}); }
inline string symbol(Random &random) { return random.one({"XF6", "XF6", "XF6", "YF6", "ZZ"}); }
inline string group(Random &random) { return random.one({"G1", "G1", "G1", "G2", "G9"}); }

inline string key(Random &random) {
    return random.one({"EXEC E1", "EXEC E2", "AGR P1", "AGR P2", "AGR P3", "AGR P4", "ACCT A1", "ACCT A2", "ACCT A3", "CARRY C1", "CARRY C2", "GUAR E2",
        "GUAR C2"});
}

// The kinds of keys, as an OFFER line has them from its fourth word on.
static const Lines KEYS{"AGR ", "EXEC ", "ACCT ", "CARRY ", "GUAR "};

inline string give_up_pair(Random &random) { return ' ' + account(random) + ' ' + random.number(1, 6); }

inline string comment(Random &random) { return '#' + string(random.is(50) ? random.below(30) : 1'020 + random.below(8), '-'); }

inline string script_line(Random &random) {
    string offer = firm(random) + ' ' + random.number(1, 12), worker = random.number(0, 3);
    switch (random.below(15)) {
    case 0: return "DAY 202601" + random.number(10, 28);
    case 1: return "LIMIT " + group(random) + ' ' + key(random) + ' ' + random.number(0, 60);
    case 2: {
        string line = "GIVEUP " + firm(random) + " L" + random.number(1, 9) + " R" + random.number(1, 9);
        for (uint64_t pairs = random.is(90) ? 1 + random.below(3) : 1 + random.below(18); pairs > 0; pairs--) line += give_up_pair(random);
        return line;
    }
    case 3: return "CLAIM " + offer;
    case 4: return "REFUSE " + offer + ' ' + random.one({"1", "2", "5", "3"});
    case 5: return "REVERSE " + offer;
    case 6: return "SEE " + worker + ' ' + group(random);
    case 7: return "PROPOSE " + worker;
    case 8: return "COMMIT " + worker;
    case 9: return "SWEEP " + group(random);
    case 10: return "POSITION " + account(random) + ' ' + symbol(random);
    case 11: return "INTEREST " + symbol(random);
    case 12: return "LIMITS " + group(random);
    case 13: return comment(random);
    default:
        return "REPORT " + firm(random) + " R" + random.number(1, 9) + " M" + random.number(1, 5) + random.one({" B ", " S "}) + symbol(random) + ' '
             + random.number(1, 30) + " 101.5 " + account(random);
    }
}

inline string sheet_line(Random &random) {
    string offer = random.number(1, 5);
    switch (random.below(8)) {
    case 0: return "SHEET G1 " + random.number(0, 20);
    case 1:
        return "OFFER " + offer + ' ' + random.number(1, 20) + ' '
             + random.one({"P1 E1 A1 C1", "P2 E1 A2 C1", "P3 E2 A1 C1", "P4 E2 A3 C2", "P1 E1 A1 C1 E2"});
    case 2: return "ROOM " + key(random) + ' ' + random.number(0, 30);
    case 3: return "TAKE " + offer + ' ' + random.number(0, 20);
    case 4: return "CUT OFFER " + offer;
    case 5: return "CUT " + key(random);
    case 6: return comment(random);
    default: return "END";
    }
}

// A sheet whose takes are within its rooms, oldest first. Its cut has each key that is full and each offer without one, so it may have too much room.
inline Lines sheet(Random &random) {
    static const Lines PATHS{"P1 E1 A1 C1", "P2 E1 A2 C1", "P3 E2 A1 C1", "P4 E2 A3 C2 E1", "P5 C2 A2 C1", "P6 E3 A4 C3 E1"};
    Lines lines{"SHEET G1 " + random.number(0, 99)}, keys, takes, cut;
    std::map<string, uint64_t> rooms;
    uint64_t count = random.is(97) ? random.below(20) : 4'090 + random.below(9), number = 0, room = 1 + random.below(200);
    for (; count > 0; count--) {
        Lines path = parted(random.of(PATHS), ' ');
        uint64_t lots = 1 + random.below(20), take = lots;
        lines.push_back("OFFER " + std::to_string(number += 1 + random.below(3)) + ' ' + std::to_string(lots) + ' ' + joined(path, " "));
        lines.back().pop_back();
        for (size_t n = 0; n < path.size(); n++) {
            path[n] = KEYS[n] + path[n];
            if (rooms.count(path[n])) continue;
            rooms[path[n]] = random.below(room);
            keys.push_back("ROOM " + path[n] + ' ' + std::to_string(rooms[path[n]]));
        }
        for (const string &key : path) take = std::min(take, rooms[key]);
        for (const string &key : path) rooms[key] -= take;
        takes.push_back("TAKE " + std::to_string(number) + ' ' + std::to_string(take));
        auto full = std::find_if(path.begin(), path.end(), [&](const string &key) { return rooms[key] == 0; });
        string member = "CUT " + (full == path.end() ? "OFFER " + std::to_string(number) : *full);
        if (!std::count(cut.begin(), cut.end(), member)) cut.push_back(member);
    }
    for (const Lines &part : {keys, takes, cut, Lines{"END"}}) lines.insert(lines.end(), part.begin(), part.end());
    return lines;
}

inline string row(Random &random) {
    switch (random.below(6)) {
    case 0: return "FIRM," + firm(random);
    case 1: return "GROUP," + group(random);
    case 2: return "INSTRUMENT," + symbol(random) + ',' + group(random);
    case 3: return "ACCOUNT," + account(random) + ',' + firm(random);
    case 4: return "AGREEMENT,P" + random.number(1, 9) + ',' + firm(random) + ',' + account(random);
    default: return "GUARANTOR," + firm(random) + ',' + firm(random);
    }
}

// The sample house or nothing, now and then with about as many rows of one kind as there may be.
inline Lines rows(Random &random, const Seeds &seeds) {
    Lines rows = random.is(80) ? seeds.reference : Lines{};
    if (random.is(98)) return rows;
    uint64_t kind = random.below(random.is(90) ? 2 : 5), most = kind == 0 ? 1'000 : kind == 1 ? 100 : 10'000;
    for (uint64_t n = 0, count = most - 5 + random.below(8); n < count; n++) {
        string name = "N" + std::to_string(n);
        if (kind == 4) rows.push_back("ACCOUNT," + name + ",C1");
        const Lines of_kind{"FIRM," + name, "GROUP," + name, "INSTRUMENT," + name + ",G1", "ACCOUNT," + name + ",C1", "AGREEMENT," + name + ",E1," + name};
        rows.push_back(of_kind[kind]);
    }
    return rows;
}

// A day that has trades, give-ups and limits, so that there is something to sweep, and then any lines.
inline Lines day(Random &random, const Seeds &seeds) {
    Lines lines = random.is(60) ? random.of(seeds.scripts) : Lines{};
    if (random.is(50)) {
        lines.push_back("DAY 20260107");
        for (const char *limited : {"EXEC E1", "EXEC E2", "AGR P1", "AGR P2", "AGR P3", "AGR P4", "ACCT A1", "ACCT A2", "ACCT A3", "CARRY C1",
                 "CARRY C2"})
            if (random.is(90)) lines.push_back(string("LIMIT G1 ") + limited + ' ' + random.number(0, 60));
        for (uint64_t n = 0, trades = random.below(random.is(95) ? 9 : 400); n < trades; n++) {
            string id = std::to_string(n), lots = random.number(1, 30);
            lines.push_back("REPORT E1 T" + id + " N" + id + " B XF6 " + lots + " 7.25 H1");
            lines.push_back("REPORT E2 U" + id + " N" + id + " S XF6 " + lots + " 7.25 H2");
            lines.push_back("GIVEUP E1 K" + id + " T" + id + give_up_pair(random) + give_up_pair(random));
            lines.push_back("GIVEUP E2 V" + id + " U" + id + random.one({" A1 ", " A3 "}) + random.number(1, 9));
        }
        lines.push_back("SWEEP G1");
    }
    for (uint64_t more = random.below(random.is(90) ? 20 : 150); more > 0; more--) lines.push_back(script_line(random));
    return lines;
}

// A message of a session, or of a capture, most of whose values are right.
inline Fields message(Random &random, const Seeds &seeds, const string &from, uint64_t number) {
    Fields fields{{"35", ""}, {"49", from}, {"56", "GIVEUP"}, {"34", std::to_string(number)}, {"52", "20260105-09:00:00"}};
    auto with = [&](const char *type, const Fields &more) {
        fields[0].second = type;
        fields.insert(fields.end(), more.begin(), more.end());
        return fields;
    };
    bool is_own = random.is(70);
    string lots = random.number(1, 20), to = random.is(50) ? "0" : random.number(1, 30);
    switch (random.below(13)) {
    case 0: return with("0", {});
    case 1: return with("1", {{"112", random.is(80) ? "T" : edge(random)}});
    case 2: return with("2", {{"7", random.number(0, 30)}, {"16", to}});
    case 3: return with(random.one({"3", "5", "D", "8", "AS", "ZZZ", "!", "AAAA"}), {});
    case 4: return with("4", {{"123", random.one({"Y", "N"})}, {"36", std::to_string(number + random.below(4))}});
    case 5: {
        Fields entries{{"70", "L" + random.number(1, 9)}, {"71", "0"}, {"53", lots}, {"124", "1"}, {"17", "R" + random.number(1, 9)}};
        uint64_t count = random.is(80) ? 1 : random.is(90) ? random.below(18) : 2'000, sum = 0;
        entries.push_back({"78", std::to_string(random.is(95) ? count : count + random.below(3) - 1)});
        for (uint64_t n = 0; n < count; n++) {
            uint64_t part = 1 + random.below(5);
            sum += part;
            entries.insert(entries.end(), {{"79", account(random)}, {"80", std::to_string(part)}});
        }
        set(entries, "53", std::to_string(sum));
        return with("J", entries);
    }
    case 6: return with("AT", {{"755", random.number(1, 6)}, {"87", random.one({"0", "0", "1", "2", "5", "6", "7", "3"})}});
    case 7: return with("AN", {{"710", "Q" + random.number(1, 9)}, {"724", "0"}, {"1", account(random)}});
    case 8: {
        Fields sample = random.of(seeds.messages);
        set(sample, "34", std::to_string(number));
        set(sample, "49", from);
        return sample;
    }
    default:
        return with("AE", {{"571", "R" + random.number(1, 9)}, {"880", "M" + random.number(1, 5)}, {"55", symbol(random)}, {"32", lots},
            {"31", random.is(80) ? "101.5" : edge(random)}, {"75", random.one({"20260105", "20260106"})}, {"552", "1"}, {"54", random.one({"1", "2"})},
            {"1", is_own ? from == "E1" ? "H1" : "H2" : account(random)}});
    }
}

inline void change_fields(Random &random, Fields &fields) {
    size_t place = random.below(fields.size());
    switch (random.below(7)) {
    case 0: fields.erase(fields.begin() + place); break;
    case 1: fields.insert(fields.begin() + random.below(fields.size() + 1), std::pair(fields[place])); break;
    case 2: std::swap(fields[place], random.of(fields)); break;
    case 3: {
        string tag = random.one({"43", "43", "122", "9999", "0", "01", "1000000000", "", "x", "552", "78", "10", "8"});
        fields.insert(fields.begin() + random.below(fields.size() + 1), {tag, random.is(50) ? random.one({"Y", "N"}) : edge(random)});
        break;
    }
    case 4: set(fields, "34", random.is(70) ? random.number(0, 40) : edge(random)); break;
    default: fields[place].second = edge(random);
    }
    if (fields.empty()) fields.push_back({"35", "0"});
}

// A stream of messages. A session's has numbers that follow one another, unless something was changed.
inline string stream(Random &random, const Seeds &seeds, bool is_session, const string &name, int wrong) {
    Lines messages;
    uint64_t number = 2, count = random.below(random.is(80) ? 12 : random.is(95) ? 60 : random.is(95) ? 600 : 6'000);
    if (is_session && random.is(97))
        messages.push_back(framed({{"35", "A"}, {"49", name}, {"56", "GIVEUP"}, {"34", random.is(95) ? "1" : "3"}, {"52", "20260105-09:00:00"},
            {"98", "0"}, {"108", random.is(80) ? "30" : edge(random)}, {"1137", "9"}, {"141", random.one({"Y", "N"})}}));
    for (; count > 0; count--, number++) {
        Fields fields = message(random, seeds, is_session ? name : firm(random), number);
        // Messages that end a session come seldom, and late requests too, since each is answered by all that is kept.
        bool is_flood = fields[0].second == "2" && number > 600;
        if (is_session && (is_flood || fields[0].second == "5" || fields[0].second == "A") && random.is(is_flood ? 99 : 90)) fields[0].second = "0";
        while (random.is(wrong)) change_fields(random, fields);
        auto is_day = [](const auto &field) { return field.first == "75"; };
        if (random.is(50)) fields.erase(std::remove_if(fields.begin(), fields.end(), is_day), fields.end());
        // About the greatest length that a message may have.
        if (random.is(1) && random.is(20)) fields.push_back({"58", string(65'536 - 10 + random.below(9) - framed(fields).size(), 'x')});
        for (const auto &[tag, value] : fields)
            if (tag == "36" && fields[0].second == "4" && value.size() < 4) number = max<uint64_t>(number, strtoull(value.c_str(), nullptr, 10) - 1);
        messages.push_back(framed(fields));
        while (random.is(wrong / 4)) change_bytes(random, messages.back());
        if (random.is(wrong / 4)) messages.push_back(random.of(messages));
    }
    string bytes = joined(messages, "");
    while (random.is(wrong / 2)) change_bytes(random, bytes);
    return bytes;
}

// Lines as a text, with something wrong.
inline string text(Random &random, Lines lines, char mark, string (*another)(Random &), int wrong) {
    while (random.is(wrong)) change_lines(random, lines, mark, another);
    string bytes = joined(lines, random.is(97) ? "\n" : "\r\n");
    while (random.is(wrong / 4)) change_bytes(random, bytes);
    return bytes;
}

// The bytes in pieces, byte by byte or a few long ones.
inline Lines cut(Random &random, const string &bytes) {
    Lines pieces;
    size_t most = bytes.size() < 100 && random.is(50) ? 1 : 1 + bytes.size() / (1 + random.below(5));
    for (size_t from = 0, length; from < bytes.size(); from += length) {
        length = 1 + random.below(most);
        pieces.push_back(bytes.substr(from, length));
    }
    return pieces;
}

// The input of this seed and number.
inline Case made(const Seeds &seeds, uint64_t seed, uint64_t n) {
    Random random(seed * 0xd1342543de82ef95 ^ n * 0x2545f4914f6cdd1d);
    random.next();
    Case input{};
    int wrong = random.is(25) ? 0 : random.is(60) ? 40 : 80;
    uint64_t share = random.below(100);
    input.kind = share < 25 ? Kind::capture : share < 55 ? Kind::fix : share < 73 ? Kind::replay : share < 89 ? Kind::check : share < 98 ? Kind::reference
        : Kind::words;
    switch (input.kind) {
    case Kind::capture: input.stream = stream(random, seeds, false, "", wrong); break;
    case Kind::fix: {
        string name = firm(random);
        input.words = {"fix", name, "REF"};
        input.has_script = random.is(60);
        if (input.has_script) {
            input.words.insert(input.words.end(), {"--script", "SCRIPT"});
            input.script = text(random, random.is(70) ? random.of(seeds.scripts) : day(random, seeds), ' ', script_line, random.is(70) ? 0 : wrong);
        }
        input.stream = stream(random, seeds, true, name, wrong / 2);
        break;
    }
    case Kind::replay:
        input.words = {"replay", "REF"};
        input.stream = text(random, day(random, seeds), ' ', script_line, wrong);
        input.checks_sheets = random.is(20);
        break;
    case Kind::check:
        input.words = {"check"};
        input.stream = text(random, random.is(50) ? random.of(seeds.sheets) : sheet(random), ' ', sheet_line, wrong);
        break;
    case Kind::reference:
        input.words = {"replay", "REF"};
        input.has_reference = true;
        input.reference = text(random, rows(random, seeds), ',', row, wrong);
        if (random.is(30)) input.stream = text(random, day(random, seeds), ' ', script_line, 0);
        break;
    case Kind::words:
        for (uint64_t count = random.below(7); count > 0; count--)
            input.words.push_back(random.is(15) ? edge(random).c_str() : random.one({"check", "fix", "replay", "serve", "help", "--help", "-h", "E1", "REF",
                "/nothing/here", "--script", "--script=", "--", "-", "--every", "-x"}));
        break;
    }
    if (random.is(12) && !input.stream.empty()) input.pieces = cut(random, input.stream);
    if (random.is(3) && input.kind != Kind::words) input.trouble = Trouble(random.below(4));
    input.memory = random.number(150'000, 600'000);
    return input;
}

// The check of a sheet, as an input.
inline Case checking(const string &sheet) {
    Case input{};
    input.kind = Kind::check;
    input.words = {"check"};
    input.stream = sheet;
    return input;
}
