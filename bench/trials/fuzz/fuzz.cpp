// Runs the built program on random and mutated inputs, and tests what each run comes to. tools/fuzz builds it, and says how it is called.
//
// An input is made of the seed and its number alone, so a failure can be repeated. Each of J workers takes every J-th input.
#include "inputs.hpp"
#include "outputs.hpp"
#include <csignal>
#include <cstdio>
#include <cstdlib>
#include <ctime>
#include <fcntl.h>
#include <malloc.h>
#include <spawn.h>
#include <sys/ioctl.h>
#include <sys/mman.h>
#include <sys/resource.h>
#include <sys/stat.h>
#include <sys/time.h>
#include <sys/wait.h>
#include <unistd.h>

// A run that takes longer is stopped; one that writes more is ended by a signal.
constexpr int MOST_SECONDS = 10;
constexpr rlim_t MOST_OUTPUT = 64 << 20;
// A session that takes this long may send a Heartbeat that the same session in pieces doesn't, so the two aren't compared.
constexpr double HEARTBEAT_SECONDS = 0.9;
constexpr int MOST_SHOWN = 20;

struct Tally {
    uint64_t inputs, runs, status[3], failures;
    double longest;
    long peak;
};

struct Options {
    string top, program, keep;
    uint64_t seed = 1, first = 0, count = 100'000, jobs = 2;
    bool is_alone = false;
};

static volatile pid_t running = 0;
static volatile bool is_late = false;

static void stop_the_run(int) {
    is_late = true;
    if (running > 0) kill(running, SIGKILL);
}

static double now() {
    timespec time;
    clock_gettime(CLOCK_MONOTONIC, &time);
    return time.tv_sec + time.tv_nsec * 1e-9;
}

static void set_alarm(int seconds) {
    itimerval time{{0, 0}, {seconds, 0}};
    setitimer(ITIMER_REAL, &time, nullptr);
}

static void put(int file, const string &bytes) {
    for (size_t done = 0; done < bytes.size();) {
        ssize_t count = write(file, bytes.data() + done, bytes.size() - done);
        if (count < 0) return;  // The program has closed its end, or was stopped.
        done += count;
    }
}

static void fill(int file, const string &bytes) {
    if (ftruncate(file, 0)) abort();
    lseek(file, 0, SEEK_SET);
    put(file, bytes);
    lseek(file, 0, SEEK_SET);
}

static string content(int file) {
    struct stat about;
    fstat(file, &about);
    string bytes(about.st_size, 0);
    if (pread(file, bytes.data(), bytes.size(), 0) != about.st_size) abort();
    return bytes;
}

// A process begins with the peak of the one that starts it, so that peak is set back to what is used now.
static void forget_peak() {
    malloc_trim(0);
    int file = open("/proc/self/clear_refs", O_WRONLY | O_CLOEXEC);
    put(file, "5");
    close(file);
}

// What a worker starts the program with: standard streams in memory, and a folder for the files that it names.
class Bench {
  public:
    Bench(const Options &options, const string &folder) : options(options), folder(folder) {
        for (int *file : {&in, &out, &err}) *file = memfd_create("stream", MFD_CLOEXEC);
        unreadable = open("/", O_RDONLY | O_CLOEXEC);
        full = open("/dev/full", O_WRONLY | O_CLOEXEC);
        posix_spawnattr_init(&attributes);
        sigset_t piped;
        sigemptyset(&piped);
        sigaddset(&piped, SIGPIPE);
        posix_spawnattr_setsigdefault(&attributes, &piped);
        posix_spawnattr_setflags(&attributes, POSIX_SPAWN_SETSIGDEF);
    }

    // Runs an input, from memory or, if there are pieces, by a pipe, to which each piece is written once the one before it was read.
    End run(const Case &input, const Lines &pieces = {}, Trouble trouble = Trouble::none) {
        write_files(input);
        fill(out, "");
        fill(err, "");
        int ends[2] = {trouble == Trouble::no_input ? unreadable : in, -1};
        if (pieces.empty()) fill(in, input.stream);
        else if (pipe2(ends, O_CLOEXEC)) abort();
        End end;
        forget_peak();
        double begun = now();
        is_late = false;
        set_alarm(MOST_SECONDS);
        running = start(input, ends[0], trouble);
        if (!pieces.empty()) {
            close(ends[0]);
            for (const string &piece : pieces) feed(ends[1], piece);
            close(ends[1]);
        }
        int status;
        rusage used;
        while (wait4(running, &status, 0, &used) < 0) {}
        running = 0;
        set_alarm(0);
        end.seconds = now() - begun;
        end.is_late = is_late;
        end.status = WIFSIGNALED(status) ? -WTERMSIG(status) : WEXITSTATUS(status);
        end.peak = used.ru_maxrss;
        end.out = content(out);
        end.err = content(err);
        return end;
    }

    string words_of(const Case &input) const {
        string words = options.program;
        for (const string &word : input.words) words += ' ' + shown(placed(input, word), 200);
        return words;
    }

  private:
    // A word of an input, where REF and SCRIPT are replaced by paths.
    string placed(const Case &input, const string &word) const {
        if (word == "REF") return input.has_reference ? folder + "/reference" : options.top + "/docs/samples/house.csv";
        if (word == "SCRIPT") return folder + "/script";
        return word;
    }

    void write_file(const string &name, const string &bytes) const {
        int file = open((folder + '/' + name).c_str(), O_CREAT | O_TRUNC | O_WRONLY | O_CLOEXEC, 0644);
        put(file, bytes);
        close(file);
    }

    void write_files(const Case &input) {
        if (input.has_reference) write_file("reference", input.reference);
        if (input.has_script) write_file("script", input.script);
        if (!options.keep.empty()) write_file("stream", input.stream);
    }

    pid_t start(const Case &input, int from, Trouble trouble) {
        Lines words{options.program};
        if (trouble == Trouble::no_memory) words = {"/usr/bin/prlimit", "--data=" + input.memory, options.program};
        for (const string &word : input.words) words.push_back(placed(input, word));
        vector<char *> given;
        for (string &word : words) given.push_back(word.data());
        given.push_back(nullptr);
        posix_spawn_file_actions_t files;
        posix_spawn_file_actions_init(&files);
        posix_spawn_file_actions_adddup2(&files, from, 0);
        posix_spawn_file_actions_adddup2(&files, trouble == Trouble::no_output ? full : out, 1);
        posix_spawn_file_actions_adddup2(&files, err, 2);
        char *no_environment[] = {nullptr};
        pid_t child;
        if (posix_spawn(&child, words[0].c_str(), &files, &attributes, given.data(), no_environment)) {
            fprintf(stderr, "fuzz: %s can't be started\n", options.program.c_str());
            exit(2);
        }
        posix_spawn_file_actions_destroy(&files);
        return child;
    }

    static void feed(int pipe, const string &piece) {
        put(pipe, piece);
        for (int left = 1, tries = 0; !ioctl(pipe, FIONREAD, &left) && left && !is_late && tries < 100'000; tries++) {
            siginfo_t about{};
            if (waitid(P_PID, running, &about, WEXITED | WNOHANG | WNOWAIT) == 0 && about.si_pid) return;
            usleep(20);
        }
    }

    const Options &options;
    string folder;
    int in, out, err, unreadable, full;
    posix_spawnattr_t attributes;
};

// Runs one input and, if it says so, once more in trouble, and once more in pieces. Gives the first fault, or nothing.
static string tried(Bench &bench, const Case &input, Tally &tally, bool is_alone) {
    End whole = bench.run(input);
    tally.inputs++;
    auto count = [&](const End &end) {
        tally.runs++;
        if (end.status >= 0 && end.status < 3) tally.status[end.status]++;
        tally.longest = max(tally.longest, end.seconds);
        tally.peak = max(tally.peak, end.peak);
    };
    count(whole);
    if (is_alone) {
        printf("%s\ninput: %s\n", bench.words_of(input).c_str(), shown(input.stream, 4'000).c_str());
        printf("output: %s\nerror: %s\n", shown(whole.out, 4'000).c_str(), shown(whole.err, 2'000).c_str());
        printf("status %d, %.3f s, %ld kB\n", whole.status, whole.seconds, whole.peak);
    }
    string fault = fault_of(input, whole);
    if (!fault.empty()) return fault;
    if (input.kind == Kind::replay || input.kind == Kind::reference) {
        for (const auto &[sheet, lots] : sheets_in(whole.out)) {
            if (!input.checks_sheets) break;
            End checked = bench.run(checking(sheet));
            bool is_right = checked.status == 0 && checked.out == "OK " + lots + "\n";
            if (!is_right) return "check refuses a sheet of the replay: " + shown(checked.out + checked.err, 200);
        }
    }
    if (input.trouble != Trouble::none) {
        End troubled = bench.run(input, {}, input.trouble);
        count(troubled);
        fault = fault_in_trouble(input, whole, troubled);
        if (!fault.empty()) return fault;
    }
    if (input.pieces.empty()) return "";
    End cut = bench.run(input, input.pieces);
    count(cut);
    fault = fault_of(input, cut);
    if (!fault.empty()) return "in pieces: " + fault;
    bool is_slow = max(whole.seconds, cut.seconds) > HEARTBEAT_SECONDS && input.kind == Kind::fix;
    if (!is_slow && (whole.status != cut.status || whole.err != cut.err || timeless(input, whole.out) != timeless(input, cut.out)))
        return "in pieces it ends otherwise: status " + std::to_string(cut.status) + ", output " + shown(cut.out, 400);
    return "";
}

static void work(const Options &options, uint64_t worker, Tally *tallies) {
    string folder = options.keep;
    if (folder.empty()) {
        char name[] = "/dev/shm/fuzz-XXXXXX";  // A disk would make each input wait.
        folder = mkdtemp(name);
    } else {
        mkdir(folder.c_str(), 0755);
    }
    Seeds seeds(options.top);
    Bench bench(options, folder);
    int shown_here = 0;
    for (uint64_t n = options.first + worker; n < options.first + options.count; n += options.jobs) {
        Case input = made(seeds, options.seed, n);
        Tally &tally = tallies[int(input.kind)];
        string fault = tried(bench, input, tally, options.is_alone);
        if (fault.empty()) continue;
        tally.failures++;
        if (shown_here++ < MOST_SHOWN) {
            printf("FAILED %s %lu: %s\n", NAMES[int(input.kind)], n, fault.c_str());
            printf("    tools/fuzz %s --seed %lu --only %lu\n", options.program.c_str(), options.seed, n);
            fflush(stdout);
        }
    }
    if (options.keep.empty()) {
        for (const char *name : {"/reference", "/script"}) unlink((folder + name).c_str());
        rmdir(folder.c_str());
    }
}

static Options options_of(int count, char **words) {
    Options options;
    options.top = words[1];
    options.program = words[2];
    for (int k = 3; k + 1 < count; k += 2) {
        string name = words[k];
        uint64_t number = strtoull(words[k + 1], nullptr, 10);
        if (name == "--seed") options.seed = number;
        else if (name == "--count") options.count = number;
        else if (name == "--first") options.first = number;
        else if (name == "--jobs") options.jobs = number;
        else if (name == "--keep") options.keep = words[k + 1];
        else if (name == "--only") options.first = number, options.count = options.jobs = 1, options.is_alone = true;
    }
    return options;
}

int main(int count, char **words) {
    Options options = options_of(count, words);
    signal(SIGPIPE, SIG_IGN);
    mallopt(M_MMAP_THRESHOLD, 1 << 16);  // Long texts are given back once they aren't needed.
    mallopt(M_TRIM_THRESHOLD, 1 << 16);
    struct sigaction stop {};
    stop.sa_handler = stop_the_run;
    sigaction(SIGALRM, &stop, nullptr);
    rlimit most{MOST_OUTPUT, MOST_OUTPUT};
    setrlimit(RLIMIT_FSIZE, &most);
    size_t bytes = options.jobs * KINDS * sizeof(Tally);
    auto *tallies = static_cast<Tally *>(mmap(nullptr, bytes, PROT_READ | PROT_WRITE, MAP_SHARED | MAP_ANONYMOUS, -1, 0));
    double begun = now();
    printf("seed %lu, inputs %lu to %lu, %lu at once\n", options.seed, options.first, options.first + options.count - 1, options.jobs);
    fflush(stdout);
    for (uint64_t worker = 0; worker < options.jobs; worker++) {
        if (fork() == 0) {
            work(options, worker, tallies + worker * KINDS);
            fflush(stdout);
            _exit(0);
        }
    }
    uint64_t lost = 0;
    for (uint64_t worker = 0; worker < options.jobs; worker++) {
        int status;
        wait(&status);
        lost += status != 0;
    }
    uint64_t failures = 0, inputs = 0;
    printf("\n| kind | inputs | runs | status 0 | 1 | 2 | longest | peak | bound | failures |\n|---|---|---|---|---|---|---|---|---|---|\n");
    for (int kind = 0; kind < KINDS; kind++) {
        Tally sum{};
        for (uint64_t worker = 0; worker < options.jobs; worker++) {
            const Tally &part = tallies[worker * KINDS + kind];
            sum.inputs += part.inputs, sum.runs += part.runs, sum.failures += part.failures;
            for (int status = 0; status < 3; status++) sum.status[status] += part.status[status];
            sum.longest = max(sum.longest, part.longest), sum.peak = max(sum.peak, part.peak);
        }
        printf("| %s | %lu | %lu | %lu | %lu | %lu |", NAMES[kind], sum.inputs, sum.runs, sum.status[0], sum.status[1], sum.status[2]);
        printf(" %.2f s | %ld kB | %ld kB | %lu |\n", sum.longest, sum.peak, PEAKS[kind], sum.failures);
        failures += sum.failures, inputs += sum.inputs;
    }
    printf("\n%lu inputs in %.0f s, %lu failures\n", inputs, now() - begun, failures);
    if (lost) printf("fuzz: %lu of its workers ended early\n", lost);
    return failures || lost ? 1 : 0;
}
