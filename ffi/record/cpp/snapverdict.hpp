// Judges a recorded history: by the library of snapjudge if it is there, and else by the program.
// One file, C++17 and POSIX, no dependencies; snapdrive.hpp uses it. Nothing is linked: the library is opened while the program runs.
//
//     const snapverdict::Judge judge;                          // throws snapverdict::Error
//     const int status = judge.status(text, ".");              // 0 atomic, 1 only regular, 2 not regular
//
// SPDX-License-Identifier: 0BSD
// Copyright (C) 2026 by the authors of snapjudge
// Permission to use, copy, modify, and/or distribute this software for any purpose with or without fee is hereby granted.
// THE SOFTWARE IS PROVIDED "AS IS" AND THE AUTHOR DISCLAIMS ALL WARRANTIES WITH REGARD TO THIS SOFTWARE INCLUDING ALL IMPLIED
// WARRANTIES OF MERCHANTABILITY AND FITNESS. IN NO EVENT SHALL THE AUTHOR BE LIABLE FOR ANY SPECIAL, DIRECT, INDIRECT, OR
// CONSEQUENTIAL DAMAGES OR ANY DAMAGES WHATSOEVER RESULTING FROM LOSS OF USE, DATA OR PROFITS, WHETHER IN AN ACTION OF
// CONTRACT, NEGLIGENCE OR OTHER TORTIOUS ACTION, ARISING OUT OF OR IN CONNECTION WITH THE USE OR PERFORMANCE OF THIS SOFTWARE.
#ifndef SNAPVERDICT_HPP
#define SNAPVERDICT_HPP
#include <cstdint>
#include <cstdio>
#include <cstdlib>
#include <dlfcn.h>
#include <fcntl.h>
#include <filesystem>
#include <fstream>
#include <spawn.h>
#include <stdexcept>
#include <string>
#include <sys/wait.h>
#include <unistd.h>
#include <vector>

namespace snapverdict {

// Why there is no verdict; the name is no judge, no verdict or files.
class Error : public std::runtime_error {
  public:
    Error(const char *word, const std::string &message) : std::runtime_error(message), name(word) {}
    const char *const name;
};

// The library if it is there, and else the program. SNAPJUDGE_LIBRARY names the library; it is empty for none.
class Judge {
  public:
    // The program is the one that is named, else that of SNAPJUDGE_PROGRAM, else snapjudge. A history may have this many events.
    explicit Judge(const std::string &named = "", std::uint32_t most_events = 65536) : events(most_events) {
        const char *library = std::getenv("SNAPJUDGE_LIBRARY"), *by_name = std::getenv("SNAPJUDGE_PROGRAM");
        const std::string wanted = !named.empty() ? named : by_name && *by_name ? by_name : "snapjudge";
        program = find(wanted);
        if (!program.empty() && !is_judge()) throw Error("no judge", program + " is not snapjudge: it tells no version of it");
        const std::string folder = program.empty() ? "." : std::filesystem::path(program).parent_path().string();
        std::vector<std::string> places{folder + "/../lib/libsnapjudge.so", folder + "/ffi/build/libsnapjudge.so", "libsnapjudge.so"};
        if (library) places = {library};
        for (const std::string &place : places)
            if (!check && !place.empty()) load(place);
        const bool is_missing = library && *library ? !check : !check && program.empty();
        if (is_missing)
            throw Error("no judge", "there is no " + (library && *library ? std::string("library ") + library : "program " + wanted) +
                                        ": install snapjudge, or name it by --program");
    }

    // Tries whether files can be written into a folder, before the first run, so that none is lost.
    void test_folder(const std::string &out) const {
        write(scratch(out), "");
        std::remove(scratch(out).c_str());
    }

    // 0 for atomic, 1 for only regular, 2 for not regular. A file of the folder `out` holds the text meanwhile.
    int status(const std::string &text, const std::string &out) const {
        const int status = check ? by_library(text) : by_program(text, out);
        if (status > 2) throw Error("no verdict", "the judge ends with status " + std::to_string(status));
        return status;
    }

    // Tries, before the first run, whether the judge recognizes a history that is not regular: its view misses an update. A judge
    // whose status is lost, as by a script with a pipe, would call every run atomic.
    void test_verdict(const std::string &out) const {
        const int told = status("event,process,op,data\nbegin,0,update,0:1:7\nend,0,update,\nbegin,1,view,\nend,1,view,\n", out);
        if (told != 2)
            throw Error("no judge", "of a history that is not regular the judge tells status " + std::to_string(told) + ", and not 2");
    }

    // Writes a history, its witness and its explanation.
    void keep(const std::string &text, const std::string &front) const {
        write(front + "-caught.csv", text);
        for (const char *name : {"-witness.csv", "-explained.txt"}) std::remove((front + name).c_str()); // of an earlier run
        if (program.empty()) return;
        const bool is_kept = call("shrink", front + "-caught.csv", front + "-witness.csv") < 3 &&
                             call("explain", front + "-caught.csv", front + "-explained.txt") < 3;
        if (!is_kept) throw Error("files", front + "-witness.csv or " + front + "-explained.txt can't be written");
    }

  private:
    static std::string find(const std::string &named) {
        const char *path = named.find('/') == std::string::npos ? std::getenv("PATH") : nullptr;
        std::string rest = path ? path : "";
        std::string candidate = path ? "" : named;
        for (;;) {
            std::error_code error;
            if (!candidate.empty() && access(candidate.c_str(), X_OK) == 0) return std::filesystem::canonical(candidate, error).string();
            if (rest.empty()) return "";
            const std::size_t end = rest.find(':');
            candidate = rest.substr(0, end) + "/" + named;
            rest = end == std::string::npos ? "" : rest.substr(end + 1);
        }
    }

    void load(const std::string &place) {
        void *library = dlopen(place.c_str(), RTLD_NOW);
        if (!library) return;
        const auto version = reinterpret_cast<std::uint32_t (*)()>(dlsym(library, "snapjudge_version"));
        if (version && version() == 1) check = reinterpret_cast<Check *>(dlsym(library, "snapjudge_check_limit"));
    }

    int by_library(const std::string &text) const {
        std::vector<std::uint8_t> report(2 * text.size() + 256);
        std::size_t length = 0;
        const auto bytes = reinterpret_cast<const std::uint8_t *>(text.data());
        return static_cast<int>(check(bytes, text.size(), events, report.data(), report.size(), &length));
    }

    // The name of a file that this judge of this process may write into a folder.
    std::string scratch(const std::string &out) const {
        return out + "/run-" + std::to_string(getpid()) + "-" + std::to_string(reinterpret_cast<std::uintptr_t>(this)) + ".csv";
    }

    int by_program(const std::string &text, const std::string &out) const {
        const std::string name = scratch(out);
        write(name, text);
        const int status = call("check", name, "/dev/null");
        std::remove(name.c_str());
        return status;
    }

    static void write(const std::string &name, const std::string &text) {
        std::ofstream file(name, std::ios::binary);
        file << text;
        file.close();
        if (!file) throw Error("files", name + " can't be written");
    }

    // Starts the program, and answers its number, or -1. The files are given back.
    pid_t start(std::vector<std::string> words, posix_spawn_file_actions_t &files) const {
        std::vector<char *> given{const_cast<char *>("snapjudge")};
        for (std::string &word : words) given.push_back(word.data());
        given.push_back(nullptr);
        pid_t process;
        const bool is_started = posix_spawn(&process, program.c_str(), &files, nullptr, given.data(), environ) == 0;
        posix_spawn_file_actions_destroy(&files);
        return is_started ? process : -1;
    }

    // The status that a process ends with, or 4.
    static int end_of(pid_t process) {
        int status = 0;
        return process > 0 && waitpid(process, &status, 0) == process && WIFEXITED(status) ? WEXITSTATUS(status) : 4;
    }

    // Runs a command of the program from a file to a file; its status, or 4.
    int call(const std::string &command, const std::string &from, const std::string &to) const {
        posix_spawn_file_actions_t files;
        posix_spawn_file_actions_init(&files);
        posix_spawn_file_actions_addopen(&files, STDIN_FILENO, from.c_str(), O_RDONLY, 0);
        posix_spawn_file_actions_addopen(&files, STDOUT_FILENO, to.c_str(), O_WRONLY | O_CREAT | O_TRUNC, 0666);
        std::vector<std::string> words{command, "--events=" + std::to_string(events)};
        if (command == "check") words.push_back("--quiet");
        return end_of(start(words, files));
    }

    // Whether the program says its version. A program of another kind may end with 0 whatever it is given, and that is not a verdict.
    bool is_judge() const {
        int ends[2];
        if (pipe(ends) != 0) return false;
        posix_spawn_file_actions_t files;
        posix_spawn_file_actions_init(&files);
        posix_spawn_file_actions_addclose(&files, ends[0]); // first: if an input or output is closed, it has that number
        posix_spawn_file_actions_addopen(&files, STDIN_FILENO, "/dev/null", O_RDONLY, 0);
        posix_spawn_file_actions_adddup2(&files, ends[1], STDOUT_FILENO);
        const pid_t process = start({"--version"}, files);
        close(ends[1]);
        char said[64] = "";
        ssize_t taken = 0;
        for (std::size_t length = 0; length + 1 < sizeof said && (taken = read(ends[0], said + length, sizeof said - 1 - length)) > 0;)
            length += static_cast<std::size_t>(taken);
        close(ends[0]);
        const std::string text = said, name = "snapjudge ";
        return end_of(process) == 0 && text.rfind(name, 0) == 0 && text.find_first_of("0123456789") == name.size();
    }

    using Check = std::uint32_t(const std::uint8_t *, std::size_t, std::uint32_t, std::uint8_t *, std::size_t, std::size_t *);
    std::uint32_t events;
    std::string program; // empty if there is none
    Check *check = nullptr;
};

} // namespace snapverdict
#endif
