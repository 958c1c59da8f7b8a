// Reads messages into the objects of one with Protocol Buffers' own library, and writes it: `peer heap|arena OUT IN..`.
// With `heap` each object is allocated by itself, with `arena` all of them are in one arena.
#include <google/protobuf/arena.h>

#include <fstream>
#include <iostream>
#include <string>

#include "profiles.pb.h"

using google::protobuf::Arena;

// Reads the message of each file into `message` after what it holds: records and entries of tables are appended as they are.
int rewrite(peer::ProfilesData &message, const char *out, char **first, char **last) {
  std::string bytes;
  for (char **in = first; in != last; ++in) {
    std::ifstream source(*in, std::ios::binary | std::ios::ate);
    if (!source) {
      std::cerr << "no file " << *in << "\n";
      return 2;
    }
    bytes.resize(source.tellg());
    source.seekg(0);
    source.read(bytes.data(), bytes.size());
    if (!message.MergeFromString(bytes)) {
      std::cerr << "not a message: " << *in << "\n";
      return 2;
    }
  }
  std::string written;
  if (!message.SerializeToString(&written)) {
    return 5;
  }
  std::ofstream target(out, std::ios::binary);
  target << written;
  target.close();
  return target ? 0 : 8;
}

int main(int argc, char **argv) {
  std::string allocation = argc > 3 ? argv[1] : "";
  if (allocation == "heap") {
    peer::ProfilesData message;
    return rewrite(message, argv[2], argv + 3, argv + argc);
  }
  if (allocation == "arena") {
    Arena arena;
    return rewrite(*Arena::CreateMessage<peer::ProfilesData>(&arena), argv[2], argv + 3, argv + argc);
  }
  std::cerr << "peer heap|arena OUT IN..\n";
  return 1;
}
